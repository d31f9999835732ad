#!/bin/sh
# schedule.sh PROGRAM RATTLE_PROGRAM: `senyolanda schedule` as its user meets it: a record on standard input or in a file; a listing, or
# one line of refusal, on standard output, compared to the byte; a refusal's words on standard error; its exit status. The Rattle
# program writes the same bytes for the same record.
set -eu
usage="usage: test/schedule.sh PROGRAM RATTLE_PROGRAM"
program=$(readlink -f "${1:?$usage}")
rattle=$(readlink -f "${2:?$usage}")
cd "$(dirname "$0")/.."
room=$(mktemp -d)
trap 'rm -rf "$room"' EXIT
count=0
export ASAN_OPTIONS=exitcode=99:detect_leaks=0

fails() { echo "schedule: $1" >&2; exit 1; }

# same NAME: what the program wrote (standard input of this function: what it should have written)
same() {
    cat >"$room/want"
    if ! cmp -s "$room/want" "$room/got"; then
        echo "schedule: $1 gave" >&2
        head -n 5 "$room/got" >&2
        echo "and not" >&2
        head -n 5 "$room/want" >&2
        exit 1
    fi
    count=$((count + 1))
}

# bytes FILE: what the program writes for a file's bytes, handed over in each of three ways, and the Rattle program too; the status
# says whether they were refused, and so does the one line on standard error
bytes() {
    status=0
    "$program" schedule <"$1" >"$room/got" 2>"$room/said" || status=$?
    "$rattle" <"$1" >"$room/listed"
    cmp -s "$room/got" "$room/listed" || fails "other bytes than the Rattle program's for $(head -n 1 "$room/listed")"
    case $(head -n 1 "$room/got") in
    month\ *) [ "$status" = 0 ] && [ ! -s "$room/said" ] || fails "exit status $status, or words, for a good loan" ;;
    *)
        [ "$status" = 1 ] || fails "exit status $status for a refused loan"
        grep -q "^senyolanda schedule: $(cat "$room/got"): [a-z]" "$room/said" || fails "the refusal is not said on standard error"
        [ "$(wc -l <"$room/said")" = 1 ] || fails "not one line on standard error"
        ;;
    esac
    for way in "$1" "-- $1" -; do
        same_way=0
        # shellcheck disable=SC2086
        "$program" schedule $way <"$1" >"$room/listed" 2>/dev/null || same_way=$?
        cmp -s "$room/got" "$room/listed" && [ "$same_way" = "$status" ] || fails "schedule $way is another than schedule"
    done
}

# loan PRINCIPAL RATE TERM: the same, for a record
loan() {
    test/record "$1" "$2" "$3" >"$room/loan"
    bytes "$room/loan"
}

loan 1200 0 3
same "document 01's loan" <<END
month payment principal interest balance
1 4079000000000000 4079000000000000 0000000000000000 4089000000000000
2 4079000000000000 4079000000000000 0000000000000000 4079000000000000
3 4079000000000000 4079000000000000 0000000000000000 0000000000000000
rows 3 left 0
END

loan 1000 6 2
same "1000 at rate 6 over 2 months" <<END
month payment principal interest balance
1 408c200000000000 4079000000000000 407f400000000000 4082c00000000000
2 408c200000000000 4082c00000000000 4072c00000000000 0000000000000000
rows 2 left 0
END

# a rate nobody filled in: every NaN is written alike, and the principal column still repays the loan
for rate in bits:7ff8000000000000 bits:7ff0000000000001 bits:ffffffffffffffff; do
    loan 1000 "$rate" 2
    same "a NaN rate, $rate" <<END
month payment principal interest balance
1 7ff8000000000000 0000000000000000 7ff8000000000000 408f400000000000
2 7ff8000000000000 408f400000000000 7ff8000000000000 0000000000000000
rows 2 left 0
END
done

loan bits:8000000000000000 0 1
same "a principal of -0" <<END
month payment principal interest balance
1 8000000000000000 8000000000000000 8000000000000000 0000000000000000
rows 1 left 0
END

# the longest term: 1,200 rows, a header and a last line
loan 1000000 0.05 1200
[ "$(wc -l <"$room/got")" = 1202 ] || fails "a term of 1,200 gave $(wc -l <"$room/got") lines"
tail -n 1 "$room/got" >"$room/last" && mv "$room/last" "$room/got"
same "a term of 1,200" <<END
rows 1200 left 0
END

# says NAME LINE: the program wrote that one line
says() {
    same "$1" <<END
$2
END
}

refused() {
    loan "$1" "$2" "$3"
    says "principal $1, rate $2, term $3" "refused $4"
}
refused -0.01 0.05 360 "1 at 0"
refused bits:8000000000000001 0.05 360 "1 at 0"
refused bits:7ff0000000000000 0.05 360 "1 at 0"
refused bits:fff0000000000000 0.05 360 "1 at 0"
refused bits:7ff8000000000000 0.05 360 "1 at 0"
refused bits:7ff8000000000000 0.05 0 "1 at 0"
refused 1000 0.05 0 "2 at 0"
refused 1000 0.05 1201 "2 at 0"
refused 1000 0.05 4294967295 "2 at 0"

# a record of another kind or length is 11, whatever else it says
test/record 1200 0 3 >"$room/good"
for kind in 0 2 3 4 255; do
    { perl -e "print chr $kind"; tail -c 20 "$room/good"; } >"$room/record"
    bytes "$room/record"
    says "kind $kind" "refused 11 at 0"
done
for size in 0 1 20; do
    head -c "$size" "$room/good" >"$room/record"
    bytes "$room/record"
    says "$size bytes" "refused 11 at 0"
done
for more in 1 21 100000; do
    { cat "$room/good"; head -c "$more" /dev/zero; } >"$room/record"
    bytes "$room/record"
    says "$more bytes more" "refused 11 at 0"
done

# ---- trouble: status 2, and one line on standard error

# trouble NAME WORDS: the last run, which had the status, says the words
trouble() {
    [ "$status" = 2 ] || fails "$1: exit status $status and not 2"
    [ "$(wc -l <"$room/said")" = 1 ] || fails "$1: not one line on standard error"
    grep -q "^senyolanda schedule: .*$2" "$room/said" || fails "$1: standard error does not say $2"
    count=$((count + 1))
}

# wrong WORDS ARGUMENT..: nothing is written
wrong() {
    words=$1
    shift
    status=0
    "$program" schedule "$@" <"$room/good" >"$room/got" 2>"$room/said" || status=$?
    trouble "schedule $*" "$words"
    [ ! -s "$room/got" ] || fails "schedule $* writes"
}
wrong "$room: Is a directory" "$room"
wrong "$room/none: No such file" "$room/none"
wrong "no option --csv;" --csv "$room/good"
wrong "no option -x;" -x
wrong "'b' is a word too many" a b
wrong "'b' is a word too many" -- - b

status=0
"$program" schedule <&- >"$room/got" 2>"$room/said" || status=$?
trouble "closed standard input" "cannot read standard input: "

test/record 1000 0.05 0 >"$room/refused"
test/record 1000 0.05 1200 >"$room/long"
for record in good refused long; do
    status=0
    "$program" schedule <"$room/$record" >/dev/full 2>"$room/said" || status=$?
    tail -n 1 "$room/said" >"$room/last" && mv "$room/last" "$room/said"
    trouble "a $record record on a full device" "cannot write to standard output: No space left on device"
    status=0
    "$program" schedule "$room/$record" >&- 2>"$room/said" || status=$?
    tail -n 1 "$room/said" >"$room/last" && mv "$room/last" "$room/said"
    trouble "a $record record with standard output closed" "cannot write to standard output: Bad file descriptor"
done
status=0
(
    trap '' XFSZ
    ulimit -f 20
    exec "$program" schedule "$room/long" >"$room/got" 2>"$room/said"
) || status=$?
trouble "a file that may not grow" "cannot write to standard output: File too large"

# ---- help

"$program" schedule --help >"$room/help"
grep -q "Exit status: 0" "$room/help" || fails "no help"
"$program" schedule -h | cmp -s - "$room/help" || fails "-h is another than --help"

# one rounding for each operation: no product and sum are fused
for binary in "$program" "$rattle"; do
    if objdump -d "$binary" | grep -qE '\s(fn?m(add|sub)|fml[as]|vfn?m(add|sub))'; then fails "$binary fuses a product and a sum"; fi
done
echo "schedule: $count answers as they should be"
