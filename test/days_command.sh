#!/bin/sh
# days_command.sh PROGRAM: `senyolanda days` as its user meets it: what it writes, what it says on standard error, its exit status. The
# lines of test/days.list, which QuantLib counted, stand in for a clerk's.
set -eu
program=$(readlink -f "${1:?usage: test/days_command.sh PROGRAM}")
cd "$(dirname "$0")/.."
named=days
. test/running.sh

# counts FIRST SECOND: the days are written (standard input of this function: what should be written), and nothing is said
counts() {
    ends 0 days "$@"
    cmp -s - "$room/wrote" || fails "other output than wanted"
    [ ! -s "$room/said" ] || fails "words on standard error"
}

# says STATUS LINE WORDS..: nothing is written, and standard error has that one line
says() {
    want=$1 line=$2
    shift 2
    ends "$want" days "$@"
    [ ! -s "$room/wrote" ] || fails "output beside the line"
    [ "$(cat "$room/said")" = "senyolanda days: $line" ] || fails "other words than: $line"
}

counts 2023-01-31 2023-02-28 <<END
from 2023-01-31 to 2023-02-28
rule          days  part of a year
actual/360      28  0.07777777777777778
actual/365      28  0.07671232876712329
30/360          28  0.07777777777777778
END
counts 2023-02-28 2023-03-31 <<END
from 2023-02-28 to 2023-03-31
rule          days  part of a year
actual/360      31  0.08611111111111111
actual/365      31  0.08493150684931507
30/360          33  0.09166666666666666
END
counts 2023-01-30 2023-01-31 <<END
from 2023-01-30 to 2023-01-31
rule          days  part of a year
actual/360       1  0.002777777777777778
actual/365       1  0.0027397260273972603
30/360           0  0
END
counts 2023-01-01 2024-01-01 <<END
from 2023-01-01 to 2024-01-01
rule          days  part of a year
actual/360     365  1.0138888888888888
actual/365     365  1
30/360         360  1
END
counts 1900-01-01 2199-12-31 <<END
from 1900-01-01 to 2199-12-31
rule          days  part of a year
actual/360  109572  304.3666666666667
actual/365  109572  300.1972602739726
30/360      108000  300
END

# each twentieth pair of QuantLib's list
grep -v '^#' test/days.list | awk 'NR % 20 == 1' >"$room/list"
while read -r first second actual thirty; do
    ends 0 days "$first" "$second"
    got=$(awk 'NR > 2 { print $1, $2 }' "$room/wrote")
    [ "$got" = "actual/360 $actual
actual/365 $actual
30/360 $thirty" ] || fails "other days than $actual and $thirty"
done <"$room/list"

# ---- refused: status 1, and the date that is none

none() { says 1 "refused 15 at 0: there is no date $1 from 1900 to 2199" "$2" "$3"; }
none 2023-02-29 2023-02-29 2023-03-31
none 2023-02-29 2023-01-31 2023-02-29
none 1900-02-29 1900-02-29 2000-02-29
none 2100-02-29 2000-02-29 2100-02-29
none 2023-04-31 2023-04-31 2023-04-30
none 1899-12-31 1899-12-31 2023-01-31
none 2200-01-01 2023-01-31 2200-01-01
none 2023-00-10 2023-00-10 2023-01-31
none 2023-13-10 2023-01-31 2023-13-10
none 2023-01-00 2023-01-00 2023-01-31
none 2023-01-32 2023-01-31 2023-01-32
none 0000-00-00 0000-00-00 9999-99-99
says 1 "refused 15 at 0: the second date, 2023-01-31, is not after the first, 2023-01-31" 2023-01-31 2023-01-31
says 1 "refused 15 at 0: the second date, 2023-01-30, is not after the first, 2023-01-31" 2023-01-31 2023-01-30
says 1 "refused 15 at 0: the second date, 1900-01-01, is not after the first, 2199-12-31" 2199-12-31 1900-01-01

# ---- bad usage: status 2

says 2 "two dates are wanted; see --help"
says 2 "two dates are wanted; see --help" 2023-01-31
says 2 "'2023-03-31' is a word too many; --help says what is wanted" 2023-01-31 2023-02-28 2023-03-31
says 2 "there is no option --csv; --help says which there are" --csv 2023-01-31 2023-02-28
for text in "" 2023 2023-1-31 2023-01-3 23-01-31 2023/01/31 20230131 31-01-2023 2023-01-31x 2023-01-311 x2023-01-31 " 2023-01-31" \
    +023-01-31 2023-+1-31 2023--1-31 2023-01--1 -2023-01-31 2023-01-3l 12023-01-31 "2023-01-31 "; do
    says 2 "the first date '$text' is not written as in 2023-01-31" "$text" 2023-02-28
    says 2 "the second date '$text' is not written as in 2023-01-31" 2023-01-31 "$text"
done

# words behind -- are no options
ends 0 days -- 2023-01-31 2023-02-28
ends 0 days 2023-01-31 -- 2023-02-28

# ---- output that cannot be written: status 2; of a refusal nothing is to be written

for output in full closed; do
    last="output $output"
    status=0
    case $output in
    full) "$program" days 2023-01-31 2023-02-28 >/dev/full 2>"$room/said" || status=$? ;;
    closed) "$program" days 2023-01-31 2023-02-28 >&- 2>"$room/said" || status=$? ;;
    esac
    [ "$status" = 2 ] || fails "exit status $status and not 2"
    [ "$(wc -l <"$room/said")" = 1 ] || fails "not one line on standard error"
    grep -q "^senyolanda days: cannot write to standard output: " "$room/said" || fails "what was not written is not said"
    status=0
    case $output in
    full) "$program" days 2023-01-31 2023-01-31 >/dev/full 2>"$room/said" || status=$? ;;
    closed) "$program" days 2023-01-31 2023-01-31 >&- 2>"$room/said" || status=$? ;;
    esac
    [ "$status" = 1 ] || fails "exit status $status and not 1 for a refusal"
    count=$((count + 2))
done

# ---- help

ends 0 days --help
grep -q '^usage: senyolanda days FIRST SECOND$' "$room/wrote" || fails "no usage"
for rule in actual/360 actual/365 30/360; do
    grep -q "^  $rule  *[a-z]" "$room/wrote" || fails "the help does not say what $rule is"
done
echo "days: $count runs as they should be"
