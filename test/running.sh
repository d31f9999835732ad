# running.sh: what the tests of the program share. A test names itself and the program ($named, $program), and takes this in at the root.
room=$(mktemp -d)
trap 'rm -rf "$room"' EXIT
count=0
# For a program that watches its memory: what it finds has a status of its own, and looking for leaks takes it seconds each time.
export ASAN_OPTIONS=exitcode=99:detect_leaks=0

# fails WHY: shows what came of the last run, and stops
fails() {
    echo "$named: $last: $1" >&2
    head -n 20 "$room/wrote" "$room/said" >&2
    exit 1
}

# ends STATUS WORDS..: runs the program on the words, and holds it to its exit status
ends() {
    want=$1
    shift
    last=$*
    status=0
    "$program" "$@" >"$room/wrote" 2>"$room/said" || status=$?
    [ "$status" = "$want" ] || fails "exit status $status and not $want"
    count=$((count + 1))
}
