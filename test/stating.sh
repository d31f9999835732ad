# stating.sh: what the tests of `senyolanda statement` share beside running.sh. A test takes this in behind it.

# gives STATUS WORDS..: runs the command on the words, and holds it to its exit status
gives() {
    want=$1
    shift
    ends "$want" statement "$@"
}

# writes, says: standard output, or standard error, of the last run is what stands on standard input here
writes() { cmp -s - "$room/wrote" || fails "other output than wanted"; }
says() { cmp -s - "$room/said" || fails "other words on standard error than wanted"; }

# says_once PATTERN: one line on standard error, of the pattern
says_once() {
    [ "$(wc -l <"$room/said")" = 1 ] || fails "not one line on standard error"
    grep -q "^senyolanda statement: $1" "$room/said" || fails "standard error does not say $1"
}

# refused NUMBER: no row, and one line that gives the refusal of the only loan
refused() {
    writes </dev/null
    says_once "loan 1: refused $1 at 0: [a-z]"
}

# stated WORDS..: every loan has its statement, and there is nothing on standard error
stated() {
    gives 0 "$@"
    says </dev/null
}

# warned WORDS..: the same with one line, that the rate is above 1
warned() {
    gives 0 "$@"
    says_once "a rate of .* is .* per cent a year; six per cent is 0\.06$"
}

# repeated COUNT FILE: the file so often, end to end
repeated() {
    k=0
    while [ "$k" -lt "$1" ]; do
        cat "$2"
        k=$((k + 1))
    done
}

# wrong WORD WORDS..: the line on standard error has the word
wrong() {
    word=$1
    shift
    gives 2 "$@"
    writes </dev/null
    says_once ".*$word"
}

# unwritten WHY: the last run says why its output could not be written
unwritten() {
    [ "$status" = 2 ] || fails "exit status $status and not 2"
    says_once "cannot write to standard output: $1\$"
    count=$((count + 1))
}
