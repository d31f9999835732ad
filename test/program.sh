#!/bin/sh
# program.sh PROGRAM: `senyolanda` itself: its commands, its help, its version, and what it says where it is used badly.
set -eu
program=$(readlink -f "${1:?usage: test/program.sh PROGRAM}")
cd "$(dirname "$0")/.."
named=program
. test/running.sh

# gives STATUS WORDS..: runs the program on the words, and holds it to its exit status; what is done says nothing on standard error,
# and trouble writes nothing to standard output
gives() {
    ends "$@" </dev/null
    [ "$status" = 2 ] || [ ! -s "$room/said" ] || fails "words on standard error"
    [ "$status" = 0 ] || [ ! -s "$room/wrote" ] || fails "output, for trouble"
}

# wrong LINE WORDS..: trouble, and that line
wrong() {
    line=$1
    shift
    gives 2 "$@"
    [ "$(cat "$room/said")" = "$line" ] || fails "other words than: $line"
}

gives 0 --help
cp "$room/wrote" "$room/help"
grep -q '^usage: senyolanda COMMAND' "$room/help" || fails "no usage"
grep -q '^Exit status: 0' "$room/help" || fails "no statuses"
for words in -h help; do
    gives 0 $words
    cmp -s "$room/wrote" "$room/help" || fails "another help than --help"
done

# alone: the same, but as trouble
gives 2
cmp -s "$room/said" "$room/help" || fails "no usage on standard error"

# every command is listed, and has its help
commands=$(sed -n '/^Commands:$/,/^$/s/^  \([a-z]*\) .*/\1/p' "$room/help")
[ "$commands" = "statement
schedule
days" ] || fails "the commands listed are $commands"
for command in $commands; do
    gives 0 "$command" --help
    cp "$room/wrote" "$room/of-command"
    grep -q "^usage: senyolanda $command " "$room/of-command" || fails "no usage of $command"
    grep -q '^Exit status: 0' "$room/of-command" || fails "no statuses of $command"
    for words in "$command -h" "help $command" "--help $command"; do
        # shellcheck disable=SC2086
        gives 0 $words
        cmp -s "$room/wrote" "$room/of-command" || fails "another help than $command --help"
    done
    awk 'length > 128 { exit 1 }' "$room/of-command" || fails "a line of the help is wider than 128"
done

# the version is the header's
number() { sed -n "s/^#define SENYOLANDA_VERSION_$1 \([0-9]*\)$/\1/p" include/senyolanda.h; }
version=$(number MAJOR).$(number MINOR).$(number PATCH)
gives 0 --version
[ "$(cat "$room/wrote")" = "senyolanda $version" ] || fails "another version than the header's $version"

wrong "senyolanda: there is no command 'statements'; senyolanda --help says which there are" statements 1200 0 3
wrong "senyolanda: there is no command ''; senyolanda --help says which there are" ""
wrong "senyolanda: there is no command '1200'; senyolanda --help says which there are" 1200 0 3
wrong "senyolanda: there is no option '--csv'; senyolanda --help says which there are" --csv statement
wrong "senyolanda: there is no option '-x'; senyolanda --help says which there are" -x
wrong "senyolanda: there is no command 'night'; senyolanda --help says which there are" help night

# a message names its command
wrong "senyolanda statement: there is no option --night; --help says which there are" statement --night
wrong "senyolanda schedule: there is no option --night; --help says which there are" schedule --night
wrong "senyolanda days: there is no option --night; --help says which there are" days --night

for words in --help --version "statement --help" "schedule --help" "days --help" "days 2023-01-31 2023-02-28"; do
    for output in full closed; do
        last="$words, output $output"
        status=0
        # shellcheck disable=SC2086
        case $output in
        full) "$program" $words >/dev/full 2>"$room/said" || status=$? ;;
        closed) "$program" $words >&- 2>"$room/said" || status=$? ;;
        esac
        [ "$status" = 2 ] || fails "exit status $status and not 2"
        [ "$(wc -l <"$room/said")" = 1 ] || fails "not one line on standard error"
        grep -q "^senyolanda.*: cannot write to standard output: " "$room/said" || fails "what was not written is not said"
        count=$((count + 1))
    done
done
echo "program: $count runs as they should be"
