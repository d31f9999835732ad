#!/bin/sh
# cents.sh [CC]: compares amounts to the cent, as host/amounts.c writes them, with printf's: ten million, and the first 200,000 under
# the sanitizers where CC has them.
set -eu
cc=${1:-cc}
cd "$(dirname "$0")/.."
room=$(mktemp -d)
trap 'rm -rf "$room"' EXIT
compile() { $cc -std=c99 -pedantic -Wall -Wextra -Werror "$@" -Ihost test/cents.c host/amounts.c -lm -o "$room/cents"; }
compile -O2
"$room/cents" 10000000
# the flags are words of the command
# shellcheck disable=SC2046
compile -O1 -g $(test/sanitizer "$cc")
"$room/cents" 200000
