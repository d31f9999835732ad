#!/bin/sh
# header.sh LIBRARY..: the header compiles without a warning as C and as C++, the example in it runs, a dropped result is warned of,
# and its functions are the crate's and each library's. The first library is an archive for this machine's own processor.
set -eu
own=${1:?usage: test/header.sh LIBRARY..}
room=$(mktemp -d)
trap 'rm -rf "$room"' EXIT
header=$(dirname "$0")/../include/senyolanda.h

# The example of the header's first comment, as a program; the header twice, to see its guard.
{
    printf '#include <stdio.h>\n#include "senyolanda.h"\n#include "senyolanda.h"\nint main(void) {\n'
    sed -n '/^ \*\/$/q; s/^ \*     //p' "$header"
    printf 'return result != 0;\n}\n'
} >"$room/example"

# Results that are looked at, but for those of functions that never refuse.
cat >"$room/looked" <<END
#include "senyolanda.h"
int main(void) {
    uint8_t record[SENYOLANDA_LOAN_BYTES];
    struct senyolanda_loan loan;
    struct senyolanda_balloon balloon;
    double payment;
    senyolanda_result result = 0;
    senyolanda_exp(1.0, &payment);
    senyolanda_write_loan(1200.0, 0.0, 3, record);
    result |= senyolanda_monthly_payment(record, sizeof record, &payment);
    result |= senyolanda_loan_open(record, sizeof record, &loan);
    result |= senyolanda_balloon_open(record, sizeof record, 2, &balloon);
    return result != 0;
}
END

fails() { echo "header: $1" >&2; exit 1; }

# compiles COMPILER LANGUAGE STANDARD SOURCE: into the program run, without a warning
compiles() {
    "$1" -x "$2" -std="$3" -pedantic -Wall -Wextra -Werror -O2 -I"$(dirname "$header")" "$4" -x none "$own" -o "$room/run"
}

# runs COMPILER LANGUAGE STANDARD: the example repays its loan in 360 months
runs() {
    compiles "$1" "$2" "$3" "$room/example"
    "$room/run" >"$room/balances"
    [ "$(wc -l <"$room/balances") $(tail -n 1 "$room/balances")" = "360 0.00" ] ||
        fails "the example does not repay its loan as $3, by $1"
}

# warns COMPILER LANGUAGE STANDARD: of a result that nobody looks at, of the library's functions and of the header's own
warns() {
    compiles "$1" "$2" "$3" "$room/looked"
    "$room/run" || fails "a loan that is looked at is refused as $3, by $1"
    for dropped in senyolanda_monthly_payment senyolanda_loan_open senyolanda_balloon_open; do
        sed "s/result |= $dropped/$dropped/" "$room/looked" >"$room/dropped"
        if compiles "$1" "$2" "$3" "$room/dropped" 2>"$room/said"; then fails "$1 does not warn of a dropped result of $dropped as $3"; fi
        grep -q unused-result "$room/said" || { cat "$room/said" >&2; fails "$1 finds another fault as $3"; }
    done
}

# By cc and c++, and by every other compiler that is here.
used=
for compiler in cc c++ gcc g++ clang clang++; do
    case $compiler in cc | c++) ;; *) command -v "$compiler" >/dev/null || continue ;; esac
    case $compiler in
    *++) language=c++ standards='c++11 c++17' ;;
    *) language=c standards='c99 c11' ;;
    esac
    for standard in $standards; do
        runs "$compiler" "$language" "$standard"
        warns "$compiler" "$language" "$standard"
    done
    used="$used $compiler"
done
echo "header: compiles as C and C++, its example runs, and a dropped result is warned of, by$used"

for library; do
    "$(dirname "$0")/header.py" "$library"
done
