#!/bin/sh
# days.sh LIBRARY: holds the library's days between dates to another's: to test/days.list, which QuantLib wrote, and where QuantLib is
# installed to QuantLib itself, on the list's pairs and on many more.
set -eu
library=$(readlink -f "${1:?usage: test/days.sh LIBRARY}")
cd "$(dirname "$0")/.."
room=$(mktemp -d)
trap 'rm -rf "$room"' EXIT
fails() { echo "days: $1" >&2; exit 1; }

# held FILE: how many lines of a file the library is held to
held() { python3 test/days.py "$library" <"$1"; }

listed=$(held test/days.list)

# A line that is wrong by one day is found out.
sed '$s/ [0-9]* \([0-9]*\)$/ 1234567 \1/' test/days.list >"$room/wrong"
! held "$room/wrong" >/dev/null 2>&1 || fails "a wrong line of actual days is not found out"
sed '$s/[0-9]*$/1234567/' test/days.list >"$room/wrong"
! held "$room/wrong" >/dev/null 2>&1 || fails "a wrong line of 30/360 days is not found out"

if ! echo QL_VERSION | c++ -x c++ -E -P -include ql/version.hpp - >"$room/version" 2>/dev/null; then
    echo "days: $listed pairs of dates as QuantLib's list has them; QuantLib is not installed, and the list stands in for it"
    exit 0
fi
version=$(tail -n 1 "$room/version" | tr -d '"')
c++ -std=c++17 -O1 -Wall -Wextra test/quantlib_days.cpp -lQuantLib -o "$room/quantlib_days"
"$room/quantlib_days" list >"$room/list"
grep -v '^#' test/days.list | cmp -s - "$room/list" || fails "QuantLib $version gives another list than test/days.list"
"$room/quantlib_days" many >"$room/many"
echo "days: $listed pairs of dates as QuantLib's list has them, and $(held "$room/many") more as QuantLib $version counts them"
