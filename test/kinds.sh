#!/bin/sh
# kinds.sh PROGRAM: `senyolanda statement` of interest-only, balloon and adjustable loans: rows worked out by hand, rows beside those of
# level loans, refusals, warnings, bad usage.
set -eu
program=$(readlink -f "${1:?usage: test/kinds.sh PROGRAM}")
cd "$(dirname "$0")/.."
named=kinds
. test/running.sh
. test/stating.sh

# ---- interest-only

stated --interest-only 6 1200 0 12
writes <<END
Loan 1: principal 1200.00, rate 0, months 12, interest only for 6 months
 month  payment  principal  interest  balance
     1     0.00       0.00      0.00  1200.00
     2     0.00       0.00      0.00  1200.00
     3     0.00       0.00      0.00  1200.00
     4     0.00       0.00      0.00  1200.00
     5     0.00       0.00      0.00  1200.00
     6     0.00       0.00      0.00  1200.00
     7   200.00     200.00      0.00  1000.00
     8   200.00     200.00      0.00   800.00
     9   200.00     200.00      0.00   600.00
    10   200.00     200.00      0.00   400.00
    11   200.00     200.00      0.00   200.00
    12   200.00     200.00      0.00     0.00
year 1             1200.00      0.00     0.00
 total  1200.00    1200.00      0.00     0.00
END

# behind two months of interest alone, document 01's loan of two months
warned --interest-only 2 1000 6 4
writes <<END
Loan 1: principal 1000.00, rate 6, months 4, interest only for 2 months
 month  payment  principal  interest  balance
     1   500.00       0.00    500.00  1000.00
     2   500.00       0.00    500.00  1000.00
     3   900.00     400.00    500.00   600.00
     4   900.00     600.00    300.00     0.00
year 1             1000.00   1800.00     0.00
 total  2800.00    1000.00   1800.00     0.00
END
warned --interest-only=1 --csv --bits 1000 6 2
writes <<END
loan,month,payment,principal,interest,balance
1,1,407f400000000000,0000000000000000,407f400000000000,408f400000000000
1,2,4097700000000000,408f400000000000,407f400000000000,0000000000000000
END

# a given payment is that of the months behind, and the last repays the rest
stated --interest-only 1 --payment 100 1000 0.12 3
writes <<END
Loan 1: principal 1000.00, rate 0.12, months 3, interest only for 1 month
 month  payment  principal  interest  balance
     1    10.00       0.00     10.00  1000.00
     2   100.00      90.00     10.00   910.00
     3   919.10     910.00      9.10     0.00
year 1             1000.00     29.10     0.00
 total  1029.10    1000.00     29.10     0.00
END

stated --interest-only 12 --years --separators 1200000 0.12 13
writes <<END
Loan 1: principal 1,200,000.00, rate 0.12, months 13, interest only for 12 months
 year  months    interest     principal       balance
    1      12  144,000.00          0.00  1,200,000.00
    2       1   12,000.00  1,200,000.00          0.00
total      13  156,000.00  1,200,000.00          0.00
END
stated --interest-only 12 --years --csv --total 1200 0.12 13
writes <<END
loan,year,months,interest,principal,balance
1,1,12,144.00,0.00,1200.00
1,2,1,12.00,1200.00,0.00
1,total,13,156.00,1200.00,0.00
END

# the longest: one month repays all
stated --interest-only 1199 --csv 1200 0.12 1200
[ "$(wc -l <"$room/wrote")" = 1201 ] || fails "not 1,200 rows"
[ "$(sed -n '2p; 1200p; 1201p' "$room/wrote")" = "1,1,12.00,0.00,12.00,1200.00
1,1199,12.00,0.00,12.00,1200.00
1,1200,1212.00,1200.00,12.00,0.00" ] || fails "other rows of a long loan"

# ---- balloon

stated --balloon 3 1200 0 12
writes <<END
Loan 1: principal 1200.00, rate 0, months 12, balloon in month 3
 month  payment  principal  interest  balance
     1   100.00     100.00      0.00  1100.00
     2   100.00     100.00      0.00  1000.00
     3  1000.00    1000.00      0.00     0.00
year 1             1200.00      0.00     0.00
 total  1200.00    1200.00      0.00     0.00
END
warned --balloon 1 --csv --bits 1000 6 2
writes <<END
loan,month,payment,principal,interest,balance
1,1,4097700000000000,408f400000000000,407f400000000000,0000000000000000
END
warned --balloon=2 --payment 100 1000 6 3
writes <<END
Loan 1: principal 1000.00, rate 6, months 3, balloon in month 2
 month  payment  principal  interest  balance
     1   100.00       0.00    500.00  1000.00
     2  1500.00    1000.00    500.00     0.00
year 1             1000.00   1000.00     0.00
 total  1600.00    1000.00   1000.00     0.00
END

# the years are those up to the balloon
stated --balloon 14 --years 2400 0 24
writes <<END
Loan 1: principal 2400.00, rate 0, months 24, balloon in month 14
 year  months  interest  principal  balance
    1      12      0.00    1200.00  1200.00
    2       2      0.00    1200.00     0.00
total      14      0.00    2400.00     0.00
END
stated --balloon 12 --csv --years 2400 0 24
writes <<END
loan,year,months,interest,principal,balance
1,1,12,0.00,2400.00,0.00
END

# ---- adjustable

# a year at no interest, and a month at one per cent
stated --adjustable 0,0.12,0.12 --index 0.12 1300 0 13
writes <<END
Loan 1: principal 1300.00, initial rate 0, months 13, adjustable with cap 0.12 and lifetime cap 0.12
 month  payment  principal  interest  balance
     1   100.00     100.00      0.00  1200.00
     2   100.00     100.00      0.00  1100.00
     3   100.00     100.00      0.00  1000.00
     4   100.00     100.00      0.00   900.00
     5   100.00     100.00      0.00   800.00
     6   100.00     100.00      0.00   700.00
     7   100.00     100.00      0.00   600.00
     8   100.00     100.00      0.00   500.00
     9   100.00     100.00      0.00   400.00
    10   100.00     100.00      0.00   300.00
    11   100.00     100.00      0.00   200.00
    12   100.00     100.00      0.00   100.00
year 1             1200.00      0.00   100.00  rate 0
    13   101.00     100.00      1.00     0.00
year 2              100.00      1.00     0.00  rate 0.12
 total  1301.00    1300.00      1.00     0.00
END
cp "$room/wrote" "$room/want"

# RATE is not read, nor warned of; an option's value stands in it or behind it
for rate in 0.12 -0 6 nan inf; do
    stated --index=0.12 --adjustable=0,0.12,0.12 1300 $rate 13
    writes <"$room/want"
done

stated --adjustable 0 0.12 0.12 --index 0,0.12 --years 2500 0 25
writes <<END
Loan 1: principal 2500.00, initial rate 0, months 25, adjustable with cap 0.12 and lifetime cap 0.12
 year  months  interest  principal  balance
    1      12      0.00    1200.00  1300.00  rate 0
    2      12      0.00    1200.00   100.00  rate 0
    3       1      1.00     100.00     0.00  rate 0.12
total      25      1.00    2500.00     0.00
END
stated --adjustable 0,0.12,0.12 --index 0,0.12 --years --bits 2500 0 25
writes <<END
Loan 1: principal 40a3880000000000, initial rate 0, months 25, adjustable with cap 0.12 and lifetime cap 0.12
 year  months          interest         principal           balance
    1      12  0000000000000000  4092c00000000000  4094500000000000  rate 0
    2      12  0000000000000000  4092c00000000000  4059000000000000  rate 0
    3       1  3ff0000000000000  4059000000000000  0000000000000000  rate 0.12
total      25  3ff0000000000000  40a3880000000000  0000000000000000
END

# comma-separated lines have the columns of every loan
stated --adjustable 0,0.12,0.12 --index 0,0.12 --years --csv --total 2500 0 25
writes <<END
loan,year,months,interest,principal,balance
1,1,12,0.00,1200.00,1300.00
1,2,12,0.00,1200.00,100.00
1,3,1,1.00,100.00,0.00
1,total,25,1.00,2500.00,0.00
END
stated --adjustable 0,0.12,0.12 --index 0.12 --csv --total 1300 0 13
[ "$(sed -n '1p; 13,$p' "$room/wrote")" = "loan,month,payment,principal,interest,balance
1,12,100.00,100.00,0.00,100.00
1,year 1,,1200.00,0.00,100.00
1,13,101.00,100.00,1.00,0.00
1,year 2,,100.00,1.00,0.00
1,total,1301.00,1300.00,1.00,0.00" ] || fails "other comma-separated rows"

# last_month ADJUSTMENT INDEX LINE: the thirteenth month, of a balance of 100 that a year at no interest leaves
last_month() {
    stated --csv --adjustable "$1" --index "$2" 1300 0 13
    [ "$(tail -n 1 "$room/wrote")" = "1,13,$3" ] || fails "another thirteenth month than $3"
}
last_month 0,0.24,1 0.12 101.00,100.00,1.00,0.00
# the cap holds from above and from below, and lets its own rate by
last_month 0,0.24,1 0.5 102.00,100.00,2.00,0.00
last_month 0,0.24,1 0.24 102.00,100.00,2.00,0.00
last_month 0,0.12,1 -0.5 99.00,100.00,-1.00,0.00
last_month 0,0,1 0.5 100.00,100.00,0.00,0.00
last_month 0,-0,1 -0.5 100.00,100.00,0.00,0.00
# the lifetime cap holds from above alone
last_month 0,0.24,0.12 0.5 101.00,100.00,1.00,0.00
last_month 0,0.24,0.12 0.12 101.00,100.00,1.00,0.00
last_month 0,0.24,0 0.5 100.00,100.00,0.00,0.00
last_month 0,0.24,0 -0.24 98.00,100.00,-2.00,0.00
# what is behind the years of the term is not read
last_month 0,0.24,1 0.12,nan,-inf 101.00,100.00,1.00,0.00
last_month 0,0.24,1 "0.12$(printf ',0.05%.0s' $(seq 200))" 101.00,100.00,1.00,0.00

# a year at a rate that 1 does not feel pays equal parts of what is left
stated --csv --adjustable 0,0.12,0.12 --index 1e-17 1400 0 14
[ "$(tail -n 2 "$room/wrote")" = "1,13,100.00,100.00,0.00,100.00
1,14,100.00,100.00,0.00,0.00" ] || fails "other rows than equal parts"

# rates ADJUSTMENT INDEX MONTHS RATES: what the years' lines have behind them
rates() {
    stated --years --adjustable "$1" --index "$2" 250000 0 "$3"
    [ "$(sed -n 's/.*  rate //p' "$room/wrote" | tr '\n' ' ')" = "$4 " ] || fails "other rates than $4"
}
rates 0.0625,0.03125,0.125 0.0625 24 "0.0625 0.0625"
# each year goes on from the last one's rate, up to the lifetime cap and down again
rates 0.0625,0.03125,0.125 1,1,1,1,1,0.0625,0.0625,0,0 120 "0.0625 0.09375 0.125 0.15625 0.1875 0.1875 0.15625 0.125 0.09375 0.0625"
rates 0.0625,0.125,0.125 0.07,0.08,0.01,-0.02 49 "0.0625 0.07 0.08 0.01 -0.02"
rates 0.05,0,0 0.07,0.08 36 "0.05 0.05 0.05"

# a term of a year has no index rate to read
for index in "" 0.07 nan; do
    stated --adjustable 0,0.02,0.06 --index "$index" --csv 1200 0 12
    [ "$(sed -n '2p; 13p' "$room/wrote")" = "1,1,100.00,100.00,0.00,1100.00
1,12,100.00,100.00,0.00,0.00" ] || fails "other rows of a year"
done
stated --index= --adjustable 0,0.02,0.06 1200 0 1

# the longest: 99 index rates, and more than any loan has are taken
zeros=$(printf '0,%.0s' $(seq 98))
stated --csv 1200 0 1200
cp "$room/wrote" "$room/want"
for index in "${zeros}0" "${zeros}0,0" "${zeros}0,$zeros${zeros}0"; do
    stated --csv --adjustable 0,0.02,0.06 --index "$index" 1200 0 1200
    writes <"$room/want"
done

# ---- beside level loans, to the bit

# numbered FROM TO: of comma-separated rows of one loan, the months of that stretch, counted from 1
numbered() { awk -F, -v OFS=, -v from="$1" -v to="$2" '$2 >= from && $2 <= to { $2 -= from - 1; print }' "$room/wrote"; }

for loan in "250000 0.0625 360" "99999.99 0.0425 25" "1e15 0.02 13" "7 -0.5 100" "1000 nan 18" "0 0.05 40"; do
    # shellcheck disable=SC2086
    set -- $loan

    # behind the months of interest alone: the level loan of the months that are left
    stated --csv --bits --interest-only 12 "$@"
    numbered 13 "$3" >"$room/behind"
    stated --csv --bits "$1" "$2" $(($3 - 12))
    sed 1d "$room/wrote" | cmp -s - "$room/behind" || fails "other rows behind the months of interest alone"

    # before the balloon: the level loan; where it is the last month, all of it
    stated --csv --bits "$@"
    numbered 1 12 >"$room/level"
    cp "$room/wrote" "$room/want"
    stated --csv --bits --balloon "$3" "$@"
    writes <"$room/want"
    stated --csv --bits --balloon 13 "$@"
    numbered 1 12 | cmp -s - "$room/level" || fails "other rows before the balloon"
    [ "$(wc -l <"$room/wrote")" = 14 ] || fails "not a row for each month up to the balloon"
done

# each year of an adjustable loan: the first of a level loan of the balance, the rate and the months that it begins with
for loan in "250000 30 0.0625,0.03125,0.125 0.07,0.3 0.07 0.10125" "99999.99 25 0.05,0.01,0.5 -1,0.04 0.04 0.04" "1e9 13 -0.1,1,1 0.9 0.9 -"; do
    # shellcheck disable=SC2086
    set -- $loan
    stated --csv --bits --adjustable "$3" --index "$4" "$1" 0 "$2"
    cp "$room/wrote" "$room/adjustable"
    balance=$1
    year=1
    for rate in "${3%%,*}" "$5" "$6"; do
        [ "$rate" != - ] || continue
        numbered $((12 * year - 11)) $((12 * year)) >"$room/year"
        test/record "$balance" "$rate" $(($2 - 12 * year + 12)) >"$room/left"
        stated --csv --bits --records "$room/left"
        numbered 1 12 | cmp -s - "$room/year" || fails "other rows in year $year"
        balance=bits:$(tail -n 1 "$room/year" | cut -d, -f6)
        cp "$room/adjustable" "$room/wrote"
        year=$((year + 1))
    done
done

# ---- refusals

# unfit WORDS OPTIONS..: the one loan is refused with 16, in these words
unfit() {
    words=$1
    shift
    gives 1 "$@"
    writes </dev/null
    says <<END
senyolanda statement: loan 1: refused 16 at 0: $words
END
}
for months in 0 12 13 1201 4294967295; do
    unfit "the months of interest alone, $months, are not from 1 to one fewer than the term's 12" --interest-only $months 1200 0 12
    unfit "the months of interest alone, $months, are not from 1 to one fewer than the term's 12" \
        --interest-only $months --payment 5 --csv 1200 0 12
done
unfit "the months of interest alone, 1, are not from 1 to one fewer than the term's 1" --interest-only 1 --years 1200 6 1
for month in 0 13 1201 4294967295; do
    unfit "the balloon's month, $month, is not from 1 to the term's 12" --balloon $month 1200 0 12
    unfit "the balloon's month, $month, is not from 1 to the term's 12" --balloon $month --payment 5 1200 6 12
done
for number in nan inf -inf; do
    unfit "the initial rate is not finite" --adjustable $number,0.02,0.06 --index 0.05 1200 0 24
    unfit "the cap is below zero or not finite" --adjustable 0.05,$number,0.06 --index 0.05 1200 0 24
    unfit "the lifetime cap is below zero or not finite" --adjustable 0.05,0.02,$number --index '' 1200 0 12
done
unfit "the cap is below zero or not finite" --adjustable 0.05,-0.02,0.06 --index 0.05 1200 0 24
unfit "the lifetime cap is below zero or not finite" --adjustable 0.05,0.02,-5e-324 --index 0.05 1200 0 24
# what stands alone comes before the list
unfit "the initial rate is not finite" --adjustable nan,-1,-1 --index nan 1200 0 12
unfit "the cap is below zero or not finite" --adjustable 0.05,-1,-1 --index nan 1200 0 36
unfit "the lifetime cap is below zero or not finite" --adjustable 0.05,1,-1 --index nan 1200 0 24
unfit "the index has 0 rates, and a term of 13 months wants 1" --adjustable 0.05,0.02,0.06 --index '' 1200 0 13
unfit "the index has 1 rate, and a term of 25 months wants 2" --adjustable 0.05,0.02,0.06 --index 0.05 1200 0 25
unfit "the index has 1 rate, and a term of 36 months wants 2" --adjustable 0.05,0.02,0.06 --index nan 1200 0 36
unfit "the index has 98 rates, and a term of 1200 months wants 99" --adjustable 0.05,0.02,0.06 --index "${zeros%,}" 1200 0 1200
for number in nan inf -inf; do
    unfit "index entry 1, for year 2, is not finite" --adjustable 0.05,0.02,0.06 --index $number 1200 0 13
    unfit "index entry 3, for year 4, is not finite" --adjustable 0.05,0.02,0.06 --index 5,0.05,$number,nan 1200 0 60
done
unfit "index entry 99, for year 100, is not finite" --adjustable 0.05,0.02,0.06 --index "${zeros}nan" 1200 0 1200

# the loan's own refusals come before
for words in "--interest-only 0" "--balloon 0" "--adjustable nan,0,0 --index=nan"; do
    # shellcheck disable=SC2086
    gives 1 $words -1 0 0
    refused 1
    # shellcheck disable=SC2086
    gives 1 $words 1000 0 1201
    refused 2
done

# ---- records: one kind for all of them

test/record 1200 0 3 >"$room/a"
test/record 1000 6 2 >"$room/b"
test/record -1 0 3 >"$room/bad"
cat "$room/a" "$room/bad" "$room/b" >"$room/records"

gives 1 --balloon 2 --records "$room/records"
writes <<END
Loan 1: principal 1200.00, rate 0, months 3, balloon in month 2
 month  payment  principal  interest  balance
     1   400.00     400.00      0.00   800.00
     2   800.00     800.00      0.00     0.00
year 1             1200.00      0.00     0.00
 total  1200.00    1200.00      0.00     0.00

Loan 3: principal 1000.00, rate 6, months 2, balloon in month 2
 month  payment  principal  interest  balance
     1   900.00     400.00    500.00   600.00
     2   900.00     600.00    300.00     0.00
year 1             1000.00    800.00     0.00
 total  1800.00    1000.00    800.00     0.00
END
says <<END
senyolanda statement: loan 2: refused 1 at 1: the amount is below zero or not finite
senyolanda statement: 2 loans good, 1 refused
senyolanda statement: 1 loan has a rate above 1, which is 100 per cent a year; six per cent is 0.06
END

gives 1 --interest-only 2 --csv --records - <"$room/records"
writes <<END
loan,month,payment,principal,interest,balance
1,1,0.00,0.00,0.00,1200.00
1,2,0.00,0.00,0.00,1200.00
1,3,1200.00,1200.00,0.00,0.00
END
says <<END
senyolanda statement: loan 2: refused 1 at 1: the amount is below zero or not finite
senyolanda statement: loan 3: refused 16 at 2: the months of interest alone, 2, are not from 1 to one fewer than the term's 2
senyolanda statement: 1 loan good, 2 refused
END
gives 1 --interest-only 1 --payment 500 --csv --records "$room/records"
writes <<END
loan,month,payment,principal,interest,balance
1,1,0.00,0.00,0.00,1200.00
1,2,500.00,500.00,0.00,700.00
1,3,700.00,700.00,0.00,0.00
3,1,500.00,0.00,500.00,1000.00
3,2,1500.00,1000.00,500.00,0.00
END

# the rate of a record is not read; a longer loan reads what a shorter one does not
{ cat "$room/b"; test/record 1300 6 13; test/record 1200 6 12; } >"$room/records"
stated --adjustable 0,0.12,0.12 --index 0.12 --years --records "$room/records"
writes <<END
Loan 1: principal 1000.00, initial rate 0, months 2, adjustable with cap 0.12 and lifetime cap 0.12
 year  months  interest  principal  balance
    1       2      0.00    1000.00     0.00  rate 0
total       2      0.00    1000.00     0.00

Loan 2: principal 1300.00, initial rate 0, months 13, adjustable with cap 0.12 and lifetime cap 0.12
 year  months  interest  principal  balance
    1      12      0.00    1200.00   100.00  rate 0
    2       1      1.00     100.00     0.00  rate 0.12
total      13      1.00    1300.00     0.00

Loan 3: principal 1200.00, initial rate 0, months 12, adjustable with cap 0.12 and lifetime cap 0.12
 year  months  interest  principal  balance
    1      12      0.00    1200.00     0.00  rate 0
total      12      0.00    1200.00     0.00
END
gives 1 --adjustable 0,0.12,0.12 --index nan --years --csv --records "$room/records"
writes <<END
loan,year,months,interest,principal,balance
1,1,2,0.00,1000.00,0.00
3,1,12,0.00,1200.00,0.00
END
says <<END
senyolanda statement: loan 2: refused 16 at 1: index entry 1, for year 2, is not finite
senyolanda statement: 2 loans good, 1 refused
END

# loans that do not fit the kind are loans for all that: the file is read on
{ repeated 12 "$room/a"; test/record 1200 0 4; } >"$room/records"
gives 1 --interest-only 3 --csv --records "$room/records"
[ "$(wc -l <"$room/wrote")" = 5 ] || fails "no statement after twelve loans of another term"
[ "$(grep -c 'refused 16 at' "$room/said")" = 12 ] || fails "not twelve refusals"
[ "$(tail -n 1 "$room/said")" = "senyolanda statement: 1 loan good, 12 refused" ] || fails "not twelve refusals and a good loan"
repeated 25 "$room/a" >"$room/records"
gives 1 --balloon 4 --records "$room/records"
[ "$(sed -n '21,$p' "$room/said")" = "senyolanda statement: 0 loans good, 25 refused, the last 5 of them not listed above; --all lists them" ] ||
    fails "the refusals past the limit are not counted"
# what is no loan ends the reading as before
gives 1 --balloon 4 --records /dev/zero
[ "$(wc -l <"$room/said")" = 11 ] || fails "not ten refusals and a line about the file"

# ---- warnings, behind the statement

# warns LINES WORDS..: the loans have their statements, and the lines stand on standard error
warns() {
    lines=$1
    shift
    gives 0 "$@"
    echo "$lines" | sed 's/.*/senyolanda statement: &; six per cent is 0.06/' | says
}
warns "an initial rate of 6 is 600 per cent a year" --adjustable 6,0.02,0.06 --index 0.05 1200 0 13
warns "a cap of 2 is 200 per cent a year" --adjustable 0.06,2,0.06 --index '' 1200 0 12
warns "a lifetime cap of 1.5 is 150 per cent a year" --adjustable 0.06,0.02,1.5 --index 0.05 1200 0 13
warns "an index rate of 5.5 is 550 per cent a year" --adjustable 0.06,0.02,0.06 --index 0.05,5.5,6 1200 0 36
warns "an initial rate of 5 is 500 per cent a year
a cap of 2 is 200 per cent a year
a lifetime cap of 6 is 600 per cent a year
an index rate of 7 is 700 per cent a year" --csv --adjustable 5,2,6 --index 7 1200 0 13
# read or not
warns "an index rate of 6 is 600 per cent a year" --adjustable 0.06,0.02,0.06 --index 0.05,6 1200 0 13
stated --adjustable 1,1,1 --index 1 1200 0 13
warned --interest-only 1 1200 1.5 13
warned --balloon 1 1200 1.5 13
# once for all the loans of a file, and not where none of them is good
repeated 3 "$room/a" >"$room/records"
warns "an index rate of 5 is 500 per cent a year" --adjustable 0.06,0.02,0.06 --index 5 --records "$room/records"
warns "an initial rate of 5 is 500 per cent a year" --adjustable 5,0.02,0.06 --index '' --records "$room/records"
unfit "the index has 1 rate, and a term of 36 months wants 2" --adjustable 5,0.02,0.06 --index 5 1200 0 36

# ---- help, and bad usage

stated --help
for option in --interest-only --balloon --adjustable --index; do
    grep -q -e "^  $option " "$room/wrote" || fails "the help does not have $option"
done

# amiss LINE WORDS..: trouble, and that line
amiss() {
    line=$1
    shift
    gives 2 "$@"
    writes </dev/null
    says <<END
senyolanda statement: $line
END
}
amiss "--balloon does not go with --interest-only: a loan is of one kind" --balloon 3 --interest-only 3 1200 0 12
amiss "--adjustable does not go with --interest-only: a loan is of one kind" --interest-only 3 --adjustable 0.05,0.02,0.06 1200 0 12
amiss "--adjustable does not go with --balloon: a loan is of one kind" --balloon 3 --adjustable 0.05,0.02,0.06 --index 0.05 1200 0 13
amiss "--index goes with --adjustable alone" --index 0.05 1200 0 13
amiss "--index goes with --adjustable alone" --index= --balloon 3 1200 0 13
amiss "--adjustable wants --index beside it, the index rates of the years after the first" --adjustable 0.05,0.02,0.06 1200 0 12
amiss "--payment does not go with --adjustable, which works out each year's payment" \
    --adjustable 0.05,0.02,0.06 --index 0.05 --payment 100 1200 0 13
amiss "--payment does not go with --adjustable, which works out each year's payment" \
    --adjustable 0.05,0.02,0.06 --payment 100 --records "$room/records"

for months in 3.5 -1 +3 "" " 3" 0x3 4294967296 nan --csv; do
    amiss "--interest-only wants a number of months, and '$months' is no whole number from 0 to 4294967295" --interest-only "$months" 1200 0 12
    amiss "--balloon wants a month, and '$months' is no whole number from 0 to 4294967295" --balloon="$months" 1200 0 12
done
amiss "--interest-only wants a number of months" 1200 0 12 --interest-only
amiss "--balloon wants a month" 1200 0 12 --balloon
amiss "--adjustable wants an initial rate, a cap and a lifetime cap, as in 0.05 0.02 0.06" 1200 0 12 --adjustable
amiss "--index wants index rates, as in 0.05,0.055,0.06" --adjustable 0.05,0.02,0.06 1200 0 12 --index
for words in 0.05 "0.05 0.02"; do
    amiss "--adjustable wants an initial rate, a cap and a lifetime cap, as in 0.05 0.02 0.06" 1200 0 12 --index 0.05 --adjustable $words
done
for numbers in "" 0.05 0.05,0.02 0.05,0.02,0.06,0.07; do
    amiss "--adjustable wants an initial rate, a cap and a lifetime cap, as in 0.05 0.02 0.06, and '$numbers' was given" \
        --adjustable="$numbers" --index 0.05 1200 0 13
done
for numbers in 0.05,0.02 0.05,0.02,0.06,0.07; do
    amiss "--adjustable wants an initial rate, a cap and a lifetime cap, as in 0.05 0.02 0.06, and '$numbers' was given" \
        --adjustable "$numbers" --index 0.05 1200 0 13
done
decimal="is no decimal number, such as 250000 or 0.06"
amiss "entry 1 of --adjustable, '5%', $decimal" --adjustable 5%,0.02,0.06 --index 0.05 1200 0 13
amiss "entry 3 of --adjustable, '', $decimal" --adjustable 0.05,0.02, --index 0.05 1200 0 13
amiss "entry 2 of --adjustable, '0x1', $decimal" --adjustable 0.05,0x1,0.06 --index 0.05 1200 0 13
amiss "entry 1 of --adjustable, '--index', $decimal" --adjustable --index 0.05 1200 0 13
amiss "entry 2 of --adjustable, '--index', $decimal" --adjustable 0.05 --index 0.05 1200 0 13
amiss "entry 3 of --adjustable, '0.06,', $decimal" --adjustable 0.05 0.02 0.06, --index 0.05 1200 0 13
amiss "entry 1 of --index, 'rates.txt', $decimal" --adjustable 0.05,0.02,0.06 --index rates.txt 1200 0 13
amiss "entry 1 of --index, '', $decimal" --adjustable 0.05,0.02,0.06 --index ,0.05 1200 0 13
amiss "entry 2 of --index, '', $decimal" --adjustable 0.05,0.02,0.06 --index 0.05,,0.06 1200 0 13
amiss "entry 2 of --index, '', $decimal" --adjustable 0.05,0.02,0.06 --index 0.05, 1200 0 13
amiss "entry 2 of --index, ' 0.06', $decimal" --adjustable 0.05,0.02,0.06 --index "0.05, 0.06" 1200 0 13
amiss "entry 1 of --index, '0.05;0.06', $decimal" --adjustable 0.05,0.02,0.06 --index "0.05;0.06" 1200 0 13
amiss "entry 2 of --index, '1e999', is too large for a binary64" --adjustable 0.05,0.02,0.06 --index 0.05,1e999 1200 0 13
amiss "entry 2 of --index, '1e-400', is too small for a binary64, which would hold 0" --adjustable 0.05,0.02,0.06 --index 0.05,1e-400 1200 0 13
amiss "entry 100 of --index, 'x', $decimal" --adjustable 0.05,0.02,0.06 --index "${zeros}0,x" 1200 0 13
wrong "a principal, a rate and months are wanted" --balloon 3 1200 12
wrong "a principal, a rate and months are wanted" --adjustable 0.05,0.02,0.06 --index 0.05 1200 13
wrong "'12' is a word too many" --interest-only 3 1200 0 12 12
wrong "rate 'x' is no decimal number" --adjustable 0.05,0.02,0.06 --index 0.05 1200 x 13
wrong "from --records or from the command line, not from both" --balloon 3 --records "$room/a" 1200 0 12

# given twice, the last counts, whatever its form
stated --adjustable 0,0.12,0.12 --index 0.12 1300 0 13
cp "$room/wrote" "$room/want"
for words in "--adjustable 1 2 3 --adjustable=0,0.12,0.12" "--adjustable=1,2,3 --adjustable 0 0.12 0.12" "--adjustable 0 0.12 0.12"; do
    stated $words --index 0.12 1300 0 13
    writes <"$room/want"
done
stated --balloon 3 1200 0 12
cp "$room/wrote" "$room/want"
stated --balloon 5 1200 --balloon=3 0 12
writes <"$room/want"

# ---- a full disk

repeated 2000 "$room/a" >"$room/many"
for words in "--interest-only 2" "--balloon 2" "--adjustable 0.05,0.02,0.06 --index="; do
    for loans in "1200 0 3" "--csv 1200 0 3" "--years --records $room/many"; do
        last="$words $loans, on a full device"
        status=0
        # shellcheck disable=SC2086
        "$program" statement $words $loans >/dev/full 2>"$room/said" || status=$?
        unwritten "No space left on device"
        last="$words $loans, with standard output closed"
        status=0
        # shellcheck disable=SC2086
        "$program" statement $words $loans >&- 2>"$room/said" || status=$?
        unwritten "Bad file descriptor"
    done
done
# work that ends there warns of nothing
last="a file's loans at an initial rate of 5, on a full device"
status=0
"$program" statement --adjustable 5,0.02,0.06 --index= --records "$room/many" >/dev/full 2>"$room/said" || status=$?
unwritten "No space left on device"
echo "kinds: $count runs as they should be"
