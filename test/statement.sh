#!/bin/sh
# statement.sh PROGRAM: `senyolanda statement` as its user meets it: what it writes, what it says on standard error, its exit status.
set -eu
program=$(readlink -f "${1:?usage: test/statement.sh PROGRAM}")
cd "$(dirname "$0")/.."
named=statement
. test/running.sh
. test/stating.sh

# ---- document 01's figures

stated 1200 0 3
writes <<END
Loan 1: principal 1200.00, rate 0, months 3
 month  payment  principal  interest  balance
     1   400.00     400.00      0.00   800.00
     2   400.00     400.00      0.00   400.00
     3   400.00     400.00      0.00     0.00
year 1             1200.00      0.00     0.00
 total  1200.00    1200.00      0.00     0.00
END

stated --bits 1200 0 3
writes <<END
Loan 1: principal 4092c00000000000, rate 0, months 3
 month           payment         principal          interest           balance
     1  4079000000000000  4079000000000000  0000000000000000  4089000000000000
     2  4079000000000000  4079000000000000  0000000000000000  4079000000000000
     3  4079000000000000  4079000000000000  0000000000000000  0000000000000000
year 1                    4092c00000000000  0000000000000000  0000000000000000
 total  4092c00000000000  4092c00000000000  0000000000000000  0000000000000000
END

# a rate of 6 is document 01's, and nobody's at a desk
gives 0 --csv 1000 6 2
writes <<END
loan,month,payment,principal,interest,balance
1,1,900.00,400.00,500.00,600.00
1,2,900.00,600.00,300.00,0.00
END
says <<END
senyolanda statement: a rate of 6 is 600 per cent a year; six per cent is 0.06
END

warned --csv --bits 1000 6 1
writes <<END
loan,month,payment,principal,interest,balance
1,1,4097700000000000,408f400000000000,407f400000000000,0000000000000000
END

warned --payment 100 1000 6 2
writes <<END
Loan 1: principal 1000.00, rate 6, months 2
 month  payment  principal  interest  balance
     1   100.00       0.00    500.00  1000.00
     2  1500.00    1000.00    500.00     0.00
year 1             1000.00   1000.00     0.00
 total  1600.00    1000.00   1000.00     0.00
END

stated --payment 2000 --csv 1000 0 3
writes <<END
loan,month,payment,principal,interest,balance
1,1,2000.00,1000.00,0.00,0.00
1,2,2000.00,0.00,0.00,0.00
1,3,0.00,0.00,0.00,0.00
END

# at a rate that 1 does not feel, and at -24 over an even number of months, the payment is equal parts of the principal
stated 1000 1e-17 2
writes <<END
Loan 1: principal 1000.00, rate 1e-17, months 2
 month  payment  principal  interest  balance
     1   500.00     500.00      0.00   500.00
     2   500.00     500.00      0.00     0.00
year 1             1000.00      0.00     0.00
 total  1000.00    1000.00      0.00     0.00
END
stated --csv --bits 1000 1e-17 2
cp "$room/wrote" "$room/want"
stated --csv --bits --payment 500 1000 1e-17 2
writes <"$room/want"
stated --csv 1000 -24 2
writes <<END
loan,month,payment,principal,interest,balance
1,1,500.00,1000.00,-2000.00,0.00
1,2,0.00,0.00,0.00,0.00
END

# the total of comma-separated rows, and that of each year, where they are asked for
warned --csv --total 1000 6 2
writes <<END
loan,month,payment,principal,interest,balance
1,1,900.00,400.00,500.00,600.00
1,2,900.00,600.00,300.00,0.00
1,year 1,,1000.00,800.00,0.00
1,total,1800.00,1000.00,800.00,0.00
END
stated --csv --total --bits 1200 0 1
writes <<END
loan,month,payment,principal,interest,balance
1,1,4092c00000000000,4092c00000000000,0000000000000000,0000000000000000
1,year 1,,4092c00000000000,0000000000000000,0000000000000000
1,total,4092c00000000000,4092c00000000000,0000000000000000,0000000000000000
END

# a table has its totals whether or not they are asked for
for words in "1200 0 3" "--years 1200 0 30"; do
    # shellcheck disable=SC2086
    stated $words
    cp "$room/wrote" "$room/want"
    # shellcheck disable=SC2086
    stated --total $words
    writes <"$room/want"
done

# a rate or a payment nobody filled in: every NaN is written alike
stated --csv 1000 nan 2
writes <<END
loan,month,payment,principal,interest,balance
1,1,nan,0.00,nan,1000.00
1,2,nan,1000.00,nan,0.00
END
for nan in nan -nan 'nan(5)'; do
    stated --csv --payment "$nan" 1000 0 2
    writes <<END
loan,month,payment,principal,interest,balance
1,1,nan,0.00,0.00,1000.00
1,2,1000.00,1000.00,0.00,0.00
END
    stated --csv --bits --payment "$nan" 1000 0 2
    writes <<END
loan,month,payment,principal,interest,balance
1,1,7ff8000000000000,0000000000000000,0000000000000000,408f400000000000
1,2,408f400000000000,408f400000000000,0000000000000000,0000000000000000
END
done

# a title's rate is the shortest decimal that reads back as what was typed; above 1 it gets a warning
titled() {
    [ "$(head -n 1 "$room/wrote")" = "Loan 1: principal 1000.00, rate $1, months 1" ] || fails "another rate in the title"
}
for rate in 0.06 0.1 1e-300 5e-324 -0.05 1 nan -inf; do
    stated 1000 $rate 1
    titled $rate
done
for rate in 1.0000000000000002 3.0000000000000004 inf; do
    warned 1000 $rate 1
    titled $rate
done

# ---- cents: each binary64 to the nearest, and a half that it holds exactly to the even cent

largest=179769313486231570814527423731704356798070567525844996598917476803157260780028538760589558632766878171540458953514382464234321326889464182768467546703537516986049910576551282076245490090389328944075868508455133942304583236903222948165808559332123348274797826204144723168738177180919299881250404026184124858368
cents() {
    stated --csv "$1" 0 1
    writes <<END
loan,month,payment,principal,interest,balance
1,1,$2,$2,0.00,0.00
END
}
cents 0.125 0.12
cents 0.375 0.38
cents 0.005 0.01
cents 0.015 0.01
cents 1.005 1.00
cents 2.675 2.67
cents 0.995 0.99
cents 0.9999 1.00
cents 1234567.885 1234567.89
cents 1e22 10000000000000000000000.00
cents 2251799813685249.5 2251799813685249.50
cents 18446744073709549568 18446744073709549568.00
cents 18446744073709551616 18446744073709551616.00
cents 5e-324 0.00
cents 2.2250738585072009e-308 0.00
cents -0 0.00
cents 1.7976931348623157e308 $largest.00

# ---- separators

warned --separators --payment 1234.5 1000000 12 2
writes <<END
Loan 1: principal 1,000,000.00, rate 12, months 2
 month       payment     principal      interest       balance
     1      1,234.50          0.00  1,000,000.00  1,000,000.00
     2  2,000,000.00  1,000,000.00  1,000,000.00          0.00
year 1                1,000,000.00  2,000,000.00          0.00
 total  2,001,234.50  1,000,000.00  2,000,000.00          0.00
END
separated() {
    stated --separators "$1" 0 1
    head -n 1 "$room/wrote" | grep -q "principal $2, rate" || fails "the principal is not written $2"
}
separated 0 0.00
separated 999.994 999.99
separated 999.996 1,000.00
separated 12345 12,345.00
separated 123456 123,456.00
separated 1234567.885 1,234,567.89
separated 1e21 1,000,000,000,000,000,000,000.00
separated 1.7976931348623157e308 "$(echo $largest | perl -pe '1 while s/^(\d+)(\d{3})/$1,$2/').00"
stated --separators --payment -1234567.25 1000 0 2
grep -q '^     1  -1,234,567.25 ' "$room/wrote" || fails "a payment below zero is not separated"
stated --separators --payment -123 1000 0 2
grep -q '^     1   -123.00 ' "$room/wrote" || fails "a payment of three digits is separated"
stated --separators --payment nan 1000 0 2
grep -q '^     1       nan ' "$room/wrote" || fails "a NaN is not written as it is"

# ---- the table: every line equally wide, totals that add the columns from the top down, the bits of the proved listing

# added: reads a table of bits, and sees whether each year's line, and the last line, add up the rows above
added() {
    perl -e '
        sub number { unpack "d<", pack "Q<", hex shift }
        sub bits { my $x = shift; $x == $x ? sprintf "%016x", unpack "Q<", pack "d<", $x : "7ff8000000000000" }
        my ($title, $names, @lines) = <STDIN>;
        my @last = split " ", pop @lines;
        my ($years, $balance, @year, @total) = (0, "");
        for my $line (@lines) {
            my @cells = split " ", $line;
            if ($cells[0] eq "year") {
                my $sums = join " ", map { bits($_) } @year[1, 2];
                exit 1 if "@cells[1 .. 4]" ne ++$years . " $sums $balance" || ($year[3] != 12 && $line ne $lines[-1]);
                @year = ();
            } else {
                my @amounts = map { number($_) } @cells[1 .. 3];
                $year[$_] += $amounts[$_] for 0 .. 2;
                $total[$_] += $amounts[$_] for 0 .. 2;
                $year[3]++;
                $balance = $cells[4];
            }
        }
        exit(@year || "@last" ne join " ", "total", (map { bits($_) } @total), $balance);
    '
}

# footed: reads a table, of rows and years or of years alone, and sees whether it says at its foot that printed amounts do not add up to
# a printed total just where some do not; of amounts above 2^64 nothing is said
footed() {
    perl -e '
        use bigint;
        my ($title, $names, @lines) = <STDIN>;
        my $foot = "Totals add the unrounded amounts: they can differ by some cents from the sum of the amounts above.\n";
        my $said = $lines[-1] eq $foot ? 1 : 0;
        pop @lines if $said;
        my @last = split " ", pop @lines;
        my $differs = 0;
        sub hold {
            my ($total, @amounts) = @_;
            return if grep !/^-?\d{1,19}\.\d\d$/, $total, @amounts;
            my $sum = 0;
            $sum += s/\.//r for @amounts;
            $differs = 1 if $sum != $total =~ s/\.//r;
        }
        my @cells = map { [split " ", $_] } @lines;
        my @totalled = $names =~ /payment/ ? (1 .. 3) : (2, 3);
        for my $column (@totalled) { hold($last[$column], map { $_->[$column] } grep { $_->[0] ne "year" } @cells) }
        my @rows;
        for my $line (@cells) {
            if ($line->[0] ne "year") { push @rows, $line; next }
            for my $column (2, 3) { hold($line->[$column], map { $_->[$column] } @rows) }
            @rows = ();
        }
        exit($said != $differs);
    '
}

# summed_by_year: reads a listing, and writes the lines of its years, with their total, as --csv --years --total --bits does
summed_by_year() {
    perl -e '
        sub bits { my $x = shift; $x == $x ? sprintf "%016x", unpack "Q<", pack "d<", $x : "7ff8000000000000" }
        my (@years, @total);
        while (<STDIN>) {
            my ($month, $payment, $principal, $interest, $balance) = split " ";
            next unless $month =~ /^\d+$/;
            for my $sum (\@total, $years[($month - 1) / 12] //= []) {
                $sum->[0]++;
                $sum->[1] += unpack "d<", pack "Q<", hex $interest;
                $sum->[2] += unpack "d<", pack "Q<", hex $principal;
                $sum->[3] = $balance;
            }
        }
        print "loan,year,months,interest,principal,balance\n";
        for my $year (1 .. @years, "total") {
            my ($months, $interest, $principal, $balance) = @{$year eq "total" ? \@total : $years[$year - 1]};
            print join(",", 1, $year, $months, bits($interest), bits($principal), $balance), "\n";
        }
    '
}

# table WAY PRINCIPAL RATE MONTHS: WAY is stated, or warned
table() {
    way=$1
    shift
    years=$((($3 + 11) / 12))
    $way "$@"
    footed <"$room/wrote" || fails "the foot does not say whether the columns add up"
    grep -v '^Totals' "$room/wrote" >"$room/table"
    [ "$(wc -l <"$room/table")" = $(($3 + years + 3)) ] || fails "not a line for each month and each year"
    [ "$(sed 1d "$room/table" | awk '{ print length }' | sort -u | wc -l)" = 1 ] || fails "lines of unequal width"
    $way --years "$@"
    footed <"$room/wrote" || fails "the foot does not say whether the years add up"
    grep -v '^Totals' "$room/wrote" >"$room/table"
    [ "$(wc -l <"$room/table")" = $((years + 3)) ] || fails "not a line for each year"
    [ "$(sed 1d "$room/table" | awk '{ print length }' | sort -u | wc -l)" = 1 ] || fails "lines of unequal width"
    $way --bits "$@"
    [ "$(wc -l <"$room/wrote")" = $(($3 + years + 3)) ] || fails "not a line for each month and each year, and no other"
    added <"$room/wrote" || fails "the totals do not add up the columns"
    $way --csv --bits "$@"
    test/record "$@" | "$program" schedule >"$room/listing"
    sed '1d; $d; s/ /,/g; s/^/1,/' "$room/listing" >"$room/listed"
    sed 1d "$room/wrote" | cmp -s - "$room/listed" || fails "other bits than the listing"
    summed_by_year <"$room/listing" >"$room/summed"
    $way --csv --years --total --bits "$@"
    writes <"$room/summed"
    $way --csv --years --bits "$@"
    sed '$d' "$room/summed" >"$room/untotalled"
    writes <"$room/untotalled"
}
table stated 100 0.05 1
table stated 0.01 0.3 5
table stated 99999.99 0.0425 6
table stated 1e15 0.02 7
table stated 1e18 0.02 7
table stated 100 0.05 11
table warned 1e300 1e5 12
table stated 7 -0.5 13
table stated 1000 nan 18
table stated 1.89 0.05 24
table stated 1000 1e-17 24
table stated 250000 0.06 25
table stated 250000 0.06 360
table stated 5 0.07 1200

# a foot, and none
stated 100 0 3
writes <<END
Loan 1: principal 100.00, rate 0, months 3
 month  payment  principal  interest  balance
     1    33.33      33.33      0.00    66.67
     2    33.33      33.33      0.00    33.33
     3    33.33      33.33      0.00     0.00
year 1              100.00      0.00     0.00
 total   100.00     100.00      0.00     0.00
Totals add the unrounded amounts: they can differ by some cents from the sum of the amounts above.
END
# foot WORDS..: the table has its foot; footless WORDS..: it has none
foot() {
    stated "$@"
    tail -n 1 "$room/wrote" | grep -q '^Totals add ' || fails "a column does not add up, and nothing is said"
}
footless() {
    stated "$@"
    tail -n 1 "$room/wrote" | grep -q '^ *total ' || fails "a foot that nothing calls for"
}
# the payments alone do not add up, and the interest alone
foot --payment 2000.004 1000 0 3
foot --payment 0 1000 0.120048 3
footless 99.99 0 3
footless 1.5 0 3
footless --payment -5 1000 0 2
# of amounts above 2^64 nothing is said
footless 1e20 0 3
footless --years 1e20 0 13
# rows that add up to the total and not to a year's line, in the principal alone and in the interest alone
foot 1904 0.03 25
foot 878 0.12 13
# rows that add up to each year's line and not to the total
foot 1.89 0.05 13
# years' lines that do not add up to the total, in the principal alone and in the interest alone
foot --years 1 0.06 25
foot --years 3 0.06 13
footless --years --bits 3 0.06 13
# years' lines that add up to it where the rows above them do not, which --years does not print
foot 793 0.06 14
footless --years 793 0.06 14
footless 325 0 13
footless --years 325 0 13

# a total that is wider than what stands above it
stated 15000 0 3
writes <<END
Loan 1: principal 15000.00, rate 0, months 3
 month   payment  principal  interest   balance
     1   5000.00    5000.00      0.00  10000.00
     2   5000.00    5000.00      0.00   5000.00
     3   5000.00    5000.00      0.00      0.00
year 1             15000.00      0.00      0.00
 total  15000.00   15000.00      0.00      0.00
END

# ---- years: months 1 to 12 are the first, and the term may cut the last one short

stated 1300 0 13
writes <<END
Loan 1: principal 1300.00, rate 0, months 13
 month  payment  principal  interest  balance
     1   100.00     100.00      0.00  1200.00
     2   100.00     100.00      0.00  1100.00
     3   100.00     100.00      0.00  1000.00
     4   100.00     100.00      0.00   900.00
     5   100.00     100.00      0.00   800.00
     6   100.00     100.00      0.00   700.00
     7   100.00     100.00      0.00   600.00
     8   100.00     100.00      0.00   500.00
     9   100.00     100.00      0.00   400.00
    10   100.00     100.00      0.00   300.00
    11   100.00     100.00      0.00   200.00
    12   100.00     100.00      0.00   100.00
year 1             1200.00      0.00   100.00
    13   100.00     100.00      0.00     0.00
year 2              100.00      0.00     0.00
 total  1300.00    1300.00      0.00     0.00
END
stated --years 1200 0 30
writes <<END
Loan 1: principal 1200.00, rate 0, months 30
 year  months  interest  principal  balance
    1      12      0.00     480.00   720.00
    2      12      0.00     480.00   240.00
    3       6      0.00     240.00     0.00
total      30      0.00    1200.00     0.00
END
warned --years --payment 100 --separators 8000 1.5 13
writes <<END
Loan 1: principal 8,000.00, rate 1.5, months 13
 year  months   interest  principal   balance
    1      12  12,000.00       0.00  8,000.00
    2       1   1,000.00   8,000.00      0.00
total      13  13,000.00   8,000.00      0.00
END
stated --years --bits 1200 0 12
writes <<END
Loan 1: principal 4092c00000000000, rate 0, months 12
 year  months          interest         principal           balance
    1      12  0000000000000000  4092c00000000000  0000000000000000
total      12  0000000000000000  4092c00000000000  0000000000000000
END
stated --years --csv 1200 0 30
writes <<END
loan,year,months,interest,principal,balance
1,1,12,0.00,480.00,720.00
1,2,12,0.00,480.00,240.00
1,3,6,0.00,240.00,0.00
END
stated --years --csv --total --payment nan 1200 nan 13
writes <<END
loan,year,months,interest,principal,balance
1,1,12,nan,0.00,1200.00
1,2,1,nan,1200.00,0.00
1,total,13,nan,1200.00,0.00
END

# ---- refusals

gives 1 -0.01 0.05 360
refused 1
gives 1 --csv nan 0.05 0
refused 1
gives 1 inf 0.05 360
refused 1
gives 1 1000 0.05 0
refused 2
gives 1 --bits --payment 5 1000 0.05 1201
refused 2
gives 1 1000 0.05 4294967295
refused 2
gives 1 -1 6 360
says <<END
senyolanda statement: loan 1: refused 1 at 0: the amount is below zero or not finite
END

# ---- records

test/record 1200 0 3 >"$room/a"
test/record 1000 6 2 >"$room/b"
test/record 1000 0 2 >"$room/c"
test/record -1 0 3 >"$room/bad"
{ printf '\002'; tail -c 20 "$room/a"; } >"$room/other"

stated --records "$room/a"
cp "$room/wrote" "$room/want"
stated 1200 0 3
writes <"$room/want"
stated --records="$room/a"
writes <"$room/want"

cat "$room/a" "$room/b" >"$room/records"
gives 0 --records "$room/records"
writes <<END
Loan 1: principal 1200.00, rate 0, months 3
 month  payment  principal  interest  balance
     1   400.00     400.00      0.00   800.00
     2   400.00     400.00      0.00   400.00
     3   400.00     400.00      0.00     0.00
year 1             1200.00      0.00     0.00
 total  1200.00    1200.00      0.00     0.00

Loan 2: principal 1000.00, rate 6, months 2
 month  payment  principal  interest  balance
     1   900.00     400.00    500.00   600.00
     2   900.00     600.00    300.00     0.00
year 1             1000.00    800.00     0.00
 total  1800.00    1000.00    800.00     0.00
END
says <<END
senyolanda statement: 1 loan has a rate above 1, which is 100 per cent a year; six per cent is 0.06
END

gives 0 --csv --total --records "$room/records"
writes <<END
loan,month,payment,principal,interest,balance
1,1,400.00,400.00,0.00,800.00
1,2,400.00,400.00,0.00,400.00
1,3,400.00,400.00,0.00,0.00
1,year 1,,1200.00,0.00,0.00
1,total,1200.00,1200.00,0.00,0.00
2,1,900.00,400.00,500.00,600.00
2,2,900.00,600.00,300.00,0.00
2,year 1,,1000.00,800.00,0.00
2,total,1800.00,1000.00,800.00,0.00
END

gives 0 --years --records "$room/records"
writes <<END
Loan 1: principal 1200.00, rate 0, months 3
 year  months  interest  principal  balance
    1       3      0.00    1200.00     0.00
total       3      0.00    1200.00     0.00

Loan 2: principal 1000.00, rate 6, months 2
 year  months  interest  principal  balance
    1       2    800.00    1000.00     0.00
total       2    800.00    1000.00     0.00
END

cat "$room/b" "$room/a" "$room/b" >"$room/records"
gives 0 --records "$room/records"
says <<END
senyolanda statement: 2 loans have a rate above 1, which is 100 per cent a year; six per cent is 0.06
END

# from standard input: a refused loan takes nothing from those after it, and its rate counts for nothing
{ cat "$room/bad" "$room/a" "$room/other" "$room/c"; test/record -1 6 3; } >"$room/records"
gives 1 --csv --records - <"$room/records"
writes <<END
loan,month,payment,principal,interest,balance
2,1,400.00,400.00,0.00,800.00
2,2,400.00,400.00,0.00,400.00
2,3,400.00,400.00,0.00,0.00
4,1,500.00,500.00,0.00,500.00
4,2,500.00,500.00,0.00,0.00
END
says <<END
senyolanda statement: loan 1: refused 1 at 0: the amount is below zero or not finite
senyolanda statement: loan 3: refused 11 at 2: the record is of another kind or length, or has an unknown code
senyolanda statement: loan 5: refused 1 at 4: the amount is below zero or not finite
senyolanda statement: 2 loans good, 3 refused
END
cp "$room/said" "$room/want"
gives 1 --csv --years --records - <"$room/records"
writes <<END
loan,year,months,interest,principal,balance
2,1,3,0.00,1200.00,0.00
4,1,2,0.00,1000.00,0.00
END
says <"$room/want"

# where both go to one place, a refusal stands between the loans before and after it
last="--csv --records=- 2>&1"
"$program" statement --csv --records=- <"$room/records" >"$room/wrote" 2>&1 || :
writes <<END
senyolanda statement: loan 1: refused 1 at 0: the amount is below zero or not finite
loan,month,payment,principal,interest,balance
2,1,400.00,400.00,0.00,800.00
2,2,400.00,400.00,0.00,400.00
2,3,400.00,400.00,0.00,0.00
senyolanda statement: loan 3: refused 11 at 2: the record is of another kind or length, or has an unknown code
4,1,500.00,500.00,0.00,500.00
4,2,500.00,500.00,0.00,0.00
senyolanda statement: loan 5: refused 1 at 4: the amount is below zero or not finite
senyolanda statement: 2 loans good, 3 refused
END

# a file that ends inside a record
{ cat "$room/b"; head -c 20 "$room/a"; } >"$room/records"
gives 1 --payment 100 --csv --records "$room/records"
writes <<END
loan,month,payment,principal,interest,balance
1,1,100.00,0.00,500.00,1000.00
1,2,1500.00,1000.00,500.00,0.00
END
says <<END
senyolanda statement: the file ends inside a record, 20 bytes left over after 1 record: 1 loan good, 0 refused
senyolanda statement: 1 loan has a rate above 1, which is 100 per cent a year; six per cent is 0.06
END
{ cat "$room/a" "$room/bad" "$room/c"; echo; } >"$room/records"
gives 1 --csv --records "$room/records"
[ "$(wc -l <"$room/wrote")" = 6 ] || fails "not the rows of the good loans"
says <<END
senyolanda statement: loan 2: refused 1 at 1: the amount is below zero or not finite
senyolanda statement: the file ends inside a record, 1 byte left over after 3 records: 2 loans good, 1 refused
END
head -c 5 "$room/a" >"$room/records"
gives 1 --records "$room/records"
writes </dev/null
says <<END
senyolanda statement: the file ends inside a record, 5 bytes left over after 0 records: 0 loans good, 0 refused
END

# an empty file, and an empty standard input
for file in /dev/null -; do
    gives 1 --all --records $file </dev/null
    writes </dev/null
    says <<END
senyolanda statement: the file is empty: no loan's record is there
END
done

# a file that is none of ours: read no further than its first ten records, were it without end
strange="senyolanda statement: the file seems not to hold loans' records, which have 21 bytes each, the first of them 1; --all reads on"
head -c 2100000 /dev/zero >"$room/zeros"
for file in "$room/zeros" /dev/zero README.md; do
    gives 1 --csv --records "$file"
    writes </dev/null
    [ "$(wc -l <"$room/said")" = 11 ] || fails "not ten refusals and a line about the file"
    [ "$(grep -c "^senyolanda statement: loan [0-9]*: refused 11 at [0-9]: " "$room/said")" = 10 ] || fails "not ten refusals"
    [ "$(tail -n 1 "$room/said")" = "$strange" ] || fails "what the file seems not to be is not said"
done
repeated 10 "$room/bad" >"$room/records"
gives 1 --records "$room/records"
[ "$(tail -n 1 "$room/said")" = "$strange" ] || fails "ten refusals from the start are not enough"
{ repeated 9 "$room/bad"; cat "$room/a"; } >"$room/records"
gives 1 --csv --records "$room/records"
[ "$(wc -l <"$room/wrote")" = 4 ] || fails "no statement after nine refusals"
[ "$(tail -n 1 "$room/said")" = "senyolanda statement: 1 loan good, 9 refused" ] || fails "not nine refusals"

# all of them, where it is asked for
{ repeated 30 "$room/bad"; cat "$room/a"; } >"$room/records"
gives 1 --all --csv --years --records "$room/records"
[ "$(wc -l <"$room/wrote")" = 2 ] || fails "no years after 30 refusals"
gives 1 --all --csv --records "$room/records"
[ "$(wc -l <"$room/wrote")" = 4 ] || fails "no statement after 30 refusals"
[ "$(wc -l <"$room/said")" = 31 ] || fails "not a line for each refusal"
[ "$(tail -n 1 "$room/said")" = "senyolanda statement: 1 loan good, 30 refused" ] || fails "not 30 refusals"

# refusals after a good loan: twenty are listed, the others counted
{ cat "$room/a"; repeated 20 "$room/bad"; cat "$room/a"; } >"$room/records"
gives 1 --csv --records "$room/records"
[ "$(wc -l <"$room/said")" = 21 ] || fails "not twenty refusals and a line"
[ "$(tail -n 1 "$room/said")" = "senyolanda statement: 2 loans good, 20 refused" ] || fails "twenty refusals are not all listed"
{ cat "$room/a"; repeated 25 "$room/bad"; cat "$room/a"; } >"$room/records"
gives 1 --csv --records "$room/records"
[ "$(wc -l <"$room/wrote")" = 7 ] || fails "no statement after 25 refusals"
[ "$(grep -c "^senyolanda statement: loan [0-9]*: refused 1 at " "$room/said")" = 20 ] || fails "not twenty refusals"
[ "$(sed -n '21,$p' "$room/said")" = "senyolanda statement: 2 loans good, 25 refused, the last 5 of them not listed above; --all lists them" ] ||
    fails "the refusals past the limit are not counted"
gives 1 --csv --all --records "$room/records"
[ "$(sed -n '25,$p' "$room/said")" = "senyolanda statement: loan 26: refused 1 at 25: the amount is below zero or not finite
senyolanda statement: 2 loans good, 25 refused" ] || fails "not every refusal is listed"

# ---- options in every form

stated --csv 1200 0 3
cp "$room/wrote" "$room/want"
for words in "1200 --csv 0 3" "1200 0 3 --csv" "--csv -- 1200 0 3" "--csv --csv 1200 0 3"; do
    # shellcheck disable=SC2086
    stated $words
    writes <"$room/want"
done
stated --csv --payment=400 1200 0 3
writes <"$room/want"
stated --payment 5 --payment=400 --csv 1200 0 3
writes <"$room/want"
cp "$room/a" "$room/--csv"
last="--csv --records=--csv, and --records --csv"
(cd "$room" && "$program" statement --csv --records=--csv >wrote 2>said && "$program" statement --csv --records --csv >>wrote 2>>said) ||
    fails "a file named --csv is not read"
cat "$room/want" "$room/want" >"$room/twice"
writes <"$room/twice"
for words in "-5 0.05 360" "-.5 0.05 360" "-inf 0.05 360" "-Infinity 0.05 360" "-nan 0.05 360" "-- -5 0.05 360"; do
    # shellcheck disable=SC2086
    gives 1 $words
    refused 1
done
stated --payment -5 --csv 1000 -0.05 2
cp "$room/wrote" "$room/want"
stated --payment=-5 --csv 1000 -0.05 2
writes <"$room/want"

stated --help
cp "$room/wrote" "$room/want"
grep -q "Exit status: 0" "$room/wrote" || fails "no help"
for words in -h "1000 -h" "--csv --help 5"; do
    # shellcheck disable=SC2086
    stated $words
    writes <"$room/want"
done
for option in --records --payment --years --csv --total --separators --bits --all --help; do
    grep -q -e "^  .*$option " "$room/want" || fails "the help does not have $option"
done

# ---- bad usage, and failures to read and write: status 2, one line, no row

wrong "principal '12x' is no decimal number" 12x 0.05 360
wrong "principal ''" "" 0.05 360
wrong "principal ' 5'" " 5" 0.05 360
wrong "principal '1,000'" 1,000 0.05 360
wrong "principal '1e999' is too large" 1e999 0.05 360
wrong "rate '5%'" 1000 5% 360
wrong "rate '0.05 '" 1000 "0.05 " 360
wrong "payment '-1e999' is too large" --payment -1e999 1000 0.05 360
for small in 1e-400 -1e-400 2e-324; do
    wrong "rate '$small' is too small for a binary64" 1000 $small 360
    wrong "principal '$small' is too small for a binary64" $small 0.05 360
    wrong "payment '$small' is too small for a binary64" --payment $small 1000 0.05 360
done
for hexadecimal in 0x10 0X10 -0x10 +0x1p3 0x1p-2000 0x0; do
    wrong "principal '$hexadecimal' is no decimal number" $hexadecimal 0.05 360
    wrong "rate '$hexadecimal' is no decimal number" 1000 $hexadecimal 360
    wrong "payment '$hexadecimal' is no decimal number" --payment=$hexadecimal 1000 0.05 360
done
for months in 3.5 -1 +3 "" " 3" "3 " 0x3 1e2 4294967296 18446744073709551619 nan; do
    wrong "months '$months'" 1000 0.05 "$months"
done
wrong principal
wrong principal 1000 0.05
wrong "'4'" 1000 0.05 360 4
wrong "'--csv'" -- 1000 0.05 360 --csv
wrong "no option --months;" --months 5 1000 0.05 360
wrong "no option --record;" --record "$room/a"
wrong "no option --records2=5;" --records2=5
wrong "no option -x;" -x 1000 0.05 360
wrong "no option -c;" 1000 0.05 360 -c
wrong "--csv takes no value, and '5' was given" --csv=5 1000 0.05 360
wrong "--years takes no value, and '5' was given" --years=5 1000 0.05 360
wrong "no option --year;" --year 1000 0.05 360
wrong "--payment wants an amount" 1000 0.05 360 --payment
wrong "payment ''" --payment= 1000 0.05 360
wrong "payment '--csv'" --payment --csv 1000 0.05 360
wrong "--records wants a file's name" --records
wrong --records --records "$room/a" 1000 0.05 360
wrong "--separators does not go with --csv" --separators --csv 1000 0.05 360
wrong "--separators does not go with --csv" --years --separators --csv 1000 0.05 360
wrong "--separators does not go with --bits" --separators --bits 1000 0.05 360
wrong "$room: Is a directory" --records "$room"
wrong "$room/none: No such file" --records "$room/none"
wrong "cannot open : No such file" --records=

last="closed standard input"
status=0
"$program" statement --records - <&- >"$room/wrote" 2>"$room/said" || status=$?
[ "$status" = 2 ] || fails "exit status $status and not 2"
says_once "cannot read standard input: "

repeated 2000 "$room/a" >"$room/many"
for words in "1200 0 3" "1200 0 1200" "--csv 1200 0 1200" "--csv 1200 0 3" "--help" "--records $room/many" "--csv --records $room/many" \
    "--years 1200 0 3" "--years --csv 1200 0 1200" "--years --records $room/many" "--years --csv --records $room/many"; do
    last="$words, on a full device"
    status=0
    # shellcheck disable=SC2086
    "$program" statement $words >/dev/full 2>"$room/said" || status=$?
    unwritten "No space left on device"
    last="$words, with standard output closed"
    status=0
    # shellcheck disable=SC2086
    "$program" statement $words >&- 2>"$room/said" || status=$?
    unwritten "Bad file descriptor"
done

# a disk that is full in the middle: the rows that were written are the first ones
last="--csv --records $room/many, in a file that may not grow"
"$program" statement --csv --records "$room/many" >"$room/want"
status=0
(
    trap '' XFSZ
    ulimit -f 100
    exec "$program" statement --csv --records "$room/many" >"$room/wrote" 2>"$room/said"
) || status=$?
unwritten "File too large"
size=$(wc -c <"$room/wrote")
[ "$size" -gt 0 ] && [ "$size" -lt "$(wc -c <"$room/want")" ] || fails "nothing, or everything, was written"
head -c "$size" "$room/want" | cmp -s - "$room/wrote" || fails "other bytes were written than the first ones"

# a full disk ends the work: of loans without end no more is read
last="--csv --records - of loans without end, on a full device"
perl -e 'my $loan = <STDIN>; print $loan x 1000 while 1' <"$room/a" 2>/dev/null |
    { timeout 60 "$program" statement --csv --records - >/dev/full 2>"$room/said" || echo "$?" >"$room/status"; }
status=$(cat "$room/status")
unwritten "No space left on device"

# a reader that goes away ends it too
last="--csv --records $room/many | head -n 1"
{
    status=0
    "$program" statement --csv --records "$room/many" 2>"$room/said" || status=$?
    echo "$status" >"$room/status"
} | head -n 1 >"$room/wrote"
writes <<END
loan,month,payment,principal,interest,balance
END
[ "$(cat "$room/status")" -gt 1 ] || fails "it writes on where nobody reads"
echo "statement: $count runs as they should be"
