// quantlib_days list | many: pairs of dates with the days that QuantLib counts between them, a line each: the first date, the second,
// the actual days, and the days by 30/360, its bond basis. The list is the pairs around month ends that test/days.list keeps; many are
// pairs at random, the same in every run. QuantLib's calendar begins in 1901.
#include <ql/time/date.hpp>
#include <ql/time/daycounters/actual365fixed.hpp>
#include <ql/time/daycounters/thirty360.hpp>

#include <cstdint>
#include <cstdio>
#include <cstring>

using namespace QuantLib;

namespace {

const DayCounter actual = Actual365Fixed();
const DayCounter bond_basis = Thirty360(Thirty360::BondBasis);

void print(const Date &first, const Date &second) {
    std::printf("%04d-%02d-%02d %04d-%02d-%02d %d %d\n", int(first.year()), int(first.month()), int(first.dayOfMonth()),
        int(second.year()), int(second.month()), int(second.dayOfMonth()), int(actual.dayCount(first, second)),
        int(bond_basis.dayCount(first, second)));
}

const Date first_of_all(1, January, 1901), last_of_all(31, December, 2199);

// From the last days of a month, and its first, to those of the month so many months on.
void around(const Date &month_end, int months) {
    const Date other = Date::endOfMonth(Date(1, month_end.month(), month_end.year()) + months * Months);
    for (int i = -2; i <= 1; i++)
        for (int k = -2; k <= 1; k++) {
            const Date first = month_end + i, second = other + k;
            if (first >= first_of_all && second <= last_of_all && first < second) print(first, second);
        }
}

// Every month's end of a plain year and of a leap one, to the months behind it; Februaries of the centuries and beside them; and the ends.
void list() {
    for (const int year : {2023, 2024})
        for (int month = 1; month <= 12; month++)
            for (const int months : {0, 1, 6, 12}) around(Date::endOfMonth(Date(1, Month(month), year)), months);
    for (const int year : {1901, 1904, 1999, 2000, 2096, 2100, 2104, 2196})
        for (const int months : {0, 1, 12, 36}) around(Date::endOfMonth(Date(1, February, year)), months);
    for (int year = 1901; year < 2199; year += 22) print(Date(31, January, year), last_of_all);
    for (int month = 1; month <= 12; month++) print(Date::endOfMonth(Date(1, Month(month), 2199)) - 1, last_of_all);
}

std::uint64_t state = 0x9e3779b97f4a7c15;

std::uint32_t below(std::uint32_t end) {
    state ^= state >> 12;
    state ^= state << 25;
    state ^= state >> 27;
    return std::uint32_t((state * 0x2545f4914f6cdd1d >> 32) * end >> 32);
}

// Any date, or one of the last three days of a month, or the first of the next.
Date any_date() {
    const Date date = first_of_all + below(std::uint32_t(last_of_all - first_of_all) + 1);
    if (below(2)) return date;
    const Date beside = Date::endOfMonth(date) - 2 + below(4);
    return beside <= last_of_all ? beside : last_of_all;
}

void many() {
    for (int i = 0; i < 200000; i++) {
        const Date one = any_date(), other = below(2) ? any_date() : one + 1 + below(100);
        if (one < other && other <= last_of_all) print(one, other);
        if (other < one) print(other, one);
    }
}

}

int main(int arguments, char **words) {
    if (arguments == 2 && std::strcmp(words[1], "list") == 0) list();
    else if (arguments == 2 && std::strcmp(words[1], "many") == 0) many();
    else return 2;
    return std::fflush(stdout) != 0;
}
