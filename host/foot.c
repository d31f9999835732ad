/* Whether what a table prints adds up, for its foot. */
#include "lines.h"

/* Where a row, and a year's line, have their amounts. */
enum { ROW_PAYMENT = 1, ROW_PRINCIPAL = 2, ROW_INTEREST = 3, YEAR_INTEREST = 1, YEAR_PRINCIPAL = 2 };

/* Whether amounts that stand so far apart add up to a total, all as they are printed. They are added modulo 2^64, and differ by
   far less: by roundings of at most 1,200 sums below 2^75. Of larger amounts nothing is said. */
static bool add_up(const double *amounts, size_t apart, uint32_t count, double total) {
    uint64_t sum = 0, cents;
    for (uint32_t index = 0; index < count; index++) {
        if (!written_cents(amounts[index * apart], &cents)) return true;
        sum += cents;
    }
    return !written_cents(total, &cents) || sum == cents;
}

static bool rows_add_up(const struct schedule *schedule, uint32_t first, uint32_t count, int place, double total) {
    const double *row = schedule->rows + (size_t)first * SENYOLANDA_ROW_PLACES;
    return add_up(row + place, SENYOLANDA_ROW_PLACES, count, total);
}

static bool rows_add_up_to_total(const struct schedule *schedule) {
    return rows_add_up(schedule, 0, schedule->months, ROW_PAYMENT, schedule->total.payment)
        && rows_add_up(schedule, 0, schedule->months, ROW_PRINCIPAL, schedule->total.principal)
        && rows_add_up(schedule, 0, schedule->months, ROW_INTEREST, schedule->total.interest);
}

static bool rows_add_up_to_year(const struct schedule *schedule, uint32_t index) {
    const struct senyolanda_year year = senyolanda_year_at(schedule->years, index);
    const uint32_t first = MONTHS_OF_A_YEAR * index, count = (uint32_t)year.months;
    return rows_add_up(schedule, first, count, ROW_PRINCIPAL, year.principal)
        && rows_add_up(schedule, first, count, ROW_INTEREST, year.interest);
}

static bool rows_add_up_to_years(const struct schedule *schedule) {
    for (uint32_t index = 0; index < SENYOLANDA_STARTED_YEARS(schedule->months); index++)
        if (!rows_add_up_to_year(schedule, index)) return false;
    return true;
}

static bool years_add_up_to_total(const struct schedule *schedule) {
    const uint32_t count = SENYOLANDA_STARTED_YEARS(schedule->months);
    return add_up(schedule->years + YEAR_PRINCIPAL, SENYOLANDA_YEAR_PLACES, count, schedule->total.principal)
        && add_up(schedule->years + YEAR_INTEREST, SENYOLANDA_YEAR_PLACES, count, schedule->total.interest);
}

/* Rows that add up to the years' lines and to the total make the lines add up to it too. */
bool adds_up(const struct schedule *schedule, const struct layout *layout) {
    if (!layout->rows) return years_add_up_to_total(schedule);
    return rows_add_up_to_total(schedule) && rows_add_up_to_years(schedule);
}
