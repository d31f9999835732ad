#include "calendar.h"

#include "damaged.h"

enum { YEARS = LAST_YEAR - FIRST_YEAR + 1 };

static uint32_t lengths[YEARS][12], starts[YEARS][12];

static int is_leap(uint32_t year) {
    return year % 4 == 0 && (year % 100 != 0 || year % 400 == 0);
}

/* January 1900 begins with number 2, and every month where the one before it ends. */
static void fill_table(void) {
    static const uint32_t of_plain_year[] = { 31, 28, 31, 30, 31, 30, 31, 31, 30, 31, 30, 31 };
    uint32_t start = 2;
    for (uint32_t k = 0; k < YEARS; k++)
        for (uint32_t month = 0; month < 12; month++) {
            lengths[k][month] = of_plain_year[month] + (month == 1 && is_leap(FIRST_YEAR + k));
            starts[k][month] = start;
            start += lengths[k][month];
        }
}

uint32_t days_in_month(uint32_t year, uint32_t month) {
    if (lengths[0][0] == 0) fill_table();
    return lengths[year - FIRST_YEAR][month - 1];
}

int is_date(struct date date) {
    if (date.year < FIRST_YEAR || date.year > LAST_YEAR || date.month < 1 || date.month > 12) return 0;
    return date.day >= 1 && date.day <= days_in_month(date.year, date.month);
}

int is_later(struct date date, struct date than) {
    if (date.year != than.year) return date.year > than.year;
    if (date.month != than.month) return date.month > than.month;
    return date.day > than.day;
}

uint32_t number_of_date(struct date date) {
    if (lengths[0][0] == 0) fill_table();
    return starts[date.year - FIRST_YEAR][date.month - 1] + date.day - 1;
}

static struct date month_on(struct date date) {
    struct date next = { date.month == 12 ? date.year + 1 : date.year, date.month == 12 ? 1 : date.month + 1, date.day };
    return next;
}

struct date next_day(struct date date) {
    if (date.day < days_in_month(date.year, date.month)) {
        date.day++;
        return date;
    }
    date.day = 1;
    return month_on(date);
}

struct date cut_to_month(struct date date) {
    uint32_t last = date.year <= LAST_YEAR ? days_in_month(date.year, date.month) : date.day;
    if (date.day > last) date.day = last;
    return date;
}

struct date months_on(struct date date, uint32_t months) {
    for (uint32_t i = 0; i < months && date.year <= LAST_YEAR; i++) date = month_on(date);
    return cut_to_month(date);
}

uint32_t actual_days_between(struct date first, struct date second) {
    return number_of_date(second) - number_of_date(first);
}

/* Thirty for each month from the one to the other, twelve to a year, and the days as they are read. */
uint32_t bond_basis_days_between(struct date first, struct date second) {
    int months = 12 * ((int)second.year - (int)first.year) + (int)second.month - (int)first.month;
    int from = first.day < 31 ? (int)first.day : 30;
    int to = second.day < 31 || from < 30 ? (int)second.day : 30;
    return (uint32_t)(30 * months + to - from);
}

double fraction_between(uint32_t day_count, struct date first, struct date second) {
    if (day_count == SENYOLANDA_THIRTY_360) return bond_basis_days_between(first, second) / 360.0;
    return actual_days_between(first, second) / (day_count == SENYOLANDA_ACTUAL_365 ? 365.0 : 360.0);
}

/* From the 27th of a month to the 1st of the next. */
static struct date around_month_end(struct date date) {
    date.day = 27 + random_below(6);
    return date.day <= days_in_month(date.year, date.month) ? date : next_day(cut_to_month(date));
}

struct date random_date(void) {
    struct date date = { FIRST_YEAR + random_below(YEARS), 1 + random_below(12), 1 + random_below(31) };
    date = cut_to_month(random_below(2) ? around_month_end(date) : date);
    return is_date(date) ? date : random_date();
}

/* Every other span is of a few years at most. */
struct span random_span(void) {
    struct span span = { random_date(), random_date() };
    if (random_below(2)) span.second.year = span.first.year + random_below(4);
    if (span.second.year <= LAST_YEAR) span.second = cut_to_month(span.second);
    return is_date(span.second) && is_later(span.second, span.first) ? span : random_span();
}
