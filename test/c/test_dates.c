/* Dates: their numbers and back, months later, and what lies between two of them, by actual days and by 30/360. */
#include "calendar.h"
#include "damaged.h"

static const struct claim matrix[] = {
    /*                      1 2 3 4 5 6 7 8 9 10 11 12 13 14 15 16 */
    CLAIM(day_number,      ". . . . . . . . . .. .. .. .. .. 15 .."),
    CLAIM(date_of_number,  ". . . . . . . . . .. .. .. .. .. 15 .."),
    CLAIM(months_later,    ". . . . . . . . . .. .. .. .. .. 15 .."),
    CLAIM(actual_days,     ". . . . . . . . . .. .. .. .. .. 15 .."),
    CLAIM(days_30_360,     ". . . . . . . . . .. .. .. .. .. 15 .."),
    CLAIM(dated_fraction,  ". . . . . . . . . .. 11 .. .. .. 15 .."),
    END_OF_MATRIX,
};

/* ---- calls ---- */

static uint32_t *lend_date(void) {
    return lend(FOR_ANSWER, SENYOLANDA_DATE_NUMBERS * sizeof(uint32_t));
}

static senyolanda_result call_day_number(void) {
    uint32_t *number = lend_count();
    return CALL(senyolanda_day_number(desk.first.year, desk.first.month, desk.first.day, number));
}

static senyolanda_result call_date_of_number(void) {
    uint32_t *date = lend_date();
    return CALL(senyolanda_date_of_number(desk.day_number, date));
}

static senyolanda_result call_months_later(void) {
    uint32_t *date = lend_date();
    return CALL(senyolanda_months_later(desk.first.year, desk.first.month, desk.first.day, desk.months, date));
}

#define BOTH_DATES \
    desk.first.year, desk.first.month, desk.first.day, desk.second.year, desk.second.month, desk.second.day

static senyolanda_result call_actual_days(void) {
    uint32_t *days = lend_count();
    return CALL(senyolanda_actual_days(BOTH_DATES, days));
}

static senyolanda_result call_days_30_360(void) {
    uint32_t *days = lend_count();
    return CALL(senyolanda_days_30_360(BOTH_DATES, days));
}

static senyolanda_result call_dated_fraction(void) {
    double *fraction = lend_number();
    return CALL(senyolanda_dated_fraction(desk.day_count, BOTH_DATES, fraction));
}

/* ---- causes: at rest from 31 January 2023 to 15 January 2025 ---- */

/* Numbers that a byte, or two, would cut down to those of a date. */
#define WIDER_THAN_A_RECORD(date)                             \
    CAUSE(15, WHOLE(date.year, 65536 + 2023)),                \
    CAUSE(15, WHOLE(date.month, 256 + 1)),                    \
    CAUSE(15, WHOLE(date.day, 256 + 1)),                      \
    CAUSE(15, WHOLE(date.year, UINT32_MAX)),                  \
    CAUSE(15, WHOLE(date.month, UINT32_MAX)),                 \
    CAUSE(15, WHOLE(date.day, UINT32_MAX))

static const struct cause date_causes[] = {
    NO_DATE(first),
    WIDER_THAN_A_RECORD(first),
    TAKEN(SET_DATE(first, 1900, 1, 1)),
    TAKEN(SET_DATE(first, 2000, 2, 29)),
    END_OF_CAUSES,
};

static const struct cause number_causes[] = {
    CAUSE(15, WHOLE(day_number, 0)),
    CAUSE(15, WHOLE(day_number, 1)),
    CAUSE(15, WHOLE(day_number, 109575)),
    CAUSE(15, WHOLE(day_number, 65536 + 109574)),
    CAUSE(15, WHOLE(day_number, UINT32_MAX)),
    TAKEN(WHOLE(day_number, 2)),
    TAKEN(WHOLE(day_number, 109574)),
    END_OF_CAUSES,
};

/* January 2023 is month 24276, counted from the year 0: the last of all is 26399, 2123 months on, and 2^32 of them come round. */
static const struct cause months_causes[] = {
    CAUSE(15, WHOLE(months, 2124)),
    CAUSE(15, WHOLE(months, 3600)),
    CAUSE(15, WHOLE(months, UINT32_MAX)),
    CAUSE(15, WHOLE(months, UINT32_MAX - 24275)),
    CAUSE(15, WHOLE(months, UINT32_MAX - 24275 + 22800)),
    CAUSE(15, WHOLE(months, UINT32_MAX - 24275 + 24275)),
    CAUSE(15, SET_DATE(first, 2199, 12, 31)),
    TAKEN(SET_DATE(first, 2199, 6, 30)),
    TAKEN(WHOLE(months, 2123)),
    TAKEN(WHOLE(months, 0)),
    END_OF_CAUSES,
};

static const struct cause span_causes[] = {
    NO_DATE(second),
    WIDER_THAN_A_RECORD(second),
    NOT_IN_ORDER(first, second),
    SPAN_TAKEN(first, second),
    TAKEN(SET_DATE(second, 2199, 12, 31)),
    END_OF_CAUSES,
};

static const struct cause day_count_causes[] = {
    CODES(day_count, 2),
    END_OF_CAUSES,
};

static const struct function functions[] = {
    { FUNCTION(day_number), { date_causes }, NULL },
    { FUNCTION(date_of_number), { number_causes }, NULL },
    { FUNCTION(months_later), { date_causes, months_causes }, NULL },
    { FUNCTION(actual_days), { date_causes, span_causes }, NULL },
    { FUNCTION(days_30_360), { date_causes, span_causes }, NULL },
    { FUNCTION(dated_fraction), { date_causes, span_causes, day_count_causes }, NULL },
    END_OF_FUNCTIONS,
};

/* ---- figures ---- */

static void set_first(uint32_t year, uint32_t month, uint32_t day) {
    struct date date = { year, month, day };
    desk.first = date;
}

static void is_answered_date(struct date date) {
    const uint32_t *answer = answered_counts(0);
    CHECK(answer[0] == date.year && answer[1] == date.month && answer[2] == date.day);
}

static void is_numbered(uint32_t year, uint32_t month, uint32_t day, uint32_t number) {
    set_first(year, month, day);
    CHECK(COUNT_OF(call_day_number) == number);
    desk.day_number = number;
    ACCEPTED(call_date_of_number);
    is_answered_date(desk.first);
}

static void numbers(void) {
    is_numbered(1900, 1, 1, 2);
    is_numbered(1900, 2, 28, 60);
    is_numbered(1900, 3, 1, 61);
    is_numbered(1999, 12, 31, 36525);
    is_numbered(2000, 1, 1, 36526);
    is_numbered(2000, 2, 29, 36585);
    is_numbered(2000, 3, 1, 36586);
    is_numbered(2100, 2, 28, 73109);
    is_numbered(2100, 3, 1, 73110);
    is_numbered(2199, 12, 31, 109574);
}

/* From day to day over the 300 years: the numbers rise by one, and each gives its date back. */
static void every_date(void) {
    uint32_t number = 2;
    for (struct date date = { FIRST_YEAR, 1, 1 }; date.year <= LAST_YEAR; date = next_day(date))
        is_numbered(date.year, date.month, date.day, number++);
    CHECK(number == 109575);
}

static int set_and_is_date(uint32_t year, uint32_t month, uint32_t day) {
    set_first(year, month, day);
    return is_date(desk.first);
}

/* Three numbers in and around every range are a date or 15, as a first date and as a second. */
static void try_triple(uint32_t year, uint32_t month, uint32_t day) {
    int holds = set_and_is_date(year, month, day);
    gives(call_day_number, refusal(holds ? 0 : 15, 0), __FILE__, __LINE__, "the number of a triple");
    if (holds) CHECK(answered_count(0) == number_of_date(desk.first));
    desk.months = 0;
    gives(call_months_later, refusal(holds ? 0 : 15, 0), __FILE__, __LINE__, "a triple no months later");
    if (holds) is_answered_date(desk.first);
    struct date triple = desk.first, last = { LAST_YEAR, 12, 31 }, start = { FIRST_YEAR, 1, 1 };
    desk.second = last;
    gives(call_actual_days, refusal(holds && is_later(last, triple) ? 0 : 15, 0), __FILE__, __LINE__, "days from a triple");
    gives(call_days_30_360, refusal(holds && is_later(last, triple) ? 0 : 15, 0), __FILE__, __LINE__, "30/360 from a triple");
    desk.first = start;
    desk.second = triple;
    gives(call_actual_days, refusal(holds && is_later(triple, start) ? 0 : 15, 0), __FILE__, __LINE__, "days to a triple");
    gives(call_days_30_360, refusal(holds && is_later(triple, start) ? 0 : 15, 0), __FILE__, __LINE__, "30/360 to a triple");
}

#define LENGTH(list) (sizeof list / sizeof *list)

static void every_triple(void) {
    static const uint32_t years[] = { 0, 1, 1899, 1900, 1901, 1904, 2000, 2023, 2024, 2100, 2198, 2199, 2200, 2300, 65535,
        65536 + 2024, UINT32_MAX - 1, UINT32_MAX };
    static const uint32_t months[] = { 0, 1, 2, 3, 4, 5, 6, 7, 8, 9, 10, 11, 12, 13, 14, 255, 256 + 2, 65536 + 1, UINT32_MAX };
    static const uint32_t days[] = { 0, 1, 2, 27, 28, 29, 30, 31, 32, 33, 255, 256 + 1, 65536 + 1, UINT32_MAX };
    for (size_t y = 0; y < LENGTH(years); y++)
        for (size_t m = 0; m < LENGTH(months); m++)
            for (size_t d = 0; d < LENGTH(days); d++) try_triple(years[y], months[m], days[d]);
    tidy_desk();
}

static void is_later_date(uint32_t months, uint32_t year, uint32_t month, uint32_t day) {
    struct date date = { year, month, day };
    desk.months = months;
    ACCEPTED(call_months_later);
    is_answered_date(date);
}

/* The day is cut to the month's end, and stands again in the next month that has it. */
static void months_later(void) {
    set_first(2023, 1, 31);
    is_later_date(0, 2023, 1, 31);
    is_later_date(1, 2023, 2, 28);
    is_later_date(2, 2023, 3, 31);
    is_later_date(3, 2023, 4, 30);
    is_later_date(13, 2024, 2, 29);
    is_later_date(11, 2023, 12, 31);
    is_later_date(12, 2024, 1, 31);
    set_first(2024, 2, 29);
    is_later_date(12, 2025, 2, 28);
    is_later_date(48, 2028, 2, 29);
    is_later_date(1, 2024, 3, 29);
    set_first(2023, 2, 28);
    is_later_date(1, 2023, 3, 28);
    is_later_date(12, 2024, 2, 28);
    set_first(1900, 1, 31);
    is_later_date(1, 1900, 2, 28);
    is_later_date(2401, 2100, 2, 28);
    is_later_date(3599, 2199, 12, 31);
}

static void try_months(uint32_t months) {
    struct date later = months_on(desk.first, months);
    desk.months = months;
    gives(call_months_later, refusal(is_date(later) ? 0 : 15, 0), __FILE__, __LINE__, "months later");
    if (is_date(later)) is_answered_date(later);
}

/* Every count of months from the ends of the first month and of a leap February, and any from any date. */
static void every_months(void) {
    static const struct date from[] = { { 1900, 1, 31 }, { 1900, 1, 1 }, { 1904, 2, 29 } };
    for (size_t i = 0; i < LENGTH(from); i++)
        for (uint32_t months = 0; months < 3610; months++) {
            desk.first = from[i];
            try_months(months);
        }
    for (int i = 0; i < 20000; i++) {
        desk.first = random_date();
        try_months(random_below(3700));
    }
}

static void counts(uint32_t actual, uint32_t bond_basis) {
    CHECK(COUNT_OF(call_actual_days) == actual);
    CHECK(COUNT_OF(call_days_30_360) == bond_basis);
    desk.day_count = SENYOLANDA_ACTUAL_360;
    IS(NUMBER_OF(call_dated_fraction), actual / 360.0);
    desk.day_count = SENYOLANDA_ACTUAL_365;
    IS(NUMBER_OF(call_dated_fraction), actual / 365.0);
    desk.day_count = SENYOLANDA_THIRTY_360;
    IS(NUMBER_OF(call_dated_fraction), bond_basis / 360.0);
}

struct counted {
    struct span span;
    uint32_t actual, bond_basis;
};

static const struct counted around_month_ends[] = {
    { { { 2023, 1, 31 }, { 2023, 2, 28 } }, 28, 28 },
    { { { 2023, 1, 30 }, { 2023, 3, 31 } }, 60, 60 },
    { { { 2023, 1, 31 }, { 2023, 3, 31 } }, 59, 60 },
    { { { 2023, 1, 29 }, { 2023, 3, 31 } }, 61, 62 },
    { { { 2023, 2, 28 }, { 2023, 3, 31 } }, 31, 33 },
    { { { 2023, 8, 31 }, { 2023, 9, 30 } }, 30, 30 },
    { { { 2023, 9, 30 }, { 2023, 10, 31 } }, 31, 30 },
    { { { 2023, 9, 29 }, { 2023, 10, 31 } }, 32, 32 },
    { { { 2023, 1, 30 }, { 2023, 1, 31 } }, 1, 0 },
    { { { 2023, 12, 30 }, { 2023, 12, 31 } }, 1, 0 },
    { { { 2023, 12, 31 }, { 2024, 1, 1 } }, 1, 1 },
    { { { 2023, 1, 1 }, { 2023, 1, 31 } }, 30, 30 },
};

/* To a leap February and from it; the last of February is a day like another. */
static const struct counted around_february[] = {
    { { { 2024, 1, 31 }, { 2024, 2, 29 } }, 29, 29 },
    { { { 2024, 2, 29 }, { 2024, 3, 31 } }, 31, 32 },
    { { { 2024, 2, 28 }, { 2024, 2, 29 } }, 1, 1 },
    { { { 2024, 2, 29 }, { 2024, 3, 1 } }, 1, 2 },
    { { { 2023, 2, 28 }, { 2023, 3, 1 } }, 1, 3 },
    { { { 2024, 2, 29 }, { 2025, 2, 28 } }, 365, 359 },
    { { { 2023, 2, 28 }, { 2024, 2, 29 } }, 366, 361 },
    { { { 1900, 2, 28 }, { 1900, 3, 1 } }, 1, 3 },
    { { { 2100, 2, 28 }, { 2100, 3, 1 } }, 1, 3 },
    { { { 2000, 2, 28 }, { 2000, 3, 1 } }, 2, 3 },
};

static const struct counted to_the_ends[] = {
    { { { 1900, 1, 1 }, { 2199, 12, 31 } }, 109572, 108000 },
    { { { 2199, 12, 30 }, { 2199, 12, 31 } }, 1, 0 },
    { { { 1900, 1, 1 }, { 1900, 1, 2 } }, 1, 1 },
    { { { 1900, 1, 1 }, { 1901, 1, 1 } }, 365, 360 },
    { { { 2000, 1, 1 }, { 2001, 1, 1 } }, 366, 360 },
};

static void are_counted(const struct counted *list, size_t length) {
    for (size_t i = 0; i < length; i++) {
        desk.first = list[i].span.first;
        desk.second = list[i].span.second;
        counts(list[i].actual, list[i].bond_basis);
    }
}

/* Any two dates, by this test's own calendar; and from the second to the first, which is 15. */
static void random_spans(void) {
    for (int i = 0; i < 100000; i++) {
        struct span span = random_span();
        desk.first = span.first;
        desk.second = span.second;
        counts(actual_days_between(span.first, span.second), bond_basis_days_between(span.first, span.second));
        desk.first = i % 2 ? span.first : span.second;
        desk.second = span.first;
        REFUSED(call_actual_days, 15, 0);
        REFUSED(call_days_30_360, 15, 0);
        REFUSED(call_dated_fraction, 15, 0);
    }
}

int main(int arguments, char **words) {
    open_tests("test_dates", matrix, arguments, words);
    try_functions(functions);
    numbers();
    every_date();
    every_triple();
    months_later();
    every_months();
    are_counted(around_month_ends, LENGTH(around_month_ends));
    are_counted(around_february, LENGTH(around_february));
    are_counted(to_the_ends, LENGTH(to_the_ends));
    random_spans();
    return close_checks();
}
