/*
 * The tests' own calendar: a table of every month of the 300 years, its length by the rhyme and by the leap rule, and the number
 * of its first day by adding up the lengths before it.
 */
#ifndef CALENDAR_H
#define CALENDAR_H

#include "functions.h"

enum { FIRST_YEAR = 1900, LAST_YEAR = 2199 };

uint32_t days_in_month(uint32_t year, uint32_t month);
int is_date(struct date date);
int is_later(struct date date, struct date than);

/* The number of a date, 2 for the first; the day after it; and the date so many months on, gone month by month. */
uint32_t number_of_date(struct date date);
struct date next_day(struct date date);
struct date months_on(struct date date, uint32_t months);

/* Where the month has no such day, its last one. */
struct date cut_to_month(struct date date);

/* From one date to a later one. */
uint32_t actual_days_between(struct date first, struct date second);
uint32_t bond_basis_days_between(struct date first, struct date second);
double fraction_between(uint32_t day_count, struct date first, struct date second);

/* A date of the calendar, every other time one at a month's end or in the days around it; two of them, the second the later. */
struct date random_date(void);
struct span {
    struct date first, second;
};
struct span random_span(void);

/* What a record, too, can hold and no calendar has, of a first date and a second that are 31 January 2023 and 15 January 2025 at
   rest; dates of which the second is not the later set both years, so that no other cause puts them in order. */
#define NO_YEAR(argument)                                     \
    CAUSE(15, WHOLE(argument, 0)),                            \
    CAUSE(15, WHOLE(argument, 1899)),                         \
    CAUSE(15, WHOLE(argument, 2200)),                         \
    CAUSE(15, WHOLE(argument, UINT16_MAX))
#define NO_MONTH(argument)                                    \
    CAUSE(15, WHOLE(argument, 0)),                            \
    CAUSE(15, WHOLE(argument, 13)),                           \
    CAUSE(15, WHOLE(argument, UINT8_MAX))
#define NO_DAY(argument)                                      \
    CAUSE(15, WHOLE(argument, 0)),                            \
    CAUSE(15, WHOLE(argument, 32)),                           \
    CAUSE(15, WHOLE(argument, UINT8_MAX))
#define SET_DATE(date, y, m, d) WHOLE(date.year, y), WHOLE(date.month, m), WHOLE(date.day, d)
#define NO_DATE(date)                                         \
    NO_YEAR(date.year),                                       \
    NO_MONTH(date.month),                                     \
    NO_DAY(date.day),                                         \
    CAUSE(15, SET_DATE(date, 2023, 2, 29)),                   \
    CAUSE(15, SET_DATE(date, 2024, 2, 30)),                   \
    CAUSE(15, SET_DATE(date, 2100, 2, 29)),                   \
    CAUSE(15, SET_DATE(date, 1900, 2, 29)),                   \
    CAUSE(15, SET_DATE(date, 2024, 4, 31)),                   \
    CAUSE(15, SET_DATE(date, 2024, 11, 31))
#define NOT_IN_ORDER(first, second)                                                    \
    CAUSE(15, WHOLE(first.year, 2023), WHOLE(second.year, 2023), WHOLE(second.day, 31)),  \
    CAUSE(15, WHOLE(first.year, 2024), WHOLE(second.year, 2024), WHOLE(second.day, 30)),  \
    CAUSE(15, WHOLE(first.year, 2024), WHOLE(second.year, 2024), WHOLE(first.month, 3)),  \
    CAUSE(15, WHOLE(first.year, 2025), WHOLE(second.year, 2024), WHOLE(second.month, 12)), \
    CAUSE(15, WHOLE(first.year, 2199), WHOLE(second.year, 1900))
#define SPAN_TAKEN(first, second)                                                      \
    TAKEN(SET_DATE(second, 2023, 2, 1)),                                               \
    TAKEN(SET_DATE(second, 2024, 2, 29)),                                              \
    TAKEN(SET_DATE(first, 2024, 2, 29)),                                               \
    TAKEN(SET_DATE(first, 2000, 2, 29)),                                               \
    TAKEN(SET_DATE(first, 2025, 1, 14)),                                               \
    TAKEN(WHOLE(first.year, 2025), WHOLE(first.day, 30), WHOLE(second.day, 31))

#endif
