/* days: two dates in, the days from the one to the other out, by each day count, with the part of a year that they are. */
#include "command.h"
#include "senyolanda.h"

#include <inttypes.h>
#include <stdlib.h>
#include <string.h>

static const char help[] =
    "usage: senyolanda days FIRST SECOND\n"
    "\n"
    "Writes the days from one date to a later one, and what part of a year they are, by each of three rules. FIRST and SECOND are\n"
    "dates from 1900 to 2199, as in 2023-01-31: year, month, day.\n"
    "\n"
    "  actual/360   the days of the calendar, over 360\n"
    "  actual/365   the days of the calendar, over 365\n"
    "  30/360       the bond basis (ISDA 2006), over 360: 360 days for each year and 30 for each month from the one date to the\n"
    "               other, and the days, where a first day of 31 is read as 30, and a second day of 31 is read as 30 when the\n"
    "               first is then 30; the end of February is a day like another\n"
    "\n"
    "  -h, --help   write this\n"
    "\n"
    "The parts of a year are written as the shortest decimals that read back as the same binary64.\n"
    "\n"
    "Where there is no such date, or the second is not after the first, nothing is written, and standard error has one line,\n"
    "`refused 15 at 0` and the cause in words.\n"
    "\n"
    "Exit status: 0, the days are written; 1, the dates were refused; 2, bad usage, or a failure to write.\n";

struct date {
    uint32_t year, month, day;
};

static bool read_digits(const char *text, int count, uint32_t *number) {
    *number = 0;
    for (int k = 0; k < count; k++) {
        if (text[k] < '0' || text[k] > '9') return false;
        *number = 10 * *number + (uint32_t)(text[k] - '0');
    }
    return true;
}

/* A text as long as a date: four digits, two and two, with a minus between. */
static bool read_date(const char *text, struct date *date) {
    return strlen(text) == 10 && text[4] == '-' && text[7] == '-' && read_digits(text, 4, &date->year) &&
           read_digits(text + 5, 2, &date->month) && read_digits(text + 8, 2, &date->day);
}

static bool is_date(const struct date *date) {
    uint32_t number;
    return senyolanda_day_number(date->year, date->month, date->day, &number) == 0;
}

/* Which of the dates it is, in words. */
static enum status refuse(senyolanda_result result, char **words, const struct date dates[2]) {
    const uint32_t number = senyolanda_number(result), place = senyolanda_place(result);
    for (int k = 0; k < 2; k++) {
        if (is_date(&dates[k])) continue;
        say("refused %" PRIu32 " at %" PRIu32 ": there is no date %s from 1900 to 2199", number, place, words[k]);
        return REFUSED;
    }
    say("refused %" PRIu32 " at %" PRIu32 ": the second date, %s, is not after the first, %s", number, place, words[1], words[0]);
    return REFUSED;
}

/* 15 digits, or as many more as it takes to read back as the same number. */
static void put_rule(const char *name, uint32_t days, double fraction) {
    char line[96], part[32];
    for (int digits = 15; digits <= 17; digits++) {
        snprintf(part, sizeof part, "%.*g", digits, fraction);
        if (strtod(part, NULL) == fraction) break;
    }
    snprintf(line, sizeof line, "%-10s  %6" PRIu32 "  %s\n", name, days, part);
    put_words(line);
}

/* The days and the part of a year, by one rule. */
static senyolanda_result count_days(
    uint32_t rule, const struct date *first, const struct date *second, uint32_t *days, double *fraction) {
    const senyolanda_result result =
        (rule == SENYOLANDA_THIRTY_360 ? senyolanda_days_30_360 : senyolanda_actual_days)(
            first->year, first->month, first->day, second->year, second->month, second->day, days);
    if (result != 0) return result;
    return senyolanda_dated_fraction(
        rule, first->year, first->month, first->day, second->year, second->month, second->day, fraction);
}

static enum status put_days(char **words, const struct date dates[2]) {
    static const char *const names[] = {"actual/360", "actual/365", "30/360"};
    enum { RULES = sizeof names / sizeof *names };
    uint32_t days[RULES];
    double fractions[RULES];
    for (uint32_t rule = 0; rule < RULES; rule++) {
        const senyolanda_result result = count_days(rule, &dates[0], &dates[1], &days[rule], &fractions[rule]);
        if (result != 0) return refuse(result, words, dates);
    }
    char line[64];
    snprintf(line, sizeof line, "from %s to %s\n", words[0], words[1]);
    put_words(line);
    put_words("rule          days  part of a year\n");
    for (int rule = 0; rule < RULES; rule++) put_rule(names[rule], days[rule], fractions[rule]);
    return DONE;
}

static enum status run(char **words) {
    struct date dates[2];
    size_t count = 0;
    while (words[count] != NULL) count++;
    if (count < 2) return fail("two dates are wanted; see --help");
    if (count > 2) return fail("'%s' is a word too many; --help says what is wanted", words[2]);
    for (int k = 0; k < 2; k++)
        if (!read_date(words[k], &dates[k]))
            return fail("the %s date '%s' is not written as in 2023-01-31", k == 0 ? "first" : "second", words[k]);
    return put_days(words, dates);
}

static struct option no_options[] = {{.name = NULL}};

const struct command days_command = {
    "days", "count the days between two dates, by actual days and by 30/360", help, no_options, run};
