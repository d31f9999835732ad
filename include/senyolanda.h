/*
 * Senyolanda: loans, bonds, curves, swaps and spreads in binary64, every answer proved to the bit. For C99 and C++11, and for
 * every language that can call C.
 *
 * RESULTS. Every function of the library returns a senyolanda_result. 0 means accepted: the answer stands in the memory that you
 * lent. Anything else is a refusal, and all lent memory is as it was before the call. A refusal has a number (enum
 * senyolanda_refusal says which there are) and a place: in a list the index, from 0, of the first bad item, else 0. Read them by
 * senyolanda_number(result) and senyolanda_place(result); senyolanda_refusal_text(number) has the words. Where several causes are
 * there the lowest number is given. The sentence at each function ends with the refusals that it knows; a number that no refusal
 * names, such as a loan's rate, is taken as it stands, NaN and infinity too. A function that knows a refusal is marked
 * SENYOLANDA_CHECKED: GCC and clang warn of a call whose result nobody looks at.
 *
 * LISTS. A list is a pointer and a count, the count in numbers, or in bytes for records. An empty list may be null with count 0.
 * Every other pointer points to one number or to an array of the length that is written in its brackets, and may not be null.
 *
 * OVERLAP. Memory that a function writes is marked SENYOLANDA_RESTRICT, or SENYOLANDA_FILLED in brackets: it may overlap nothing
 * else that is handed over in that call. Lists that are only read may be the same list.
 *
 * RECORDS. Loans, bonds, rows and swaps cross as bytes: one byte of kind, then a fixed body, little-endian, so that what one
 * machine wrote every other reads. The body is what the kind's senyolanda_write_.. takes, in that order: 8 bytes for a double, 4
 * for a count, 1 for a code; of a date 2 for the year, 1 for the month, 1 for the day. A record of another kind or length is
 * refused with 11 before anything else is looked at.
 *
 * UNITS. Rates, yields and coupons are decimals a year (0.06 is six per cent), spreads are basis points, times are years and a
 * loan's term is months. Amounts are in your own money, and a price is for the whole face, not for 100 of it; nothing is rounded
 * to cents. A loan's rate is compounded monthly, a bond's yield as often as the bond pays, and the rates of curves continuously: 1
 * at time t is worth exp(-rate * t) today.
 *
 * DATES. A date is three numbers, year, month and day, of the Gregorian calendar from 1900 to 2199. There are two rules for
 * 30/360. An undated swap (kind 4) has a tenor and no dates: each of its periods counts the whole days nearest to 365 / frequency,
 * over 360. A dated swap (kind 5) runs from a first date to a second: each of its periods counts its own days, by the bond basis
 * of 30/360 (ISDA 2006), or actual days.
 *
 * SCHEDULES. A loan is opened once and drawn in portions, through as little room as one row. Written plus owed is always what
 * was owed before; draw until nothing is. A draw with lines, senyolanda_loan_draw_with_years, keeps year-end totals beside the
 * rows, the same ones for any portions. The loan is yours to keep between draws, in a struct or in an archive:
 *
 *     double room[12 * SENYOLANDA_ROW_PLACES];
 *     uint8_t record[SENYOLANDA_LOAN_BYTES];
 *     struct senyolanda_loan loan;
 *     uint32_t written, owed = 1, row;
 *     senyolanda_result result = senyolanda_write_loan(250000.0, 0.06, 360, record);
 *     if (result == 0) result = senyolanda_loan_open(record, sizeof record, &loan);
 *     while (result == 0 && owed > 0) {
 *         result = senyolanda_loan_draw(&loan, room, 12 * SENYOLANDA_ROW_PLACES, &written, &owed);
 *         for (row = 0; result == 0 && row < written; row++)
 *             printf("%.2f\n", senyolanda_row_at(room, row).balance);
 *     }
 *     if (result != 0) puts(senyolanda_refusal_text(senyolanda_number(result)));
 *
 * KINDS. There are four kinds of loans. A level loan pays the same each month: it is the one above, senyolanda_loan_open and
 * senyolanda_loan_draw. An interest-only loan pays interest alone in its first months and a level payment over the rest:
 * senyolanda_interest_only_open, _draw. A balloon loan has the level rows of its term up to a named month, which repays the whole
 * balance and is its last: senyolanda_balloon_open, _draw. An adjustable loan has a rate for each year, from a list of index rates
 * held within two caps, and works its payment out afresh each time: senyolanda_adjustable_open, _draw. All are opened from a
 * loan's record and drawn in portions, with lines or without. What a kind has of its own (months, month, or rate and caps) is
 * handed to the opening and to every draw, the same each time; the kind's struct keeps it for you. The index list is lent at the
 * opening and again at each draw, year 2's rate first: every time the entries of all later started years of the term are read,
 * and what stands behind them is not. A loan in hand of one kind is none of another: draw it by its own kind's functions.
 *
 * THREADS. Nothing is kept between calls and nothing is shared: call from as many threads as you like, as long as no two of them
 * write to the same memory. There is no heap, no file, no lock, no errno and no setting; a call needs less than 64 kilobytes of
 * stack; a table at the end says how much each takes. The processor has to round to nearest and keep subnormal numbers, as it does
 * when a C program starts; a program that was linked with -ffast-math may have changed that.
 */
#ifndef SENYOLANDA_H
#define SENYOLANDA_H

#include <stddef.h>
#include <stdint.h>

/* The version of the header and of the library beside it. */
#define SENYOLANDA_VERSION_MAJOR 0
#define SENYOLANDA_VERSION_MINOR 7
#define SENYOLANDA_VERSION_PATCH 0

/* The same as a string, "major.minor.patch", and as a number that rises with it, for a program to compare:
   #if SENYOLANDA_VERSION_NUMBER >= SENYOLANDA_VERSION_OF(0, 4, 0) */
#define SENYOLANDA_VERSION SENYOLANDA_DOTTED(SENYOLANDA_VERSION_MAJOR, SENYOLANDA_VERSION_MINOR, SENYOLANDA_VERSION_PATCH)
#define SENYOLANDA_VERSION_NUMBER \
    SENYOLANDA_VERSION_OF(SENYOLANDA_VERSION_MAJOR, SENYOLANDA_VERSION_MINOR, SENYOLANDA_VERSION_PATCH)
#define SENYOLANDA_VERSION_OF(major, minor, patch) ((major) * 1000000 + (minor) * 1000 + (patch))
#define SENYOLANDA_DOTTED(major, minor, patch) SENYOLANDA_DOTTED_WORDS(major, minor, patch)
#define SENYOLANDA_DOTTED_WORDS(major, minor, patch) #major "." #minor "." #patch

/* CHECKED: the function can refuse, so that its result has to be looked at. */
#if defined(__GNUC__) || defined(__clang__)
#define SENYOLANDA_CHECKED __attribute__((warn_unused_result))
#else
#define SENYOLANDA_CHECKED
#endif

/* RESTRICT, and FILLED in brackets: written by the call, and overlapping nothing else that is handed over. READ: only read. */
#ifdef __cplusplus
#define SENYOLANDA_RESTRICT __restrict
#define SENYOLANDA_FILLED
#define SENYOLANDA_READ
extern "C" {
#else
#define SENYOLANDA_RESTRICT restrict
#define SENYOLANDA_FILLED restrict static
#define SENYOLANDA_READ static
#endif

/* Bytes of a record: kind 1, a loan; 2, a bond; 3, a row of a schedule; 4, a swap; 5, a dated swap. */
#define SENYOLANDA_LOAN_BYTES 21
#define SENYOLANDA_BOND_BYTES 26
#define SENYOLANDA_ROW_BYTES 37
#define SENYOLANDA_SWAP_BYTES 30
#define SENYOLANDA_DATED_SWAP_BYTES 38

/* Numbers of a date: year, month, day. */
#define SENYOLANDA_DATE_NUMBERS 3

/* Bytes enough for the listing of any loan. */
#define SENYOLANDA_LISTING_BYTES 96000

/* Places of a row in a draw's room, of a year's line among its lines, and of a month in a pool's room. */
#define SENYOLANDA_ROW_PLACES 5
#define SENYOLANDA_YEAR_PLACES 4
#define SENYOLANDA_POOL_MONTH_PLACES 3

/* Numbers of a loan in hand: counts, its term and the months done, and amounts, its rate, payment and balance. */
#define SENYOLANDA_LOAN_COUNTS 2
#define SENYOLANDA_LOAN_AMOUNTS 3

/* The most months of a loan, years that they start, loans of a pool and of a book, knots of a curve, and flows or periods. */
#define SENYOLANDA_MOST_MONTHS 1200
#define SENYOLANDA_MOST_YEARS 100
#define SENYOLANDA_MOST_LOANS 64
#define SENYOLANDA_MOST_BOOK_LOANS 256
#define SENYOLANDA_MOST_KNOTS 120
#define SENYOLANDA_MOST_FLOWS 1200

/* The years that so many months start, the last of them cut short or not: as many lines as a loan of that term wants. */
#define SENYOLANDA_STARTED_YEARS(months) (((months) + 11) / 12)

enum senyolanda_refusal {
    SENYOLANDA_ACCEPTED = 0,
    SENYOLANDA_BAD_AMOUNT = 1,       /* a principal, face or notional that is negative, infinite or NaN */
    SENYOLANDA_BAD_TERM = 2,         /* a loan of no months, or of more than 1,200 */
    SENYOLANDA_NO_ROOM = 3,          /* rows are due and not one fits; the lines of a term's years, a pool's months, a bond's
                                        flows, or a book's answers, do not all fit */
    SENYOLANDA_UNEQUAL_LISTS = 4,    /* two lists that belong together are not equally long */
    SENYOLANDA_BAD_KNOT_COUNT = 5,   /* a curve without a knot, or with more than 120 */
    SENYOLANDA_BAD_KNOT = 6,         /* a knot's time or rate infinite or NaN, its time before 0 or not after the knot before
                                        it; to bootstrap: a tenor of 0, or above 100 years */
    SENYOLANDA_BAD_TIME = 7,         /* a maturity, tenor or time infinite or NaN, or of more than 1,200 periods; more than 1,200
                                        flows; more than 64 loans */
    SENYOLANDA_BAD_FREQUENCY = 8,    /* a swap that pays 0, or more than 365, times a year; a dated swap that does not pay 1, 2,
                                        3, 4, 6 or 12 times a year */
    SENYOLANDA_BAD_NUMBER = 9,       /* a price, yield, coupon, closing cost, flow amount or swap rate infinite or NaN */
    SENYOLANDA_PAST_THE_TERM = 10,   /* a loan in hand with more months done than its term has; of a balloon loan, than its named
                                        month counts */
    SENYOLANDA_BAD_RECORD = 11,      /* bytes of another kind or length, or a code that stands for nothing; a book of more than
                                        256 records */
    SENYOLANDA_NO_YIELD = 12,        /* the prices at both ends of both searched ranges, yields of 0.001 to 0.999 and of 0.000001
                                        to 50, lie on one side of the market price: no yield of 0 or below is found */
    SENYOLANDA_NO_BREAK_EVEN = 13,   /* the new loan saves nothing a month, or pays its cost back only after its term */
    SENYOLANDA_NO_ROW_DRAWN = 14,    /* a year, from 1, of which no row is drawn */
    SENYOLANDA_BAD_DATE = 15,        /* no such date from 1900 to 2199, or a second date that is not after the first */
    SENYOLANDA_BAD_KIND = 16         /* interest alone for 0 months, or for the whole term or longer; a balloon in month 0 or after
                                        the term; an initial rate infinite or NaN; a cap negative, infinite or NaN; an index list
                                        that is too short for the term, or infinite or NaN in an entry that is read */
};

/* How often a bond pays. (A swap's frequency is no code: it is the number of payments a year.) */
enum senyolanda_frequency {
    SENYOLANDA_ANNUAL = 0,
    SENYOLANDA_SEMI_ANNUAL = 1,
    SENYOLANDA_QUARTERLY = 2,
    SENYOLANDA_MONTHLY = 3
};

/* What a number of days is divided by, to be a part of a year: 360, 365, 360. Between two dates the first two count actual days,
   the third counts by the bond basis of 30/360; without dates the days are yours to count, and all three only divide. */
enum senyolanda_day_count {
    SENYOLANDA_ACTUAL_360 = 0,
    SENYOLANDA_ACTUAL_365 = 1,
    SENYOLANDA_THIRTY_360 = 2
};

/* How fast a pool prepays, and what the number and the list beside it are. */
enum senyolanda_speed {
    SENYOLANDA_CPR = 0,              /* the number: the part of a balance prepaid in a year, a decimal; no list is read */
    SENYOLANDA_PSA = 1,              /* the number: so many times the PSA ramp, 1 is 100% PSA: a CPR that rises evenly to 0.06 in
                                        month 30 and stays there; no list is read */
    SENYOLANDA_HISTORY = 2           /* the list: the part of a balance prepaid in month 1, 2, .., a decimal, and past its end 0;
                                        the number is not read */
};

/* ---- results ---- */

typedef uint64_t senyolanda_result;

/* The refusal's number; 0 where the call was accepted. */
static inline uint32_t senyolanda_number(senyolanda_result result) {
    return (uint32_t)(result & UINT32_MAX);
}

/* The refusal's place: an index in a list, from 0, or which of two loans, 0 or 1; else 0. */
static inline uint32_t senyolanda_place(senyolanda_result result) {
    return (uint32_t)(result >> 32);
}

/* A refusal's number in words, for a person to read. */
static inline const char *senyolanda_refusal_text(uint32_t number) {
    switch (number) {
    case SENYOLANDA_ACCEPTED: return "accepted";
    case SENYOLANDA_BAD_AMOUNT: return "the amount is below zero or not finite";
    case SENYOLANDA_BAD_TERM: return "the term is not from 1 to 1,200 months";
    case SENYOLANDA_NO_ROOM: return "there is too little room for the answer";
    case SENYOLANDA_UNEQUAL_LISTS: return "two lists that belong together differ in length";
    case SENYOLANDA_BAD_KNOT_COUNT: return "the curve does not have from 1 to 120 knots";
    case SENYOLANDA_BAD_KNOT: return "a knot of the curve is not finite, out of order or out of range";
    case SENYOLANDA_BAD_TIME: return "a time is not finite or there are too many periods, flows or loans";
    case SENYOLANDA_BAD_FREQUENCY: return "the swap does not pay from 1 to 365 times, or if dated not 1, 2, 3, 4, 6 or 12 times, a year";
    case SENYOLANDA_BAD_NUMBER: return "a price, yield, coupon, cost, flow or rate is not finite";
    case SENYOLANDA_PAST_THE_TERM: return "the loan has more months done than its term, or than its balloon month";
    case SENYOLANDA_BAD_RECORD: return "the record is of another kind or length, or has an unknown code";
    case SENYOLANDA_NO_YIELD: return "no yield from 0.000001 to 50 was found for the market price";
    case SENYOLANDA_NO_BREAK_EVEN: return "the new loan does not pay its cost back within its term";
    case SENYOLANDA_NO_ROW_DRAWN: return "no row of the year is drawn";
    case SENYOLANDA_BAD_DATE: return "there is no such date, or the second date is not after the first";
    case SENYOLANDA_BAD_KIND: return "the interest-only months, balloon month, initial rate, caps or index list do not fit";
    default: return "no such refusal";
    }
}

/* ---- exp, ln, powers: the same bits on every machine, never refused ---- */

/* e to the x: infinity above 709, 0 below -708. */
senyolanda_result senyolanda_exp(double x, double *SENYOLANDA_RESTRICT answer);

/* Each number of the list becomes its exp: the same bits, faster than one by one. */
senyolanda_result senyolanda_exp_each(double *SENYOLANDA_RESTRICT numbers, size_t count);

/* The natural logarithm of x: NaN below zero, -infinity at zero. */
senyolanda_result senyolanda_ln(double x, double *SENYOLANDA_RESTRICT answer);

/* x to the y: by multiplying where y is whole and at most 1,200 in size, else as exp(y ln x), which is NaN for an x below zero.
   1 to any y, and any x to the 0, is 1. */
senyolanda_result senyolanda_power(double x, double y, double *SENYOLANDA_RESTRICT answer);

/* exp, ln and power once more, the number itself returned. */
static inline double senyolanda_exp_of(double x) {
    double answer = 0.0;
    (void)senyolanda_exp(x, &answer);
    return answer;
}

static inline double senyolanda_ln_of(double x) {
    double answer = 0.0;
    (void)senyolanda_ln(x, &answer);
    return answer;
}

static inline double senyolanda_power_of(double x, double y) {
    double answer = 0.0;
    (void)senyolanda_power(x, y, &answer);
    return answer;
}

/* ---- records: bytes to numbers and back; nothing but kind, length and codes is looked at ---- */

/* The terms that a loan's record holds, the term in months. Refuses 11. */
senyolanda_result senyolanda_read_loan(
    const uint8_t *record, size_t length,
    double *SENYOLANDA_RESTRICT principal, double *SENYOLANDA_RESTRICT rate,
    uint32_t *SENYOLANDA_RESTRICT term) SENYOLANDA_CHECKED;

/* The record of a loan's terms. Never refused: whoever works with the loan tests it. */
senyolanda_result senyolanda_write_loan(
    double principal, double rate, uint32_t term,
    uint8_t record[SENYOLANDA_FILLED SENYOLANDA_LOAN_BYTES]);

/* The bond that a record holds, its maturity in years, its frequency an enum senyolanda_frequency. Refuses 11. */
senyolanda_result senyolanda_read_bond(
    const uint8_t *record, size_t length,
    double *SENYOLANDA_RESTRICT face, double *SENYOLANDA_RESTRICT coupon, double *SENYOLANDA_RESTRICT maturity,
    uint32_t *SENYOLANDA_RESTRICT frequency) SENYOLANDA_CHECKED;

/* The record of a bond; frequency is an enum senyolanda_frequency. Refuses 11. */
senyolanda_result senyolanda_write_bond(
    double face, double coupon, double maturity, uint32_t frequency,
    uint8_t record[SENYOLANDA_FILLED SENYOLANDA_BOND_BYTES]) SENYOLANDA_CHECKED;

/* The row of a schedule that a record holds. Refuses 11. */
senyolanda_result senyolanda_read_row(
    const uint8_t *record, size_t length,
    uint32_t *SENYOLANDA_RESTRICT month, double *SENYOLANDA_RESTRICT payment, double *SENYOLANDA_RESTRICT principal,
    double *SENYOLANDA_RESTRICT interest, double *SENYOLANDA_RESTRICT balance) SENYOLANDA_CHECKED;

/* The record of a row. Never refused. */
senyolanda_result senyolanda_write_row(
    uint32_t month, double payment, double principal, double interest, double balance,
    uint8_t record[SENYOLANDA_FILLED SENYOLANDA_ROW_BYTES]);

/* The swap that a record holds, its tenor in years, its frequency the number of payments a year, its day count an enum
   senyolanda_day_count. Refuses 11. */
senyolanda_result senyolanda_read_swap(
    const uint8_t *record, size_t length,
    double *SENYOLANDA_RESTRICT notional, double *SENYOLANDA_RESTRICT rate, double *SENYOLANDA_RESTRICT tenor,
    uint32_t *SENYOLANDA_RESTRICT frequency, uint32_t *SENYOLANDA_RESTRICT day_count) SENYOLANDA_CHECKED;

/* The record of a swap; frequency is the number of payments a year, day_count an enum senyolanda_day_count. Refuses 11. */
senyolanda_result senyolanda_write_swap(
    double notional, double rate, double tenor, uint32_t frequency, uint32_t day_count,
    uint8_t record[SENYOLANDA_FILLED SENYOLANDA_SWAP_BYTES]) SENYOLANDA_CHECKED;

/* The dated swap that a record holds, its dates as year, month and day, of the calendar or not. Refuses 11. */
senyolanda_result senyolanda_read_dated_swap(
    const uint8_t *record, size_t length,
    double *SENYOLANDA_RESTRICT notional, double *SENYOLANDA_RESTRICT rate, double *SENYOLANDA_RESTRICT tenor,
    uint32_t *SENYOLANDA_RESTRICT frequency,
    uint32_t first[SENYOLANDA_FILLED SENYOLANDA_DATE_NUMBERS], uint32_t second[SENYOLANDA_FILLED SENYOLANDA_DATE_NUMBERS],
    uint32_t *SENYOLANDA_RESTRICT day_count) SENYOLANDA_CHECKED;

/* The record of a dated swap; frequency is the number of payments a year, day_count an enum senyolanda_day_count. The tenor is
   kept, and read by nothing. Dates are tested by whoever values the swap; 15 is here only for a year above 65,535, or a month or
   day above 255, which no record can hold. Refuses 11, 15. */
senyolanda_result senyolanda_write_dated_swap(
    double notional, double rate, double tenor, uint32_t frequency,
    uint32_t first_year, uint32_t first_month, uint32_t first_day,
    uint32_t second_year, uint32_t second_month, uint32_t second_day, uint32_t day_count,
    uint8_t record[SENYOLANDA_FILLED SENYOLANDA_DATED_SWAP_BYTES]) SENYOLANDA_CHECKED;

/* ---- dates: year, month from 1, day from 1, of the Gregorian calendar from 1900 to 2199 ---- */

/* The number of a date: 2 on 1 January 1900, one more each day; from March 1900 on the number that spreadsheets have.
   Refuses 15. */
senyolanda_result senyolanda_day_number(
    uint32_t year, uint32_t month, uint32_t day, uint32_t *SENYOLANDA_RESTRICT number) SENYOLANDA_CHECKED;

/* The date that has a number, from 2 to 109,574. Refuses 15. */
senyolanda_result senyolanda_date_of_number(
    uint32_t number, uint32_t date[SENYOLANDA_FILLED SENYOLANDA_DATE_NUMBERS]) SENYOLANDA_CHECKED;

/* The date so many months later; where its month has no such day, the month's last day. Count periods from the first date and not
   from one that was cut: 31 January is followed by 28 February and then by 31 March. A date after 2199 is 15 too. Refuses 15. */
senyolanda_result senyolanda_months_later(
    uint32_t year, uint32_t month, uint32_t day, uint32_t months,
    uint32_t date[SENYOLANDA_FILLED SENYOLANDA_DATE_NUMBERS]) SENYOLANDA_CHECKED;

/* The actual days from the first date to the second, which comes after it. Refuses 15. */
senyolanda_result senyolanda_actual_days(
    uint32_t first_year, uint32_t first_month, uint32_t first_day,
    uint32_t second_year, uint32_t second_month, uint32_t second_day,
    uint32_t *SENYOLANDA_RESTRICT days) SENYOLANDA_CHECKED;

/* The days from the first date to the second, which comes after it, by the bond basis of 30/360 (ISDA 2006): 360 for each year, 30
   for each month, and the days, a first day of 31 read as 30, and a second day of 31 read as 30 when the first is then 30. The end
   of February is no special day, as it is in some spreadsheets. Refuses 15. */
senyolanda_result senyolanda_days_30_360(
    uint32_t first_year, uint32_t first_month, uint32_t first_day,
    uint32_t second_year, uint32_t second_month, uint32_t second_day,
    uint32_t *SENYOLANDA_RESTRICT days) SENYOLANDA_CHECKED;

/* The part of a year from the first date to the second, which comes after it, a decimal: actual days over 360 or 365, or 30/360
   days over 360; day_count is an enum senyolanda_day_count. Refuses 11, 15. */
senyolanda_result senyolanda_dated_fraction(
    uint32_t day_count,
    uint32_t first_year, uint32_t first_month, uint32_t first_day,
    uint32_t second_year, uint32_t second_month, uint32_t second_day,
    double *SENYOLANDA_RESTRICT fraction) SENYOLANDA_CHECKED;

/* ---- loans: the terms come as a loan's record ---- */

/* The level monthly payment that repays the loan over its term; principal over term where (1 + rate / 12) to the power of the term
   is 1, as at a rate of 0 and at one too small for 1 + rate / 12 to feel. Infinity or NaN can come of a rate that is not finite or is
   below -12, of a power that overflows, alone or times the principal, and of a principal above 2^1022. Refuses 1, 2, 11. */
senyolanda_result senyolanda_monthly_payment(
    const uint8_t *record, size_t length, double *SENYOLANDA_RESTRICT payment) SENYOLANDA_CHECKED;

/* Opens a loan with the worked-out payment: no month is done and the balance is the principal. The counts are its term and the
   months done, the amounts its rate, payment and balance. In C, senyolanda_loan_open keeps them together, by name.
   Refuses 1, 2, 11. */
senyolanda_result senyolanda_open(
    const uint8_t *record, size_t length,
    uint32_t counts[SENYOLANDA_FILLED SENYOLANDA_LOAN_COUNTS],
    double amounts[SENYOLANDA_FILLED SENYOLANDA_LOAN_AMOUNTS]) SENYOLANDA_CHECKED;

/* Opens a loan with a given payment, whatever it is: the last month repays the rest. Refuses 1, 2, 11. */
senyolanda_result senyolanda_open_with_payment(
    const uint8_t *record, size_t length, double given,
    uint32_t counts[SENYOLANDA_FILLED SENYOLANDA_LOAN_COUNTS],
    double amounts[SENYOLANDA_FILLED SENYOLANDA_LOAN_AMOUNTS]) SENYOLANDA_CHECKED;

/* Writes as many rows as the room holds and the loan owes, and moves its months done and its balance on; places behind the rows
   stay. A row is five numbers: month (from 1), payment, principal, interest, balance after. The payment is the loan's own, also
   where less is owed, and in the last month principal plus interest; interest that it does not cover is not added to the balance.
   written and owed count rows. A finished loan writes 0 and owes 0, whatever the room. Refuses 2, 3, 10. */
senyolanda_result senyolanda_draw(
    uint32_t counts[SENYOLANDA_FILLED SENYOLANDA_LOAN_COUNTS],
    double amounts[SENYOLANDA_FILLED SENYOLANDA_LOAN_AMOUNTS],
    double *SENYOLANDA_RESTRICT room, size_t places,
    uint32_t *SENYOLANDA_RESTRICT written, uint32_t *SENYOLANDA_RESTRICT owed) SENYOLANDA_CHECKED;

/* Draws as senyolanda_draw does, and enters each row, in order, into the line of its year; months 1 to 12 are year 1. A line is
   four numbers: months covered, interest, principal, and the balance after the last of these months. Lend a line for each started
   year of the term, year 1 first; year_places counts numbers. Hand the same lines, as they were left, to every draw of the loan.
   They need not be cleared: the row that begins a year starts its line at 0, whatever stands there, and any other row adds to what
   its line holds; all other places stay. Fewer lines than started years are 3, whether rows are due or not. Refuses 2, 3, 10. */
senyolanda_result senyolanda_draw_with_years(
    uint32_t counts[SENYOLANDA_FILLED SENYOLANDA_LOAN_COUNTS],
    double amounts[SENYOLANDA_FILLED SENYOLANDA_LOAN_AMOUNTS],
    double *SENYOLANDA_RESTRICT room, size_t places,
    double *SENYOLANDA_RESTRICT years, size_t year_places,
    uint32_t *SENYOLANDA_RESTRICT written, uint32_t *SENYOLANDA_RESTRICT owed) SENYOLANDA_CHECKED;

/* The line of a year, from 1, as it stands among the lines that a loan's draws left. Year 0, and a year that the months done have
   not begun, are 14. Refuses 2, 3, 10, 14. */
senyolanda_result senyolanda_look_up_year(
    const uint32_t counts[SENYOLANDA_READ SENYOLANDA_LOAN_COUNTS],
    const double amounts[SENYOLANDA_READ SENYOLANDA_LOAN_AMOUNTS],
    const double *years, size_t year_places, uint32_t year,
    double line[SENYOLANDA_FILLED SENYOLANDA_YEAR_PLACES]) SENYOLANDA_CHECKED;

/* The next row alone, as a row's record: written is 1. A finished loan writes 0, owes 0 and leaves the record. Refuses 2, 10. */
senyolanda_result senyolanda_next_row(
    uint32_t counts[SENYOLANDA_FILLED SENYOLANDA_LOAN_COUNTS],
    double amounts[SENYOLANDA_FILLED SENYOLANDA_LOAN_AMOUNTS],
    uint8_t record[SENYOLANDA_FILLED SENYOLANDA_ROW_BYTES],
    uint32_t *SENYOLANDA_RESTRICT written, uint32_t *SENYOLANDA_RESTRICT owed) SENYOLANDA_CHECKED;

/* Draws a book: loans as their records end to end, at most 256, each opened with its worked-out payment and drawn whole, the rows
   of one behind those of the other in one room. The rows are those of the loans drawn one by one; it is faster, since two loans
   are worked on at once. A loan's answer is 0, or the number that it alone would be refused with: it has no rows then, and the
   others go on. finished counts the loans that are done, refused ones too; where the room ended inside the next one, cut is how
   many of its rows were written, else 0; waiting counts the loans behind, which have no rows and whose answers stay. To go on,
   hand over the records from index finished on: a loan that was cut starts again at its first row. Fewer answers than loans, or
   no room for the first row, is 3; bytes that do not divide into records, or too many, are 11. Refuses 3, 11. */
senyolanda_result senyolanda_draw_book(
    const uint8_t *records, size_t length, uint32_t *SENYOLANDA_RESTRICT answers, size_t answers_count,
    double *SENYOLANDA_RESTRICT room, size_t places, uint32_t *SENYOLANDA_RESTRICT finished,
    uint32_t *SENYOLANDA_RESTRICT cut, uint32_t *SENYOLANDA_RESTRICT waiting) SENYOLANDA_CHECKED;

/* The sum of the interest column over the whole term, at the worked-out payment. Refuses 1, 2, 11. */
senyolanda_result senyolanda_total_interest(
    const uint8_t *record, size_t length, double *SENYOLANDA_RESTRICT interest) SENYOLANDA_CHECKED;

/* The balance after so many months at the worked-out payment: after 0 the principal, from the term on 0. Refuses 1, 2, 11. */
senyolanda_result senyolanda_remaining_balance(
    const uint8_t *record, size_t length, uint32_t months, double *SENYOLANDA_RESTRICT balance) SENYOLANDA_CHECKED;

/* The principal over the property's value, a decimal: 0.8 is 80 per cent; infinity for a value of zero. Refuses 1, 2, 11. */
senyolanda_result senyolanda_ltv(
    const uint8_t *record, size_t length, double value, double *SENYOLANDA_RESTRICT ratio) SENYOLANDA_CHECKED;

/* The months, and the interest in money, that paying so much more each month saves, 0 where nothing is saved. An extra of NaN
   repays all in month 1; a loan of 0 saves its whole term. Refuses 1, 2, 11. */
senyolanda_result senyolanda_prepayment_savings(
    const uint8_t *record, size_t length, double extra,
    uint32_t *SENYOLANDA_RESTRICT months, double *SENYOLANDA_RESTRICT interest) SENYOLANDA_CHECKED;

/* The month, from the new loan's first, by which its lower payment has earned its closing cost back: cost over the difference of
   the two worked-out payments, rounded up; 0 for a cost of 0 or below, or where that is NaN. Nothing is read of the months
   elapsed. A bad old loan stands at place 0, a bad new one at 1. Refuses 1, 2, 9, 11, 13. */
senyolanda_result senyolanda_refinance_breakeven(
    const uint8_t *old_record, size_t old_length, const uint8_t *new_record, size_t new_length,
    double cost, uint32_t elapsed, uint32_t *SENYOLANDA_RESTRICT month) SENYOLANDA_CHECKED;

/* The whole schedule at the worked-out payment, as text: a line of column names; a line for each row, its month in decimal and each
   amount as the 16 hexadecimal digits of its binary64, a NaN as 7ff8000000000000; and a line that counts the rows and how many are
   left. Spaces stand between, and a newline ends each line. size is how many bytes the text has: no zero byte is put at its end, and
   the bytes past size stay. Refuses 1, 2, 11. */
senyolanda_result senyolanda_listing(
    const uint8_t *record, size_t length,
    uint8_t text[SENYOLANDA_FILLED SENYOLANDA_LISTING_BYTES], uint32_t *SENYOLANDA_RESTRICT size) SENYOLANDA_CHECKED;

/* A loan in hand. Open it, draw from it, keep it as long as you like; only an opening fills it. */
struct senyolanda_loan {
    uint32_t term;     /* months */
    uint32_t done;     /* months drawn so far */
    double rate;       /* a year, as a decimal */
    double payment;    /* a month, in money */
    double balance;    /* after the months done */
};

/* The loan's counts and amounts, as the functions above take them, out of the struct and into it. */
static inline void senyolanda_loan_taken_apart(
    const struct senyolanda_loan *loan, uint32_t counts[SENYOLANDA_FILLED SENYOLANDA_LOAN_COUNTS],
    double amounts[SENYOLANDA_FILLED SENYOLANDA_LOAN_AMOUNTS]) {
    counts[0] = loan->term;
    counts[1] = loan->done;
    amounts[0] = loan->rate;
    amounts[1] = loan->payment;
    amounts[2] = loan->balance;
}

static inline void senyolanda_loan_put_together(
    struct senyolanda_loan *SENYOLANDA_RESTRICT loan, const uint32_t counts[SENYOLANDA_READ SENYOLANDA_LOAN_COUNTS],
    const double amounts[SENYOLANDA_READ SENYOLANDA_LOAN_AMOUNTS]) {
    loan->term = counts[0];
    loan->done = counts[1];
    loan->rate = amounts[0];
    loan->payment = amounts[1];
    loan->balance = amounts[2];
}

/* Opens a loan with the worked-out payment. A refusal leaves the loan as it was, here and below. Refuses 1, 2, 11. */
static inline SENYOLANDA_CHECKED senyolanda_result senyolanda_loan_open(
    const uint8_t *record, size_t length, struct senyolanda_loan *SENYOLANDA_RESTRICT loan) {
    uint32_t counts[SENYOLANDA_LOAN_COUNTS];
    double amounts[SENYOLANDA_LOAN_AMOUNTS];
    senyolanda_result result = senyolanda_open(record, length, counts, amounts);
    if (result == 0) senyolanda_loan_put_together(loan, counts, amounts);
    return result;
}

/* Opens a loan with a given payment. Refuses 1, 2, 11. */
static inline SENYOLANDA_CHECKED senyolanda_result senyolanda_loan_open_with_payment(
    const uint8_t *record, size_t length, double given, struct senyolanda_loan *SENYOLANDA_RESTRICT loan) {
    uint32_t counts[SENYOLANDA_LOAN_COUNTS];
    double amounts[SENYOLANDA_LOAN_AMOUNTS];
    senyolanda_result result = senyolanda_open_with_payment(record, length, given, counts, amounts);
    if (result == 0) senyolanda_loan_put_together(loan, counts, amounts);
    return result;
}

/* The next rows, as many as the room holds and the loan owes; the loan moves on past them. Refuses 2, 3, 10. */
static inline SENYOLANDA_CHECKED senyolanda_result senyolanda_loan_draw(
    struct senyolanda_loan *SENYOLANDA_RESTRICT loan, double *SENYOLANDA_RESTRICT room, size_t places,
    uint32_t *SENYOLANDA_RESTRICT written, uint32_t *SENYOLANDA_RESTRICT owed) {
    uint32_t counts[SENYOLANDA_LOAN_COUNTS];
    double amounts[SENYOLANDA_LOAN_AMOUNTS];
    senyolanda_result result;
    senyolanda_loan_taken_apart(loan, counts, amounts);
    result = senyolanda_draw(counts, amounts, room, places, written, owed);
    if (result == 0) senyolanda_loan_put_together(loan, counts, amounts);
    return result;
}

/* The same, with each row entered into the line of its year: years has SENYOLANDA_STARTED_YEARS(loan->term) *
   SENYOLANDA_YEAR_PLACES numbers; SENYOLANDA_MOST_YEARS * SENYOLANDA_YEAR_PLACES are enough for any loan. Refuses 2, 3, 10. */
static inline SENYOLANDA_CHECKED senyolanda_result senyolanda_loan_draw_with_years(
    struct senyolanda_loan *SENYOLANDA_RESTRICT loan, double *SENYOLANDA_RESTRICT room, size_t places,
    double *SENYOLANDA_RESTRICT years, size_t year_places,
    uint32_t *SENYOLANDA_RESTRICT written, uint32_t *SENYOLANDA_RESTRICT owed) {
    uint32_t counts[SENYOLANDA_LOAN_COUNTS];
    double amounts[SENYOLANDA_LOAN_AMOUNTS];
    senyolanda_result result;
    senyolanda_loan_taken_apart(loan, counts, amounts);
    result = senyolanda_draw_with_years(counts, amounts, room, places, years, year_places, written, owed);
    if (result == 0) senyolanda_loan_put_together(loan, counts, amounts);
    return result;
}

/* The next row alone, as a row's record. Refuses 2, 10. */
static inline SENYOLANDA_CHECKED senyolanda_result senyolanda_loan_next_row(
    struct senyolanda_loan *SENYOLANDA_RESTRICT loan, uint8_t record[SENYOLANDA_FILLED SENYOLANDA_ROW_BYTES],
    uint32_t *SENYOLANDA_RESTRICT written, uint32_t *SENYOLANDA_RESTRICT owed) {
    uint32_t counts[SENYOLANDA_LOAN_COUNTS];
    double amounts[SENYOLANDA_LOAN_AMOUNTS];
    senyolanda_result result;
    senyolanda_loan_taken_apart(loan, counts, amounts);
    result = senyolanda_next_row(counts, amounts, record, written, owed);
    if (result == 0) senyolanda_loan_put_together(loan, counts, amounts);
    return result;
}

/* A row of a schedule. */
struct senyolanda_row {
    uint32_t month;    /* from 1 */
    double payment, principal, interest;
    double balance;    /* after the payment */
};

/* The row at an index, from 0, of a room that a draw filled. */
static inline struct senyolanda_row senyolanda_row_at(const double *room, size_t index) {
    const double *place = room + index * SENYOLANDA_ROW_PLACES;
    struct senyolanda_row row;
    row.month = (uint32_t)place[0];
    row.payment = place[1];
    row.principal = place[2];
    row.interest = place[3];
    row.balance = place[4];
    return row;
}

/* A year's line. Its months are whole numbers from 1 to 12, unless a draw went on with a line that its caller made up. */
struct senyolanda_year {
    double months;     /* covered so far */
    double interest, principal;
    double balance;    /* after the last of these months */
};

/* The line at an index, from 0, of the lines that draws left: year 1 stands at 0. */
static inline struct senyolanda_year senyolanda_year_at(const double *years, size_t index) {
    const double *place = years + index * SENYOLANDA_YEAR_PLACES;
    struct senyolanda_year year;
    year.months = place[0];
    year.interest = place[1];
    year.principal = place[2];
    year.balance = place[3];
    return year;
}

/* The line of a year, from 1, of which the loan has drawn a row. A refusal leaves the line as it was. Refuses 2, 3, 10, 14. */
static inline SENYOLANDA_CHECKED senyolanda_result senyolanda_loan_year(
    const struct senyolanda_loan *loan, const double *years, size_t year_places, uint32_t year,
    struct senyolanda_year *SENYOLANDA_RESTRICT line) {
    uint32_t counts[SENYOLANDA_LOAN_COUNTS];
    double amounts[SENYOLANDA_LOAN_AMOUNTS], found[SENYOLANDA_YEAR_PLACES];
    senyolanda_result result;
    senyolanda_loan_taken_apart(loan, counts, amounts);
    result = senyolanda_look_up_year(counts, amounts, years, year_places, year, found);
    if (result == 0) *line = senyolanda_year_at(found, 0);
    return result;
}

/* ---- kinds of loans: opened from a loan's record and drawn as a level loan is, each by its own functions, which take what the
   kind has of its own before the loan in hand. 16 is asked at every opening and draw, of a finished loan too, and comes after all
   other numbers. Year-end lines are wanted for the started years of the whole term, whatever the kind. ---- */

/* Opens an interest-only loan: its first so many months pay interest alone, and the payment is the level one of the principal over
   the months behind them. Refuses 1, 2, 11, 16. */
senyolanda_result senyolanda_open_interest_only(
    const uint8_t *record, size_t length, uint32_t months,
    uint32_t counts[SENYOLANDA_FILLED SENYOLANDA_LOAN_COUNTS],
    double amounts[SENYOLANDA_FILLED SENYOLANDA_LOAN_AMOUNTS]) SENYOLANDA_CHECKED;

/* Opens an interest-only loan with a given payment for the months behind the first. Refuses 1, 2, 11, 16. */
senyolanda_result senyolanda_open_interest_only_with_payment(
    const uint8_t *record, size_t length, uint32_t months, double given,
    uint32_t counts[SENYOLANDA_FILLED SENYOLANDA_LOAN_COUNTS],
    double amounts[SENYOLANDA_FILLED SENYOLANDA_LOAN_AMOUNTS]) SENYOLANDA_CHECKED;

/* Draws an interest-only loan as senyolanda_draw does: in the first so many months the payment is the interest, the principal 0,
   and the balance stays. Refuses 2, 3, 10, 16. */
senyolanda_result senyolanda_draw_interest_only(
    uint32_t months,
    uint32_t counts[SENYOLANDA_FILLED SENYOLANDA_LOAN_COUNTS],
    double amounts[SENYOLANDA_FILLED SENYOLANDA_LOAN_AMOUNTS],
    double *SENYOLANDA_RESTRICT room, size_t places,
    uint32_t *SENYOLANDA_RESTRICT written, uint32_t *SENYOLANDA_RESTRICT owed) SENYOLANDA_CHECKED;

/* The same with lines, as senyolanda_draw_with_years; a year is looked up by senyolanda_look_up_year. Refuses 2, 3, 10, 16. */
senyolanda_result senyolanda_draw_interest_only_with_years(
    uint32_t months,
    uint32_t counts[SENYOLANDA_FILLED SENYOLANDA_LOAN_COUNTS],
    double amounts[SENYOLANDA_FILLED SENYOLANDA_LOAN_AMOUNTS],
    double *SENYOLANDA_RESTRICT room, size_t places,
    double *SENYOLANDA_RESTRICT years, size_t year_places,
    uint32_t *SENYOLANDA_RESTRICT written, uint32_t *SENYOLANDA_RESTRICT owed) SENYOLANDA_CHECKED;

/* The next row alone, as senyolanda_next_row. Refuses 2, 10, 16. */
senyolanda_result senyolanda_next_interest_only_row(
    uint32_t months,
    uint32_t counts[SENYOLANDA_FILLED SENYOLANDA_LOAN_COUNTS],
    double amounts[SENYOLANDA_FILLED SENYOLANDA_LOAN_AMOUNTS],
    uint8_t record[SENYOLANDA_FILLED SENYOLANDA_ROW_BYTES],
    uint32_t *SENYOLANDA_RESTRICT written, uint32_t *SENYOLANDA_RESTRICT owed) SENYOLANDA_CHECKED;

/* Opens a balloon loan, whose payment is the level one of the whole term; the named month, from 1, may be the term's last.
   Refuses 1, 2, 11, 16. */
senyolanda_result senyolanda_open_balloon(
    const uint8_t *record, size_t length, uint32_t month,
    uint32_t counts[SENYOLANDA_FILLED SENYOLANDA_LOAN_COUNTS],
    double amounts[SENYOLANDA_FILLED SENYOLANDA_LOAN_AMOUNTS]) SENYOLANDA_CHECKED;

/* Opens a balloon loan with a given payment for the months before the named one. Refuses 1, 2, 11, 16. */
senyolanda_result senyolanda_open_balloon_with_payment(
    const uint8_t *record, size_t length, uint32_t month, double given,
    uint32_t counts[SENYOLANDA_FILLED SENYOLANDA_LOAN_COUNTS],
    double amounts[SENYOLANDA_FILLED SENYOLANDA_LOAN_AMOUNTS]) SENYOLANDA_CHECKED;

/* Draws a balloon loan as senyolanda_draw does, with the named month for the term's last: it repays the balance, no row comes
   after it, and the rows owed are those up to it. More months done than it counts are 10. Refuses 2, 3, 10, 16. */
senyolanda_result senyolanda_draw_balloon(
    uint32_t month,
    uint32_t counts[SENYOLANDA_FILLED SENYOLANDA_LOAN_COUNTS],
    double amounts[SENYOLANDA_FILLED SENYOLANDA_LOAN_AMOUNTS],
    double *SENYOLANDA_RESTRICT room, size_t places,
    uint32_t *SENYOLANDA_RESTRICT written, uint32_t *SENYOLANDA_RESTRICT owed) SENYOLANDA_CHECKED;

/* The same with lines, as senyolanda_draw_with_years: one for each started year of the whole term. Refuses 2, 3, 10, 16. */
senyolanda_result senyolanda_draw_balloon_with_years(
    uint32_t month,
    uint32_t counts[SENYOLANDA_FILLED SENYOLANDA_LOAN_COUNTS],
    double amounts[SENYOLANDA_FILLED SENYOLANDA_LOAN_AMOUNTS],
    double *SENYOLANDA_RESTRICT room, size_t places,
    double *SENYOLANDA_RESTRICT years, size_t year_places,
    uint32_t *SENYOLANDA_RESTRICT written, uint32_t *SENYOLANDA_RESTRICT owed) SENYOLANDA_CHECKED;

/* The next row alone, as senyolanda_next_row. Refuses 2, 10, 16. */
senyolanda_result senyolanda_next_balloon_row(
    uint32_t month,
    uint32_t counts[SENYOLANDA_FILLED SENYOLANDA_LOAN_COUNTS],
    double amounts[SENYOLANDA_FILLED SENYOLANDA_LOAN_AMOUNTS],
    uint8_t record[SENYOLANDA_FILLED SENYOLANDA_ROW_BYTES],
    uint32_t *SENYOLANDA_RESTRICT written, uint32_t *SENYOLANDA_RESTRICT owed) SENYOLANDA_CHECKED;

/* The line of a year, as senyolanda_look_up_year; more months done than the named month counts are 10, and a named month that is
   none of the term's is 16. Refuses 2, 3, 10, 14, 16. */
senyolanda_result senyolanda_look_up_balloon_year(
    uint32_t month,
    const uint32_t counts[SENYOLANDA_READ SENYOLANDA_LOAN_COUNTS],
    const double amounts[SENYOLANDA_READ SENYOLANDA_LOAN_AMOUNTS],
    const double *years, size_t year_places, uint32_t year,
    double line[SENYOLANDA_FILLED SENYOLANDA_YEAR_PLACES]) SENYOLANDA_CHECKED;

/* Opens an adjustable loan: year 1 runs at the initial rate, and the record's rate is not read. Each later year's rate is its
   entry of the index list, no further than cap from the rate of the year before, then not above initial plus lifetime; its payment
   is worked out for the balance and the months left. SENYOLANDA_STARTED_YEARS(term) - 1 entries are read, and fewer are 16 at 0; an
   entry that is not finite stands at its index. Refuses 1, 2, 11, 16. */
senyolanda_result senyolanda_open_adjustable(
    const uint8_t *record, size_t length,
    double initial, double cap, double lifetime, const double *index, size_t index_count,
    uint32_t counts[SENYOLANDA_FILLED SENYOLANDA_LOAN_COUNTS],
    double amounts[SENYOLANDA_FILLED SENYOLANDA_LOAN_AMOUNTS]) SENYOLANDA_CHECKED;

/* Draws an adjustable loan as senyolanda_draw does; the row that begins a later year moves the loan's rate and payment on, which
   are handed back with its months done and its balance. Refuses 2, 3, 10, 16. */
senyolanda_result senyolanda_draw_adjustable(
    double initial, double cap, double lifetime, const double *index, size_t index_count,
    uint32_t counts[SENYOLANDA_FILLED SENYOLANDA_LOAN_COUNTS],
    double amounts[SENYOLANDA_FILLED SENYOLANDA_LOAN_AMOUNTS],
    double *SENYOLANDA_RESTRICT room, size_t places,
    uint32_t *SENYOLANDA_RESTRICT written, uint32_t *SENYOLANDA_RESTRICT owed) SENYOLANDA_CHECKED;

/* The same with lines, as senyolanda_draw_with_years; a year is looked up by senyolanda_look_up_year. Refuses 2, 3, 10, 16. */
senyolanda_result senyolanda_draw_adjustable_with_years(
    double initial, double cap, double lifetime, const double *index, size_t index_count,
    uint32_t counts[SENYOLANDA_FILLED SENYOLANDA_LOAN_COUNTS],
    double amounts[SENYOLANDA_FILLED SENYOLANDA_LOAN_AMOUNTS],
    double *SENYOLANDA_RESTRICT room, size_t places,
    double *SENYOLANDA_RESTRICT years, size_t year_places,
    uint32_t *SENYOLANDA_RESTRICT written, uint32_t *SENYOLANDA_RESTRICT owed) SENYOLANDA_CHECKED;

/* The next row alone, as senyolanda_next_row. Refuses 2, 10, 16. */
senyolanda_result senyolanda_next_adjustable_row(
    double initial, double cap, double lifetime, const double *index, size_t index_count,
    uint32_t counts[SENYOLANDA_FILLED SENYOLANDA_LOAN_COUNTS],
    double amounts[SENYOLANDA_FILLED SENYOLANDA_LOAN_AMOUNTS],
    uint8_t record[SENYOLANDA_FILLED SENYOLANDA_ROW_BYTES],
    uint32_t *SENYOLANDA_RESTRICT written, uint32_t *SENYOLANDA_RESTRICT owed) SENYOLANDA_CHECKED;

/* A loan in hand of each kind but the level one, with what the kind has of its own; the index list stays yours. Only an opening
   fills them, and a refusal leaves them as they were. */
struct senyolanda_interest_only {
    struct senyolanda_loan loan;
    uint32_t months;   /* the first, of interest alone */
};

struct senyolanda_balloon {
    struct senyolanda_loan loan;
    uint32_t month;    /* the last, from 1 */
};

struct senyolanda_adjustable {
    struct senyolanda_loan loan;
    double initial;    /* the rate of year 1 */
    double cap;        /* by how much a year's rate may differ from the last year's */
    double lifetime;   /* by how much any rate may be above the initial one */
};

/* Opens an interest-only loan with the worked-out payment. Refuses 1, 2, 11, 16. */
static inline SENYOLANDA_CHECKED senyolanda_result senyolanda_interest_only_open(
    const uint8_t *record, size_t length, uint32_t months,
    struct senyolanda_interest_only *SENYOLANDA_RESTRICT interest_only) {
    uint32_t counts[SENYOLANDA_LOAN_COUNTS];
    double amounts[SENYOLANDA_LOAN_AMOUNTS];
    senyolanda_result result = senyolanda_open_interest_only(record, length, months, counts, amounts);
    if (result != 0) return result;
    senyolanda_loan_put_together(&interest_only->loan, counts, amounts);
    interest_only->months = months;
    return result;
}

/* Opens an interest-only loan with a given payment. Refuses 1, 2, 11, 16. */
static inline SENYOLANDA_CHECKED senyolanda_result senyolanda_interest_only_open_with_payment(
    const uint8_t *record, size_t length, uint32_t months, double given,
    struct senyolanda_interest_only *SENYOLANDA_RESTRICT interest_only) {
    uint32_t counts[SENYOLANDA_LOAN_COUNTS];
    double amounts[SENYOLANDA_LOAN_AMOUNTS];
    senyolanda_result result = senyolanda_open_interest_only_with_payment(record, length, months, given, counts, amounts);
    if (result != 0) return result;
    senyolanda_loan_put_together(&interest_only->loan, counts, amounts);
    interest_only->months = months;
    return result;
}

/* The next rows, as senyolanda_loan_draw. Refuses 2, 3, 10, 16. */
static inline SENYOLANDA_CHECKED senyolanda_result senyolanda_interest_only_draw(
    struct senyolanda_interest_only *SENYOLANDA_RESTRICT interest_only,
    double *SENYOLANDA_RESTRICT room, size_t places,
    uint32_t *SENYOLANDA_RESTRICT written, uint32_t *SENYOLANDA_RESTRICT owed) {
    uint32_t counts[SENYOLANDA_LOAN_COUNTS];
    double amounts[SENYOLANDA_LOAN_AMOUNTS];
    senyolanda_result result;
    senyolanda_loan_taken_apart(&interest_only->loan, counts, amounts);
    result = senyolanda_draw_interest_only(interest_only->months, counts, amounts, room, places, written, owed);
    if (result == 0) senyolanda_loan_put_together(&interest_only->loan, counts, amounts);
    return result;
}

/* The same with lines, as senyolanda_loan_draw_with_years. Refuses 2, 3, 10, 16. */
static inline SENYOLANDA_CHECKED senyolanda_result senyolanda_interest_only_draw_with_years(
    struct senyolanda_interest_only *SENYOLANDA_RESTRICT interest_only,
    double *SENYOLANDA_RESTRICT room, size_t places,
    double *SENYOLANDA_RESTRICT years, size_t year_places,
    uint32_t *SENYOLANDA_RESTRICT written, uint32_t *SENYOLANDA_RESTRICT owed) {
    uint32_t counts[SENYOLANDA_LOAN_COUNTS];
    double amounts[SENYOLANDA_LOAN_AMOUNTS];
    senyolanda_result result;
    senyolanda_loan_taken_apart(&interest_only->loan, counts, amounts);
    result = senyolanda_draw_interest_only_with_years(
        interest_only->months, counts, amounts, room, places, years, year_places, written, owed);
    if (result == 0) senyolanda_loan_put_together(&interest_only->loan, counts, amounts);
    return result;
}

/* The next row alone, as a row's record. Refuses 2, 10, 16. */
static inline SENYOLANDA_CHECKED senyolanda_result senyolanda_interest_only_next_row(
    struct senyolanda_interest_only *SENYOLANDA_RESTRICT interest_only,
    uint8_t record[SENYOLANDA_FILLED SENYOLANDA_ROW_BYTES],
    uint32_t *SENYOLANDA_RESTRICT written, uint32_t *SENYOLANDA_RESTRICT owed) {
    uint32_t counts[SENYOLANDA_LOAN_COUNTS];
    double amounts[SENYOLANDA_LOAN_AMOUNTS];
    senyolanda_result result;
    senyolanda_loan_taken_apart(&interest_only->loan, counts, amounts);
    result = senyolanda_next_interest_only_row(interest_only->months, counts, amounts, record, written, owed);
    if (result == 0) senyolanda_loan_put_together(&interest_only->loan, counts, amounts);
    return result;
}

/* The line of a year, as senyolanda_loan_year. Refuses 2, 3, 10, 14. */
static inline SENYOLANDA_CHECKED senyolanda_result senyolanda_interest_only_year(
    const struct senyolanda_interest_only *interest_only, const double *years, size_t year_places, uint32_t year,
    struct senyolanda_year *SENYOLANDA_RESTRICT line) {
    return senyolanda_loan_year(&interest_only->loan, years, year_places, year, line);
}

/* Opens a balloon loan with the worked-out payment. Refuses 1, 2, 11, 16. */
static inline SENYOLANDA_CHECKED senyolanda_result senyolanda_balloon_open(
    const uint8_t *record, size_t length, uint32_t month,
    struct senyolanda_balloon *SENYOLANDA_RESTRICT balloon) {
    uint32_t counts[SENYOLANDA_LOAN_COUNTS];
    double amounts[SENYOLANDA_LOAN_AMOUNTS];
    senyolanda_result result = senyolanda_open_balloon(record, length, month, counts, amounts);
    if (result != 0) return result;
    senyolanda_loan_put_together(&balloon->loan, counts, amounts);
    balloon->month = month;
    return result;
}

/* Opens a balloon loan with a given payment. Refuses 1, 2, 11, 16. */
static inline SENYOLANDA_CHECKED senyolanda_result senyolanda_balloon_open_with_payment(
    const uint8_t *record, size_t length, uint32_t month, double given,
    struct senyolanda_balloon *SENYOLANDA_RESTRICT balloon) {
    uint32_t counts[SENYOLANDA_LOAN_COUNTS];
    double amounts[SENYOLANDA_LOAN_AMOUNTS];
    senyolanda_result result = senyolanda_open_balloon_with_payment(record, length, month, given, counts, amounts);
    if (result != 0) return result;
    senyolanda_loan_put_together(&balloon->loan, counts, amounts);
    balloon->month = month;
    return result;
}

/* The next rows, as senyolanda_loan_draw. Refuses 2, 3, 10, 16. */
static inline SENYOLANDA_CHECKED senyolanda_result senyolanda_balloon_draw(
    struct senyolanda_balloon *SENYOLANDA_RESTRICT balloon,
    double *SENYOLANDA_RESTRICT room, size_t places,
    uint32_t *SENYOLANDA_RESTRICT written, uint32_t *SENYOLANDA_RESTRICT owed) {
    uint32_t counts[SENYOLANDA_LOAN_COUNTS];
    double amounts[SENYOLANDA_LOAN_AMOUNTS];
    senyolanda_result result;
    senyolanda_loan_taken_apart(&balloon->loan, counts, amounts);
    result = senyolanda_draw_balloon(balloon->month, counts, amounts, room, places, written, owed);
    if (result == 0) senyolanda_loan_put_together(&balloon->loan, counts, amounts);
    return result;
}

/* The same with lines, as senyolanda_loan_draw_with_years. Refuses 2, 3, 10, 16. */
static inline SENYOLANDA_CHECKED senyolanda_result senyolanda_balloon_draw_with_years(
    struct senyolanda_balloon *SENYOLANDA_RESTRICT balloon,
    double *SENYOLANDA_RESTRICT room, size_t places,
    double *SENYOLANDA_RESTRICT years, size_t year_places,
    uint32_t *SENYOLANDA_RESTRICT written, uint32_t *SENYOLANDA_RESTRICT owed) {
    uint32_t counts[SENYOLANDA_LOAN_COUNTS];
    double amounts[SENYOLANDA_LOAN_AMOUNTS];
    senyolanda_result result;
    senyolanda_loan_taken_apart(&balloon->loan, counts, amounts);
    result = senyolanda_draw_balloon_with_years(balloon->month, counts, amounts, room, places, years, year_places, written, owed);
    if (result == 0) senyolanda_loan_put_together(&balloon->loan, counts, amounts);
    return result;
}

/* The next row alone, as a row's record. Refuses 2, 10, 16. */
static inline SENYOLANDA_CHECKED senyolanda_result senyolanda_balloon_next_row(
    struct senyolanda_balloon *SENYOLANDA_RESTRICT balloon,
    uint8_t record[SENYOLANDA_FILLED SENYOLANDA_ROW_BYTES],
    uint32_t *SENYOLANDA_RESTRICT written, uint32_t *SENYOLANDA_RESTRICT owed) {
    uint32_t counts[SENYOLANDA_LOAN_COUNTS];
    double amounts[SENYOLANDA_LOAN_AMOUNTS];
    senyolanda_result result;
    senyolanda_loan_taken_apart(&balloon->loan, counts, amounts);
    result = senyolanda_next_balloon_row(balloon->month, counts, amounts, record, written, owed);
    if (result == 0) senyolanda_loan_put_together(&balloon->loan, counts, amounts);
    return result;
}

/* The line of a year, as senyolanda_loan_year. Refuses 2, 3, 10, 14, 16. */
static inline SENYOLANDA_CHECKED senyolanda_result senyolanda_balloon_year(
    const struct senyolanda_balloon *balloon, const double *years, size_t year_places, uint32_t year,
    struct senyolanda_year *SENYOLANDA_RESTRICT line) {
    uint32_t counts[SENYOLANDA_LOAN_COUNTS];
    double amounts[SENYOLANDA_LOAN_AMOUNTS], found[SENYOLANDA_YEAR_PLACES];
    senyolanda_result result;
    senyolanda_loan_taken_apart(&balloon->loan, counts, amounts);
    result = senyolanda_look_up_balloon_year(balloon->month, counts, amounts, years, year_places, year, found);
    if (result == 0) *line = senyolanda_year_at(found, 0);
    return result;
}

/* Opens an adjustable loan with the worked-out payment. Refuses 1, 2, 11, 16. */
static inline SENYOLANDA_CHECKED senyolanda_result senyolanda_adjustable_open(
    const uint8_t *record, size_t length,
    double initial, double cap, double lifetime, const double *index, size_t index_count,
    struct senyolanda_adjustable *SENYOLANDA_RESTRICT adjustable) {
    uint32_t counts[SENYOLANDA_LOAN_COUNTS];
    double amounts[SENYOLANDA_LOAN_AMOUNTS];
    senyolanda_result result = senyolanda_open_adjustable(
        record, length, initial, cap, lifetime, index, index_count, counts, amounts);
    if (result != 0) return result;
    senyolanda_loan_put_together(&adjustable->loan, counts, amounts);
    adjustable->initial = initial;
    adjustable->cap = cap;
    adjustable->lifetime = lifetime;
    return result;
}

/* The next rows, as senyolanda_loan_draw. Refuses 2, 3, 10, 16. */
static inline SENYOLANDA_CHECKED senyolanda_result senyolanda_adjustable_draw(
    struct senyolanda_adjustable *SENYOLANDA_RESTRICT adjustable, const double *index, size_t index_count,
    double *SENYOLANDA_RESTRICT room, size_t places,
    uint32_t *SENYOLANDA_RESTRICT written, uint32_t *SENYOLANDA_RESTRICT owed) {
    uint32_t counts[SENYOLANDA_LOAN_COUNTS];
    double amounts[SENYOLANDA_LOAN_AMOUNTS];
    senyolanda_result result;
    senyolanda_loan_taken_apart(&adjustable->loan, counts, amounts);
    result = senyolanda_draw_adjustable(
        adjustable->initial, adjustable->cap, adjustable->lifetime, index, index_count,
        counts, amounts, room, places, written, owed);
    if (result == 0) senyolanda_loan_put_together(&adjustable->loan, counts, amounts);
    return result;
}

/* The same with lines, as senyolanda_loan_draw_with_years. Refuses 2, 3, 10, 16. */
static inline SENYOLANDA_CHECKED senyolanda_result senyolanda_adjustable_draw_with_years(
    struct senyolanda_adjustable *SENYOLANDA_RESTRICT adjustable, const double *index, size_t index_count,
    double *SENYOLANDA_RESTRICT room, size_t places,
    double *SENYOLANDA_RESTRICT years, size_t year_places,
    uint32_t *SENYOLANDA_RESTRICT written, uint32_t *SENYOLANDA_RESTRICT owed) {
    uint32_t counts[SENYOLANDA_LOAN_COUNTS];
    double amounts[SENYOLANDA_LOAN_AMOUNTS];
    senyolanda_result result;
    senyolanda_loan_taken_apart(&adjustable->loan, counts, amounts);
    result = senyolanda_draw_adjustable_with_years(
        adjustable->initial, adjustable->cap, adjustable->lifetime, index, index_count,
        counts, amounts, room, places, years, year_places, written, owed);
    if (result == 0) senyolanda_loan_put_together(&adjustable->loan, counts, amounts);
    return result;
}

/* The next row alone, as a row's record. Refuses 2, 10, 16. */
static inline SENYOLANDA_CHECKED senyolanda_result senyolanda_adjustable_next_row(
    struct senyolanda_adjustable *SENYOLANDA_RESTRICT adjustable, const double *index, size_t index_count,
    uint8_t record[SENYOLANDA_FILLED SENYOLANDA_ROW_BYTES],
    uint32_t *SENYOLANDA_RESTRICT written, uint32_t *SENYOLANDA_RESTRICT owed) {
    uint32_t counts[SENYOLANDA_LOAN_COUNTS];
    double amounts[SENYOLANDA_LOAN_AMOUNTS];
    senyolanda_result result;
    senyolanda_loan_taken_apart(&adjustable->loan, counts, amounts);
    result = senyolanda_next_adjustable_row(
        adjustable->initial, adjustable->cap, adjustable->lifetime, index, index_count, counts, amounts, record, written, owed);
    if (result == 0) senyolanda_loan_put_together(&adjustable->loan, counts, amounts);
    return result;
}

/* The line of a year, as senyolanda_loan_year. Refuses 2, 3, 10, 14. */
static inline SENYOLANDA_CHECKED senyolanda_result senyolanda_adjustable_year(
    const struct senyolanda_adjustable *adjustable, const double *years, size_t year_places, uint32_t year,
    struct senyolanda_year *SENYOLANDA_RESTRICT line) {
    return senyolanda_loan_year(&adjustable->loan, years, year_places, year, line);
}

/* ---- pools: the loans come as their records end to end; the speed is an enum senyolanda_speed, its number and list beside it.
   A bad loan's place is its index; a length that does not divide into records is 11 at 0, and so is an unknown speed, beside a
   record of another kind too. ---- */

/* The part of a balance that is prepaid in a month, a decimal; months count from 1. Of a history, month 0 reads the first number
   and months past its end are 0; of PSA, month 0 is 0. A CPR above 1 gives NaN. Refuses 11. */
senyolanda_result senyolanda_monthly_smm(
    uint32_t speed, double number, const double *history, size_t history_count,
    uint32_t month, double *SENYOLANDA_RESTRICT smm) SENYOLANDA_CHECKED;

/* The pool's months up to its longest term, three numbers each: scheduled principal, interest, prepayment; places behind them
   stay, and months says how many they are, 0 for no loans. A prepayment is the month's part of the balance that the schedule
   leaves; earlier prepayments lower no balance, so that all months together may pay back more than was lent.
   Refuses 1, 2, 3, 7, 11. */
senyolanda_result senyolanda_pool_cash_flows(
    const uint8_t *records, size_t length, uint32_t speed, double number, const double *history, size_t history_count,
    double *SENYOLANDA_RESTRICT room, size_t places, uint32_t *SENYOLANDA_RESTRICT months) SENYOLANDA_CHECKED;

/* The present value of the pool's months, all three numbers of each, at a yearly rate of which each month takes a twelfth; 0 for
   no loans. Refuses 1, 2, 7, 11. */
senyolanda_result senyolanda_pool_price(
    const uint8_t *records, size_t length, uint32_t speed, double number, const double *history, size_t history_count,
    double rate, double *SENYOLANDA_RESTRICT price) SENYOLANDA_CHECKED;

/* How fast the price falls as the rate rises, over the price, in years: 5 means that a basis point takes about 0.0005 of the
   price. It is (below - above) / (0.0002 * price), by the prices a basis point below and above, over the same months; 0 for a
   price of 0. Refuses 1, 2, 7, 11. */
senyolanda_result senyolanda_pool_duration(
    const uint8_t *records, size_t length, uint32_t speed, double number, const double *history, size_t history_count,
    double rate, double *SENYOLANDA_RESTRICT duration) SENYOLANDA_CHECKED;

/* The second derivative of the price by the rate, over the price, in years squared: by the same prices,
   (below + above - 2 * price) / (0.0001 * 0.0001 * price); 0 for a price of 0. Refuses 1, 2, 7, 11. */
senyolanda_result senyolanda_pool_convexity(
    const uint8_t *records, size_t length, uint32_t speed, double number, const double *history, size_t history_count,
    double rate, double *SENYOLANDA_RESTRICT convexity) SENYOLANDA_CHECKED;

/* Three numbers: the sum of the principals; the mean rate, a decimal a year; the mean term, in months. The means weigh each loan
   by its principal and are 0 where the sum is 0. Refuses 1, 2, 7, 11. */
senyolanda_result senyolanda_pool_totals(
    const uint8_t *records, size_t length, double totals[SENYOLANDA_FILLED 3]) SENYOLANDA_CHECKED;

/* ---- bonds: the bond comes as its record. It has as many whole periods as its maturity is nearest to, halves up, pays a coupon
   at the end of each and its face with the last. A price is that of a coupon's day, so that no interest has accrued and it is
   clean and full at once. A bond of less than half a period, or of a maturity of 0 or below, has no period: its price is its face
   at every yield. Durations and convexity are 0 without a period, and for a price below 2^-52 in size. ---- */

/* The price at a yield; at a yield of 0 all that the bond pays. Refuses 1, 7, 9, 11. */
senyolanda_result senyolanda_bond_price(
    const uint8_t *record, size_t length, double ytm, double *SENYOLANDA_RESTRICT price) SENYOLANDA_CHECKED;

/* What the price gains, in money, when the yield falls by a basis point. Refuses 1, 7, 9, 11. */
senyolanda_result senyolanda_bond_dv01(
    const uint8_t *record, size_t length, double ytm, double *SENYOLANDA_RESTRICT dv01) SENYOLANDA_CHECKED;

/* A year's coupons over the market price, a decimal; 0 for a price below 2^-52 in size. Refuses 1, 7, 9, 11. */
senyolanda_result senyolanda_bond_current_yield(
    const uint8_t *record, size_t length, double market, double *SENYOLANDA_RESTRICT current) SENYOLANDA_CHECKED;

/* The yield at which the bond has the market price, to about 1e-8; it is searched from 0.001 to 0.999, or else from 0.000001 to
   50. Where every yield has it, as at the face of a bond without a period, it is 0.999. Refuses 1, 7, 9, 11, 12. */
senyolanda_result senyolanda_bond_yield_to_maturity(
    const uint8_t *record, size_t length, double market, double *SENYOLANDA_RESTRICT ytm) SENYOLANDA_CHECKED;

/* The mean time of the bond's payments, weighed by their present values, in years. Refuses 1, 7, 9, 11. */
senyolanda_result senyolanda_bond_macaulay_duration(
    const uint8_t *record, size_t length, double ytm, double *SENYOLANDA_RESTRICT duration) SENYOLANDA_CHECKED;

/* How fast the price falls as the yield rises, over the price, in years: 5 means that a basis point takes about 0.0005 of the
   price. It is Macaulay's duration over 1 plus the yield of a period. Refuses 1, 7, 9, 11. */
senyolanda_result senyolanda_bond_modified_duration(
    const uint8_t *record, size_t length, double ytm, double *SENYOLANDA_RESTRICT duration) SENYOLANDA_CHECKED;

/* The second derivative of the price by the yield, over the price, in years squared. Refuses 1, 7, 9, 11. */
senyolanda_result senyolanda_bond_convexity(
    const uint8_t *record, size_t length, double ytm, double *SENYOLANDA_RESTRICT convexity) SENYOLANDA_CHECKED;

/* What part of its price, and no amount, the bond gains, or below 0 loses, when the yield rises by delta, a decimal: -0.05 is a
   price five per cent lower. It is -duration * delta + 0.5 * convexity * delta * delta, by the modified duration.
   Refuses 1, 7, 9, 11. */
senyolanda_result senyolanda_bond_price_change(
    const uint8_t *record, size_t length, double ytm, double delta, double *SENYOLANDA_RESTRICT change) SENYOLANDA_CHECKED;

/* Macaulay's duration, modified duration and convexity at the yield that a market price implies. Each refuses 1, 7, 9, 11, 12. */
senyolanda_result senyolanda_bond_macaulay_duration_at_price(
    const uint8_t *record, size_t length, double market, double *SENYOLANDA_RESTRICT duration) SENYOLANDA_CHECKED;
senyolanda_result senyolanda_bond_modified_duration_at_price(
    const uint8_t *record, size_t length, double market, double *SENYOLANDA_RESTRICT duration) SENYOLANDA_CHECKED;
senyolanda_result senyolanda_bond_convexity_at_price(
    const uint8_t *record, size_t length, double market, double *SENYOLANDA_RESTRICT convexity) SENYOLANDA_CHECKED;

/* The price of 1 that is paid at maturity, in years, at a yield compounded once a year. Refuses 7, 9. */
senyolanda_result senyolanda_zero_coupon_bond_price(
    double ytm, double maturity, double *SENYOLANDA_RESTRICT price) SENYOLANDA_CHECKED;

/* How many coupons a year a frequency stands for: 1, 2, 4 or 12; frequency is an enum senyolanda_frequency. Refuses 11. */
senyolanda_result senyolanda_periods_per_year(uint32_t frequency, uint32_t *SENYOLANDA_RESTRICT periods) SENYOLANDA_CHECKED;

/* ---- yield curves: knots as two lists, their times and their rates; flat before the first knot, below time 0 too, and after the
   last ---- */

/* The rate at t, on straight lines between the knots. Refuses 4, 5, 6, 7. */
senyolanda_result senyolanda_linear_interpolate(
    const double *times, size_t times_count, const double *rates, size_t rates_count,
    double t, double *SENYOLANDA_RESTRICT rate) SENYOLANDA_CHECKED;

/* Each time of the list becomes its rate, the knots tested once for all; a bad time's place is its index. Refuses 4, 5, 6, 7. */
senyolanda_result senyolanda_linear_interpolate_each(
    const double *times, size_t times_count, const double *rates, size_t rates_count,
    double *SENYOLANDA_RESTRICT asked, size_t asked_count) SENYOLANDA_CHECKED;

/* The rate at t, on the natural cubic spline through the knots; one or two knots make straight lines. Refuses 4, 5, 6, 7. */
senyolanda_result senyolanda_cubic_spline_interpolate(
    const double *times, size_t times_count, const double *rates, size_t rates_count,
    double t, double *SENYOLANDA_RESTRICT rate) SENYOLANDA_CHECKED;

/* What 1 at t is worth today, on the straight lines: exp(-rate * t), also for a t below 0. Refuses 4, 5, 6, 7. */
senyolanda_result senyolanda_yield_curve_discount_factor(
    const double *times, size_t times_count, const double *rates, size_t rates_count,
    double t, double *SENYOLANDA_RESTRICT factor) SENYOLANDA_CHECKED;

/* Each time of the list becomes its factor, faster than one by one; a bad time's place is its index. Refuses 4, 5, 6, 7. */
senyolanda_result senyolanda_yield_curve_discount_factor_each(
    const double *times, size_t times_count, const double *rates, size_t rates_count,
    double *SENYOLANDA_RESTRICT asked, size_t asked_count) SENYOLANDA_CHECKED;

/* The rate from t1 to t2 that today's curve implies, on the straight lines; the rate at t1 where the two are less than 1e-12
   apart. Refuses 4, 5, 6, 7. */
senyolanda_result senyolanda_yield_curve_forward_rate(
    const double *times, size_t times_count, const double *rates, size_t rates_count,
    double t1, double t2, double *SENYOLANDA_RESTRICT rate) SENYOLANDA_CHECKED;

/* The coupon, a decimal a year, at which a bond that pays each half year until t is worth its face. It pays as often as 2 * t is
   nearest to, halves up, at even distances; where that is never, the rate at t. 0 where its factors add up to less than 1e-12.
   Refuses 4, 5, 6, 7. */
senyolanda_result senyolanda_par_yield(
    const double *times, size_t times_count, const double *rates, size_t rates_count,
    double t, double *SENYOLANDA_RESTRICT par) SENYOLANDA_CHECKED;

/* The Nelson-Siegel model nearest to the points by least squares, as four numbers: beta0, beta1, beta2, and decay, always 0.5
   years. One point gives a flat model; where the points do not tell three betas, as two points or long times
   alone do not, the betas are 0. Refuses 4, 5, 6. */
senyolanda_result senyolanda_nelson_siegel_fit(
    const double *times, size_t times_count, const double *rates, size_t rates_count,
    double model[SENYOLANDA_FILLED 4]) SENYOLANDA_CHECKED;

/* The model's yield at t; for a t below 1e-10, beta0 + beta1. Refuses 7. */
senyolanda_result senyolanda_nelson_siegel_yield(
    const double model[SENYOLANDA_READ 4], double t, double *SENYOLANDA_RESTRICT rate) SENYOLANDA_CHECKED;

/* The model's forward rate at t, for a moment from then on; for a t below 1e-10, beta0 + beta1. Refuses 7. */
senyolanda_result senyolanda_nelson_siegel_forward_rate(
    const double model[SENYOLANDA_READ 4], double t, double *SENYOLANDA_RESTRICT rate) SENYOLANDA_CHECKED;

/* The model's forward rate at time 0: beta0 + beta1. Never refused. */
senyolanda_result senyolanda_nelson_siegel_instantaneous_forward(
    const double model[SENYOLANDA_READ 4], double *SENYOLANDA_RESTRICT rate);

/* Three numbers: level, slope, curvature, which are beta0, beta1, beta2. Never refused. */
senyolanda_result senyolanda_nelson_siegel_metrics(
    const double model[SENYOLANDA_READ 4], double metrics[SENYOLANDA_FILLED 3]);

/* ---- swaps: the swap comes as its record (kind 4), its discount curve as tenors and zero rates, flat outside; receive_fixed is 0
   for the side that pays the fixed rate, anything else for the other. A swap has as many periods of 1 / frequency years as its
   tenor is nearest to, halves up. It pays at the end of each, for the whole days nearest to 365 / frequency, by its day count. ---- */

/* What part of a year so many days are, a decimal; day_count is an enum senyolanda_day_count. Refuses 11. */
senyolanda_result senyolanda_day_count_fraction(
    uint32_t day_count, uint32_t days, double *SENYOLANDA_RESTRICT fraction) SENYOLANDA_CHECKED;

/* The zero rates at which par swaps of these rates, which pay once a year and at the tenor, are worth nothing, one for each tenor;
   places past the last tenor stay. Where no rate from -1 to 5 serves, it is ln(1 + par rate): infinite or NaN for a par rate of -1
   or below. Refuses 4, 5, 6. */
senyolanda_result senyolanda_bootstrap(
    const double *tenors, size_t tenors_count, const double *par_rates, size_t par_rates_count,
    double zero_rates[SENYOLANDA_FILLED SENYOLANDA_MOST_KNOTS]) SENYOLANDA_CHECKED;

/* The zero rate at t, on straight lines between the tenors. Refuses 4, 5, 6, 7. */
senyolanda_result senyolanda_discount_curve_rate(
    const double *tenors, size_t tenors_count, const double *zeros, size_t zeros_count,
    double t, double *SENYOLANDA_RESTRICT rate) SENYOLANDA_CHECKED;

/* Each time of the list becomes its zero rate, the knots tested once for all; a bad time's place is its index.
   Refuses 4, 5, 6, 7. */
senyolanda_result senyolanda_discount_curve_rate_each(
    const double *tenors, size_t tenors_count, const double *zeros, size_t zeros_count,
    double *SENYOLANDA_RESTRICT asked, size_t asked_count) SENYOLANDA_CHECKED;

/* What 1 at t is worth today; 1 at time 0 and before. Refuses 4, 5, 6, 7. */
senyolanda_result senyolanda_discount_curve_factor(
    const double *tenors, size_t tenors_count, const double *zeros, size_t zeros_count,
    double t, double *SENYOLANDA_RESTRICT factor) SENYOLANDA_CHECKED;

/* Each time of the list becomes its factor, faster than one by one; a bad time's place is its index. Refuses 4, 5, 6, 7. */
senyolanda_result senyolanda_discount_curve_factor_each(
    const double *tenors, size_t tenors_count, const double *zeros, size_t zeros_count,
    double *SENYOLANDA_RESTRICT asked, size_t asked_count) SENYOLANDA_CHECKED;

/* The present value of the fixed payments and of the notional at the tenor, together. Refuses 1, 4, 5, 6, 7, 8, 9, 11. */
senyolanda_result senyolanda_fixed_leg_pv(
    const uint8_t *record, size_t length,
    const double *tenors, size_t tenors_count, const double *zeros, size_t zeros_count,
    double *SENYOLANDA_RESTRICT pv) SENYOLANDA_CHECKED;

/* The present value of the floating payments, at the rates that the curve implies, and of the notional at the tenor, together.
   Refuses 1, 4, 5, 6, 7, 8, 9, 11. */
senyolanda_result senyolanda_floating_leg_pv(
    const uint8_t *record, size_t length,
    const double *tenors, size_t tenors_count, const double *zeros, size_t zeros_count,
    double *SENYOLANDA_RESTRICT pv) SENYOLANDA_CHECKED;

/* What the swap is worth to the named side: the leg that it receives less the other. Refuses 1, 4, 5, 6, 7, 8, 9, 11. */
senyolanda_result senyolanda_swap_npv(
    const uint8_t *record, size_t length,
    const double *tenors, size_t tenors_count, const double *zeros, size_t zeros_count,
    uint32_t receive_fixed, double *SENYOLANDA_RESTRICT npv) SENYOLANDA_CHECKED;

/* The fixed rate at which the swap is worth nothing, if its tenor is whole periods; infinite or NaN for a swap without a period.
   Refuses 1, 4, 5, 6, 7, 8, 9, 11. */
senyolanda_result senyolanda_par_swap_rate(
    const uint8_t *record, size_t length,
    const double *tenors, size_t tenors_count, const double *zeros, size_t zeros_count,
    double *SENYOLANDA_RESTRICT rate) SENYOLANDA_CHECKED;

/* What the swap gains for the named side, in money, when every zero rate rises by a basis point (a bond's dv01 is for a fall).
   Refuses 1, 4, 5, 6, 7, 8, 9, 11. */
senyolanda_result senyolanda_swap_dv01(
    const uint8_t *record, size_t length,
    const double *tenors, size_t tenors_count, const double *zeros, size_t zeros_count,
    uint32_t receive_fixed, double *SENYOLANDA_RESTRICT dv01) SENYOLANDA_CHECKED;

/* The modified duration of the fixed leg with its notional, in years: the mean time weighed by present values, over 1 plus the
   zero rate at the tenor over the frequency; 0 for a leg that is worth 0. Refuses 1, 4, 5, 6, 7, 8, 9, 11. */
senyolanda_result senyolanda_swap_duration(
    const uint8_t *record, size_t length,
    const double *tenors, size_t tenors_count, const double *zeros, size_t zeros_count,
    double *SENYOLANDA_RESTRICT duration) SENYOLANDA_CHECKED;

/* The six of above: npv, fixed leg, floating leg, par rate, dv01, duration. Refuses 1, 4, 5, 6, 7, 8, 9, 11. */
senyolanda_result senyolanda_value_swap(
    const uint8_t *record, size_t length,
    const double *tenors, size_t tenors_count, const double *zeros, size_t zeros_count,
    uint32_t receive_fixed, double valuation[SENYOLANDA_FILLED 6]) SENYOLANDA_CHECKED;

/* ---- dated swaps: the swap comes as its record (kind 5), its curve as an undated swap's. Its periods are of 12 / frequency
   months, counted from the first date, a day that a month lacks cut to the month's end; the last ends at the second date, whole or
   not. Each pays at its end for its own days by the day count; one that counts 0 days (30/360, from a 30th to the 31st) pays 0.
   Times are actual days from the first date over 365, and the notional is paid at the second date. The record's tenor is not
   read, so that none is refused. (senyolanda_dated_pv and its like, among the spreads, are over dated amounts and no swaps.) ---- */

/* As senyolanda_fixed_leg_pv, of a dated swap. Refuses 1, 4, 5, 6, 7, 8, 9, 11, 15. */
senyolanda_result senyolanda_dated_fixed_leg_pv(
    const uint8_t *record, size_t length,
    const double *tenors, size_t tenors_count, const double *zeros, size_t zeros_count,
    double *SENYOLANDA_RESTRICT pv) SENYOLANDA_CHECKED;

/* As senyolanda_floating_leg_pv, each forward rate over the period's own fraction of a year.
   Refuses 1, 4, 5, 6, 7, 8, 9, 11, 15. */
senyolanda_result senyolanda_dated_floating_leg_pv(
    const uint8_t *record, size_t length,
    const double *tenors, size_t tenors_count, const double *zeros, size_t zeros_count,
    double *SENYOLANDA_RESTRICT pv) SENYOLANDA_CHECKED;

/* As senyolanda_swap_npv, of a dated swap. Refuses 1, 4, 5, 6, 7, 8, 9, 11, 15. */
senyolanda_result senyolanda_dated_swap_npv(
    const uint8_t *record, size_t length,
    const double *tenors, size_t tenors_count, const double *zeros, size_t zeros_count,
    uint32_t receive_fixed, double *SENYOLANDA_RESTRICT npv) SENYOLANDA_CHECKED;

/* The fixed rate at which the dated swap is worth nothing; infinite or NaN where no period counts a day.
   Refuses 1, 4, 5, 6, 7, 8, 9, 11, 15. */
senyolanda_result senyolanda_dated_par_swap_rate(
    const uint8_t *record, size_t length,
    const double *tenors, size_t tenors_count, const double *zeros, size_t zeros_count,
    double *SENYOLANDA_RESTRICT rate) SENYOLANDA_CHECKED;

/* As senyolanda_swap_dv01, of a dated swap. Refuses 1, 4, 5, 6, 7, 8, 9, 11, 15. */
senyolanda_result senyolanda_dated_swap_dv01(
    const uint8_t *record, size_t length,
    const double *tenors, size_t tenors_count, const double *zeros, size_t zeros_count,
    uint32_t receive_fixed, double *SENYOLANDA_RESTRICT dv01) SENYOLANDA_CHECKED;

/* As senyolanda_swap_duration, with the zero rate at the second date's time. Refuses 1, 4, 5, 6, 7, 8, 9, 11, 15. */
senyolanda_result senyolanda_dated_swap_duration(
    const uint8_t *record, size_t length,
    const double *tenors, size_t tenors_count, const double *zeros, size_t zeros_count,
    double *SENYOLANDA_RESTRICT duration) SENYOLANDA_CHECKED;

/* The six of above: npv, fixed leg, floating leg, par rate, dv01, duration. Refuses 1, 4, 5, 6, 7, 8, 9, 11, 15. */
senyolanda_result senyolanda_value_dated_swap(
    const uint8_t *record, size_t length,
    const double *tenors, size_t tenors_count, const double *zeros, size_t zeros_count,
    uint32_t receive_fixed, double valuation[SENYOLANDA_FILLED 6]) SENYOLANDA_CHECKED;

/* ---- spreads: curves as tenors and rates, flat outside; a spread is in basis points, a rate is a decimal ---- */

/* The zero rate at t, on straight lines between the tenors. Refuses 4, 5, 6, 7. */
senyolanda_result senyolanda_zero_curve_rate(
    const double *tenors, size_t tenors_count, const double *rates, size_t rates_count,
    double t, double *SENYOLANDA_RESTRICT rate) SENYOLANDA_CHECKED;

/* Each time of the list becomes its zero rate, the knots tested once for all; a bad time's place is its index.
   Refuses 4, 5, 6, 7. */
senyolanda_result senyolanda_zero_curve_rate_each(
    const double *tenors, size_t tenors_count, const double *rates, size_t rates_count,
    double *SENYOLANDA_RESTRICT asked, size_t asked_count) SENYOLANDA_CHECKED;

/* The par swap rate at a tenor, on straight lines between the tenors. Refuses 4, 5, 6, 7. */
senyolanda_result senyolanda_swap_curve_rate(
    const double *tenors, size_t tenors_count, const double *rates, size_t rates_count,
    double tenor, double *SENYOLANDA_RESTRICT rate) SENYOLANDA_CHECKED;

/* Each tenor of the list becomes its par swap rate, the knots tested once for all; a bad tenor's place is its index.
   Refuses 4, 5, 6, 7. */
senyolanda_result senyolanda_swap_curve_rate_each(
    const double *tenors, size_t tenors_count, const double *rates, size_t rates_count,
    double *SENYOLANDA_RESTRICT asked, size_t asked_count) SENYOLANDA_CHECKED;

/* What 1 at t is worth today: exp(-rate * t), also for a t below 0. Refuses 4, 5, 6, 7. */
senyolanda_result senyolanda_zero_curve_discount_factor(
    const double *tenors, size_t tenors_count, const double *rates, size_t rates_count,
    double t, double *SENYOLANDA_RESTRICT factor) SENYOLANDA_CHECKED;

/* Each time of the list becomes its factor, faster than one by one; a bad time's place is its index. Refuses 4, 5, 6, 7. */
senyolanda_result senyolanda_zero_curve_discount_factor_each(
    const double *tenors, size_t tenors_count, const double *rates, size_t rates_count,
    double *SENYOLANDA_RESTRICT asked, size_t asked_count) SENYOLANDA_CHECKED;

/* The rate from t1 to t2 that the two discount factors imply; the rate at t1 where the two are less than 1e-12 apart, and 0 where
   a factor is 0. Refuses 4, 5, 6, 7. */
senyolanda_result senyolanda_zero_curve_forward_rate(
    const double *tenors, size_t tenors_count, const double *rates, size_t rates_count,
    double t1, double t2, double *SENYOLANDA_RESTRICT rate) SENYOLANDA_CHECKED;

/* A bond's cash flows into two lists, times in years and amounts in money, a place in both for each flow; places behind them stay.
   flows says how many there are: as many as tenor * frequency is nearest to, halves up. The face comes with the last; where there
   is no flow, as for a tenor of 0 or below, there is no face either. frequency is the number of payments a year and no code, 0 is
   read as 1. Refuses 1, 3, 7, 9. */
senyolanda_result senyolanda_bond_cash_flows(
    double face, double coupon, double tenor, uint32_t frequency,
    double *SENYOLANDA_RESTRICT times, size_t times_count, double *SENYOLANDA_RESTRICT amounts, size_t amounts_count,
    uint32_t *SENYOLANDA_RESTRICT flows) SENYOLANDA_CHECKED;

/* The present value of cash flows over the curve raised by so many points: the sum of
   amount * exp(-(rate + points / 10000) * time), 0 for no flows. Refuses 4, 5, 6, 7, 9. */
senyolanda_result senyolanda_pv_cash_flows(
    const double *times, size_t times_count, const double *amounts, size_t amounts_count,
    const double *tenors, size_t tenors_count, const double *rates, size_t rates_count,
    double points, double *SENYOLANDA_RESTRICT pv) SENYOLANDA_CHECKED;

/* The points, to about 1e-8, at which cash flows have the market price: found is 1. Where their worth at -500 points and at 2,000
   lies on one side of the market price, found is 0 and points is the end of the two that comes nearer to it.
   Refuses 4, 5, 6, 7, 9. */
senyolanda_result senyolanda_z_spread(
    const double *times, size_t times_count, const double *amounts, size_t amounts_count,
    const double *tenors, size_t tenors_count, const double *rates, size_t rates_count,
    double market, double *SENYOLANDA_RESTRICT points, uint32_t *SENYOLANDA_RESTRICT found) SENYOLANDA_CHECKED;

/* Two numbers of cash flows over the curve raised by so many points: duration, the mean time weighed by present values, in years,
   and convexity, the mean of the times squared, in years squared; both 0 for a worth below 1e-12 in size.
   Refuses 4, 5, 6, 7, 9. */
senyolanda_result senyolanda_duration_convexity(
    const double *times, size_t times_count, const double *amounts, size_t amounts_count,
    const double *tenors, size_t tenors_count, const double *rates, size_t rates_count,
    double points, double sensitivity[SENYOLANDA_FILLED 2]) SENYOLANDA_CHECKED;

/* The three of above over one list of dated amounts: time, amount, time, amount, .. An odd count is 4: a time without an amount. A
   bad flow's place is its index among the flows. Each refuses 4, 5, 6, 7, 9. */
senyolanda_result senyolanda_dated_pv(
    const double *flows, size_t flows_count,
    const double *tenors, size_t tenors_count, const double *rates, size_t rates_count,
    double points, double *SENYOLANDA_RESTRICT pv) SENYOLANDA_CHECKED;
senyolanda_result senyolanda_dated_z_spread(
    const double *flows, size_t flows_count,
    const double *tenors, size_t tenors_count, const double *rates, size_t rates_count,
    double market, double *SENYOLANDA_RESTRICT points, uint32_t *SENYOLANDA_RESTRICT found) SENYOLANDA_CHECKED;
senyolanda_result senyolanda_dated_duration_convexity(
    const double *flows, size_t flows_count,
    const double *tenors, size_t tenors_count, const double *rates, size_t rates_count,
    double points, double sensitivity[SENYOLANDA_FILLED 2]) SENYOLANDA_CHECKED;

/* So many basis points as a decimal rate, points / 10000: the one step from points to rates. Never refused. */
senyolanda_result senyolanda_points_to_decimal(double points, double *SENYOLANDA_RESTRICT rate);

/* A dated amount, its time in years: a list of them is lent as it is, its count in flows. */
struct senyolanda_cash_flow {
    double time, amount;
};

/* The three functions over dated amounts, for lists of cash flows; 4 is for the curve's lists. Each refuses 4, 5, 6, 7, 9. */
static inline SENYOLANDA_CHECKED senyolanda_result senyolanda_flows_pv(
    const struct senyolanda_cash_flow *flows, size_t flows_count,
    const double *tenors, size_t tenors_count, const double *rates, size_t rates_count,
    double points, double *SENYOLANDA_RESTRICT pv) {
    return senyolanda_dated_pv(
        (const double *)flows, 2 * flows_count, tenors, tenors_count, rates, rates_count, points, pv);
}

static inline SENYOLANDA_CHECKED senyolanda_result senyolanda_flows_z_spread(
    const struct senyolanda_cash_flow *flows, size_t flows_count,
    const double *tenors, size_t tenors_count, const double *rates, size_t rates_count,
    double market, double *SENYOLANDA_RESTRICT points, uint32_t *SENYOLANDA_RESTRICT found) {
    return senyolanda_dated_z_spread(
        (const double *)flows, 2 * flows_count, tenors, tenors_count, rates, rates_count, market, points, found);
}

static inline SENYOLANDA_CHECKED senyolanda_result senyolanda_flows_duration_convexity(
    const struct senyolanda_cash_flow *flows, size_t flows_count,
    const double *tenors, size_t tenors_count, const double *rates, size_t rates_count,
    double points, double sensitivity[SENYOLANDA_FILLED 2]) {
    return senyolanda_dated_duration_convexity(
        (const double *)flows, 2 * flows_count, tenors, tenors_count, rates, rates_count, points, sensitivity);
}

/*
 * STACK. The bytes of stack that each function (senyolanda_..) touches beyond the call itself, at the largest input that it takes:
 * the larger of what was measured for Arm and for x86-64.
 *
 *     39540 dated_z_spread                     520 draw_balloon                      56 dated_fraction
 *     38800 pool_convexity                     520 draw_interest_only                56 look_up_balloon_year
 *     38800 pool_duration                      512 bond_convexity_at_price           56 read_swap
 *     38640 pool_price                         504 draw                              56 write_dated_swap
 *     22484 dated_duration_convexity           496 bond_convexity                    48 actual_days
 *     22308 dated_pv                           496 bond_modified_duration_at_price   48 refinance_breakeven
 *     20244 z_spread                           480 bond_macaulay_duration_at_price   40 bond_cash_flows
 *     10548 bootstrap                          480 bond_modified_duration            40 days_30_360
 *      9920 pool_cash_flows                    464 bond_macaulay_duration            40 read_row
 *      5492 value_dated_swap                   440 draw_book                         32 exp
 *      5492 value_swap                         404 discount_curve_rate_each          32 ln
 *      5188 dated_swap_dv01                    404 linear_interpolate_each           24 look_up_year
 *      5188 swap_dv01                          404 swap_curve_rate_each              24 pool_totals
 *      4132 dated_swap_duration                404 zero_curve_rate_each              24 read_bond
 *      4132 dated_swap_npv                     400 bond_yield_to_maturity            12 date_of_number
 *      4132 swap_duration                      344 next_adjustable_row                8 read_loan
 *      4132 swap_npv                           320 next_balloon_row                   0 bond_current_yield
 *      4116 dated_fixed_leg_pv                 320 next_interest_only_row             0 bond_dv01
 *      4116 dated_floating_leg_pv              256 next_row                           0 bond_price
 *      4116 fixed_leg_pv                       192 open_adjustable                    0 day_count_fraction
 *      4116 floating_leg_pv                    192 open_balloon                       0 day_number
 *      4100 dated_par_swap_rate                192 open_interest_only                 0 ltv
 *      4100 par_swap_rate                      144 open_balloon_with_payment          0 monthly_payment
 *      3188 duration_convexity                 144 open_interest_only_with_payment    0 months_later
 *      3124 pv_cash_flows                      112 zero_curve_forward_rate            0 nelson_siegel_instantaneous_forward
 *      2048 cubic_spline_interpolate            96 read_dated_swap                    0 nelson_siegel_metrics
 *      1892 par_yield                           96 yield_curve_forward_rate           0 open
 *      1812 nelson_siegel_fit                   64 discount_curve_factor              0 open_with_payment
 *      1272 listing                             64 discount_curve_rate                0 periods_per_year
 *       852 discount_curve_factor_each          64 linear_interpolate                 0 points_to_decimal
 *       852 yield_curve_discount_factor_each    64 monthly_smm                        0 prepayment_savings
 *       852 zero_curve_discount_factor_each     64 nelson_siegel_forward_rate         0 remaining_balance
 *       808 draw_adjustable_with_years          64 nelson_siegel_yield                0 total_interest
 *       808 draw_balloon_with_years             64 power                              0 write_bond
 *       808 draw_interest_only_with_years       64 swap_curve_rate                    0 write_loan
 *       792 draw_with_years                     64 yield_curve_discount_factor        0 write_row
 *       756 exp_each                            64 zero_coupon_bond_price             0 write_swap
 *       544 bond_price_change                   64 zero_curve_discount_factor
 *       520 draw_adjustable                     64 zero_curve_rate
 */

#ifdef __cplusplus
}
#endif

#endif
