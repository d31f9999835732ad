/*
 * The desk: every argument that a call may take, at rest in good order. A call lends what its function asks for from here, so
 * that a cause of a refusal is one argument of the desk set to one value.
 */
#ifndef DESK_H
#define DESK_H

#include "harness.h"

/* Numbers of a row, and of a year's line. */
enum { WIDTH = SENYOLANDA_ROW_PLACES, YEAR_WIDTH = SENYOLANDA_YEAR_PLACES };

/* One more than the most that is taken, and one more again. */
enum { LOANS = 258, LINES = 102, ENTRIES = 101, KNOTS = 122, FLOWS = 1202, MONTHS = 4, ASKED = 20 };

/* A date, of the calendar or not. */
struct date {
    uint32_t year, month, day;
};

/* Records in their parts. The length is that of the bytes lent, whatever the kind; the bytes past the parts are 0. */
struct loan_parts {
    uint8_t kind;
    double principal, rate;
    uint32_t term;
    size_t length;
};
struct bond_parts {
    uint8_t kind;
    double face, coupon, maturity;
    uint8_t frequency;
    size_t length;
};
struct row_parts {
    uint8_t kind;
    uint32_t month;
    double payment, principal, interest, balance;
    size_t length;
};
struct swap_parts {
    uint8_t kind;
    double notional, rate, tenor;
    uint32_t frequency;
    uint8_t day_count;
    size_t length;
};
struct dated_parts {
    uint8_t kind;
    double notional, rate, tenor;
    uint32_t frequency;
    struct date first, second;
    uint8_t day_count;
    size_t length;
};

struct desk {
    struct loan_parts loan, new_loan;
    struct bond_parts bond;
    struct row_parts row;
    struct swap_parts swap;
    struct dated_parts dated;
    /* a code as a plain number */
    uint32_t frequency, day_count, speed;
    /* a loan in hand, its term and rate the loan's */
    double payment, balance;
    uint32_t done;
    size_t places;
    /* its years' lines, with how many places of them are lent; a lookup's months done and its year */
    double years[LINES * YEAR_WIDTH];
    size_t year_places;
    uint32_t drawn, year;
    /* what kinds of loans have of their own: months of interest alone, and the month of a balloon */
    uint32_t only, balloon;
    /* an adjustable loan, which has a longer term than the loan; in hand, its rate is the one in force */
    struct loan_parts adjustable;
    double initial, cap, lifetime, index[ENTRIES];
    size_t index_count;
    /* what goes with a loan */
    double value, extra, cost;
    uint32_t months;
    /* a pool or a book: its loans, and how many bytes more than their records are lent; places for a book's answers */
    struct loan_parts loans[LOANS];
    size_t loans_count, bytes_more, answers_count;
    double number, history[MONTHS], discount;
    size_t history_count;
    /* what goes with a bond */
    double yield, market, delta;
    /* a curve, and what is asked of it: one time, two, or a list */
    double times[KNOTS], rates[KNOTS], t, t2, asked[ASKED], model[4];
    size_t times_count, rates_count, asked_count;
    /* what goes with a swap */
    uint32_t receive_fixed, days;
    /* two dates, and the number of one */
    struct date first, second;
    uint32_t day_number;
    /* cash flows: as two lists, and as one list of twice as many numbers */
    double flow_times[FLOWS], flow_amounts[FLOWS], points;
    size_t flow_times_count, flow_amounts_count, dated_count;
    /* plain numbers */
    double x, y;
};

extern struct desk desk;

/* Puts everything back as it was at rest. */
void tidy_desk(void);

/* The bytes of records, by this test's own hand. */
enum { MOST_BYTES = 64 };
struct record {
    uint8_t bytes[MOST_BYTES];
    size_t length;
};
struct record record_of_loan(const struct loan_parts *loan);
struct record record_of_bond(const struct bond_parts *bond);
struct record record_of_row(const struct row_parts *row);
struct record record_of_swap(const struct swap_parts *swap);
struct record record_of_dated_swap(const struct dated_parts *dated);
double number_in(const uint8_t *bytes);
uint32_t count_in(const uint8_t *bytes);
struct date date_in(const uint8_t *bytes);

/* Lends the desk's record, or its pool's records end to end; where a found record is set, that one instead. */
struct lent_bytes lend_loan(void);
struct lent_bytes lend_adjustable(void);
struct lent_bytes lend_bond(void);
struct lent_bytes lend_row(void);
struct lent_bytes lend_swap(void);
struct lent_bytes lend_dated_swap(void);
struct lent_bytes lend_pool(void);
void set_found_record(const struct record *found);

#endif
