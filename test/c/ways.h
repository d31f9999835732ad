/*
 * Every way to draw a loan of a kind: whole, in portions, row by row as records, and with year-end lines. Each gives the rows, the
 * states and the lines that were worked out by the kind's rule.
 */
#ifndef WAYS_H
#define WAYS_H

#include "kinds.h"

/* The desk's loan of the kind in hand, which nobody need have opened; room for all its rows, and just the lines that it wants. */
void set_hand(const struct kind *kind, double balance, double rate, double payment, uint32_t term, uint32_t done);

/* Draws the desk's loan whole, in portions of each of so many sizes, and mixed ones, with draws between that are refused. */
void draw_all_ways(const struct kind *kind, const uint32_t *portions, size_t count);

/* The same, for some portions that fall on and beside the ends of years. */
void draw_some_ways(const struct kind *kind);

/* Opens the loan of the kind, holds it to its terms, its rate and its payment, and puts it into hand. */
void open_into_hand(const struct kind *kind, call *open, double rate, double payment);

/* Draws the loan in hand whole: all rows are written and none is owed. */
void draw_whole(const struct kind *kind);

/* A row of the last draw, which began with month 1, and a line that it left. */
void is_row(uint32_t month, double payment, double principal, double interest, double balance);
void is_line(uint32_t year, double months, double interest, double principal, double balance);

/* The desk's loan as a level one, opened and drawn whole with lines: its rows and its lines. */
struct level_loan {
    double payment, rows[SENYOLANDA_MOST_MONTHS * WIDTH], years[LINES * YEAR_WIDTH];
};
const struct level_loan *draw_level(double principal, double rate, uint32_t term);

/* Prints the desk's loan, for the line of a failure. */
void describe_hand(void);

#endif
