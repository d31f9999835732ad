/* The kinds of loans: their calls, and for each kind the row that documents 01 and 02 give a loan in hand. */
#ifndef KINDS_H
#define KINDS_H

#include "loans.h"

/* Interest-only and balloon loans are the desk's loan, adjustable ones its own; their answers are in the order of loans.h. */
senyolanda_result call_open_interest_only(void);
senyolanda_result call_open_interest_only_with_payment(void);
senyolanda_result call_draw_interest_only(void);
senyolanda_result call_draw_interest_only_with_years(void);
senyolanda_result call_next_interest_only_row(void);
senyolanda_result call_open_balloon(void);
senyolanda_result call_open_balloon_with_payment(void);
senyolanda_result call_draw_balloon(void);
senyolanda_result call_draw_balloon_with_years(void);
senyolanda_result call_next_balloon_row(void);
senyolanda_result call_look_up_balloon_year(void);
senyolanda_result call_open_adjustable(void);
senyolanda_result call_draw_adjustable(void);
senyolanda_result call_draw_adjustable_with_years(void);
senyolanda_result call_next_adjustable_row(void);

/* The desk's loan, as one of more than a month meets an opening's lines 1, 2 and 11; and a record's refusal, 16 where its term is
   not longer than so many months. */
extern const struct cause longer_loan_causes[];
senyolanda_result deserved_beyond(const struct record *record, uint32_t months);

/* A year of the desk's adjustable loan, looked up as a level loan's. */
senyolanda_result call_look_up_adjustable_year(void);

/* A kind: where its loan's term and rate stand on the desk, its calls, the month that ends the desk's loan, and the row of a loan
   in hand, which moves on past it. */
struct kind {
    struct loan_parts *terms;
    call *draw, *draw_with_years, *next_row, *look_up_year;
    uint32_t (*end)(void);
    void (*work_row_out)(struct senyolanda_loan *loan, double row[WIDTH]);
};
extern const struct kind level, interest_only, balloon, adjustable;

/* Document 02's rate of the year behind so many months, by the desk's caps and index list. */
double adjusted(double last, uint32_t done);

#endif
