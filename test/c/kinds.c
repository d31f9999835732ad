#include "kinds.h"

#include <float.h>
#include <math.h>

const struct cause longer_loan_causes[] = {
    LOAN_AT(0, loan),
    AMOUNT_TAKEN(loan.principal),
    TAKEN(WHOLE(loan.term, 1200)),
    TAKEN(NUMBER(loan.rate, NAN)),
    TAKEN(NUMBER(loan.rate, -INFINITY)),
    FINITE_TAKEN(loan.rate),
    END_OF_CAUSES,
};

senyolanda_result deserved_beyond(const struct record *record, uint32_t months) {
    senyolanda_result deserved = loan_deserved(record);
    if (deserved != 0) return deserved;
    return count_in(record->bytes + 17) > months ? 0 : refusal(16, 0);
}

/* ---- openings ---- */

/* Interest-only and balloon loans are called alike: a number of months stands before the loan. */
typedef senyolanda_result opening(const uint8_t *, size_t, uint32_t, uint32_t *, double *);
typedef senyolanda_result opening_with_payment(const uint8_t *, size_t, uint32_t, double, uint32_t *, double *);

static senyolanda_result opened(opening *open, uint32_t months) {
    struct lent_bytes record = lend_loan();
    struct lent_loan loan = lend_loan_to_open();
    return CALL(open(record.bytes, record.length, months, loan.counts, loan.amounts));
}

static senyolanda_result opened_with_payment(opening_with_payment *open, uint32_t months) {
    struct lent_bytes record = lend_loan();
    struct lent_loan loan = lend_loan_to_open();
    return CALL(open(record.bytes, record.length, months, desk.payment, loan.counts, loan.amounts));
}

senyolanda_result call_open_interest_only(void) {
    return opened(senyolanda_open_interest_only, desk.only);
}

senyolanda_result call_open_interest_only_with_payment(void) {
    return opened_with_payment(senyolanda_open_interest_only_with_payment, desk.only);
}

senyolanda_result call_open_balloon(void) {
    return opened(senyolanda_open_balloon, desk.balloon);
}

senyolanda_result call_open_balloon_with_payment(void) {
    return opened_with_payment(senyolanda_open_balloon_with_payment, desk.balloon);
}

senyolanda_result call_open_adjustable(void) {
    struct lent_bytes record = lend_adjustable();
    struct lent_numbers index = lend_numbers(desk.index, desk.index_count);
    struct lent_loan loan = lend_loan_to_open();
    return CALL(senyolanda_open_adjustable(record.bytes, record.length, desk.initial, desk.cap, desk.lifetime, index.numbers,
        index.count, loan.counts, loan.amounts));
}

/* ---- draws ---- */

typedef senyolanda_result drawing(uint32_t, uint32_t *, double *, double *, size_t, uint32_t *, uint32_t *);
typedef senyolanda_result drawing_with_years(
    uint32_t, uint32_t *, double *, double *, size_t, double *, size_t, uint32_t *, uint32_t *);
typedef senyolanda_result next_row(uint32_t, uint32_t *, double *, uint8_t *, uint32_t *, uint32_t *);

static double *lend_room(void) {
    return lend(AS_ROOM, desk.places * sizeof(double));
}

static double *lend_lines(void) {
    return lend_numbers_in_hand(desk.years, desk.year_places);
}

static senyolanda_result drawn(drawing *draw, uint32_t months) {
    struct lent_loan loan = lend_loan_in_hand(&desk.loan);
    double *room = lend_room();
    return CALL(draw(months, loan.counts, loan.amounts, room, desk.places, loan.written, loan.owed));
}

static senyolanda_result drawn_with_years(drawing_with_years *draw, uint32_t months) {
    struct lent_loan loan = lend_loan_in_hand(&desk.loan);
    double *room = lend_room(), *years = lend_lines();
    return CALL(draw(
        months, loan.counts, loan.amounts, room, desk.places, years, desk.year_places, loan.written, loan.owed));
}

static senyolanda_result next_drawn(next_row *next, uint32_t months) {
    struct lent_loan loan = lend_loan_in_hand(&desk.loan);
    uint8_t *record = lend(AS_ROOM, SENYOLANDA_ROW_BYTES);
    return CALL(next(months, loan.counts, loan.amounts, record, loan.written, loan.owed));
}

senyolanda_result call_draw_interest_only(void) {
    return drawn(senyolanda_draw_interest_only, desk.only);
}

senyolanda_result call_draw_interest_only_with_years(void) {
    return drawn_with_years(senyolanda_draw_interest_only_with_years, desk.only);
}

senyolanda_result call_next_interest_only_row(void) {
    return next_drawn(senyolanda_next_interest_only_row, desk.only);
}

senyolanda_result call_draw_balloon(void) {
    return drawn(senyolanda_draw_balloon, desk.balloon);
}

senyolanda_result call_draw_balloon_with_years(void) {
    return drawn_with_years(senyolanda_draw_balloon_with_years, desk.balloon);
}

senyolanda_result call_next_balloon_row(void) {
    return next_drawn(senyolanda_next_balloon_row, desk.balloon);
}

/* What every draw of an adjustable loan takes before the loan in hand. */
#define ADJUSTMENT desk.initial, desk.cap, desk.lifetime, index.numbers, index.count

senyolanda_result call_draw_adjustable(void) {
    struct lent_numbers index = lend_numbers(desk.index, desk.index_count);
    struct lent_loan loan = lend_loan_in_hand(&desk.adjustable);
    double *room = lend_room();
    return CALL(senyolanda_draw_adjustable(
        ADJUSTMENT, loan.counts, loan.amounts, room, desk.places, loan.written, loan.owed));
}

senyolanda_result call_draw_adjustable_with_years(void) {
    struct lent_numbers index = lend_numbers(desk.index, desk.index_count);
    struct lent_loan loan = lend_loan_in_hand(&desk.adjustable);
    double *room = lend_room(), *years = lend_lines();
    return CALL(senyolanda_draw_adjustable_with_years(
        ADJUSTMENT, loan.counts, loan.amounts, room, desk.places, years, desk.year_places, loan.written, loan.owed));
}

senyolanda_result call_next_adjustable_row(void) {
    struct lent_numbers index = lend_numbers(desk.index, desk.index_count);
    struct lent_loan loan = lend_loan_in_hand(&desk.adjustable);
    uint8_t *record = lend(AS_ROOM, SENYOLANDA_ROW_BYTES);
    return CALL(senyolanda_next_adjustable_row(ADJUSTMENT, loan.counts, loan.amounts, record, loan.written, loan.owed));
}

/* ---- lookups ---- */

senyolanda_result call_look_up_balloon_year(void) {
    struct lent_lookup lent = lend_lookup(&desk.loan);
    return CALL(senyolanda_look_up_balloon_year(
        desk.balloon, lent.counts, lent.amounts, lent.years.numbers, lent.years.count, desk.year, lent.line));
}

senyolanda_result call_look_up_adjustable_year(void) {
    struct lent_lookup lent = lend_lookup(&desk.adjustable);
    return CALL(senyolanda_look_up_year(lent.counts, lent.amounts, lent.years.numbers, lent.years.count, desk.year, lent.line));
}

/* ---- the rows ---- */

static double raised(double x) {
    return x > 0 ? x : 0;
}

static double lowered(double p, double balance) {
    return p < balance ? p : balance;
}

/* A row that pays so much, of which so much is principal; its month is done then. */
static void pay(struct senyolanda_loan *loan, double row[WIDTH], double payment, double principal, double interest) {
    loan->done++;
    loan->balance = loan->balance - principal;
    row[0] = loan->done;
    row[1] = payment;
    row[2] = principal;
    row[3] = interest;
    row[4] = raised(loan->balance);
}

/* Document 01's row, where the last month is the named one. */
static void work_row_out(struct senyolanda_loan *loan, double row[WIDTH], uint32_t last) {
    double interest = loan->balance * (loan->rate / 12), payment = loan->payment;
    double principal = lowered(raised(payment - interest), loan->balance);
    if (loan->done + 1 == last) {
        principal = loan->balance;
        payment = principal + interest;
    }
    pay(loan, row, payment, principal, interest);
}

static uint32_t end_of_term(void) {
    return desk.loan.term;
}

static uint32_t end_of_balloon(void) {
    return desk.balloon;
}

static uint32_t end_of_adjustable(void) {
    return desk.adjustable.term;
}

static void work_level_row_out(struct senyolanda_loan *loan, double row[WIDTH]) {
    work_row_out(loan, row, loan->term);
}

/* "Only interest is paid in the first months, then a level payment over the rest." */
static void work_interest_only_row_out(struct senyolanda_loan *loan, double row[WIDTH]) {
    double interest = loan->balance * (loan->rate / 12);
    if (loan->done < desk.only) pay(loan, row, interest, 0, interest);
    else work_row_out(loan, row, loan->term);
}

/* "The full term's level rows, the whole balance in the named month, no rows after." */
static void work_balloon_row_out(struct senyolanda_loan *loan, double row[WIDTH]) {
    work_row_out(loan, row, desk.balloon);
}

/* "The index, first held within the adjustment cap of the last year's rate, then not above the initial rate plus the lifetime
   cap." */
double adjusted(double last, uint32_t done) {
    double low = last - desk.cap, high = last + desk.cap, top = desk.initial + desk.lifetime, rate = desk.index[done / 12 - 1];
    if (rate < low) rate = low;
    else if (rate > high) rate = high;
    return rate > top ? top : rate;
}

/* "The payment is worked out afresh on balance and months left." */
static void work_adjustable_row_out(struct senyolanda_loan *loan, double row[WIDTH]) {
    if (loan->done > 0 && loan->done % 12 == 0) {
        loan->rate = adjusted(loan->rate, loan->done);
        loan->payment = worked_out(loan->balance, loan->rate, loan->term - loan->done);
    }
    work_row_out(loan, row, loan->term);
}

const struct kind level = {
    &desk.loan, call_draw, call_draw_with_years, call_next_row, call_look_up_year, end_of_term, work_level_row_out,
};
const struct kind interest_only = {
    &desk.loan, call_draw_interest_only, call_draw_interest_only_with_years, call_next_interest_only_row, call_look_up_year,
    end_of_term, work_interest_only_row_out,
};
const struct kind balloon = {
    &desk.loan, call_draw_balloon, call_draw_balloon_with_years, call_next_balloon_row, call_look_up_balloon_year, end_of_balloon,
    work_balloon_row_out,
};
const struct kind adjustable = {
    &desk.adjustable, call_draw_adjustable, call_draw_adjustable_with_years, call_next_adjustable_row,
    call_look_up_adjustable_year, end_of_adjustable, work_adjustable_row_out,
};
