#include "loans.h"

#include "damaged.h"
#include "powers.h"

#include <float.h>
#include <math.h>

const struct cause loan_causes[] = {
    LOAN_AT(0, loan),
    AMOUNT_TAKEN(loan.principal),
    TAKEN(WHOLE(loan.term, 1)),
    TAKEN(WHOLE(loan.term, 1200)),
    TAKEN(NUMBER(loan.rate, NAN)),
    TAKEN(NUMBER(loan.rate, -INFINITY)),
    FINITE_TAKEN(loan.rate),
    END_OF_CAUSES,
};

/* What no line names is taken as it stands. */
const struct cause beside_loan_causes[] = {
    TAKEN(NUMBER(payment, NAN)),
    TAKEN(NUMBER(payment, -INFINITY)),
    TAKEN(NUMBER(value, 0.0)),
    TAKEN(NUMBER(value, NAN)),
    TAKEN(NUMBER(extra, NAN)),
    TAKEN(NUMBER(extra, -INFINITY)),
    TAKEN(WHOLE(months, 0)),
    TAKEN(WHOLE(months, UINT32_MAX)),
    END_OF_CAUSES,
};

/* A loan in hand; at rest 12 months, none of them done. */
const struct cause state_causes[] = {
    CAUSE(2, WHOLE(loan.term, 0)),
    CAUSE(2, WHOLE(loan.term, 1201)),
    CAUSE(2, WHOLE(loan.term, UINT32_MAX)),
    CAUSE(10, WHOLE(done, 13)),
    CAUSE(10, WHOLE(done, UINT32_MAX)),
    CAUSE(10, WHOLE(done, 2), WHOLE(loan.term, 1)),
    CAUSE(10, WHOLE(done, 1201), WHOLE(loan.term, 1200)),
    CAUSE(2, WHOLE(done, 1), WHOLE(loan.term, 0)),
    CAUSE(2, WHOLE(done, 1202), WHOLE(loan.term, 1201)),
    TAKEN(WHOLE(loan.term, 1200)),
    TAKEN(WHOLE(done, 11)),
    TAKEN(WHOLE(done, 12)),
    TAKEN(NUMBER(balance, NAN)),
    TAKEN(NUMBER(balance, -1)),
    TAKEN(NUMBER(payment, NAN)),
    TAKEN(NUMBER(loan.rate, INFINITY)),
    END_OF_CAUSES,
};

/* A level loan may have one month; interest alone leaves none to it. */
const struct cause one_month_causes[] = {
    TAKEN(WHOLE(loan.term, 1)),
    END_OF_CAUSES,
};

/* No rows are due where more months are done than the term, so that the room is no cause of 3. */
const struct cause room_causes[] = {
    CAUSE_UNLESS(10, 3, WHOLE(places, 0)),
    CAUSE_UNLESS(10, 3, WHOLE(places, 1)),
    CAUSE_UNLESS(10, 3, WHOLE(places, WIDTH - 1)),
    TAKEN(WHOLE(places, WIDTH)),
    TAKEN(WHOLE(places, 2 * WIDTH - 1)),
    TAKEN(WHOLE(places, 12 * WIDTH - 1)),
    TAKEN(WHOLE(places, 12 * WIDTH + 1)),
    TAKEN(WHOLE(done, 12), WHOLE(places, 0)),
    TAKEN(WHOLE(done, 12), WHOLE(places, WIDTH - 1)),
    CAUSE(3, WHOLE(done, 11), WHOLE(places, WIDTH - 1)),
    END_OF_CAUSES,
};

/* Too few lines for the term are 3 with rows due, without, and past the term: unlike the room's, this cause stays beside 10. */
const struct cause line_causes[] = {
    CAUSE(3, WHOLE(year_places, 0)),
    CAUSE(3, WHOLE(year_places, 1)),
    CAUSE(3, WHOLE(year_places, YEAR_WIDTH - 1)),
    CAUSE(3, WHOLE(year_places, YEAR_WIDTH - 1), WHOLE(loan.term, 1)),
    CAUSE(3, WHOLE(year_places, 2 * YEAR_WIDTH - 1), WHOLE(loan.term, 13)),
    CAUSE(3, WHOLE(year_places, 2 * YEAR_WIDTH - 1), WHOLE(loan.term, 24)),
    CAUSE(3, WHOLE(year_places, 100 * YEAR_WIDTH - 1), WHOLE(loan.term, 1200)),
    CAUSE(3, WHOLE(year_places, YEAR_WIDTH - 1), WHOLE(done, 12)),
    CAUSE(3, WHOLE(year_places, YEAR_WIDTH - 1), WHOLE(done, 13)),
    CAUSE(3, WHOLE(year_places, YEAR_WIDTH - 1), WHOLE(done, UINT32_MAX), WHOLE(places, 0)),
    TAKEN(WHOLE(year_places, YEAR_WIDTH)),
    TAKEN(WHOLE(year_places, YEAR_WIDTH + 1)),
    TAKEN(WHOLE(year_places, 2 * YEAR_WIDTH), WHOLE(loan.term, 13)),
    TAKEN(WHOLE(year_places, 2 * YEAR_WIDTH), WHOLE(loan.term, 24)),
    TAKEN(WHOLE(year_places, YEAR_WIDTH), WHOLE(done, 12), WHOLE(places, 0)),
    TAKEN(NUMBER(years[0], NAN)),
    TAKEN(NUMBER(years[0], -INFINITY), WHOLE(done, 1)),
    END_OF_CAUSES,
};

senyolanda_result loan_deserved(const struct record *record) {
    if (record->length != SENYOLANDA_LOAN_BYTES || record->bytes[0] != 1) return refusal(11, 0);
    if (is_bad_amount(number_in(record->bytes + 1))) return refusal(1, 0);
    return is_bad_term(count_in(record->bytes + 17)) ? refusal(2, 0) : 0;
}

void set_loan(double principal, double rate, uint32_t term) {
    struct loan_parts loan = { 1, principal, rate, term, SENYOLANDA_LOAN_BYTES };
    desk.loan = loan;
}

/* ---- payments ---- */

double factor(double rate, uint32_t months) {
    return whole_power_by_steps(1 + rate / 12, months);
}

double grown_interest(double balance, double rate, uint32_t months) {
    return balance * (rate / 12) * factor(rate, months);
}

double worked_out(double balance, double rate, uint32_t months) {
    double f = factor(rate, months);
    return f == 1 ? balance / months : grown_interest(balance, rate, months) / (f - 1);
}

/* ---- a loan in hand ---- */

struct lent_loan lend_loan_to_open(void) {
    struct lent_loan loan = { lend(FOR_ANSWER, SENYOLANDA_LOAN_COUNTS * sizeof *loan.counts), NULL, NULL, NULL };
    loan.amounts = lend_places(SENYOLANDA_LOAN_AMOUNTS);
    return loan;
}

senyolanda_result call_open(void) {
    struct lent_bytes record = lend_loan();
    struct lent_loan loan = lend_loan_to_open();
    return CALL(senyolanda_open(record.bytes, record.length, loan.counts, loan.amounts));
}

senyolanda_result call_open_with_payment(void) {
    struct lent_bytes record = lend_loan();
    struct lent_loan loan = lend_loan_to_open();
    return CALL(senyolanda_open_with_payment(record.bytes, record.length, desk.payment, loan.counts, loan.amounts));
}

static void take_hand_apart(
    const struct loan_parts *terms, uint32_t done, uint32_t counts[SENYOLANDA_LOAN_COUNTS],
    double amounts[SENYOLANDA_LOAN_AMOUNTS]) {
    struct senyolanda_loan hand = { terms->term, done, terms->rate, desk.payment, desk.balance };
    senyolanda_loan_taken_apart(&hand, counts, amounts);
}

struct lent_loan lend_loan_in_hand(const struct loan_parts *terms) {
    uint32_t counts[SENYOLANDA_LOAN_COUNTS];
    double amounts[SENYOLANDA_LOAN_AMOUNTS];
    struct lent_loan loan;
    take_hand_apart(terms, desk.done, counts, amounts);
    loan.counts = lend_counts_in_hand(counts, SENYOLANDA_LOAN_COUNTS);
    loan.amounts = lend_numbers_in_hand(amounts, SENYOLANDA_LOAN_AMOUNTS);
    loan.written = lend_count();
    loan.owed = lend_count();
    return loan;
}

senyolanda_result call_draw(void) {
    struct lent_loan loan = lend_loan_in_hand(&desk.loan);
    double *room = lend(AS_ROOM, desk.places * sizeof *room);
    return CALL(senyolanda_draw(loan.counts, loan.amounts, room, desk.places, loan.written, loan.owed));
}

senyolanda_result call_draw_with_years(void) {
    struct lent_loan loan = lend_loan_in_hand(&desk.loan);
    double *room = lend(AS_ROOM, desk.places * sizeof *room);
    double *years = lend_numbers_in_hand(desk.years, desk.year_places);
    return CALL(senyolanda_draw_with_years(
        loan.counts, loan.amounts, room, desk.places, years, desk.year_places, loan.written, loan.owed));
}

senyolanda_result call_next_row(void) {
    struct lent_loan loan = lend_loan_in_hand(&desk.loan);
    uint8_t *record = lend(AS_ROOM, SENYOLANDA_ROW_BYTES);
    return CALL(senyolanda_next_row(loan.counts, loan.amounts, record, loan.written, loan.owed));
}

struct senyolanda_loan answered_loan(void) {
    struct senyolanda_loan loan;
    senyolanda_loan_put_together(&loan, answered_counts(COUNTS), answered_numbers(AMOUNTS));
    return loan;
}

struct lent_lookup lend_lookup(const struct loan_parts *terms) {
    uint32_t counts[SENYOLANDA_LOAN_COUNTS];
    double amounts[SENYOLANDA_LOAN_AMOUNTS];
    struct lent_lookup lookup;
    take_hand_apart(terms, desk.drawn, counts, amounts);
    lookup.counts = lend_counts(counts, SENYOLANDA_LOAN_COUNTS);
    lookup.amounts = lend_numbers(amounts, SENYOLANDA_LOAN_AMOUNTS).numbers;
    lookup.years = lend_numbers(desk.years, desk.year_places);
    lookup.line = lend_places(YEAR_WIDTH);
    return lookup;
}

senyolanda_result call_look_up_year(void) {
    struct lent_lookup lent = lend_lookup(&desk.loan);
    return CALL(senyolanda_look_up_year(lent.counts, lent.amounts, lent.years.numbers, lent.years.count, desk.year, lent.line));
}
