/* Loans in hand: openings, draws into every room, and the next row alone. */
#include "damaged.h"
#include "loans.h"

#include <math.h>
#include <string.h>

static const struct claim matrix[] = {
    /*                          1 2 3 4 5 6 7 8 9 10 11 12 13 14 15 16 */
    CLAIM(open,                "1 2 . . . . . . . .. 11 .. .. .. .. .."),
    CLAIM(open_with_payment,   "1 2 . . . . . . . .. 11 .. .. .. .. .."),
    CLAIM(draw,                ". 2 3 . . . . . . 10 .. .. .. .. .. .."),
    CLAIM(next_row,            ". 2 . . . . . . . 10 .. .. .. .. .. .."),
    END_OF_MATRIX,
};

/* ---- what each function can meet ---- */

static const struct function functions[] = {
    { FUNCTION(open), { loan_causes }, loan_deserved },
    { FUNCTION(open_with_payment), { loan_causes, beside_loan_causes }, loan_deserved },
    { FUNCTION(draw), { state_causes, one_month_causes, room_causes }, NULL },
    { FUNCTION(next_row), { state_causes, one_month_causes }, NULL },
    END_OF_FUNCTIONS,
};

/* ---- figures ---- */

static void is_open(double payment) {
    struct senyolanda_loan loan = answered_loan();
    CHECK(loan.term == desk.loan.term);
    CHECK(loan.done == 0);
    IS(loan.rate, desk.loan.rate);
    IS(loan.payment, payment);
    IS(loan.balance, desk.loan.principal);
}

static void openings(void) {
    set_loan(1000, 6, 2);
    ACCEPTED(call_open);
    is_open(900);
    desk.payment = 123.5;
    ACCEPTED(call_open_with_payment);
    is_open(123.5);
    desk.payment = NAN;
    ACCEPTED(call_open_with_payment);
    is_open(NAN);
    set_loan(1000, -24, 2);
    ACCEPTED(call_open);
    is_open(500);
}

static void set_state(double payment) {
    desk.payment = payment;
    desk.done = 0;
    desk.balance = desk.loan.principal;
    desk.places = WIDTH * desk.loan.term;
}

/* A row of the last draw: month, payment, principal, interest, balance. */
static void is_row(size_t index, double payment, double principal, double interest, double balance) {
    const double *row = answered_numbers(ROOM) + WIDTH * index;
    IS(row[0], (double)index + 1);
    IS(row[1], payment);
    IS(row[2], principal);
    IS(row[3], interest);
    IS(row[4], balance);
}

/* The desk's loan opened, then drawn whole. */
static void draw_whole(double payment) {
    set_state(payment);
    ACCEPTED(call_draw);
    CHECK(answered_count(WRITTEN) == desk.loan.term);
    CHECK(answered_count(OWED) == 0);
    CHECK(answered_loan().done == desk.loan.term);
}

static void document_01(void) {
    set_loan(1200, 0, 3);
    draw_whole(400);
    is_row(0, 400, 400, 0, 800);
    is_row(1, 400, 400, 0, 400);
    is_row(2, 400, 400, 0, 0);
    set_loan(1000, 6, 2);
    draw_whole(900);
    is_row(0, 900, 400, 500, 600);
    is_row(1, 900, 600, 300, 0);
    draw_whole(100);
    is_row(0, 100, 0, 500, 1000);
    is_row(1, 1500, 1000, 500, 0);
    set_loan(1000, NAN, 2);
    draw_whole(NAN);
    is_row(0, NAN, 0, NAN, 1000);
    is_row(1, NAN, 1000, NAN, 0);
    set_loan(1000, 0, 3);
    draw_whole(2000);
    is_row(0, 2000, 1000, 0, 0);
    is_row(1, 2000, 0, 0, 0);
    is_row(2, 0, 0, 0, 0);
}

/* At a rate that 1 does not feel the loan opens with equal parts as its payment, just as where they are given. */
static void equal_parts(void) {
    const double rate = 1e-17, r = rate / 12;
    set_loan(1200, rate, 3);
    desk.payment = 400;
    ACCEPTED(call_open_with_payment);
    is_open(400);
    ACCEPTED(call_open);
    is_open(400);
    draw_whole(answered_loan().payment);
    is_row(0, 400, 400, 1200 * r, 800);
    is_row(1, 400, 400, 800 * r, 400);
    is_row(2, 400, 400, 400 * r, 0);
}

/* ---- room: exactly full, one short, one more, none ---- */

static void draws(size_t places, uint32_t rows) {
    desk.places = places;
    ACCEPTED(call_draw);
    CHECK(answered_count(WRITTEN) == rows);
    CHECK(answered_count(OWED) == desk.loan.term - desk.done - rows);
    CHECK(answered_loan().done == desk.done + rows);
    CHECK(answered_numbers_stay(ROOM, WIDTH * (size_t)rows));
}

static void rooms(void) {
    set_loan(1200, 0.06, 12);
    set_state(100);
    draws(12 * WIDTH, 12);
    draws(12 * WIDTH - 1, 11);
    draws(12 * WIDTH + 1, 12);
    draws(13 * WIDTH - 1, 12);
    draws(13 * WIDTH, 12);
    draws(WIDTH, 1);
    draws(2 * WIDTH - 1, 1);
    draws(2 * WIDTH, 2);
    desk.done = 11;
    draws(WIDTH, 1);
    draws(12 * WIDTH, 1);
    desk.places = WIDTH - 1;
    REFUSED(call_draw, 3, 0);
    desk.done = 12;
    draws(0, 0);
    draws(WIDTH - 1, 0);
    draws(12 * WIDTH, 0);
    CHECK(answered_stays(COUNTS) && answered_stays(AMOUNTS));
    set_loan(1200, 0.06, 1200);
    set_state(100);
    draws(1200 * WIDTH, 1200);
    draws(1200 * WIDTH - 1, 1199);
}

/* ---- the next row alone ---- */

static void gives_row(uint32_t written, uint32_t owed, uint32_t done) {
    ACCEPTED(call_next_row);
    CHECK(answered_count(WRITTEN) == written);
    CHECK(answered_count(OWED) == owed);
    CHECK(answered_loan().done == done);
}

static void next_rows(void) {
    set_loan(1000, 6, 2);
    set_state(900);
    struct row_parts first = { 3, 1, 900, 400, 500, 600, SENYOLANDA_ROW_BYTES };
    struct record record = record_of_row(&first);
    gives_row(1, 1, 1);
    IS(answered_loan().balance, 600);
    CHECK(memcmp(answered_bytes(ROOM), record.bytes, record.length) == 0);
    desk.done = 2;
    gives_row(0, 0, 2);
    CHECK(answered_stays(COUNTS) && answered_stays(AMOUNTS) && answered_stays(ROOM));
}

int main(int arguments, char **words) {
    open_tests("test_draws", matrix, arguments, words);
    try_functions(functions);
    openings();
    document_01();
    equal_parts();
    rooms();
    next_rows();
    tidy_desk();
    try_records(functions, damaged_record, 1000000);
    return close_checks();
}
