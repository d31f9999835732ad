/*
 * Portions: a loan drawn one to seven rows at a time, or row by row as records, gives what one draw gives, and that is document
 * 01's row rule to the bit; for ordinary, wild and NaN loans, and for states that nobody opened.
 */
#include "damaged.h"
#include "loans.h"

#include <float.h>
#include <math.h>
#include <stdio.h>

enum { MOST_ROWS = SENYOLANDA_MOST_MONTHS };

/* The loan before its first draw, and its rows by document 01's rule, that of month k at the index k - 1. */
static struct desk untouched;
static double rows[MOST_ROWS][WIDTH];

static void describe_loan(void) {
    fprintf(stderr, ": term %u, rate %.17g, payment %.17g, done %u, balance %.17g, %zu places", (unsigned)desk.loan.term,
        desk.loan.rate, desk.payment, (unsigned)desk.done, desk.balance, desk.places);
}

/* ---- document 01's row rule ---- */

static double raised(double x) {
    return x > 0 ? x : 0;
}

static double lowered(double p, double balance) {
    return p < balance ? p : balance;
}

/* The balance after a month whose balance before is given. */
static double work_row_out(uint32_t month, double balance) {
    int is_last = month == desk.loan.term;
    double interest = balance * (desk.loan.rate / 12);
    double principal = is_last ? balance : lowered(raised(desk.payment - interest), balance);
    double *row = rows[month - 1];
    row[0] = month;
    row[1] = is_last ? principal + interest : desk.payment;
    row[2] = principal;
    row[3] = interest;
    row[4] = raised(balance - principal);
    return balance - principal;
}

static void work_rows_out(void) {
    double balance = desk.balance;
    for (uint32_t month = desk.done + 1; month <= desk.loan.term; month++) balance = work_row_out(month, balance);
}

/* ---- draws ---- */

/* Takes over what the call handed back: written plus owed is the term less the months done before. */
static uint32_t move_on(void) {
    uint32_t written = answered_count(WRITTEN);
    CHECK(written + answered_count(OWED) == desk.loan.term - desk.done);
    struct senyolanda_loan loan = answered_loan();
    CHECK(loan.done == desk.done + written);
    CHECK(loan.term == desk.loan.term);
    CHECK(same_number(loan.rate, desk.loan.rate) && same_number(loan.payment, desk.payment));
    desk.done = loan.done;
    desk.balance = loan.balance;
    return written;
}

/* One draw: the rows are those worked out, and places past them stay. */
static void draw_portion(void) {
    const double *wanted = rows[desk.done];
    ACCEPTED(call_draw);
    size_t numbers = WIDTH * (size_t)move_on();
    CHECK(same_numbers(answered_numbers(ROOM), wanted, numbers));
    CHECK(answered_numbers_stay(ROOM, numbers));
}

static void draw_in_portions(size_t places) {
    uint32_t owed = untouched.loan.term - untouched.done, portion = (uint32_t)places / WIDTH, draws = 0;
    desk = untouched;
    desk.places = places;
    for (; desk.done < desk.loan.term && draws < owed; draws++) draw_portion();
    CHECK(draws == (owed + portion - 1) / portion);
    CHECK(desk.done == desk.loan.term);
}

static void draw_row_by_row(void) {
    desk = untouched;
    for (uint32_t month = desk.done + 1; month <= desk.loan.term; month++) {
        ACCEPTED(call_next_row);
        const uint8_t *record = answered_bytes(ROOM);
        CHECK(record[0] == 3 && count_in(record + 1) == month);
        for (size_t i = 1; i < WIDTH; i++) IS(number_in(record + 8 * i - 3), rows[month - 1][i]);
        CHECK(move_on() == 1);
    }
}

/* A finished loan writes 0 and owes 0, whatever the room, and stays as it is. */
static void draw_finished(void) {
    for (desk.places = 0; desk.places <= 2 * WIDTH; desk.places++) {
        ACCEPTED(call_draw);
        CHECK(answered_count(WRITTEN) == 0 && answered_count(OWED) == 0);
        CHECK(answered_stays(COUNTS) && answered_stays(AMOUNTS) && answered_stays(ROOM));
    }
}

/* One draw, then every portion from one to seven rows, with and without places that are too few for one row more. */
static void draw_all_ways(void) {
    draw_in_portions(WIDTH * MOST_ROWS);
    for (size_t portion = 1; portion <= 7; portion++) {
        draw_in_portions(WIDTH * portion);
        draw_in_portions(WIDTH * portion + 1 + portion % (WIDTH - 1));
    }
    draw_row_by_row();
    draw_finished();
}

static void draw_loan(double balance, double rate, double payment, uint32_t term, uint32_t done) {
    desk.loan.rate = rate;
    desk.loan.term = term;
    desk.payment = payment;
    desk.done = done;
    desk.balance = balance;
    untouched = desk;
    work_rows_out();
    draw_all_ways();
}

/* ---- loans ---- */

/* The worked-out payment, by the library itself. */
static double level_payment(double principal, double rate, uint32_t term) {
    struct loan_parts loan = { 1, principal, rate, term, SENYOLANDA_LOAN_BYTES };
    struct record record = record_of_loan(&loan);
    double payment = 0;
    CHECK(senyolanda_monthly_payment(record.bytes, record.length, &payment) == 0);
    return payment;
}

static void ordinary_loans(void) {
    static const uint32_t terms[] = { 1, 2, 3, 4, 5, 6, 7, 8, 12, 13, 35, 36, 180, 360, 1199, 1200 };
    static const double rates[] = { 0, 0.03, 0.065, 0.24 };
    for (size_t i = 0; i < sizeof terms / sizeof *terms; i++)
        for (size_t j = 0; j < sizeof rates / sizeof *rates; j++)
            draw_loan(250000, rates[j], level_payment(250000, rates[j], terms[i]), terms[i], 0);
}

static void wild_loans(void) {
    static const double rates[] = { 6, -0.5, -30, 1e-17, 1e300, -1e300, INFINITY, -INFINITY, NAN };
    static const double payments[] = { 0, 100, 1e6, -100, 1e300, INFINITY, -INFINITY, NAN };
    static const double balances[] = { 1000, 0, -0.0, 0x1p-1074, DBL_MAX };
    for (size_t i = 0; i < sizeof rates / sizeof *rates; i++)
        for (size_t j = 0; j < sizeof payments / sizeof *payments; j++)
            for (size_t k = 0; k < sizeof balances / sizeof *balances; k++) draw_loan(balances[k], rates[i], payments[j], 17, 0);
    draw_loan(1000, NAN, NAN, 1200, 0);
    draw_loan(DBL_MAX, 6, INFINITY, 1200, 0);
}

/* States that the caller made up: any balance, some months done. */
static void made_up_loans(void) {
    for (int i = 0; i < 4000; i++) {
        uint32_t term = 1 + random_below(40), done = random_below(term + 1);
        double balance = random_number(), rate = random_number(), payment = random_number();
        draw_loan(balance, rate, payment, term, done);
    }
}

/* The matrix has these functions among the loans. */
static const struct claim matrix[] = { END_OF_MATRIX };

int main(int arguments, char **words) {
    open_tests("test_portions", matrix, arguments, words);
    trying(describe_loan);
    ordinary_loans();
    wild_loans();
    made_up_loans();
    return close_checks();
}
