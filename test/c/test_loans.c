/* Loans: payments, totals, savings, break-even. */
#include "damaged.h"
#include "loans.h"

#include <float.h>
#include <math.h>
#include <stdio.h>

static const struct claim matrix[] = {
    /*                          1 2 3 4 5 6 7 8 9 10 11 12 13 14 15 16 */
    CLAIM(monthly_payment,     "1 2 . . . . . . . .. 11 .. .. .. .. .."),
    CLAIM(total_interest,      "1 2 . . . . . . . .. 11 .. .. .. .. .."),
    CLAIM(remaining_balance,   "1 2 . . . . . . . .. 11 .. .. .. .. .."),
    CLAIM(ltv,                 "1 2 . . . . . . . .. 11 .. .. .. .. .."),
    CLAIM(prepayment_savings,  "1 2 . . . . . . . .. 11 .. .. .. .. .."),
    CLAIM(refinance_breakeven, "1 2 . . . . . . 9 .. 11 .. 13 .. .. .."),
    END_OF_MATRIX,
};

/* ---- calls ---- */

typedef senyolanda_result loan_number(const uint8_t *, size_t, double *);

static senyolanda_result number_of_loan(loan_number *function) {
    struct lent_bytes loan = lend_loan();
    double *answer = lend_number();
    return CALL(function(loan.bytes, loan.length, answer));
}

static senyolanda_result call_monthly_payment(void) { return number_of_loan(senyolanda_monthly_payment); }
static senyolanda_result call_total_interest(void) { return number_of_loan(senyolanda_total_interest); }

static senyolanda_result call_remaining_balance(void) {
    struct lent_bytes loan = lend_loan();
    double *balance = lend_number();
    return CALL(senyolanda_remaining_balance(loan.bytes, loan.length, desk.months, balance));
}

static senyolanda_result call_ltv(void) {
    struct lent_bytes loan = lend_loan();
    double *ratio = lend_number();
    return CALL(senyolanda_ltv(loan.bytes, loan.length, desk.value, ratio));
}

static senyolanda_result call_prepayment_savings(void) {
    struct lent_bytes loan = lend_loan();
    uint32_t *months = lend_count();
    double *interest = lend_number();
    return CALL(senyolanda_prepayment_savings(loan.bytes, loan.length, desk.extra, months, interest));
}

static senyolanda_result call_refinance_breakeven(void) {
    struct record new_record = record_of_loan(&desk.new_loan);
    struct lent_bytes old_loan = lend_loan(), new_loan = lend_bytes(new_record.bytes, new_record.length);
    uint32_t *month = lend_count();
    return CALL(senyolanda_refinance_breakeven(
        old_loan.bytes, old_loan.length, new_loan.bytes, new_loan.length, desk.cost, desk.months, month));
}

/* ---- causes ---- */

/* At rest the old loan costs 100 a month and the new one 50, so that a cost of 1,200 is back in month 24, the last. */
static const struct cause refinancing_causes[] = {
    LOAN_AT(0, loan),
    LOAN_AT(1, new_loan),
    NOT_FINITE(9, cost),
    CAUSE(13, WHOLE(new_loan.term, 12)),
    CAUSE(13, WHOLE(new_loan.term, 11)),
    CAUSE(13, NUMBER(new_loan.principal, 2400)),
    CAUSE(13, NUMBER(new_loan.principal, DBL_MAX)),
    CAUSE(13, NUMBER(loan.principal, -0.0)),
    CAUSE(13, NUMBER(cost, 0x1.2c00000000001p+10)),
    CAUSE(13, NUMBER(cost, DBL_MAX)),
    TAKEN(NUMBER(cost, 1200)),
    TAKEN(NUMBER(cost, 0.0)),
    TAKEN(NUMBER(cost, -DBL_MAX)),
    TAKEN(NUMBER(new_loan.principal, 2399), NUMBER(cost, 0.5)),
    TAKEN(NUMBER(new_loan.principal, -0.0)),
    TAKEN(NUMBER(loan.principal, DBL_MAX)),
    TAKEN(NUMBER(loan.rate, NAN)),
    TAKEN(NUMBER(new_loan.rate, NAN)),
    TAKEN(WHOLE(new_loan.term, 1200)),
    TAKEN(WHOLE(loan.term, 1)),
    TAKEN(WHOLE(months, 0)),
    TAKEN(WHOLE(months, UINT32_MAX)),
    END_OF_CAUSES,
};

/* ---- what each function can meet ---- */

static const struct function functions[] = {
    { FUNCTION(monthly_payment), { loan_causes }, loan_deserved },
    { FUNCTION(total_interest), { loan_causes }, loan_deserved },
    { FUNCTION(remaining_balance), { loan_causes, beside_loan_causes }, loan_deserved },
    { FUNCTION(ltv), { loan_causes, beside_loan_causes }, loan_deserved },
    { FUNCTION(prepayment_savings), { loan_causes, beside_loan_causes }, loan_deserved },
    { FUNCTION(refinance_breakeven), { refinancing_causes }, loan_deserved },
    END_OF_FUNCTIONS,
};

/* ---- payments ---- */

static void describe_loan(void) {
    fprintf(stderr, ": principal %.17g, rate %.17g, term %u", desk.loan.principal, desk.loan.rate, (unsigned)desk.loan.term);
}

static double payment_of(double principal, double rate, uint32_t term) {
    set_loan(principal, rate, term);
    return NUMBER_OF(call_monthly_payment);
}

static void payments(void) {
    IS(payment_of(1200, 0, 3), 400);
    IS(payment_of(1000, 6, 1), 1500);
    IS(payment_of(1000, 6, 2), 900);
    IS(payment_of(1000, NAN, 2), NAN);
}

/* The rates that 1 does not feel: the smallest whose twelfth is not 0, those farthest from 0, and some between. */
#define SMALLEST_WITH_A_TWELFTH 0x7p-1074
#define LARGEST_UNFELT (12 * 0x1p-53)
#define LOWEST_UNFELT (-12 * 0x1p-54)
static const double unfelt[] = {
    0.0, -0.0, SMALLEST_WITH_A_TWELFTH, -SMALLEST_WITH_A_TWELFTH, 1e-17, -1e-17, LARGEST_UNFELT, LOWEST_UNFELT,
};
enum { UNFELT = sizeof unfelt / sizeof *unfelt };

static const double principals[] = { 0.0, -0.0, SMALLEST, 1000, DBL_MAX };
static const uint32_t terms[] = { 1, 2, 7, 360, 1200 };
enum { PRINCIPALS = sizeof principals / sizeof *principals, TERMS = sizeof terms / sizeof *terms };

/* Document 02: "Whenever the factor equals 1 the payment becomes P/n." */
static void is_equal_parts(double principal, double rate, uint32_t term) {
    CHECK(factor(rate, term) == 1);
    IS(payment_of(principal, rate, term), principal / term);
}

/* Document 01's "P·r·f/(f-1)", which is not P/n where the principal is large enough for either to be felt. */
static void is_level(double principal, double rate, uint32_t term) {
    double f = factor(rate, term), payment = payment_of(principal, rate, term);
    CHECK(f != 1);
    IS(payment, grown_interest(principal, rate, term) / (f - 1));
    if (principal >= 1000) CHECK(payment != principal / term);
}

static void for_every_loan_at(double rate, void check(double principal, double rate, uint32_t term)) {
    for (size_t i = 0; i < PRINCIPALS; i++)
        for (size_t k = 0; k < TERMS; k++) check(principals[i], rate, terms[k]);
}

/* 1 + r is -1 at a rate of -24: 1 over an even number of months, and -1 over an odd one. */
static void is_by_turns(double principal, double rate, uint32_t term) {
    if (term % 2 == 0) is_equal_parts(principal, rate, term);
    else is_level(principal, rate, term);
}

static void factors_of_one(void) {
    CHECK(SMALLEST_WITH_A_TWELFTH / 12 > 0 && nextafter(SMALLEST_WITH_A_TWELFTH, 0) / 12 == 0);
    for (size_t i = 0; i < UNFELT; i++) for_every_loan_at(unfelt[i], is_equal_parts);
    for_every_loan_at(nextafter(LARGEST_UNFELT, INFINITY), is_level);
    for_every_loan_at(nextafter(LOWEST_UNFELT, -INFINITY), is_level);
    for_every_loan_at(-24, is_by_turns);
    for_every_loan_at(nextafter(-24, 0), is_level);
    for_every_loan_at(nextafter(-24, -INFINITY), is_level);
}

/* ---- payments that are not finite ---- */

/* The ways to one, each with the least principal that goes it: where f or P·r·f overflow, and where neither does. */
static const struct way {
    const char *name;
    double principal, rate;
    uint32_t term;
    double payment;
    int has_factor, has_product;
} ways[] = {
    { "f overflows", 0, 11.999999999999998, 1024, NAN, 0, 0 },
    { "P·r·f overflows, and f does not", 1.0000000000002278, 11.999999999999995, 1024, INFINITY, 1, 0 },
    { "the payment is above the largest number", 0x1.0000000000001p+1023, 11.999999999999995, 1, INFINITY, 1, 1 },
    { "1 + r rounds", 0x1.5555555555555p+1023, 0x1.1ffffffffffffp-48, 1, INFINITY, 1, 1 },
    { "a rate below -12", 0x1.0000000000003p+972, -23.999999999999996, 2, INFINITY, 1, 1 },
};
static const struct way *way;

static void describe_way(void) {
    fprintf(stderr, ": %s", way->name);
    describe_loan();
}

/* Finite with the next smaller principal, with a month less, where there is either, and with the next rate toward 0. */
static int is_the_least(void) {
    return (way->principal == 0 || isfinite(payment_of(nextafter(way->principal, 0), way->rate, way->term)))
        && (way->term == 1 || isfinite(payment_of(way->principal, way->rate, way->term - 1)))
        && isfinite(payment_of(way->principal, nextafter(way->rate, 0), way->term));
}

static void not_finite(void) {
    trying(describe_way);
    for (way = ways; way < ways + sizeof ways / sizeof *ways; way++) {
        IS(payment_of(way->principal, way->rate, way->term), way->payment);
        CHECK((isfinite(factor(way->rate, way->term)) != 0) == way->has_factor);
        CHECK((isfinite(grown_interest(way->principal, way->rate, way->term)) != 0) == way->has_product);
        CHECK(is_the_least());
    }
    trying(describe_loan);
}

/* A rate that is not finite has no finite payment, and the rates next to it have. */
static void rates_not_finite(void) {
    IS(payment_of(0, NAN, 1), NAN);
    IS(payment_of(0, INFINITY, 1), NAN);
    IS(payment_of(0, -INFINITY, 1), NAN);
    CHECK(isfinite(payment_of(0, DBL_MAX, 1)) && isfinite(payment_of(0, -DBL_MAX, 1)));
}

/* A number from low to high, both above 0, each power of two as often as the next. */
static double spread(double low, double high) {
    return number_of_bits(bits_of(low) + random_bits() % (bits_of(high) - bits_of(low) + 1));
}

/* Whether the payment is proved finite, for a rate above 0 and a principal of at most 2^1022. */
static int is_proved_finite(double principal, double rate, uint32_t term) {
    return factor(rate, term) > 1 && isfinite(grown_interest(principal, rate, term));
}

static void large_loans(void) {
    int proved = 0;
    for (int i = 0; i < 50000; i++) {
        double principal = spread(0x1.fffffffffff00p+1021, 0x1p+1022), rate = spread(12 * 0x1p-60, 24);
        uint32_t term = 1 + random_below(random_below(2) == 0 ? 12 : 1200);
        double payment = payment_of(principal, rate, term);
        IS(payment, worked_out(principal, rate, term));
        if (!is_proved_finite(principal, rate, term)) continue;
        proved++;
        CHECK(isfinite(payment));
    }
    CHECK(proved > 20000);
}

/* Of rates from -12 to 0 no theorem speaks: there too the payments of these principals are finite, and none is below 0. */
static void large_loans_below_0(void) {
    for (int i = 0; i < 50000; i++) {
        double principal = spread(0x1.fffffffffff00p+1021, 0x1p+1022), rate = -spread(12 * 0x1p-60, 12);
        uint32_t term = 1 + random_below(random_below(2) == 0 ? 12 : 1200);
        double payment = payment_of(principal, rate, term);
        IS(payment, worked_out(principal, rate, term));
        CHECK(isfinite(payment) && payment >= 0);
    }
}

/* ---- figures ---- */

static void totals(void) {
    set_loan(1000, 6, 2);
    IS(NUMBER_OF(call_total_interest), 800);
    static const double balances[] = { 1000, 600, 0, 0 };
    for (desk.months = 0; desk.months < 4; desk.months++) IS(NUMBER_OF(call_remaining_balance), balances[desk.months]);
    desk.months = UINT32_MAX;
    IS(NUMBER_OF(call_remaining_balance), 0);
    desk.value = 4000;
    IS(NUMBER_OF(call_ltv), 0.25);
    desk.value = -0.0;
    IS(NUMBER_OF(call_ltv), INFINITY);
}

static void saves(double extra, uint32_t months, double interest) {
    desk.extra = extra;
    CHECK(COUNT_OF(call_prepayment_savings) == months);
    IS(answered_numbers(1)[0], interest);
}

/* NaN is lowered to the balance, so that an extra payment of NaN clears the loan in its first month. */
static void savings(void) {
    set_loan(1000, 6, 2);
    saves(600, 1, 300);
    saves(0, 0, 0);
    saves(NAN, 1, 300);
    saves(-INFINITY, 0, 0);
    set_loan(1200, 0, 12);
    saves(100, 6, 0);
}

/* The interest at a monthly rate on 1,200 that so much of each month repays. */
static double interest_on_1200(double part, double r) {
    double interest = 0;
    for (double balance = 1200; balance > 0; balance -= part) interest += balance * r;
    return interest;
}

/* A month's interest is too small for the payment of 100 to feel, so that each month repays all of it, or twice as much. */
static void savings_at(double rate) {
    double without = interest_on_1200(100, rate / 12), with = interest_on_1200(200, rate / 12);
    set_loan(1200, rate, 12);
    saves(100, 6, without > with ? without - with : 0);
}

static void breaks_even(double cost, uint32_t month) {
    desk.cost = cost;
    CHECK(COUNT_OF(call_refinance_breakeven) == month);
}

/* With equal parts as payments, 100 and 50 a month. */
static void break_even_at(double rate) {
    tidy_desk();
    desk.loan.rate = desk.new_loan.rate = rate;
    breaks_even(100, 2);
    breaks_even(100.5, 3);
    breaks_even(1200, 24);
    breaks_even(0, 0);
    breaks_even(-100, 0);
}

static void break_even(void) {
    break_even_at(0);
    desk.new_loan.rate = NAN;
    breaks_even(DBL_MAX, 0);
}

/* ---- what a payment of equal parts brings ---- */

/* The rows of the desk's loan where that payment is given. */
static const double *rows_of_equal_parts(void) {
    static double room[SENYOLANDA_MOST_MONTHS * WIDTH];
    struct record record = record_of_loan(&desk.loan);
    double part = desk.loan.principal / desk.loan.term;
    struct senyolanda_loan loan = { 0, 0, 0, 0, 0 };
    uint32_t written, owed;
    CHECK(senyolanda_loan_open_with_payment(record.bytes, record.length, part, &loan) == 0);
    CHECK(senyolanda_loan_draw(&loan, room, WIDTH * (size_t)desk.loan.term, &written, &owed) == 0);
    return room;
}

static void is_as_given(double principal, double rate, uint32_t term) {
    set_loan(principal, rate, term);
    const double *rows = rows_of_equal_parts();
    double interest = 0;
    for (desk.months = 1; desk.months <= term; desk.months++) {
        const double *row = rows + WIDTH * (size_t)(desk.months - 1);
        interest += row[3];
        IS(NUMBER_OF(call_remaining_balance), row[4]);
    }
    IS(NUMBER_OF(call_total_interest), interest);
}

static void totals_of_equal_parts(void) {
    for (size_t i = 0; i < UNFELT; i++)
        for (size_t k = 0; k < TERMS; k++) is_as_given(1000, unfelt[i], terms[k]);
    is_as_given(1000, -24, 2);
    is_as_given(1000, -24, 360);
}

static void what_equal_parts_bring(void) {
    totals_of_equal_parts();
    savings_at(1e-17);
    savings_at(-1e-17);
    for (size_t i = 0; i < UNFELT; i++) break_even_at(unfelt[i]);
    break_even_at(-24);
}

int main(int arguments, char **words) {
    open_tests("test_loans", matrix, arguments, words);
    try_functions(functions);
    trying(describe_loan);
    payments();
    factors_of_one();
    not_finite();
    rates_not_finite();
    large_loans();
    large_loans_below_0();
    totals();
    savings();
    break_even();
    what_equal_parts_bring();
    tidy_desk();
    try_records(functions, damaged_record, 1000000);
    return close_checks();
}
