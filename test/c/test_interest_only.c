/*
 * Interest-only loans: openings, draws into every room, with lines and row by row; held to the rows of documents 01 and 02, to
 * figures worked out by hand, and to the level loans that they go on as.
 */
#include "damaged.h"
#include "ways.h"

#include <math.h>
#include <string.h>

static const struct claim matrix[] = {
    /*                                      1 2 3 4 5 6 7 8 9 10 11 12 13 14 15 16 */
    CLAIM(open_interest_only,              "1 2 . . . . . . . .. 11 .. .. .. .. 16"),
    CLAIM(open_interest_only_with_payment, "1 2 . . . . . . . .. 11 .. .. .. .. 16"),
    CLAIM(draw_interest_only,              ". 2 3 . . . . . . 10 .. .. .. .. .. 16"),
    CLAIM(draw_interest_only_with_years,   ". 2 3 . . . . . . 10 .. .. .. .. .. 16"),
    CLAIM(next_interest_only_row,          ". 2 . . . . . . . 10 .. .. .. .. .. 16"),
    END_OF_MATRIX,
};

/* ---- causes; at rest 12 months, the first three of interest alone ---- */

/* A finished loan is asked 16, and no room. */
static const struct cause only_causes[] = {
    CAUSE(16, WHOLE(only, 0)),
    CAUSE(16, WHOLE(only, 12)),
    CAUSE(16, WHOLE(only, 13)),
    CAUSE(16, WHOLE(only, UINT32_MAX)),
    CAUSE(16, WHOLE(only, 1), WHOLE(loan.term, 1), WHOLE(done, 0)),
    CAUSE(16, WHOLE(only, 1200), WHOLE(loan.term, 1200), WHOLE(done, 0)),
    CAUSE(16, WHOLE(only, 0), WHOLE(done, 12), WHOLE(places, 0)),
    CAUSE(16, WHOLE(only, 12), WHOLE(done, 12), WHOLE(places, 0)),
    TAKEN(WHOLE(only, 1)),
    TAKEN(WHOLE(only, 11)),
    TAKEN(WHOLE(only, 1), WHOLE(loan.term, 2)),
    TAKEN(WHOLE(only, 1199), WHOLE(loan.term, 1200)),
    END_OF_CAUSES,
};

static senyolanda_result deserved(const struct record *record) {
    return deserved_beyond(record, 3);
}

static const struct function functions[] = {
    { FUNCTION(open_interest_only), { longer_loan_causes, only_causes }, deserved },
    { FUNCTION(open_interest_only_with_payment), { longer_loan_causes, only_causes, beside_loan_causes }, deserved },
    { FUNCTION(draw_interest_only), { state_causes, room_causes, only_causes }, NULL },
    { FUNCTION(draw_interest_only_with_years), { state_causes, room_causes, line_causes, only_causes }, NULL },
    { FUNCTION(next_interest_only_row), { state_causes, only_causes }, NULL },
    END_OF_FUNCTIONS,
};

/* ---- figures worked out by hand ---- */

static void open_loan(double principal, double rate, uint32_t term, uint32_t only, double payment) {
    set_loan(principal, rate, term);
    desk.only = only;
    open_into_hand(&interest_only, call_open_interest_only, rate, payment);
}

static void open_with_payment(double principal, double rate, uint32_t term, uint32_t only, double given) {
    set_loan(principal, rate, term);
    desk.only = only;
    desk.payment = given;
    open_into_hand(&interest_only, call_open_interest_only_with_payment, rate, given);
}

static void figures(void) {
    /* 1,200 over the three months behind two. */
    open_loan(1200, 0, 5, 2, 400);
    draw_whole(&interest_only);
    is_row(1, 0, 0, 0, 1200);
    is_row(2, 0, 0, 0, 1200);
    is_row(3, 400, 400, 0, 800);
    is_row(4, 400, 400, 0, 400);
    is_row(5, 400, 400, 0, 0);

    /* A month's rate of a half; behind month 1 document 01's loan of two months. */
    open_loan(1000, 6, 3, 1, 900);
    draw_whole(&interest_only);
    is_row(1, 500, 0, 500, 1000);
    is_row(2, 900, 400, 500, 600);
    is_row(3, 900, 600, 300, 0);

    /* The longest, all but its last month of interest alone: 1,000 and a half of it for one month. */
    open_loan(1000, 6, 1200, 1199, 1500);
    draw_whole(&interest_only);
    is_row(1199, 500, 0, 500, 1000);
    is_row(1200, 1500, 1000, 500, 0);

    /* A rate that 1 does not feel: equal parts of 1,200 over the three months behind two. */
    const double unfelt = 1e-17, r = unfelt / 12;
    open_loan(1200, unfelt, 5, 2, 400);
    draw_whole(&interest_only);
    is_row(2, 1200 * r, 0, 1200 * r, 1200);
    is_row(3, 400, 400, 1200 * r, 800);
    is_row(4, 400, 400, 800 * r, 400);
    is_row(5, 400, 400, 400 * r, 0);

    /* A NaN rate, and a NaN payment, which raises to 0. */
    open_loan(1000, NAN, 3, 1, NAN);
    draw_whole(&interest_only);
    is_row(1, NAN, 0, NAN, 1000);
    is_row(2, NAN, 0, NAN, 1000);
    is_row(3, NAN, 1000, NAN, 0);
    open_with_payment(1000, 0, 3, 1, NAN);
    draw_whole(&interest_only);
    is_row(1, 0, 0, 0, 1000);
    is_row(2, NAN, 0, 0, 1000);
    is_row(3, 1000, 1000, 0, 0);

    /* A given payment does not count in the first months. */
    open_with_payment(1000, 6, 3, 1, 100);
    draw_whole(&interest_only);
    is_row(1, 500, 0, 500, 1000);
    is_row(2, 100, 0, 500, 1000);
    is_row(3, 1500, 1000, 500, 0);
}

/* A principal of -0 is taken: the principal column is +0 and the balance stays -0, while its column is raised to +0. */
static void minus_zero(void) {
    open_with_payment(-0.0, 0.06, 3, 2, 0);
    desk.places = 2 * WIDTH;
    ACCEPTED(call_draw_interest_only);
    is_row(1, -0.0, 0, -0.0, 0);
    is_row(2, -0.0, 0, -0.0, 0);
    IS(answered_loan().balance, -0.0);
    open_loan(1000, -0.0, 3, 1, 500);
    draw_whole(&interest_only);
    is_row(1, -0.0, 0, -0.0, 1000);
}

/* A month's interest is an eighth of 800: a year of it, then 400 and 400 of principal. */
static void lines(void) {
    open_with_payment(800, 1.5, 14, 12, 500);
    ACCEPTED(call_draw_interest_only_with_years);
    is_line(1, 12, 1200, 0, 800);
    is_line(2, 2, 150, 800, 0);
}

/* ---- beside level loans ---- */

/* Behind its first months an interest-only loan is the level loan of the rest, its months counted on. */
static void is_level_behind(double principal, double rate, uint32_t term, uint32_t only) {
    const struct level_loan *rest = draw_level(principal, rate, term - only);
    open_loan(principal, rate, term, only, rest->payment);
    draw_whole(&interest_only);
    for (uint32_t month = 1; month <= term - only; month++) {
        const double *row = answered_numbers(ROOM) + WIDTH * (size_t)(only + month - 1);
        IS(row[0], only + month);
        CHECK(memcmp(row + 1, rest->rows + WIDTH * (size_t)(month - 1) + 1, sizeof *row * (WIDTH - 1)) == 0);
    }
}

static void beside_level_loans(void) {
    static const uint32_t terms[] = { 2, 3, 12, 13, 25, 120, 360, 1200 };
    static const double rates[] = { 0, 1e-17, 0.03, 0.065, 6 };
    for (size_t i = 0; i < sizeof terms / sizeof *terms; i++)
        for (size_t k = 0; k < sizeof rates / sizeof *rates; k++) {
            is_level_behind(250000, rates[k], terms[i], 1);
            is_level_behind(250000, rates[k], terms[i], terms[i] / 2);
            is_level_behind(250000, rates[k], terms[i], terms[i] - 1);
        }
}

/* ---- every way ---- */

/* Thirty months in portions of every size, for every number of first months. */
static void thirty_months(void) {
    uint32_t portions[30];
    for (uint32_t i = 0; i < 30; i++) portions[i] = i + 1;
    for (desk.only = 1; desk.only < 30; desk.only++) {
        set_hand(&interest_only, 250000, 0.065, worked_out(250000, 0.065, 30 - desk.only), 30, 0);
        draw_all_ways(&interest_only, portions, 30);
    }
}

static void longest_loan(void) {
    desk.only = 120;
    set_hand(&interest_only, 250000, 0.0425, worked_out(250000, 0.0425, 1080), 1200, 0);
    draw_some_ways(&interest_only);
}

/* States that nobody opened: any numbers in the loan and in its lines, some months done. */
static void made_up_loans(void) {
    for (int i = 0; i < 2000; i++) {
        uint32_t term = 2 + random_below(40);
        for (size_t k = 0; k < LINES * YEAR_WIDTH; k++) desk.years[k] = random_number();
        desk.only = 1 + random_below(term - 1);
        set_hand(&interest_only, random_number(), random_number(), random_number(), term, random_below(term + 1));
        draw_some_ways(&interest_only);
    }
}

int main(int arguments, char **words) {
    open_tests("test_interest_only", matrix, arguments, words);
    try_functions(functions);
    trying(describe_hand);
    figures();
    minus_zero();
    lines();
    beside_level_loans();
    thirty_months();
    longest_loan();
    made_up_loans();
    tidy_desk();
    try_records(functions, damaged_record, 200000);
    return close_checks();
}
