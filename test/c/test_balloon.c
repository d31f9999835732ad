/*
 * Balloon loans: openings, draws into every room, with lines and row by row, and lookups; held to the rows of documents 01 and 02,
 * to figures worked out by hand, and to the level loans whose rows they have up to the named month.
 */
#include "damaged.h"
#include "ways.h"

#include <math.h>
#include <string.h>

static const struct claim matrix[] = {
    /*                                1 2 3 4 5 6 7 8 9 10 11 12 13 14 15 16 */
    CLAIM(open_balloon,              "1 2 . . . . . . . .. 11 .. .. .. .. 16"),
    CLAIM(open_balloon_with_payment, "1 2 . . . . . . . .. 11 .. .. .. .. 16"),
    CLAIM(draw_balloon,              ". 2 3 . . . . . . 10 .. .. .. .. .. 16"),
    CLAIM(draw_balloon_with_years,   ". 2 3 . . . . . . 10 .. .. .. .. .. 16"),
    CLAIM(next_balloon_row,          ". 2 . . . . . . . 10 .. .. .. .. .. 16"),
    CLAIM(look_up_balloon_year,      ". 2 3 . . . . . . 10 .. .. .. 14 .. 16"),
    END_OF_MATRIX,
};

/* ---- causes; at rest 12 months, the last of them the balloon's ---- */

/* Where the month is 0 and none is done no row is due, so that the room is no cause of 3. */
static const struct cause month_causes[] = {
    CAUSE(16, WHOLE(balloon, 0), WHOLE(done, 0), WHOLE(places, 0)),
    CAUSE(16, WHOLE(balloon, 13)),
    CAUSE(16, WHOLE(balloon, 1200)),
    CAUSE(16, WHOLE(balloon, UINT32_MAX), WHOLE(done, 0)),
    CAUSE(16, WHOLE(balloon, 2), WHOLE(loan.term, 1), WHOLE(done, 0)),
    CAUSE(16, WHOLE(balloon, 1201), WHOLE(loan.term, 1200), WHOLE(done, 0)),
    CAUSE(16, WHOLE(balloon, 13), WHOLE(done, 13), WHOLE(places, 0)),
    TAKEN(WHOLE(balloon, 1)),
    TAKEN(WHOLE(balloon, 11)),
    TAKEN(WHOLE(balloon, 1), WHOLE(loan.term, 1)),
    TAKEN(WHOLE(balloon, 1200), WHOLE(loan.term, 1200)),
    END_OF_CAUSES,
};

/* The named month stands for the term, also where 16 would refuse it. */
static const struct cause hand_causes[] = {
    CAUSE(2, WHOLE(loan.term, 0)),
    CAUSE(2, WHOLE(loan.term, 1201)),
    CAUSE(2, WHOLE(loan.term, UINT32_MAX)),
    CAUSE(10, WHOLE(balloon, 12), WHOLE(done, 13)),
    CAUSE(10, WHOLE(balloon, 5), WHOLE(done, 6)),
    CAUSE(10, WHOLE(balloon, 0), WHOLE(done, 1)),
    CAUSE(10, WHOLE(balloon, 13), WHOLE(done, 14)),
    CAUSE(10, WHOLE(done, 1201)),
    CAUSE(10, WHOLE(done, UINT32_MAX)),
    TAKEN(WHOLE(balloon, 5), WHOLE(done, 5), WHOLE(places, 0)),
    TAKEN(WHOLE(done, 12), WHOLE(places, 0)),
    TAKEN(WHOLE(done, 11)),
    TAKEN(NUMBER(balance, NAN)),
    TAKEN(NUMBER(payment, NAN)),
    TAKEN(NUMBER(loan.rate, INFINITY)),
    END_OF_CAUSES,
};

/* At rest all 12 months are drawn and year 1 is asked for; the lines are those of the term. */
static const struct cause lookup_causes[] = {
    CAUSE(2, WHOLE(loan.term, 0)),
    CAUSE(2, WHOLE(loan.term, 1201)),
    CAUSE(3, WHOLE(year_places, 0)),
    CAUSE(3, WHOLE(year_places, YEAR_WIDTH - 1)),
    CAUSE(3, WHOLE(year_places, 2 * YEAR_WIDTH - 1), WHOLE(loan.term, 13)),
    CAUSE(3, WHOLE(year_places, 100 * YEAR_WIDTH - 1), WHOLE(loan.term, 1200)),
    CAUSE(10, WHOLE(balloon, 12), WHOLE(drawn, 13)),
    CAUSE(10, WHOLE(balloon, 5), WHOLE(drawn, 6)),
    CAUSE(10, WHOLE(balloon, 0), WHOLE(drawn, 1)),
    CAUSE(10, WHOLE(drawn, UINT32_MAX)),
    CAUSE(14, WHOLE(year, 0)),
    CAUSE(14, WHOLE(year, 2)),
    CAUSE(14, WHOLE(year, UINT32_MAX)),
    CAUSE(14, WHOLE(balloon, 0), WHOLE(drawn, 0)),
    CAUSE(14, WHOLE(year, 2), WHOLE(drawn, 12), WHOLE(loan.term, 24)),
    CAUSE(16, WHOLE(balloon, 13)),
    CAUSE(16, WHOLE(balloon, 13), WHOLE(drawn, 13), WHOLE(year, 2)),
    CAUSE(16, WHOLE(balloon, UINT32_MAX), WHOLE(drawn, 1)),
    CAUSE(16, WHOLE(balloon, 2), WHOLE(loan.term, 1), WHOLE(drawn, 1)),
    TAKEN(WHOLE(drawn, 1)),
    TAKEN(WHOLE(balloon, 5), WHOLE(drawn, 5)),
    TAKEN(WHOLE(year_places, 2 * YEAR_WIDTH), WHOLE(loan.term, 24)),
    TAKEN(NUMBER(years[0], NAN)),
    TAKEN(NUMBER(balance, NAN)),
    END_OF_CAUSES,
};

static senyolanda_result deserved(const struct record *record) {
    return deserved_beyond(record, 11);
}

static const struct function functions[] = {
    { FUNCTION(open_balloon), { longer_loan_causes, month_causes }, deserved },
    { FUNCTION(open_balloon_with_payment), { longer_loan_causes, month_causes, beside_loan_causes }, deserved },
    { FUNCTION(draw_balloon), { hand_causes, room_causes, month_causes }, NULL },
    { FUNCTION(draw_balloon_with_years), { hand_causes, room_causes, line_causes, month_causes }, NULL },
    { FUNCTION(next_balloon_row), { hand_causes, month_causes }, NULL },
    { FUNCTION(look_up_balloon_year), { lookup_causes }, NULL },
    END_OF_FUNCTIONS,
};

/* ---- figures worked out by hand ---- */

static void open_loan(double principal, double rate, uint32_t term, uint32_t month, double payment) {
    set_loan(principal, rate, term);
    desk.balloon = month;
    open_into_hand(&balloon, call_open_balloon, rate, payment);
}

static void open_with_payment(double principal, double rate, uint32_t term, uint32_t month, double given) {
    set_loan(principal, rate, term);
    desk.balloon = month;
    desk.payment = given;
    open_into_hand(&balloon, call_open_balloon_with_payment, rate, given);
}

static void figures(void) {
    open_loan(1200, 0, 3, 2, 400);
    draw_whole(&balloon);
    is_row(1, 400, 400, 0, 800);
    is_row(2, 800, 800, 0, 0);
    open_loan(1000, 6, 2, 1, 900);
    draw_whole(&balloon);
    is_row(1, 1500, 1000, 500, 0);
    open_loan(1200, 0, 1200, 1199, 1);
    draw_whole(&balloon);
    is_row(1198, 1, 1, 0, 2);
    is_row(1199, 2, 2, 0, 0);

    /* A rate that 1 does not feel: equal parts over the term, and the rest in month 2. */
    const double unfelt = 1e-17, r = unfelt / 12;
    open_loan(1200, unfelt, 3, 2, 400);
    draw_whole(&balloon);
    is_row(1, 400, 400, 1200 * r, 800);
    is_row(2, 800, 800, 800 * r, 0);

    open_loan(1000, NAN, 3, 2, NAN);
    draw_whole(&balloon);
    is_row(1, NAN, 0, NAN, 1000);
    is_row(2, NAN, 1000, NAN, 0);
    open_with_payment(1000, 0, 5, 3, 2000);
    draw_whole(&balloon);
    is_row(1, 2000, 1000, 0, 0);
    is_row(2, 2000, 0, 0, 0);
    is_row(3, 0, 0, 0, 0);
    open_with_payment(1000, 0, 3, 2, NAN);
    draw_whole(&balloon);
    is_row(1, NAN, 0, 0, 1000);
    is_row(2, 1000, 1000, 0, 0);
}

/* Ten years of term and a balloon in month 13: two years have a row, and the other lines stay. */
static void lines(void) {
    open_loan(1200, 0, 120, 13, 10);
    ACCEPTED(call_draw_balloon_with_years);
    is_line(1, 12, 0, 120, 1080);
    is_line(2, 1, 0, 1080, 0);
    CHECK(answered_numbers_stay(YEARS, 2 * YEAR_WIDTH));
    desk.year_places = 10 * YEAR_WIDTH - 1;
    REFUSED(call_draw_balloon_with_years, 3, 0);
    desk.drawn = 13;
    REFUSED(call_look_up_balloon_year, 3, 0);
}

/* No line stands for a year past the term's, whatever month a made-up loan names: none is read. */
static void lookup_past_the_lines(void) {
    set_loan(1200, 0, 12);
    desk.balloon = desk.drawn = 13;
    desk.year_places = YEAR_WIDTH;
    desk.year = 1;
    REFUSED(call_look_up_balloon_year, 16, 0);
    desk.year = 2;
    REFUSED(call_look_up_balloon_year, 16, 0);
    desk.year = 3;
    REFUSED(call_look_up_balloon_year, 14, 0);
}

/* ---- beside level loans ---- */

/* A balloon in the term's last month is the level loan, with its lines, to the bit; an earlier one has its rows but the last. */
static void is_level_before(double principal, double rate, uint32_t term, uint32_t month) {
    const struct level_loan *full = draw_level(principal, rate, term);
    size_t rows = month == term ? month : month - 1;
    open_loan(principal, rate, term, month, full->payment);
    ACCEPTED(call_draw_balloon_with_years);
    CHECK(answered_count(WRITTEN) == month && answered_count(OWED) == 0);
    CHECK(memcmp(answered_numbers(ROOM), full->rows, sizeof *full->rows * WIDTH * rows) == 0);
    if (month == term) CHECK(memcmp(answered_numbers(YEARS), full->years, sizeof *full->years * desk.year_places) == 0);
}

static void beside_level_loans(void) {
    static const uint32_t terms[] = { 1, 2, 3, 12, 13, 25, 120, 360, 1200 };
    static const double rates[] = { 0, 1e-17, 0.03, 0.065, 6 };
    for (size_t i = 0; i < sizeof terms / sizeof *terms; i++)
        for (size_t k = 0; k < sizeof rates / sizeof *rates; k++) {
            is_level_before(250000, rates[k], terms[i], 1);
            is_level_before(250000, rates[k], terms[i], (terms[i] + 1) / 2);
            is_level_before(250000, rates[k], terms[i], terms[i]);
        }
}

/* ---- every way ---- */

/* Thirty months in portions of every size, for every named month. */
static void thirty_months(void) {
    uint32_t portions[30];
    for (uint32_t i = 0; i < 30; i++) portions[i] = i + 1;
    for (desk.balloon = 1; desk.balloon <= 30; desk.balloon++) {
        set_hand(&balloon, 250000, 0.065, worked_out(250000, 0.065, 30), 30, 0);
        draw_all_ways(&balloon, portions, 30);
    }
}

static void longest_loan(void) {
    desk.balloon = 1187;
    set_hand(&balloon, 250000, 0.0425, worked_out(250000, 0.0425, 1200), 1200, 0);
    draw_some_ways(&balloon);
}

/* States that nobody opened: any numbers in the loan and in its lines, months done up to the named one. */
static void made_up_loans(void) {
    for (int i = 0; i < 2000; i++) {
        uint32_t term = 1 + random_below(40);
        for (size_t k = 0; k < LINES * YEAR_WIDTH; k++) desk.years[k] = random_number();
        desk.balloon = 1 + random_below(term);
        set_hand(&balloon, random_number(), random_number(), random_number(), term, random_below(desk.balloon + 1));
        draw_some_ways(&balloon);
    }
}

int main(int arguments, char **words) {
    open_tests("test_balloon", matrix, arguments, words);
    try_functions(functions);
    trying(describe_hand);
    figures();
    lines();
    lookup_past_the_lines();
    beside_level_loans();
    thirty_months();
    longest_loan();
    made_up_loans();
    tidy_desk();
    try_records(functions, damaged_record, 200000);
    return close_checks();
}
