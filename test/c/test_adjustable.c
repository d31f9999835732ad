/*
 * Adjustable loans: the rate of each year by its index and the caps, the payment that it works out, openings, draws into every
 * room, with lines and row by row; held to the rows of documents 01 and 02 and to figures worked out by hand.
 */
#include "damaged.h"
#include "ways.h"

#include <float.h>
#include <math.h>
#include <string.h>

static const struct claim matrix[] = {
    /*                                 1 2 3 4 5 6 7 8 9 10 11 12 13 14 15 16 */
    CLAIM(open_adjustable,            "1 2 . . . . . . . .. 11 .. .. .. .. 16"),
    CLAIM(draw_adjustable,            ". 2 3 . . . . . . 10 .. .. .. .. .. 16"),
    CLAIM(draw_adjustable_with_years, ". 2 3 . . . . . . 10 .. .. .. .. .. 16"),
    CLAIM(next_adjustable_row,        ". 2 . . . . . . . 10 .. .. .. .. .. 16"),
    END_OF_MATRIX,
};

/* ---- causes; at rest 36 months, which read two of the three entries that are lent ---- */

static const struct cause terms_causes[] = {
    LOAN_AT(0, adjustable),
    AMOUNT_TAKEN(adjustable.principal),
    TAKEN(NUMBER(adjustable.rate, NAN)),
    TAKEN(NUMBER(adjustable.rate, -INFINITY)),
    FINITE_TAKEN(adjustable.rate),
    END_OF_CAUSES,
};

static const struct cause hand_causes[] = {
    CAUSE(2, WHOLE(adjustable.term, 0)),
    CAUSE(2, WHOLE(adjustable.term, 1201)),
    CAUSE(2, WHOLE(adjustable.term, UINT32_MAX)),
    CAUSE(2, WHOLE(adjustable.term, 0), WHOLE(done, 1)),
    CAUSE(10, WHOLE(done, 37)),
    CAUSE(10, WHOLE(done, UINT32_MAX)),
    CAUSE(10, WHOLE(adjustable.term, 1), WHOLE(done, 2)),
    CAUSE(10, WHOLE(adjustable.term, 1200), WHOLE(done, 1201)),
    TAKEN(WHOLE(done, 35)),
    TAKEN(WHOLE(done, 36)),
    TAKEN(NUMBER(balance, NAN)),
    TAKEN(NUMBER(balance, -1)),
    TAKEN(NUMBER(payment, NAN)),
    TAKEN(NUMBER(adjustable.rate, NAN)),
    TAKEN(NUMBER(adjustable.rate, INFINITY)),
    END_OF_CAUSES,
};

static const struct cause places_causes[] = {
    CAUSE_UNLESS(10, 3, WHOLE(places, 0)),
    CAUSE_UNLESS(10, 3, WHOLE(places, WIDTH - 1)),
    CAUSE(3, WHOLE(done, 35), WHOLE(places, WIDTH - 1)),
    CAUSE(3, WHOLE(year_places, 3 * YEAR_WIDTH - 1), WHOLE(places, WIDTH - 1), WHOLE(done, 12)),
    TAKEN(WHOLE(places, WIDTH)),
    TAKEN(WHOLE(done, 36), WHOLE(places, 0)),
    END_OF_CAUSES,
};

/* Too few lines are 3 whether rows are due or not, and beside 10. */
static const struct cause years_causes[] = {
    CAUSE(3, WHOLE(year_places, 0)),
    CAUSE(3, WHOLE(year_places, 3 * YEAR_WIDTH - 1), WHOLE(adjustable.term, 36)),
    CAUSE(3, WHOLE(year_places, 3 * YEAR_WIDTH - 1), WHOLE(done, 36)),
    CAUSE(3, WHOLE(year_places, 3 * YEAR_WIDTH - 1), WHOLE(done, 37)),
    CAUSE(3, WHOLE(year_places, 3 * YEAR_WIDTH), WHOLE(adjustable.term, 37)),
    TAKEN(WHOLE(year_places, 3 * YEAR_WIDTH)),
    TAKEN(WHOLE(year_places, 3 * YEAR_WIDTH), WHOLE(done, 36), WHOLE(places, 0)),
    END_OF_CAUSES,
};

#define BAD_CAP(cap)                        \
    CAUSE(16, NUMBER(cap, -SMALLEST)),      \
    NOT_FINITE(16, cap)
#define CAP_TAKEN(cap)                      \
    TAKEN(NUMBER(cap, 0.0)),                \
    TAKEN(NUMBER(cap, -0.0)),               \
    TAKEN(NUMBER(cap, DBL_MAX))

/* The entries of all later years of the term count as read, those of years that are over or finished too; more entries do not. */
static const struct cause adjustment_causes[] = {
    NOT_FINITE(16, initial),
    BAD_CAP(cap),
    BAD_CAP(lifetime),
    CAUSE(16, WHOLE(index_count, 0)),
    CAUSE(16, WHOLE(index_count, 1)),
    CAUSE(16, WHOLE(index_count, 0), WHOLE(adjustable.term, 13), WHOLE(done, 0)),
    CAUSE(16, WHOLE(index_count, 1), WHOLE(adjustable.term, 25), WHOLE(done, 0)),
    CAUSE(16, WHOLE(index_count, 98), WHOLE(adjustable.term, 1200), WHOLE(done, 0)),
    NOT_FINITE_AT(0, 16, index[0]),
    NOT_FINITE_AT(1, 16, index[1]),
    CAUSE_AT(2, 16, NUMBER(index[2], NAN), WHOLE(adjustable.term, 37), WHOLE(done, 0)),
    CAUSE_AT(0, 16, NUMBER(index[0], NAN), WHOLE(done, 30)),
    CAUSE(16, NUMBER(initial, NAN), WHOLE(done, 36), WHOLE(places, 0)),
    CAUSE(16, WHOLE(index_count, 1), WHOLE(done, 36), WHOLE(places, 0)),
    CAUSE_AT(1, 16, NUMBER(index[1], -INFINITY), WHOLE(done, 36), WHOLE(places, 0)),
    FINITE_TAKEN(initial),
    CAP_TAKEN(cap),
    CAP_TAKEN(lifetime),
    FINITE_TAKEN(index[0]),
    FINITE_TAKEN(index[1]),
    TAKEN(NUMBER(index[2], NAN)),
    TAKEN(NUMBER(index[1], NAN), WHOLE(adjustable.term, 24)),
    TAKEN(NUMBER(index[0], INFINITY), WHOLE(adjustable.term, 12)),
    TAKEN(WHOLE(index_count, 2)),
    TAKEN(WHOLE(index_count, 1), WHOLE(adjustable.term, 24)),
    TAKEN(WHOLE(index_count, 0), WHOLE(adjustable.term, 12)),
    TAKEN(WHOLE(index_count, 0), WHOLE(adjustable.term, 1)),
    TAKEN(WHOLE(index_count, 99), WHOLE(adjustable.term, 1200)),
    TAKEN(WHOLE(index_count, 101), WHOLE(adjustable.term, 1189)),
    END_OF_CAUSES,
};

/* With the desk's three entries a term of 48 months is the longest. */
static senyolanda_result deserved(const struct record *record) {
    senyolanda_result refused = loan_deserved(record);
    if (refused != 0) return refused;
    return count_in(record->bytes + 17) > 48 ? refusal(16, 0) : 0;
}

static const struct function functions[] = {
    { FUNCTION(open_adjustable), { terms_causes, adjustment_causes }, deserved },
    { FUNCTION(draw_adjustable), { hand_causes, places_causes, adjustment_causes }, NULL },
    { FUNCTION(draw_adjustable_with_years), { hand_causes, places_causes, years_causes, adjustment_causes }, NULL },
    { FUNCTION(next_adjustable_row), { hand_causes, adjustment_causes }, NULL },
    END_OF_FUNCTIONS,
};

/* The last of 99 entries that the longest term reads; the one behind it is not. */
static void longest_list(void) {
    static call *const calls[] = {
        call_open_adjustable, call_draw_adjustable, call_draw_adjustable_with_years, call_next_adjustable_row,
    };
    for (size_t i = 0; i < sizeof calls / sizeof *calls; i++) {
        tidy_desk();
        desk.adjustable.term = 1200;
        desk.index_count = 100;
        desk.index[99] = NAN;
        ACCEPTED(calls[i]);
        desk.index[98] = -INFINITY;
        REFUSED(calls[i], 16, 98);
        desk.index[97] = NAN;
        REFUSED(calls[i], 16, 97);
        desk.index_count = 98;
        REFUSED(calls[i], 16, 0);
    }
}

/* ---- figures worked out by hand ---- */

static void set_adjustment(double initial, double cap, double lifetime) {
    desk.initial = initial;
    desk.cap = cap;
    desk.lifetime = lifetime;
}

static void set_index(const double *entries, size_t count) {
    desk.index_count = count;
    for (size_t i = 0; i < count; i++) desk.index[i] = entries[i];
}

/* The record's rate is NaN, since it is not read. */
static void open_loan(double principal, uint32_t term, double payment) {
    struct loan_parts terms = { 1, principal, NAN, term, SENYOLANDA_LOAN_BYTES };
    desk.adjustable = terms;
    open_into_hand(&adjustable, call_open_adjustable, desk.initial, payment);
}

static void figures(void) {
    /* Twelve months at 0 leave 200 of 1,400; then two months at a half a month pay 200 * 0.5 * 2.25 / 1.25. */
    const double six[] = { 6 };
    set_adjustment(0, 6, 6);
    set_index(six, 1);
    open_loan(1400, 14, 100);
    draw_whole(&adjustable);
    is_row(1, 100, 100, 0, 1300);
    is_row(12, 100, 100, 0, 200);
    is_row(13, 180, 80, 100, 120);
    is_row(14, 180, 120, 60, 0);
    IS(answered_loan().rate, 6);
    IS(answered_loan().payment, 180);

    /* The first twelve of these rows leave rate and payment as they were. */
    desk.places = 12 * WIDTH;
    ACCEPTED(call_draw_adjustable);
    IS(answered_loan().rate, 0);
    IS(answered_loan().payment, 100);

    /* With lines. */
    desk.places = 14 * WIDTH;
    ACCEPTED(call_draw_adjustable_with_years);
    is_line(1, 12, 0, 1200, 200);
    is_line(2, 2, 160, 200, 0);

    /* A year at a NaN payment repays nothing; year 2 works one out on the balance: 1,000 over its two months. */
    set_hand(&adjustable, 1000, 0, NAN, 14, 0);
    draw_whole(&adjustable);
    is_row(12, NAN, 0, 0, 1000);
    is_row(13, 900, 400, 500, 600);
    is_row(14, 900, 600, 300, 0);
}

/* An index that brings the second year to a rate that 1 does not feel, or to -24: the balance over the two months left. */
static void equal_parts(void) {
    const double unfelt = 1e-17, r = unfelt / 12, below = -24;
    set_adjustment(6, 30, 0);
    set_index(&unfelt, 1);
    set_hand(&adjustable, 1000, 6, 100, 14, 0);
    draw_whole(&adjustable);
    is_row(12, 100, 0, 500, 1000);
    is_row(13, 500, 500, 1000 * r, 500);
    is_row(14, 500, 500, 500 * r, 0);
    IS(answered_loan().rate, unfelt);
    IS(answered_loan().payment, 500);
    set_index(&below, 1);
    ACCEPTED(call_draw_adjustable);
    IS(answered_loan().payment, 500);
    is_row(13, 500, 1000, -2000, 0);
}

/* The rate of the year that a loan in hand begins behind so many months, at the rate that it holds. */
static double rate_behind(uint32_t done, double last) {
    set_hand(&adjustable, 1000, last, 100, 36, done);
    desk.places = WIDTH;
    ACCEPTED(call_draw_adjustable);
    double drawn = answered_loan().rate;
    ACCEPTED(call_next_adjustable_row);
    IS(answered_loan().rate, drawn);
    return drawn;
}

static void rates(void) {
    const double entries[] = { 6, 12 };
    set_adjustment(0, 6, 9);
    set_index(entries, 2);
    IS(rate_behind(0, 1), 1);
    IS(rate_behind(11, 1), 1);
    IS(rate_behind(12, 0), 6);
    IS(rate_behind(13, 1), 1);
    IS(rate_behind(23, 1), 1);

    /* 12 is no further than 6 from the last rate, and 9 is the most; held from below, from above, and not at all. */
    IS(rate_behind(24, 6), 9);
    IS(rate_behind(24, 2), 8);
    IS(rate_behind(12, 20), 9);
    IS(rate_behind(12, 14), 8);
    IS(rate_behind(12, 3), 6);
    IS(rate_behind(12, -1), 5);

    /* A last rate that nobody opened: raised to 94 first, and then lowered to 9, which the other order would not give. */
    IS(rate_behind(12, 100), 9);

    /* Against a NaN nothing is held but the top; against infinity the index is raised to it and lowered to the top. */
    IS(rate_behind(12, NAN), 6);
    IS(rate_behind(24, NAN), 9);
    IS(rate_behind(12, INFINITY), 9);
    IS(rate_behind(24, -INFINITY), -INFINITY);

    /* There is no lowest rate but the last one less the cap. */
    set_adjustment(8, 6, 0);
    desk.index[0] = -100;
    IS(rate_behind(12, 8), 2);
    IS(rate_behind(12, 2), -4);

    /* Sums are rounded once: 0.1 + 0.2 is above 0.3, and 0.3 - 0.1 below 0.2. */
    set_adjustment(0.1, 0.2, 1);
    desk.index[0] = 1;
    IS(rate_behind(12, 0.1), 0.1 + 0.2);
    set_adjustment(0.1, 5, 0.2);
    IS(rate_behind(12, 0.1), 0.1 + 0.2);
    set_adjustment(0.1, 0.1, 1);
    desk.index[0] = 0;
    IS(rate_behind(12, 0.3), 0.3 - 0.1);

    /* A top that overflows holds nothing. */
    set_adjustment(DBL_MAX, DBL_MAX, DBL_MAX);
    desk.index[0] = DBL_MAX;
    IS(rate_behind(12, 0), DBL_MAX);
}

/* ---- beside level loans ---- */

/* Up to twelve months it is the level loan, to the bit; at 0 beyond that too, where each year works the same payment out. */
static void is_level(double principal, double rate, uint32_t term) {
    const struct level_loan *same = draw_level(principal, rate, term);
    set_adjustment(rate, 0, 0);
    for (size_t i = 0; i < ENTRIES; i++) desk.index[i] = rate;
    desk.index_count = ENTRIES;
    open_loan(principal, term, same->payment);
    ACCEPTED(call_draw_adjustable_with_years);
    CHECK(answered_count(WRITTEN) == term);
    CHECK(memcmp(answered_numbers(ROOM), same->rows, sizeof *same->rows * WIDTH * term) == 0);
    CHECK(memcmp(answered_numbers(YEARS), same->years, sizeof *same->years * desk.year_places) == 0);
}

/* With no cap to move within, the rate stays, whatever the index; the balance is a level loan's but for rounding. */
static void is_near_level(double rate, uint32_t term) {
    const struct level_loan *same = draw_level(250000, rate, term);
    set_adjustment(rate, 0, 0);
    for (size_t i = 0; i < ENTRIES; i++) desk.index[i] = random_below(2) == 0 ? rate : (double)random_below(9) - 4;
    desk.index_count = ENTRIES;
    open_loan(250000, term, same->payment);
    draw_whole(&adjustable);
    IS(answered_loan().rate, rate);
    for (size_t i = 0; i < term; i++)
        IS_NEAR(answered_numbers(ROOM)[WIDTH * i + 4], same->rows[WIDTH * i + 4], 250000 * 1e-6);
}

static void beside_level_loans(void) {
    static const double rates[] = { 0, 1e-17, 0.03, 0.065, 6 };
    for (size_t i = 0; i < 5; i++)
        for (uint32_t term = 1; term <= 12; term++) is_level(250000, rates[i], term);
    is_level(1024, 0, 64);
    is_level(1200, 0, 1200);
    for (size_t i = 0; i < 4; i++)
        for (uint32_t term = 13; term <= 360; term += 29) is_near_level(rates[i], term);
}

/* ---- every way ---- */

/* Thirty months in portions of every size, the list with no entry more than is read, and with one more. */
static void thirty_months(void) {
    const double entries[] = { 0.09, 0.01, NAN };
    uint32_t portions[30];
    for (uint32_t i = 0; i < 30; i++) portions[i] = i + 1;
    set_adjustment(0.065, 0.02, 0.05);
    for (size_t count = 2; count <= 3; count++) {
        set_index(entries, count);
        set_hand(&adjustable, 250000, 0.065, worked_out(250000, 0.065, 30), 30, 0);
        draw_all_ways(&adjustable, portions, 30);
    }
}

/* Five years by turns at rates that 1 does not feel, at -24 and at ordinary ones. */
static void unfelt_years(void) {
    const double entries[] = { 1e-17, 0.065, -12 * 0x1p-54, -24 };
    set_adjustment(0.065, 30, 0);
    set_index(entries, 4);
    for (uint32_t term = 49; term <= 60; term++) {
        set_hand(&adjustable, 250000, 0.065, worked_out(250000, 0.065, term), term, 0);
        draw_some_ways(&adjustable);
    }
}

/* Terms beside the ends of years, and the longest, each with just the entries that it reads. */
static void ends_of_years(void) {
    static const uint32_t terms[] = { 1, 11, 12, 13, 23, 24, 25, 36, 37, 360, 1199, 1200 };
    tidy_desk();
    for (size_t i = 0; i < sizeof terms / sizeof *terms; i++) {
        desk.index_count = (terms[i] - 1) / 12;
        set_hand(&adjustable, 250000, 0.06, worked_out(250000, 0.06, terms[i]), terms[i], 0);
        draw_some_ways(&adjustable);
    }
}

static double finite_number(void) {
    double number = random_number();
    return isfinite(number) ? number : 1;
}

/* Any caps and entries that are taken, any state. */
static void made_up_loans(void) {
    for (int i = 0; i < 3000; i++) {
        uint32_t term = 1 + random_below(50);
        for (size_t k = 0; k < LINES * YEAR_WIDTH; k++) desk.years[k] = random_number();
        set_adjustment(finite_number(), fabs(finite_number()), fabs(finite_number()));
        for (size_t k = 0; k < 5; k++) desk.index[k] = k < (term - 1) / 12 ? finite_number() : random_number();
        desk.index_count = (term - 1) / 12 + random_below(2);
        set_hand(&adjustable, random_number(), random_number(), random_number(), term, random_below(term + 1));
        draw_some_ways(&adjustable);
    }
}

/* Ordinary loans, opened and not made up: their rates move by the caps. */
static void ordinary_loans(void) {
    for (int i = 0; i < 300; i++) {
        uint32_t term = 13 + random_below(100);
        set_adjustment(0.01 * (1 + random_below(9)), 0.005 * random_below(5), 0.01 * random_below(6));
        desk.index_count = (term - 1) / 12;
        for (size_t k = 0; k < desk.index_count; k++) desk.index[k] = 0.0025 * random_below(60);
        open_loan(250000, term, worked_out(250000, desk.initial, term));
        draw_some_ways(&adjustable);
    }
}

int main(int arguments, char **words) {
    open_tests("test_adjustable", matrix, arguments, words);
    try_functions(functions);
    longest_list();
    trying(describe_hand);
    figures();
    equal_parts();
    rates();
    beside_level_loans();
    thirty_months();
    unfelt_years();
    ends_of_years();
    made_up_loans();
    ordinary_loans();
    tidy_desk();
    try_records(functions, damaged_record, 300000);
    return close_checks();
}
