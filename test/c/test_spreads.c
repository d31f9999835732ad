/* Spreads: the two rate curves, cash flows, present values and the spread that a price implies. */
#include "curves.h"

#include <float.h>
#include <math.h>
#include <string.h>

static const struct claim matrix[] = {
    /*                                      1 2 3 4 5 6 7 8 9 10 11 12 13 14 15 16 */
    CLAIM(zero_curve_rate,                 ". . . 4 5 6 7 . . .. .. .. .. .. .. .."),
    CLAIM(zero_curve_rate_each,            ". . . 4 5 6 7 . . .. .. .. .. .. .. .."),
    CLAIM(swap_curve_rate,                 ". . . 4 5 6 7 . . .. .. .. .. .. .. .."),
    CLAIM(swap_curve_rate_each,            ". . . 4 5 6 7 . . .. .. .. .. .. .. .."),
    CLAIM(zero_curve_discount_factor,      ". . . 4 5 6 7 . . .. .. .. .. .. .. .."),
    CLAIM(zero_curve_discount_factor_each, ". . . 4 5 6 7 . . .. .. .. .. .. .. .."),
    CLAIM(zero_curve_forward_rate,         ". . . 4 5 6 7 . . .. .. .. .. .. .. .."),
    CLAIM(bond_cash_flows,                 "1 . 3 . . . 7 . 9 .. .. .. .. .. .. .."),
    CLAIM(pv_cash_flows,                   ". . . 4 5 6 7 . 9 .. .. .. .. .. .. .."),
    CLAIM(z_spread,                        ". . . 4 5 6 7 . 9 .. .. .. .. .. .. .."),
    CLAIM(duration_convexity,              ". . . 4 5 6 7 . 9 .. .. .. .. .. .. .."),
    CLAIM(dated_pv,                        ". . . 4 5 6 7 . 9 .. .. .. .. .. .. .."),
    CLAIM(dated_z_spread,                  ". . . 4 5 6 7 . 9 .. .. .. .. .. .. .."),
    CLAIM(dated_duration_convexity,        ". . . 4 5 6 7 . 9 .. .. .. .. .. .. .."),
    CLAIM(points_to_decimal,               ". . . . . . . . . .. .. .. .. .. .. .."),
    END_OF_MATRIX,
};

/* ---- calls ---- */

static senyolanda_result call_zero_curve_rate(void) { return number_of_curve(senyolanda_zero_curve_rate); }
static senyolanda_result call_swap_curve_rate(void) { return number_of_curve(senyolanda_swap_curve_rate); }
static senyolanda_result call_zero_curve_discount_factor(void) { return number_of_curve(senyolanda_zero_curve_discount_factor); }
static senyolanda_result call_zero_curve_forward_rate(void) { return number_between(senyolanda_zero_curve_forward_rate); }

/* The bond is the desk's; the answers: how many flows, and two lists of as many places as the desk's flows. */
enum { COUNT_OF_FLOWS, TIMES, AMOUNTS };
static senyolanda_result call_bond_cash_flows(void) {
    uint32_t *flows = lend_count();
    double *times = lend(AS_ROOM, desk.flow_times_count * sizeof *times);
    double *amounts = lend(AS_ROOM, desk.flow_amounts_count * sizeof *amounts);
    return CALL(senyolanda_bond_cash_flows(desk.bond.face, desk.bond.coupon, desk.bond.maturity, desk.frequency,
        times, desk.flow_times_count, amounts, desk.flow_amounts_count, flows));
}

/* The desk's flows as two lists, over its curve. */
struct lent_flows {
    struct lent_numbers times, amounts;
    struct lent_curve curve;
};

static struct lent_flows lend_flows(void) {
    struct lent_flows flows;
    flows.times = lend_numbers(desk.flow_times, desk.flow_times_count);
    flows.amounts = lend_numbers(desk.flow_amounts, desk.flow_amounts_count);
    flows.curve = lend_curve();
    return flows;
}
#define TWO_LISTS(flows)                                                                                   \
    flows.times.numbers, flows.times.count, flows.amounts.numbers, flows.amounts.count,                    \
    flows.curve.times, flows.curve.times_count, flows.curve.rates, flows.curve.rates_count

static senyolanda_result call_pv_cash_flows(void) {
    struct lent_flows flows = lend_flows();
    double *pv = lend_number();
    return CALL(senyolanda_pv_cash_flows(TWO_LISTS(flows), desk.points, pv));
}

static senyolanda_result call_z_spread(void) {
    struct lent_flows flows = lend_flows();
    double *points = lend_number();
    uint32_t *found = lend_count();
    return CALL(senyolanda_z_spread(TWO_LISTS(flows), desk.market, points, found));
}

static senyolanda_result call_duration_convexity(void) {
    struct lent_flows flows = lend_flows();
    double *sensitivity = lend_places(2);
    return CALL(senyolanda_duration_convexity(TWO_LISTS(flows), desk.points, sensitivity));
}

/* The same flows as one list: time, amount, time, amount. */
static struct lent_flows lend_dated(void) {
    struct lent_flows flows;
    double dated[2 * FLOWS];
    for (size_t i = 0; i < desk.dated_count; i++) dated[i] = i % 2 == 0 ? desk.flow_times[i / 2] : desk.flow_amounts[i / 2];
    flows.times = flows.amounts = lend_numbers(dated, desk.dated_count);
    flows.curve = lend_curve();
    return flows;
}
#define ONE_LIST(flows)                                                                                    \
    flows.times.numbers, flows.times.count,                                                                \
    flows.curve.times, flows.curve.times_count, flows.curve.rates, flows.curve.rates_count

static senyolanda_result call_dated_pv(void) {
    struct lent_flows flows = lend_dated();
    double *pv = lend_number();
    return CALL(senyolanda_dated_pv(ONE_LIST(flows), desk.points, pv));
}

static senyolanda_result call_dated_z_spread(void) {
    struct lent_flows flows = lend_dated();
    double *points = lend_number();
    uint32_t *found = lend_count();
    return CALL(senyolanda_dated_z_spread(ONE_LIST(flows), desk.market, points, found));
}

static senyolanda_result call_dated_duration_convexity(void) {
    struct lent_flows flows = lend_dated();
    double *sensitivity = lend_places(2);
    return CALL(senyolanda_dated_duration_convexity(ONE_LIST(flows), desk.points, sensitivity));
}

static senyolanda_result call_points_to_decimal(void) {
    double *rate = lend_number();
    return CALL(senyolanda_points_to_decimal(desk.points, rate));
}

static senyolanda_result call_zero_curve_rate_each(void) {
    return numbers_of_curve(senyolanda_zero_curve_rate_each);
}

static senyolanda_result call_swap_curve_rate_each(void) {
    return numbers_of_curve(senyolanda_swap_curve_rate_each);
}

static senyolanda_result call_zero_curve_discount_factor_each(void) {
    return numbers_of_curve(senyolanda_zero_curve_discount_factor_each);
}

/* ---- causes: at rest four flows, of the bond (two years, twice a year) and as they are lent ---- */

/* 7 takes 3's cause away; the frequency is no swap's, and the two lists are room and may differ. */
static const struct cause bond_causes[] = {
    BAD_AMOUNT(bond.face),
    CAUSE_UNLESS(7, 3, WHOLE(flow_times_count, 3)),
    CAUSE_UNLESS(7, 3, WHOLE(flow_amounts_count, 3)),
    CAUSE_UNLESS(7, 3, WHOLE(flow_times_count, 0)),
    CAUSE_UNLESS(7, 3, WHOLE(flow_amounts_count, 0)),
    CAUSE_UNLESS(7, 3, WHOLE(flow_times_count, 0), WHOLE(flow_amounts_count, 0)),
    CAUSE(3, NUMBER(bond.maturity, 0x1.2c1ffffffffffp+9), WHOLE(flow_times_count, 1199), WHOLE(flow_amounts_count, 1200)),
    CAUSE(3, NUMBER(bond.maturity, 0x1.2c1ffffffffffp+9), WHOLE(flow_times_count, 1200), WHOLE(flow_amounts_count, 1199)),
    NOT_FINITE(7, bond.maturity),
    CAUSE(7, NUMBER(bond.maturity, 600.25)),
    CAUSE(7, NUMBER(bond.maturity, DBL_MAX)),
    CAUSE(7, NUMBER(bond.maturity, 1), WHOLE(frequency, 1201)),
    CAUSE(7, NUMBER(bond.maturity, 1), WHOLE(frequency, UINT32_MAX)),
    CAUSE(7, NUMBER(bond.maturity, 1200.5), WHOLE(frequency, 0)),
    NOT_FINITE(9, bond.coupon),
    AMOUNT_TAKEN(bond.face),
    FINITE_TAKEN(bond.coupon),
    TAKEN(NUMBER(bond.maturity, 0x1.2c1ffffffffffp+9), WHOLE(flow_times_count, 1200), WHOLE(flow_amounts_count, 1200)),
    TAKEN(WHOLE(flow_times_count, 5)),
    TAKEN(WHOLE(flow_amounts_count, 1202)),
    TAKEN(WHOLE(frequency, 366), NUMBER(bond.maturity, 0.01)),
    TAKEN(WHOLE(frequency, UINT32_MAX), NUMBER(bond.maturity, 1e-10)),
    TAKEN(WHOLE(frequency, 0)),
    TAKEN(NUMBER(bond.maturity, 0.0), WHOLE(flow_times_count, 0), WHOLE(flow_amounts_count, 0)),
    TAKEN(NUMBER(bond.maturity, -DBL_MAX), WHOLE(flow_times_count, 0), WHOLE(flow_amounts_count, 0)),
    END_OF_CAUSES,
};

/* Bad flows stand at the first index, in the middle and at the last. */
#define BAD_FLOWS                                         \
    NOT_FINITE_AT(0, 7, flow_times[0]),                   \
    NOT_FINITE_AT(2, 7, flow_times[2]),                   \
    NOT_FINITE_AT(3, 7, flow_times[3]),                   \
    NOT_FINITE_AT(0, 9, flow_amounts[0]),                 \
    NOT_FINITE_AT(2, 9, flow_amounts[2]),                 \
    NOT_FINITE_AT(3, 9, flow_amounts[3]),                 \
    FINITE_TAKEN(flow_times[2]),                          \
    FINITE_TAKEN(flow_amounts[3]),                        \
    TAKEN(NUMBER(flow_times[0], 3.0)),                    \
    TAKEN(NUMBER(flow_times[0], -0.0))

static const struct cause flow_causes[] = {
    CAUSE(4, WHOLE(flow_amounts_count, 3)),
    CAUSE(4, WHOLE(flow_amounts_count, 5)),
    CAUSE(4, WHOLE(flow_times_count, 0), WHOLE(flow_amounts_count, 1)),
    CAUSE(4, WHOLE(flow_times_count, 1), WHOLE(flow_amounts_count, 0)),
    CAUSE(4, WHOLE(flow_times_count, 1201), WHOLE(flow_amounts_count, 1200)),
    CAUSE(7, WHOLE(flow_times_count, 1201), WHOLE(flow_amounts_count, 1201)),
    TAKEN(WHOLE(flow_times_count, 1200), WHOLE(flow_amounts_count, 1200)),
    TAKEN(WHOLE(flow_times_count, 1), WHOLE(flow_amounts_count, 1)),
    TAKEN(WHOLE(flow_times_count, 0), WHOLE(flow_amounts_count, 0)),
    CAUSE_AT(1199, 7, WHOLE(flow_times_count, 1200), WHOLE(flow_amounts_count, 1200), NUMBER(flow_times[1199], NAN)),
    CAUSE_AT(1199, 9, WHOLE(flow_times_count, 1200), WHOLE(flow_amounts_count, 1200), NUMBER(flow_amounts[1199], NAN)),
    BAD_FLOWS,
    END_OF_CAUSES,
};

/* A time without an amount is 4. */
static const struct cause dated_causes[] = {
    CAUSE(4, WHOLE(dated_count, 1)),
    CAUSE(4, WHOLE(dated_count, 7)),
    CAUSE(4, WHOLE(dated_count, 9)),
    CAUSE(4, WHOLE(dated_count, 2401)),
    CAUSE(7, WHOLE(dated_count, 2402)),
    TAKEN(WHOLE(dated_count, 2400)),
    TAKEN(WHOLE(dated_count, 2)),
    TAKEN(WHOLE(dated_count, 0)),
    CAUSE_AT(1199, 7, WHOLE(dated_count, 2400), NUMBER(flow_times[1199], NAN)),
    CAUSE_AT(1199, 9, WHOLE(dated_count, 2400), NUMBER(flow_amounts[1199], NAN)),
    BAD_FLOWS,
    END_OF_CAUSES,
};

static const struct cause points_causes[] = {
    TAKEN(NUMBER(points, NAN)),
    TAKEN(NUMBER(points, -INFINITY)),
    FINITE_TAKEN(points),
    END_OF_CAUSES,
};

static const struct cause market_causes[] = {
    NOT_FINITE(9, market),
    FINITE_TAKEN(market),
    END_OF_CAUSES,
};

/* ---- what each function can meet ---- */

static const struct function functions[] = {
    { FUNCTION(zero_curve_rate), { curve_causes, open_curve_causes, time_causes }, NULL },
    { FUNCTION(zero_curve_rate_each), { curve_causes, open_curve_causes, asked_causes }, NULL },
    { FUNCTION(swap_curve_rate), { curve_causes, open_curve_causes, time_causes }, NULL },
    { FUNCTION(swap_curve_rate_each), { curve_causes, open_curve_causes, asked_causes }, NULL },
    { FUNCTION(zero_curve_discount_factor), { curve_causes, open_curve_causes, time_causes }, NULL },
    { FUNCTION(zero_curve_discount_factor_each), { curve_causes, open_curve_causes, asked_causes }, NULL },
    { FUNCTION(zero_curve_forward_rate), { curve_causes, open_curve_causes, time_causes, second_time_causes }, NULL },
    { FUNCTION(bond_cash_flows), { bond_causes }, NULL },
    { FUNCTION(pv_cash_flows), { flow_causes, curve_causes, open_curve_causes, points_causes }, NULL },
    { FUNCTION(z_spread), { flow_causes, curve_causes, open_curve_causes, market_causes }, NULL },
    { FUNCTION(duration_convexity), { flow_causes, curve_causes, open_curve_causes, points_causes }, NULL },
    { FUNCTION(dated_pv), { dated_causes, curve_causes, open_curve_causes, points_causes }, NULL },
    { FUNCTION(dated_z_spread), { dated_causes, curve_causes, open_curve_causes, market_causes }, NULL },
    { FUNCTION(dated_duration_convexity), { dated_causes, curve_causes, open_curve_causes, points_causes }, NULL },
    { FUNCTION(points_to_decimal), { points_causes }, NULL },
    END_OF_FUNCTIONS,
};

/* ---- figures: the rate curves ---- */

static void set_flows(size_t count, const double *times, const double *amounts) {
    memcpy(desk.flow_times, times, count * sizeof *times);
    memcpy(desk.flow_amounts, amounts, count * sizeof *amounts);
    desk.flow_times_count = desk.flow_amounts_count = count;
    desk.dated_count = 2 * count;
}

static double pv_at(double points) {
    desk.points = points;
    return NUMBER_OF(call_pv_cash_flows);
}

/* r0 + (r1-r0)·(t-t0)/(t1-t0), left to right. */
static double along_rates(double t0, double t1, double rate0, double rate1, double t) {
    return rate0 + (rate1 - rate0) * (t - t0) / (t1 - t0);
}

/* Where t is an inner knot the segment that starts there serves. */
static void random_lines(call *called) {
    for (int i = 0; i < 2000; i++) {
        struct segments s = set_random_segments();
        IS(at(called, s.inside), along_rates(s.t0, s.t1, s.rate0, s.rate1, s.inside));
        IS(at(called, s.t1), s.rate1);
        IS(at(called, s.t0 - 1), s.rate0);
        IS(at(called, s.t2 + 1), s.rate2);
    }
}

static void rate_curves(void) {
    static const double times[] = { 1, 3 }, rates[] = { 0.25, 0.75 };
    set_curve(2, times, rates);
    IS(at(call_zero_curve_rate, 2), 0.5);
    IS(at(call_swap_curve_rate, 2), 0.5);
    IS(at(call_zero_curve_discount_factor, 2), senyolanda_exp_of(-1));
    IS(at(call_zero_curve_discount_factor, -2), senyolanda_exp_of(0.5));
    double one = senyolanda_exp_of(-0.25), three = senyolanda_exp_of(-2.25);
    IS(between(call_zero_curve_forward_rate, 1, 3), senyolanda_ln_of(one / three) / 2);
    IS(between(call_zero_curve_forward_rate, 2, 2 + 1e-13), 0.5);
    IS(between(call_zero_curve_forward_rate, 1, 2000), 0);
}

/* What is discounted is discounted at this curve's own rate, raised by the spread. */
static void discounting(void) {
    for (int i = 0; i < 2000; i++) {
        struct segments s = set_random_segments();
        double rate = along_rates(s.t0, s.t1, s.rate0, s.rate1, s.inside), amount = 10;
        IS(at(call_zero_curve_discount_factor, s.inside), senyolanda_exp_of(-rate * s.inside));
        set_flows(1, &s.inside, &amount);
        IS(pv_at(50), 10 * senyolanda_exp_of(-(rate + 50.0 / 10000) * s.inside));
    }
}

/* ---- figures: cash flows ---- */

/* Four flows into rooms of other lengths; the places past them stay. */
static void flows_of_a_bond(void) {
    tidy_desk();
    desk.flow_times_count = 6;
    desk.flow_amounts_count = 5;
    CHECK(COUNT_OF(call_bond_cash_flows) == 4);
    for (size_t i = 0; i < 4; i++) {
        IS(answered_numbers(TIMES)[i], 0.5 * (double)(i + 1));
        IS(answered_numbers(AMOUNTS)[i], i == 3 ? 125 : 25);
    }
    CHECK(answered_numbers_stay(TIMES, 4));
    CHECK(answered_numbers_stay(AMOUNTS, 4));
    desk.frequency = 0;
    CHECK(COUNT_OF(call_bond_cash_flows) == 2);
    IS(answered_numbers(TIMES)[1], 2);
    IS(answered_numbers(AMOUNTS)[0], 50);
    CHECK(answered_numbers_stay(AMOUNTS, 2));
    desk.bond.maturity = -3;
    CHECK(COUNT_OF(call_bond_cash_flows) == 0);
    CHECK(answered_stays(TIMES) && answered_stays(AMOUNTS));
}

static void are_sensitivities(double points, double duration, double convexity) {
    desk.points = points;
    ACCEPTED(call_duration_convexity);
    IS(answered_numbers(0)[0], duration);
    IS(answered_numbers(0)[1], convexity);
}

static void present_values(void) {
    static const double tenors[] = { 1 }, no_rate[] = { 0 }, rate[] = { 0.25 };
    static const double times[] = { 0.5, 1, 1.5, 2 }, amounts[] = { 25, 25, 25, 125 }, opposite[] = { 1, -1, 1, -1 };
    set_curve(1, tenors, no_rate);
    set_flows(4, times, amounts);
    IS(pv_at(0), 200);
    are_sensitivities(0, 1.625, 2.9375);
    set_curve(1, tenors, rate);
    set_flows(1, times + 3, amounts + 3);
    IS(pv_at(2500), 125 * senyolanda_exp_of(-1));
    are_sensitivities(2500, 2 * 125 * senyolanda_exp_of(-1) / pv_at(2500), 2 * 2 * 125 * senyolanda_exp_of(-1) / pv_at(2500));
    set_curve(1, tenors, no_rate);
    set_flows(4, times, opposite);
    are_sensitivities(0, 0, 0);
    set_flows(0, times, amounts);
    IS(pv_at(0), 0);
}

static void points(void) {
    desk.points = 100;
    IS(NUMBER_OF(call_points_to_decimal), 0.01);
    desk.points = -2500;
    IS(NUMBER_OF(call_points_to_decimal), -0.25);
    desk.points = 3;
    IS(NUMBER_OF(call_points_to_decimal), 3.0 / 10000);
    desk.points = NAN;
    IS(NUMBER_OF(call_points_to_decimal), NAN);
}

/* ---- figures: the spread that a price implies ---- */

static void is_spread(double market, double points, double miss, uint32_t found) {
    desk.market = market;
    IS_NEAR(NUMBER_OF(call_z_spread), points, miss);
    CHECK(answered_count(1) == found);
}

/* Between -500 and 2,000 points the spread is found; outside, the end nearer to the price is given, and that is said. */
static void spreads(void) {
    static const double spreads[] = { -500, -499, -1, 0, 100, 1234.5, 1999, 2000 };
    tidy_desk();
    for (size_t i = 0; i < sizeof spreads / sizeof *spreads; i++) is_spread(pv_at(spreads[i]), spreads[i], 1e-6, 1);
    is_spread(nextafter(pv_at(-500), INFINITY), -500, 0, 0);
    is_spread(nextafter(pv_at(2000), 0), 2000, 0, 0);
    is_spread(DBL_MAX, 2000, 0, 0);
    is_spread(1e9, -500, 0, 0);
    is_spread(0, 2000, 0, 0);
}

/* One list of dated amounts gives what two lists give. */
static void dated_amounts(void) {
    static call *const two_lists[] = { call_pv_cash_flows, call_z_spread, call_duration_convexity };
    static call *const one_list[] = { call_dated_pv, call_dated_z_spread, call_dated_duration_convexity };
    static const size_t counts[] = { 0, 1, 4, 1200 };
    for (size_t i = 0; i < sizeof counts / sizeof *counts; i++)
        for (size_t j = 0; j < sizeof one_list / sizeof *one_list; j++) {
            tidy_desk();
            desk.flow_times_count = desk.flow_amounts_count = counts[i];
            desk.dated_count = 2 * counts[i];
            double wanted = NUMBER_OF(two_lists[j]);
            IS(NUMBER_OF(one_list[j]), wanted);
        }
}

static void dated_seconds(void) {
    tidy_desk();
    ACCEPTED(call_duration_convexity);
    double convexity = answered_numbers(0)[1];
    ACCEPTED(call_dated_duration_convexity);
    IS(answered_numbers(0)[1], convexity);
    ACCEPTED(call_dated_z_spread);
    CHECK(answered_count(1) == 0);
    desk.market = pv_at(100);
    ACCEPTED(call_dated_z_spread);
    CHECK(answered_count(1) == 1);
}

int main(int arguments, char **words) {
    open_tests("test_spreads", matrix, arguments, words);
    try_functions(functions);
    random_lines(call_zero_curve_rate);
    random_lines(call_swap_curve_rate);
    rate_curves();
    discounting();
    flows_of_a_bond();
    present_values();
    points();
    spreads();
    dated_amounts();
    dated_seconds();
    as_the_walk(call_zero_curve_rate, call_zero_curve_rate_each, SEGMENT_THAT_STARTS, along_rates);
    as_the_walk(call_swap_curve_rate, call_swap_curve_rate_each, SEGMENT_THAT_STARTS, along_rates);
    as_one_by_one(call_zero_curve_rate_each, call_zero_curve_rate);
    as_one_by_one(call_swap_curve_rate_each, call_swap_curve_rate);
    as_one_by_one(call_zero_curve_discount_factor_each, call_zero_curve_discount_factor);
    return close_checks();
}
