/* Swaps: day counts, the discount curve and its bootstrap, legs, values. */
#include "curves.h"
#include "damaged.h"

#include <float.h>
#include <math.h>

static const struct claim matrix[] = {
    /*                                 1 2 3 4 5 6 7 8 9 10 11 12 13 14 15 16 */
    CLAIM(day_count_fraction,         ". . . . . . . . . .. 11 .. .. .. .. .."),
    CLAIM(bootstrap,                  ". . . 4 5 6 . . . .. .. .. .. .. .. .."),
    CLAIM(discount_curve_rate,        ". . . 4 5 6 7 . . .. .. .. .. .. .. .."),
    CLAIM(discount_curve_rate_each,   ". . . 4 5 6 7 . . .. .. .. .. .. .. .."),
    CLAIM(discount_curve_factor,      ". . . 4 5 6 7 . . .. .. .. .. .. .. .."),
    CLAIM(discount_curve_factor_each, ". . . 4 5 6 7 . . .. .. .. .. .. .. .."),
    CLAIM(fixed_leg_pv,               "1 . . 4 5 6 7 8 9 .. 11 .. .. .. .. .."),
    CLAIM(floating_leg_pv,            "1 . . 4 5 6 7 8 9 .. 11 .. .. .. .. .."),
    CLAIM(swap_npv,                   "1 . . 4 5 6 7 8 9 .. 11 .. .. .. .. .."),
    CLAIM(par_swap_rate,              "1 . . 4 5 6 7 8 9 .. 11 .. .. .. .. .."),
    CLAIM(swap_dv01,                  "1 . . 4 5 6 7 8 9 .. 11 .. .. .. .. .."),
    CLAIM(swap_duration,              "1 . . 4 5 6 7 8 9 .. 11 .. .. .. .. .."),
    CLAIM(value_swap,                 "1 . . 4 5 6 7 8 9 .. 11 .. .. .. .. .."),
    END_OF_MATRIX,
};

/* ---- calls ---- */

static senyolanda_result call_day_count_fraction(void) {
    double *fraction = lend_number();
    return CALL(senyolanda_day_count_fraction(desk.day_count, desk.days, fraction));
}

/* The room is for 120 zero rates, whatever the curve. */
static senyolanda_result call_bootstrap(void) {
    struct lent_curve curve = lend_curve();
    double *zeros = lend_places(SENYOLANDA_MOST_KNOTS);
    return CALL(senyolanda_bootstrap(curve.times, curve.times_count, curve.rates, curve.rates_count, zeros));
}

static senyolanda_result call_discount_curve_rate(void) { return number_of_curve(senyolanda_discount_curve_rate); }
static senyolanda_result call_discount_curve_factor(void) { return number_of_curve(senyolanda_discount_curve_factor); }

typedef senyolanda_result swap_number(const uint8_t *, size_t, const double *, size_t, const double *, size_t, double *);

static senyolanda_result number_of_swap(swap_number *function) {
    struct lent_bytes swap = lend_swap();
    struct lent_curve curve = lend_curve();
    double *answer = lend_number();
    return CALL(function(
        swap.bytes, swap.length, curve.times, curve.times_count, curve.rates, curve.rates_count, answer));
}

static senyolanda_result call_fixed_leg_pv(void) { return number_of_swap(senyolanda_fixed_leg_pv); }
static senyolanda_result call_floating_leg_pv(void) { return number_of_swap(senyolanda_floating_leg_pv); }
static senyolanda_result call_par_swap_rate(void) { return number_of_swap(senyolanda_par_swap_rate); }
static senyolanda_result call_swap_duration(void) { return number_of_swap(senyolanda_swap_duration); }

typedef senyolanda_result side_number(
    const uint8_t *, size_t, const double *, size_t, const double *, size_t, uint32_t, double *);

static senyolanda_result numbers_of_side(side_number *function, size_t count) {
    struct lent_bytes swap = lend_swap();
    struct lent_curve curve = lend_curve();
    double *answer = lend_places(count);
    return CALL(function(swap.bytes, swap.length, curve.times, curve.times_count, curve.rates, curve.rates_count,
        desk.receive_fixed, answer));
}

static senyolanda_result call_swap_npv(void) { return numbers_of_side(senyolanda_swap_npv, 1); }
static senyolanda_result call_swap_dv01(void) { return numbers_of_side(senyolanda_swap_dv01, 1); }
static senyolanda_result call_value_swap(void) { return numbers_of_side(senyolanda_value_swap, 6); }

static senyolanda_result call_discount_curve_rate_each(void) {
    return numbers_of_curve(senyolanda_discount_curve_rate_each);
}

static senyolanda_result call_discount_curve_factor_each(void) {
    return numbers_of_curve(senyolanda_discount_curve_factor_each);
}

/* ---- causes: at rest two years, twice a year ---- */

static const struct cause day_count_causes[] = {
    CODES(day_count, 2),
    TAKEN(WHOLE(days, 0)),
    TAKEN(WHOLE(days, UINT32_MAX)),
    END_OF_CAUSES,
};

static const struct cause bootstrap_causes[] = {
    CAUSE_AT(0, 6, NUMBER(times[0], 0.0)),
    CAUSE_AT(0, 6, NUMBER(times[0], -0.0)),
    CAUSE_AT(4, 6, NUMBER(times[4], 0x1.9000000000001p+6)),
    CAUSE_AT(4, 6, NUMBER(times[4], DBL_MAX)),
    CAUSE_AT(3, 6, NUMBER(times[3], 101), NUMBER(times[4], 102)),
    TAKEN(NUMBER(times[4], 100)),
    TAKEN(NUMBER(rates[2], -1)),
    END_OF_CAUSES,
};

/* 7 goes before 8 also where the frequency is what makes more than 1,200 periods; a frequency of 0 makes none. */
static const struct cause swap_causes[] = {
    NO_RECORD(WHOLE(swap.kind, 0)),
    NO_RECORD(WHOLE(swap.kind, 3), WHOLE(swap.length, SENYOLANDA_ROW_BYTES)),
    NO_RECORD(WHOLE(swap.kind, 5)),
    NO_RECORD(WHOLE(swap.kind, 5), WHOLE(swap.length, SENYOLANDA_DATED_SWAP_BYTES)),
    NO_RECORD(WHOLE(swap.length, SENYOLANDA_DATED_SWAP_BYTES)),
    NO_RECORD(WHOLE(swap.length, 0)),
    NO_RECORD(WHOLE(swap.length, SENYOLANDA_SWAP_BYTES - 1)),
    NO_RECORD(WHOLE(swap.length, SENYOLANDA_SWAP_BYTES + 1)),
    BAD_AMOUNT(swap.notional),
    NOT_FINITE(7, swap.tenor),
    CAUSE(7, NUMBER(swap.tenor, 1200.5), WHOLE(swap.frequency, 1)),
    CAUSE(7, NUMBER(swap.tenor, 600.25), WHOLE(swap.frequency, 2)),
    CAUSE(7, NUMBER(swap.tenor, DBL_MAX), WHOLE(swap.frequency, 365)),
    CAUSE(7, NUMBER(swap.tenor, 4), WHOLE(swap.frequency, 366)),
    CAUSE(7, NUMBER(swap.tenor, 2), WHOLE(swap.frequency, UINT32_MAX)),
    CAUSE(8, NUMBER(swap.tenor, DBL_MAX), WHOLE(swap.frequency, 0)),
    CAUSE(8, NUMBER(swap.tenor, 3), WHOLE(swap.frequency, 366)),
    CAUSE(8, NUMBER(swap.tenor, 0), WHOLE(swap.frequency, UINT32_MAX)),
    CAUSE(8, WHOLE(swap.frequency, 0)),
    CAUSE(8, WHOLE(swap.frequency, 366)),
    NOT_FINITE(9, swap.rate),
    CAUSE(11, WHOLE(swap.day_count, 3)),
    CAUSE(11, WHOLE(swap.day_count, 255)),
    AMOUNT_TAKEN(swap.notional),
    FINITE_TAKEN(swap.rate),
    TAKEN(NUMBER(swap.tenor, 1200.49999), WHOLE(swap.frequency, 1)),
    TAKEN(NUMBER(swap.tenor, 0x1.2c1ffffffffffp+9)),
    TAKEN(NUMBER(swap.tenor, 3), WHOLE(swap.frequency, 365)),
    TAKEN(WHOLE(swap.frequency, 1)),
    TAKEN(WHOLE(swap.frequency, 365)),
    TAKEN(NUMBER(swap.tenor, 0.0)),
    TAKEN(NUMBER(swap.tenor, -DBL_MAX)),
    TAKEN(WHOLE(swap.day_count, 2)),
    TAKEN(WHOLE(receive_fixed, 0)),
    TAKEN(WHOLE(receive_fixed, UINT32_MAX)),
    END_OF_CAUSES,
};

/* ---- what a record deserves ---- */

static senyolanda_result swap_deserved(const struct record *record) {
    if (record->length != 30 || record->bytes[0] != 4) return refusal(11, 0);
    double notional = number_in(record->bytes + 1), rate = number_in(record->bytes + 9), tenor = number_in(record->bytes + 17);
    uint32_t frequency = count_in(record->bytes + 25);
    if (is_bad_amount(notional)) return refusal(1, 0);
    if (!isfinite(tenor) || tenor * frequency >= 1200.5) return refusal(7, 0);
    if (frequency == 0 || frequency > 365) return refusal(8, 0);
    if (!isfinite(rate)) return refusal(9, 0);
    return record->bytes[29] < 3 ? 0 : refusal(11, 0);
}

/* ---- what each function can meet ---- */

#define OF_SWAP { swap_causes, curve_causes, open_curve_causes }, swap_deserved

static const struct function functions[] = {
    { FUNCTION(day_count_fraction), { day_count_causes }, NULL },
    { FUNCTION(bootstrap), { curve_causes, bootstrap_causes }, NULL },
    { FUNCTION(discount_curve_rate), { curve_causes, open_curve_causes, time_causes }, NULL },
    { FUNCTION(discount_curve_rate_each), { curve_causes, open_curve_causes, asked_causes }, NULL },
    { FUNCTION(discount_curve_factor), { curve_causes, open_curve_causes, time_causes }, NULL },
    { FUNCTION(discount_curve_factor_each), { curve_causes, open_curve_causes, asked_causes }, NULL },
    { FUNCTION(fixed_leg_pv), OF_SWAP },
    { FUNCTION(floating_leg_pv), OF_SWAP },
    { FUNCTION(swap_npv), OF_SWAP },
    { FUNCTION(par_swap_rate), OF_SWAP },
    { FUNCTION(swap_dv01), OF_SWAP },
    { FUNCTION(swap_duration), OF_SWAP },
    { FUNCTION(value_swap), OF_SWAP },
    END_OF_FUNCTIONS,
};

/* ---- figures ---- */

static void is_fraction(uint32_t day_count, uint32_t days, double fraction) {
    desk.day_count = day_count;
    desk.days = days;
    IS(NUMBER_OF(call_day_count_fraction), fraction);
}

static void day_counts(void) {
    is_fraction(SENYOLANDA_ACTUAL_360, 90, 0.25);
    is_fraction(SENYOLANDA_ACTUAL_365, 73, 0.2);
    is_fraction(SENYOLANDA_THIRTY_360, 180, 0.5);
    is_fraction(SENYOLANDA_ACTUAL_365, 0, 0);
    is_fraction(SENYOLANDA_ACTUAL_360, UINT32_MAX, 4294967295.0 / 360);
}

static void discounting(void) {
    static const double times[] = { 1, 3 }, rates[] = { 0.25, 0.75 };
    set_curve(2, times, rates);
    IS(at(call_discount_curve_rate, 2), 0.5);
    IS(at(call_discount_curve_rate, -1), 0.25);
    IS(at(call_discount_curve_rate, 9), 0.75);
    IS(at(call_discount_curve_factor, 2), senyolanda_exp_of(-1));
    IS(at(call_discount_curve_factor, 0), 1);
    IS(at(call_discount_curve_factor, -2), 1);
}

/* z0·(1-w) + z1·w. */
static double along_zeros(double t0, double t1, double rate0, double rate1, double t) {
    double w = (t - t0) / (t1 - t0);
    return rate0 * (1 - w) + rate1 * w;
}

/* Where t is an inner knot the segment that ends there serves, with w = 1. */
static void random_lines(void) {
    for (int i = 0; i < 2000; i++) {
        struct segments s = set_random_segments();
        double rate = along_zeros(s.t0, s.t1, s.rate0, s.rate1, s.inside);
        IS(at(call_discount_curve_rate, s.inside), rate);
        IS(at(call_discount_curve_rate, s.t1), s.rate0 * 0 + s.rate1);
        IS(at(call_discount_curve_factor, s.inside), senyolanda_exp_of(-rate * s.inside));
    }
}

/* Par swaps are worth their notional over the curve that they give; places past the last knot stay. */
static void bootstraps(void) {
    static const double tenors[] = { 1, 2, 5 }, par_rates[] = { 0.03, 0.035, 0.04 };
    double zeros[3];
    set_curve(3, tenors, par_rates);
    ACCEPTED(call_bootstrap);
    CHECK(answered_numbers_stay(0, 3));
    for (size_t i = 0; i < 3; i++) zeros[i] = answered_numbers(0)[i];
    IS_NEAR(zeros[0], senyolanda_ln_of(1.03), 1e-12);
    set_curve(3, tenors, zeros);
    for (size_t i = 0; i < 3; i++) {
        double annuity = 0;
        for (double t = 1; t <= tenors[i]; t++) annuity += at(call_discount_curve_factor, t);
        IS_NEAR(par_rates[i] * annuity + at(call_discount_curve_factor, tenors[i]), 1, 1e-12);
    }
}

/* No sign change gives ln(1+c): NaN for a rate below -1. */
static void bootstrap_ends(void) {
    static const double tenors[] = { 1 }, below[] = { -2 }, high[] = { 1e9 };
    set_curve(1, tenors, below);
    IS(NUMBER_OF(call_bootstrap), NAN);
    set_curve(1, tenors, high);
    IS(NUMBER_OF(call_bootstrap), senyolanda_ln_of(1 + 1e9));
    CHECK(answered_numbers_stay(0, 1));
}

/* The longest curve fills the room to its last place. */
static void longest_bootstrap(void) {
    tidy_desk();
    desk.times_count = desk.rates_count = 120;
    ACCEPTED(call_bootstrap);
    CHECK(!answered_numbers_stay(0, 119));
}

static void set_swap(double notional, double rate, double tenor, uint32_t frequency, uint8_t day_count) {
    struct swap_parts swap = { 4, notional, rate, tenor, frequency, day_count, SENYOLANDA_SWAP_BYTES };
    desk.swap = swap;
}

/* On a curve of 0 nothing is discounted: two payments of 50 and the 100 themselves. */
static void undiscounted_swap(void) {
    static const double times[] = { 1 }, rates[] = { 0 };
    set_curve(1, times, rates);
    set_swap(100, 0.5, 2, 1, SENYOLANDA_ACTUAL_365);
    IS(NUMBER_OF(call_fixed_leg_pv), 200);
    IS(NUMBER_OF(call_floating_leg_pv), 100);
    IS(NUMBER_OF(call_par_swap_rate), 0);
    IS(NUMBER_OF(call_swap_duration), 1.75);
    desk.receive_fixed = 1;
    IS(NUMBER_OF(call_swap_npv), 100);
    desk.receive_fixed = UINT32_MAX;
    IS(NUMBER_OF(call_swap_npv), 100);
    desk.receive_fixed = 0;
    IS(NUMBER_OF(call_swap_npv), -100);
    set_swap(360, 0.5, 2, 1, SENYOLANDA_ACTUAL_360);
    IS(NUMBER_OF(call_fixed_leg_pv), 360 * 0.5 * (365.0 / 360) + 360 * 0.5 * (365.0 / 360) + 360);
}

/* One payment, discounted: the legs and the par rate in full. */
static void discounted_swap(void) {
    static const double times[] = { 1 }, rates[] = { 0.25 };
    set_curve(1, times, rates);
    set_swap(100, 0.5, 1, 1, SENYOLANDA_ACTUAL_365);
    double factor = senyolanda_exp_of(-0.25);
    IS(NUMBER_OF(call_fixed_leg_pv), 100 * 0.5 * 1 * factor + 100 * factor);
    IS(NUMBER_OF(call_floating_leg_pv), 100 * (1 / factor - 1) * factor + 100 * factor);
    IS(NUMBER_OF(call_par_swap_rate), (1 - factor) / factor);
    IS(NUMBER_OF(call_swap_duration), 1 / 1.25);
}

static double npv_over(double bump) {
    double rates[5];
    for (size_t i = 0; i < 5; i++) rates[i] = desk.rates[i];
    for (size_t i = 0; i < 5; i++) desk.rates[i] += bump;
    double npv = NUMBER_OF(call_swap_npv);
    for (size_t i = 0; i < 5; i++) desk.rates[i] = rates[i];
    return npv;
}

/* A valuation is the six numbers that the functions give one by one; dv01 is two values apart. */
static void valuations(void) {
    static call *const one_by_one[] = {
        call_swap_npv, call_fixed_leg_pv, call_floating_leg_pv, call_par_swap_rate, call_swap_dv01, call_swap_duration
    };
    double numbers[6];
    tidy_desk();
    for (desk.receive_fixed = 0; desk.receive_fixed < 2; desk.receive_fixed++) {
        double base = npv_over(0), bumped = npv_over(0.0001);
        IS(NUMBER_OF(call_swap_dv01), bumped - base);
        for (size_t i = 0; i < 6; i++) numbers[i] = NUMBER_OF(one_by_one[i]);
        ACCEPTED(call_value_swap);
        for (size_t i = 0; i < 6; i++) IS(answered_numbers(0)[i], numbers[i]);
    }
}

int main(int arguments, char **words) {
    open_tests("test_swaps", matrix, arguments, words);
    try_functions(functions);
    day_counts();
    discounting();
    random_lines();
    bootstraps();
    bootstrap_ends();
    longest_bootstrap();
    undiscounted_swap();
    discounted_swap();
    valuations();
    tidy_desk();
    try_records(functions, damaged_record, 500000);
    as_the_walk(call_discount_curve_rate, call_discount_curve_rate_each, SEGMENT_THAT_ENDS, along_zeros);
    as_one_by_one(call_discount_curve_rate_each, call_discount_curve_rate);
    as_one_by_one(call_discount_curve_factor_each, call_discount_curve_factor);
    return close_checks();
}
