/* Yield curves: interpolation, discounting, forwards, par yields, Nelson-Siegel. */
#include "curves.h"

#include <float.h>
#include <math.h>

static const struct claim matrix[] = {
    /*                                          1 2 3 4 5 6 7 8 9 10 11 12 13 14 15 16 */
    CLAIM(linear_interpolate,                  ". . . 4 5 6 7 . . .. .. .. .. .. .. .."),
    CLAIM(linear_interpolate_each,             ". . . 4 5 6 7 . . .. .. .. .. .. .. .."),
    CLAIM(cubic_spline_interpolate,            ". . . 4 5 6 7 . . .. .. .. .. .. .. .."),
    CLAIM(yield_curve_discount_factor,         ". . . 4 5 6 7 . . .. .. .. .. .. .. .."),
    CLAIM(yield_curve_discount_factor_each,    ". . . 4 5 6 7 . . .. .. .. .. .. .. .."),
    CLAIM(yield_curve_forward_rate,            ". . . 4 5 6 7 . . .. .. .. .. .. .. .."),
    CLAIM(par_yield,                           ". . . 4 5 6 7 . . .. .. .. .. .. .. .."),
    CLAIM(nelson_siegel_fit,                   ". . . 4 5 6 . . . .. .. .. .. .. .. .."),
    CLAIM(nelson_siegel_yield,                 ". . . . . . 7 . . .. .. .. .. .. .. .."),
    CLAIM(nelson_siegel_forward_rate,          ". . . . . . 7 . . .. .. .. .. .. .. .."),
    CLAIM(nelson_siegel_instantaneous_forward, ". . . . . . . . . .. .. .. .. .. .. .."),
    CLAIM(nelson_siegel_metrics,               ". . . . . . . . . .. .. .. .. .. .. .."),
    END_OF_MATRIX,
};

/* ---- calls ---- */

static senyolanda_result call_linear_interpolate(void) { return number_of_curve(senyolanda_linear_interpolate); }
static senyolanda_result call_cubic_spline_interpolate(void) { return number_of_curve(senyolanda_cubic_spline_interpolate); }
static senyolanda_result call_yield_curve_forward_rate(void) { return number_between(senyolanda_yield_curve_forward_rate); }
static senyolanda_result call_par_yield(void) { return number_of_curve(senyolanda_par_yield); }

static senyolanda_result call_yield_curve_discount_factor(void) {
    return number_of_curve(senyolanda_yield_curve_discount_factor);
}

static senyolanda_result call_nelson_siegel_fit(void) {
    struct lent_curve curve = lend_curve();
    double *model = lend_places(4);
    return CALL(senyolanda_nelson_siegel_fit(curve.times, curve.times_count, curve.rates, curve.rates_count, model));
}

typedef senyolanda_result model_number(const double *, double, double *);

static senyolanda_result number_of_model(model_number *function) {
    struct lent_numbers model = lend_numbers(desk.model, 4);
    double *answer = lend_number();
    return CALL(function(model.numbers, desk.t, answer));
}

static senyolanda_result call_nelson_siegel_yield(void) { return number_of_model(senyolanda_nelson_siegel_yield); }
static senyolanda_result call_nelson_siegel_forward_rate(void) { return number_of_model(senyolanda_nelson_siegel_forward_rate); }

static senyolanda_result call_nelson_siegel_instantaneous_forward(void) {
    struct lent_numbers model = lend_numbers(desk.model, 4);
    double *rate = lend_number();
    return CALL(senyolanda_nelson_siegel_instantaneous_forward(model.numbers, rate));
}

static senyolanda_result call_nelson_siegel_metrics(void) {
    struct lent_numbers model = lend_numbers(desk.model, 4);
    double *metrics = lend_places(3);
    return CALL(senyolanda_nelson_siegel_metrics(model.numbers, metrics));
}

static senyolanda_result call_linear_interpolate_each(void) {
    return numbers_of_curve(senyolanda_linear_interpolate_each);
}

static senyolanda_result call_yield_curve_discount_factor_each(void) {
    return numbers_of_curve(senyolanda_yield_curve_discount_factor_each);
}

/* ---- causes ---- */

/* A par yield is asked over half years, of which there may be 1,200. */
static const struct cause par_yield_causes[] = {
    NOT_FINITE(7, t),
    CAUSE(7, NUMBER(t, 600.25)),
    CAUSE(7, NUMBER(t, DBL_MAX)),
    TAKEN(NUMBER(t, 0x1.2c1ffffffffffp+9)),
    TAKEN(NUMBER(t, -DBL_MAX)),
    TAKEN(NUMBER(t, 0.0)),
    END_OF_CAUSES,
};

static const struct cause model_causes[] = {
    TAKEN(NUMBER(model[0], NAN)),
    TAKEN(NUMBER(model[1], INFINITY)),
    TAKEN(NUMBER(model[2], -DBL_MAX)),
    TAKEN(NUMBER(model[3], 0.0)),
    TAKEN(NUMBER(model[3], NAN)),
    END_OF_CAUSES,
};

/* ---- what each function can meet ---- */

static const struct function functions[] = {
    { FUNCTION(linear_interpolate), { curve_causes, open_curve_causes, time_causes }, NULL },
    { FUNCTION(linear_interpolate_each), { curve_causes, open_curve_causes, asked_causes }, NULL },
    { FUNCTION(cubic_spline_interpolate), { curve_causes, open_curve_causes, time_causes }, NULL },
    { FUNCTION(yield_curve_discount_factor), { curve_causes, open_curve_causes, time_causes }, NULL },
    { FUNCTION(yield_curve_discount_factor_each), { curve_causes, open_curve_causes, asked_causes }, NULL },
    { FUNCTION(yield_curve_forward_rate), { curve_causes, open_curve_causes, time_causes, second_time_causes }, NULL },
    { FUNCTION(par_yield), { curve_causes, open_curve_causes, par_yield_causes }, NULL },
    { FUNCTION(nelson_siegel_fit), { curve_causes, open_curve_causes }, NULL },
    { FUNCTION(nelson_siegel_yield), { model_causes, time_causes }, NULL },
    { FUNCTION(nelson_siegel_forward_rate), { model_causes, time_causes }, NULL },
    { FUNCTION(nelson_siegel_instantaneous_forward), { model_causes }, NULL },
    { FUNCTION(nelson_siegel_metrics), { model_causes }, NULL },
    END_OF_FUNCTIONS,
};

/* ---- figures ---- */

static double forward(double t1, double t2) {
    return between(call_yield_curve_forward_rate, t1, t2);
}

static void straight_lines(void) {
    static const double times[] = { 1, 3, 7 }, rates[] = { 0.25, 0.75, 0.5 };
    set_curve(3, times, rates);
    IS(at(call_linear_interpolate, 2), 0.5);
    IS(at(call_linear_interpolate, 6), 0.5625);
    IS(at(call_linear_interpolate, 0.5), 0.25);
    IS(at(call_linear_interpolate, -5), 0.25);
    IS(at(call_linear_interpolate, 100), 0.5);
    IS(at(call_yield_curve_discount_factor, 2), senyolanda_exp_of(-1));
    IS(at(call_yield_curve_discount_factor, -2), senyolanda_exp_of(0.5));
    IS(forward(1, 3), 1);
    IS(forward(0.5, 6), (6 * 0.5625 - 0.5 * 0.25) / 5.5);
    IS(forward(2, 2), 0.5);
    IS(forward(2, 2 + 1e-13), 0.5);
}

/* y0 + w·(y1-y0). */
static double along_yields(double t0, double t1, double rate0, double rate1, double t) {
    return rate0 + (t - t0) / (t1 - t0) * (rate1 - rate0);
}

/* Where t is an inner knot the segment that ends there serves, with w = 1. */
static void random_lines(void) {
    for (int i = 0; i < 2000; i++) {
        struct segments s = set_random_segments();
        double rate = along_yields(s.t0, s.t1, s.rate0, s.rate1, s.inside);
        IS(at(call_linear_interpolate, s.inside), rate);
        IS(at(call_linear_interpolate, s.t1), s.rate0 + (s.rate1 - s.rate0));
        IS(at(call_yield_curve_discount_factor, s.inside), senyolanda_exp_of(-rate * s.inside));
    }
}

static void splines(void) {
    static const double times[] = { 0, 1, 2 }, rates[] = { 0, 1, 0 };
    set_curve(3, times, rates);
    IS(at(call_cubic_spline_interpolate, 0.5), 0.6875);
    IS(at(call_cubic_spline_interpolate, 1.5), 0.6875);
    IS(at(call_cubic_spline_interpolate, 1), 1);
    IS(at(call_cubic_spline_interpolate, -1), 0);
    IS(at(call_cubic_spline_interpolate, 9), 0);
    set_curve(2, times, rates);
    IS(at(call_cubic_spline_interpolate, 0.25), 0.25);
}

static void par_yields(void) {
    static const double times[] = { 1 }, rates[] = { 0.25 };
    set_curve(1, times, rates);
    double half = senyolanda_exp_of(-0.125), one = senyolanda_exp_of(-0.25);
    IS(at(call_par_yield, 1), (1 - one) / (0.5 * (half + one)));
    IS(at(call_par_yield, 0.2), 0.25);
    IS(at(call_par_yield, -7), 0.25);
}

static void models(void) {
    static const double model[] = { 0.5, -0.25, 2, 4 };
    for (size_t i = 0; i < 4; i++) desk.model[i] = model[i];
    IS(NUMBER_OF(call_nelson_siegel_instantaneous_forward), 0.25);
    ACCEPTED(call_nelson_siegel_metrics);
    for (size_t i = 0; i < 3; i++) IS(answered_numbers(0)[i], model[i]);
    IS(at(call_nelson_siegel_yield, 0.99e-10), 0.25);
    IS(at(call_nelson_siegel_yield, -3), 0.25);
    IS(at(call_nelson_siegel_forward_rate, 0.99e-10), 0.25);
    double e = senyolanda_exp_of(-2), slope = (1 - e) / 2, curvature = slope - e;
    IS(at(call_nelson_siegel_yield, 8), 0.5 + -0.25 * slope + 2 * curvature);
    IS(at(call_nelson_siegel_forward_rate, 8), 0.5 + -0.25 * e + 2 * 2 * e);
}

/* A fit of points that a model gives finds the model; of one point, its rate. */
static void fits(void) {
    static const double model[] = { 0.05, -0.02, 0.01, 0.5 }, times[] = { 0, 0.25, 1, 2, 5 };
    double rates[5];
    for (size_t i = 0; i < 4; i++) desk.model[i] = model[i];
    for (size_t i = 0; i < 5; i++) rates[i] = at(call_nelson_siegel_yield, times[i]);
    set_curve(5, times, rates);
    ACCEPTED(call_nelson_siegel_fit);
    for (size_t i = 0; i < 4; i++) IS_NEAR(answered_numbers(0)[i], model[i], 1e-6);
    set_curve(1, times + 2, rates + 2);
    ACCEPTED(call_nelson_siegel_fit);
    IS(answered_numbers(0)[0], rates[2]);
    IS(answered_numbers(0)[1], 0);
    IS(answered_numbers(0)[2], 0);
    IS(answered_numbers(0)[3], 0.5);
}

int main(int arguments, char **words) {
    open_tests("test_curves", matrix, arguments, words);
    try_functions(functions);
    straight_lines();
    random_lines();
    splines();
    par_yields();
    models();
    fits();
    as_the_walk(call_linear_interpolate, call_linear_interpolate_each, SEGMENT_THAT_ENDS, along_yields);
    as_one_by_one(call_linear_interpolate_each, call_linear_interpolate);
    as_one_by_one(call_yield_curve_discount_factor_each, call_yield_curve_discount_factor);
    return close_checks();
}
