#include "curves.h"

#include "damaged.h"

#include <float.h>
#include <math.h>
#include <string.h>

/* Bad knots stand at the first index, in the middle and at the last; the desk's knots are half a year apart. */
const struct cause curve_causes[] = {
    CAUSE(4, WHOLE(rates_count, 4)),
    CAUSE(4, WHOLE(rates_count, 6)),
    CAUSE(4, WHOLE(times_count, 0), WHOLE(rates_count, 1)),
    CAUSE(4, WHOLE(times_count, 1), WHOLE(rates_count, 0)),
    CAUSE(4, WHOLE(times_count, 121), WHOLE(rates_count, 120)),
    CAUSE(4, WHOLE(times_count, 121), WHOLE(rates_count, 122)),
    CAUSE(5, WHOLE(times_count, 0), WHOLE(rates_count, 0)),
    CAUSE(5, WHOLE(times_count, 121), WHOLE(rates_count, 121)),
    TAKEN(WHOLE(times_count, 1), WHOLE(rates_count, 1)),
    TAKEN(WHOLE(times_count, 2), WHOLE(rates_count, 2)),
    TAKEN(WHOLE(times_count, 120), WHOLE(rates_count, 120)),
    CAUSE_AT(0, 6, NUMBER(times[0], -SMALLEST)),
    NOT_FINITE_AT(0, 6, times[0]),
    NOT_FINITE_AT(0, 6, rates[0]),
    NOT_FINITE_AT(2, 6, times[2]),
    NOT_FINITE_AT(2, 6, rates[2]),
    CAUSE_AT(2, 6, NUMBER(times[2], 1.0)),
    CAUSE_AT(2, 6, NUMBER(times[2], 0x1.fffffffffffffp-1)),
    CAUSE_AT(2, 6, NUMBER(times[2], -1.0)),
    CAUSE_AT(1, 6, NUMBER(times[0], 1.0)),
    CAUSE_AT(3, 6, NUMBER(times[2], 2.5)),
    NOT_FINITE_AT(4, 6, times[4]),
    NOT_FINITE_AT(4, 6, rates[4]),
    CAUSE_AT(4, 6, NUMBER(times[4], 2.0)),
    TAKEN(NUMBER(times[0], SMALLEST)),
    TAKEN(NUMBER(times[0], 0x1.fffffffffffffp-1)),
    TAKEN(NUMBER(times[2], 0x1.0000000000001p+0)),
    TAKEN(NUMBER(times[2], 0x1.fffffffffffffp+0)),
    TAKEN(NUMBER(times[4], 0x1.0000000000001p+1)),
    FINITE_TAKEN(rates[0]),
    FINITE_TAKEN(rates[4]),
    END_OF_CAUSES,
};

/* A curve that is read, not bootstrapped, may begin at 0 and end after 100 years. */
const struct cause open_curve_causes[] = {
    TAKEN(NUMBER(times[0], 0.0)),
    TAKEN(NUMBER(times[0], -0.0)),
    CAUSE_AT(1, 6, NUMBER(times[0], -0.0), NUMBER(times[1], 0.0)),
    TAKEN(NUMBER(times[4], 0x1.9000000000001p+6)),
    TAKEN(NUMBER(times[4], DBL_MAX)),
    END_OF_CAUSES,
};

const struct cause time_causes[] = {
    NOT_FINITE(7, t),
    TAKEN(NUMBER(t, -1.0)),
    TAKEN(NUMBER(t, -0.0)),
    TAKEN(NUMBER(t, 0.5)),
    TAKEN(NUMBER(t, 2.5)),
    FINITE_TAKEN(t),
    END_OF_CAUSES,
};

const struct cause second_time_causes[] = {
    NOT_FINITE(7, t2),
    FINITE_TAKEN(t2),
    END_OF_CAUSES,
};

const struct cause asked_causes[] = {
    NOT_FINITE_AT(0, 7, asked[0]),
    NOT_FINITE_AT(1, 7, asked[1]),
    NOT_FINITE_AT(2, 7, asked[2]),
    CAUSE_AT(19, 7, WHOLE(asked_count, 20), NUMBER(asked[19], NAN)),
    TAKEN(NUMBER(asked[3], NAN)),
    TAKEN(NUMBER(asked[0], -1.0)),
    TAKEN(NUMBER(asked[1], 0.5)),
    TAKEN(NUMBER(asked[2], 2.5)),
    FINITE_TAKEN(asked[0]),
    FINITE_TAKEN(asked[2]),
    TAKEN(WHOLE(asked_count, 0)),
    TAKEN(WHOLE(asked_count, 1)),
    TAKEN(WHOLE(asked_count, 20)),
    END_OF_CAUSES,
};

void set_curve(size_t count, const double *times, const double *rates) {
    memcpy(desk.times, times, count * sizeof *times);
    memcpy(desk.rates, rates, count * sizeof *rates);
    desk.times_count = desk.rates_count = count;
}

struct lent_curve lend_curve(void) {
    struct lent_numbers times = lend_numbers(desk.times, desk.times_count), rates = lend_numbers(desk.rates, desk.rates_count);
    struct lent_curve curve = { times.numbers, times.count, rates.numbers, rates.count };
    return curve;
}

senyolanda_result number_of_curve(curve_number *function) {
    struct lent_curve curve = lend_curve();
    double *answer = lend_number();
    return CALL(function(curve.times, curve.times_count, curve.rates, curve.rates_count, desk.t, answer));
}

senyolanda_result number_between(curve_number_between *function) {
    struct lent_curve curve = lend_curve();
    double *answer = lend_number();
    return CALL(function(curve.times, curve.times_count, curve.rates, curve.rates_count, desk.t, desk.t2, answer));
}

senyolanda_result numbers_of_curve(curve_numbers *function) {
    struct lent_curve curve = lend_curve();
    double *asked = lend_numbers_in_hand(desk.asked, desk.asked_count);
    return CALL(function(curve.times, curve.times_count, curve.rates, curve.rates_count, asked, desk.asked_count));
}

double at(call *called, double t) {
    desk.t = t;
    return NUMBER_OF(called);
}

double between(call *called, double t1, double t2) {
    desk.t2 = t2;
    return at(called, t1);
}

static double random_part(void) {
    return (1 + (double)random_below(1000)) / 1002;
}

struct segments set_random_segments(void) {
    struct segments s;
    s.t0 = 9 * random_part();
    s.t1 = s.t0 + 9 * random_part();
    s.t2 = s.t1 + 9 * random_part();
    s.rate0 = random_part();
    s.rate1 = random_part();
    s.rate2 = random_part();
    s.inside = s.t0 + (s.t1 - s.t0) * random_part();
    double times[] = { s.t0, s.t1, s.t2 }, rates[] = { s.rate0, s.rate1, s.rate2 };
    set_curve(3, times, rates);
    return s;
}

/* Inside the first segment, at a knot, before the first one, after the last one. */
static double random_time(const struct segments *s) {
    const double times[] = { s->inside, s->t0, s->t1, s->t2, s->t0 - random_part(), s->t2 + random_part(), -random_part(), 0 };
    return times[random_below(sizeof times / sizeof *times)];
}

void as_one_by_one(call *listed, call *alone) {
    for (size_t round = 0; round < 500; round++) {
        struct segments s = set_random_segments();
        double answers[ASKED];
        desk.asked_count = round % (ASKED + 1);
        for (size_t i = 0; i < desk.asked_count; i++) answers[i] = at(alone, desk.asked[i] = random_time(&s));
        ACCEPTED(listed);
        for (size_t i = 0; i < desk.asked_count; i++) IS(answered_numbers(0)[i], answers[i]);
    }
    tidy_desk();
}

/* Times that rise by any step, from 0 or above. */
static void set_random_curve(size_t count) {
    double times[KNOTS], rates[KNOTS], t = random_below(2) ? 0 : random_part();
    for (size_t i = 0; i < count; i++) {
        times[i] = t;
        rates[i] = random_part() - 0.5;
        t += random_below(4) ? 9 * random_part() : ldexp(random_part(), -40) + 2 * DBL_EPSILON * t;
    }
    set_curve(count, times, rates);
}

static double walked(size_t count, enum rule rule, along *formula, double t) {
    const double *times = desk.times, *rates = desk.rates;
    if (t <= times[0]) return rates[0];
    if (times[count - 1] <= t) return rates[count - 1];
    size_t i = 0;
    while (rule == SEGMENT_THAT_ENDS ? t > times[i + 1] : t >= times[i + 1]) i++;
    return formula(times[i], times[i + 1], rates[i], rates[i + 1], t);
}

/* A time at a knot, at a float beside it, or on the way to the next; before the first or after the last. */
static double time_by_knot(size_t count, size_t i) {
    double t = desk.times[i], next = i + 1 < count ? desk.times[i + 1] : t + 1;
    const double times[] = { t, nextafter(t, -1), nextafter(t, INFINITY), t + (next - t) * random_part(), t - 1, next };
    return times[random_below(sizeof times / sizeof *times)];
}

void as_the_walk(call *alone, call *listed, enum rule rule, along *formula) {
    for (size_t count = 1; count <= 120; count++) {
        set_random_curve(count);
        for (size_t i = 0; i < 3 * count; i++) {
            double t = time_by_knot(count, i % count);
            IS(at(alone, t), walked(count, rule, formula, t));
        }
        desk.asked_count = count % (ASKED + 1);
        for (size_t i = 0; i < desk.asked_count; i++) desk.asked[i] = time_by_knot(count, random_below(count));
        ACCEPTED(listed);
        for (size_t i = 0; i < desk.asked_count; i++) IS(answered_numbers(0)[i], walked(count, rule, formula, desk.asked[i]));
    }
    tidy_desk();
}
