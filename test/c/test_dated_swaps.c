/* Dated swaps: which are refused, in which order, and the six numbers of any other, to the bit, over this test's own periods. */
#include "calendar.h"
#include "curves.h"
#include "damaged.h"

#include <float.h>
#include <inttypes.h>
#include <math.h>
#include <stdio.h>

static const struct claim matrix[] = {
    /*                            1 2 3 4 5 6 7 8 9 10 11 12 13 14 15 16 */
    CLAIM(dated_fixed_leg_pv,    "1 . . 4 5 6 7 8 9 .. 11 .. .. .. 15 .."),
    CLAIM(dated_floating_leg_pv, "1 . . 4 5 6 7 8 9 .. 11 .. .. .. 15 .."),
    CLAIM(dated_swap_npv,        "1 . . 4 5 6 7 8 9 .. 11 .. .. .. 15 .."),
    CLAIM(dated_par_swap_rate,   "1 . . 4 5 6 7 8 9 .. 11 .. .. .. 15 .."),
    CLAIM(dated_swap_dv01,       "1 . . 4 5 6 7 8 9 .. 11 .. .. .. 15 .."),
    CLAIM(dated_swap_duration,   "1 . . 4 5 6 7 8 9 .. 11 .. .. .. 15 .."),
    CLAIM(value_dated_swap,      "1 . . 4 5 6 7 8 9 .. 11 .. .. .. 15 .."),
    END_OF_MATRIX,
};

/* ---- calls ---- */

typedef senyolanda_result swap_number(const uint8_t *, size_t, const double *, size_t, const double *, size_t, double *);

static senyolanda_result number_of_swap(swap_number *function) {
    struct lent_bytes swap = lend_dated_swap();
    struct lent_curve curve = lend_curve();
    double *answer = lend_number();
    return CALL(function(
        swap.bytes, swap.length, curve.times, curve.times_count, curve.rates, curve.rates_count, answer));
}

static senyolanda_result call_dated_fixed_leg_pv(void) { return number_of_swap(senyolanda_dated_fixed_leg_pv); }
static senyolanda_result call_dated_floating_leg_pv(void) { return number_of_swap(senyolanda_dated_floating_leg_pv); }
static senyolanda_result call_dated_par_swap_rate(void) { return number_of_swap(senyolanda_dated_par_swap_rate); }
static senyolanda_result call_dated_swap_duration(void) { return number_of_swap(senyolanda_dated_swap_duration); }

typedef senyolanda_result side_number(
    const uint8_t *, size_t, const double *, size_t, const double *, size_t, uint32_t, double *);

static senyolanda_result numbers_of_side(side_number *function, size_t count) {
    struct lent_bytes swap = lend_dated_swap();
    struct lent_curve curve = lend_curve();
    double *answer = lend_places(count);
    return CALL(function(swap.bytes, swap.length, curve.times, curve.times_count, curve.rates, curve.rates_count,
        desk.receive_fixed, answer));
}

static senyolanda_result call_dated_swap_npv(void) { return numbers_of_side(senyolanda_dated_swap_npv, 1); }
static senyolanda_result call_dated_swap_dv01(void) { return numbers_of_side(senyolanda_dated_swap_dv01, 1); }
static senyolanda_result call_value_dated_swap(void) { return numbers_of_side(senyolanda_value_dated_swap, 6); }

/* ---- causes: at rest from 31 January 2023 to 15 January 2025, twice a year, by 30/360 ---- */

/* 7 has no cause where the frequency or a date is bad. By month it takes more than a hundred years, each two months more than two
   hundred; longer periods never come to 1,201. */
#define TOO_MANY(...) CAUSE_UNLESS_EITHER(8, 15, 7, __VA_ARGS__)

static const struct cause swap_causes[] = {
    NO_RECORD(WHOLE(dated.kind, 0)),
    NO_RECORD(WHOLE(dated.kind, 6)),
    NO_RECORD(WHOLE(dated.kind, 4)),
    NO_RECORD(WHOLE(dated.kind, 4), WHOLE(dated.length, SENYOLANDA_SWAP_BYTES)),
    NO_RECORD(WHOLE(dated.length, SENYOLANDA_SWAP_BYTES)),
    NO_RECORD(WHOLE(dated.length, 0)),
    NO_RECORD(WHOLE(dated.length, SENYOLANDA_DATED_SWAP_BYTES - 1)),
    NO_RECORD(WHOLE(dated.length, SENYOLANDA_DATED_SWAP_BYTES + 1)),
    BAD_AMOUNT(dated.notional),
    TOO_MANY(WHOLE(dated.second.year, 2123), WHOLE(dated.second.month, 2), WHOLE(dated.frequency, 12)),
    TOO_MANY(WHOLE(dated.second.year, 2199), WHOLE(dated.frequency, 12)),
    TOO_MANY(WHOLE(dated.first.year, 1924), WHOLE(dated.frequency, 12)),
    TOO_MANY(WHOLE(dated.first.year, 1900), WHOLE(dated.second.year, 2101), WHOLE(dated.frequency, 6)),
    CAUSE(8, WHOLE(dated.frequency, 0)),
    CAUSE(8, WHOLE(dated.frequency, 5)),
    CAUSE(8, WHOLE(dated.frequency, 7)),
    CAUSE(8, WHOLE(dated.frequency, 8)),
    CAUSE(8, WHOLE(dated.frequency, 9)),
    CAUSE(8, WHOLE(dated.frequency, 10)),
    CAUSE(8, WHOLE(dated.frequency, 11)),
    CAUSE(8, WHOLE(dated.frequency, 13)),
    CAUSE(8, WHOLE(dated.frequency, 24)),
    CAUSE(8, WHOLE(dated.frequency, 256 + 1)),
    CAUSE(8, WHOLE(dated.frequency, 365)),
    CAUSE(8, WHOLE(dated.frequency, UINT32_MAX)),
    CAUSE(8, WHOLE(dated.first.year, 1900), WHOLE(dated.second.year, 2199), WHOLE(dated.frequency, 5)),
    CAUSE(8, WHOLE(dated.first.year, 1900), WHOLE(dated.second.year, 2199), WHOLE(dated.frequency, 24)),
    CAUSE(8, WHOLE(dated.first.year, 1900), WHOLE(dated.second.year, 2199), WHOLE(dated.frequency, 365)),
    NOT_FINITE(9, dated.rate),
    CAUSE(11, WHOLE(dated.day_count, 3)),
    CAUSE(11, WHOLE(dated.day_count, 255)),
    NO_DATE(dated.first),
    NO_DATE(dated.second),
    NOT_IN_ORDER(dated.first, dated.second),
    CAUSE(15, WHOLE(dated.first.year, 1900), WHOLE(dated.second.year, 2200), WHOLE(dated.frequency, 12)),
    CAUSE(15, WHOLE(dated.first.year, 1899), WHOLE(dated.second.year, 2199), WHOLE(dated.frequency, 12)),
    END_OF_CAUSES,
};

/* The tenor is not read, whatever it is. */
static const struct cause taken_causes[] = {
    AMOUNT_TAKEN(dated.notional),
    FINITE_TAKEN(dated.rate),
    TAKEN(NUMBER(dated.tenor, NAN)),
    TAKEN(NUMBER(dated.tenor, INFINITY)),
    TAKEN(NUMBER(dated.tenor, -INFINITY)),
    TAKEN(NUMBER(dated.tenor, 0.0)),
    TAKEN(NUMBER(dated.tenor, -1.0)),
    TAKEN(NUMBER(dated.tenor, DBL_MAX)),
    TAKEN(NUMBER(dated.tenor, 600.25)),
    TAKEN(WHOLE(dated.frequency, 1)),
    TAKEN(WHOLE(dated.frequency, 3)),
    TAKEN(WHOLE(dated.frequency, 4)),
    TAKEN(WHOLE(dated.frequency, 6)),
    TAKEN(WHOLE(dated.frequency, 12)),
    TAKEN(WHOLE(dated.day_count, 0)),
    TAKEN(WHOLE(dated.day_count, 1)),
    TAKEN(WHOLE(dated.second.year, 2123), WHOLE(dated.second.day, 31), WHOLE(dated.frequency, 12)),
    TAKEN(WHOLE(dated.first.year, 1925), WHOLE(dated.frequency, 12)),
    TAKEN(WHOLE(dated.first.year, 1900), WHOLE(dated.second.year, 2100), WHOLE(dated.frequency, 6)),
    TAKEN(WHOLE(dated.first.year, 1900), WHOLE(dated.second.year, 2199), WHOLE(dated.frequency, 4)),
    TAKEN(SET_DATE(dated.second, 2199, 12, 31)),
    SPAN_TAKEN(dated.first, dated.second),
    TAKEN(WHOLE(receive_fixed, 0)),
    TAKEN(WHOLE(receive_fixed, UINT32_MAX)),
    END_OF_CAUSES,
};

/* ---- this test's own periods ---- */

enum { MOST_PERIODS = 3600 };

/* Where each period ends, the first date before them all. */
struct periods {
    struct date bounds[MOST_PERIODS + 1];
    size_t count;
};

static struct date month_of_step(struct date date, uint32_t step) {
    struct date next = { date.year + (date.month - 1 + step) / 12, (date.month - 1 + step) % 12 + 1, date.day };
    return next;
}

/* From month to month with the first date's day, each cut by itself, until the second date is reached or passed. */
static const struct periods *periods_of(const struct dated_parts *swap) {
    static struct periods periods;
    struct date uncut = swap->first;
    periods.count = 0;
    periods.bounds[0] = swap->first;
    while (is_later(swap->second, periods.bounds[periods.count])) {
        uncut = month_of_step(uncut, 12 / swap->frequency);
        struct date end = uncut.year <= LAST_YEAR ? cut_to_month(uncut) : uncut;
        periods.bounds[++periods.count] = is_later(swap->second, end) ? end : swap->second;
    }
    return &periods;
}

static int is_bad_frequency(uint32_t frequency) {
    return frequency == 0 || frequency > 12 || 12 % frequency != 0;
}

/* ---- what a record deserves ---- */

static senyolanda_result swap_deserved(const struct record *record) {
    if (record->length != 38 || record->bytes[0] != 5) return refusal(11, 0);
    struct dated_parts swap = { 5, number_in(record->bytes + 1), number_in(record->bytes + 9), number_in(record->bytes + 17),
        count_in(record->bytes + 25), date_in(record->bytes + 29), date_in(record->bytes + 33), record->bytes[37], 38 };
    int bad_dates = !is_date(swap.first) || !is_date(swap.second) || !is_later(swap.second, swap.first);
    if (is_bad_amount(swap.notional)) return refusal(1, 0);
    if (!is_bad_frequency(swap.frequency) && !bad_dates && periods_of(&swap)->count > 1200) return refusal(7, 0);
    if (is_bad_frequency(swap.frequency)) return refusal(8, 0);
    if (!isfinite(swap.rate)) return refusal(9, 0);
    if (swap.day_count > 2) return refusal(11, 0);
    return bad_dates ? refusal(15, 0) : 0;
}

/* ---- what each function can meet ---- */

#define OF_SWAP { swap_causes, taken_causes, curve_causes, open_curve_causes }, swap_deserved

static const struct function functions[] = {
    { FUNCTION(dated_fixed_leg_pv), OF_SWAP },
    { FUNCTION(dated_floating_leg_pv), OF_SWAP },
    { FUNCTION(dated_swap_npv), OF_SWAP },
    { FUNCTION(dated_par_swap_rate), OF_SWAP },
    { FUNCTION(dated_swap_dv01), OF_SWAP },
    { FUNCTION(dated_swap_duration), OF_SWAP },
    { FUNCTION(value_dated_swap), OF_SWAP },
    END_OF_FUNCTIONS,
};

/* ---- the six numbers, by this test's own hand ---- */

enum { NPV, FIXED, FLOATING, PAR, DV01, DURATION, SIX };

static double curve_number_at(curve_number *function, const double *rates, double t) {
    double number = NAN;
    CHECK(function(desk.times, desk.times_count, rates, desk.rates_count, t, &number) == 0);
    return number;
}

static double factor_at(const double *rates, double t) {
    return curve_number_at(senyolanda_discount_curve_factor, rates, t);
}

/* The sums over the periods, each from the first period to the last. */
struct sums {
    double fixed, floating, annuity, weighted;
};

static struct sums sums_of(const struct dated_parts *swap, const double *rates) {
    const struct periods *periods = periods_of(swap);
    struct sums sums = { 0, 0, 0, 0 };
    double earlier = 1;
    for (size_t i = 1; i <= periods->count; i++) {
        double time = actual_days_between(swap->first, periods->bounds[i]) / 365.0, factor = factor_at(rates, time);
        double fraction = fraction_between(swap->day_count, periods->bounds[i - 1], periods->bounds[i]);
        double payment = swap->notional * swap->rate * fraction;
        if (fraction != 0) {
            sums.fixed += payment * factor;
            sums.floating += swap->notional * ((earlier / factor - 1) / fraction) * fraction * factor;
            sums.annuity += factor * fraction;
            sums.weighted += time * payment * factor;
        }
        earlier = factor;
    }
    return sums;
}

static double worth_to_side(double fixed, double floating) {
    return desk.receive_fixed != 0 ? fixed - floating : floating - fixed;
}

static double npv_over(const struct dated_parts *swap, const double *rates) {
    struct sums sums = sums_of(swap, rates);
    double end = actual_days_between(swap->first, swap->second) / 365.0, notional = swap->notional * factor_at(rates, end);
    return worth_to_side(sums.fixed + notional, sums.floating + notional);
}

static void work_out(const struct dated_parts *swap, double six[SIX]) {
    struct sums sums = sums_of(swap, desk.rates);
    double risen[KNOTS], end = actual_days_between(swap->first, swap->second) / 365.0, last = factor_at(desk.rates, end);
    for (size_t i = 0; i < desk.rates_count; i++) risen[i] = desk.rates[i] + 0.0001;
    six[FIXED] = sums.fixed + swap->notional * last;
    six[FLOATING] = sums.floating + swap->notional * last;
    six[NPV] = worth_to_side(six[FIXED], six[FLOATING]);
    six[PAR] = (1 - last) / sums.annuity;
    six[DV01] = npv_over(swap, risen) - six[NPV];
    double zero = curve_number_at(senyolanda_discount_curve_rate, desk.rates, end);
    double weighted = sums.weighted + end * swap->notional * last;
    six[DURATION] = six[FIXED] == 0 ? 0 : weighted / six[FIXED] / (1 + zero / swap->frequency);
}

/* The desk's swap has the worked-out numbers, one by one and together. */
static void is_worked_out(void) {
    static call *const one_by_one[SIX] = { call_dated_swap_npv, call_dated_fixed_leg_pv, call_dated_floating_leg_pv,
        call_dated_par_swap_rate, call_dated_swap_dv01, call_dated_swap_duration };
    double six[SIX];
    work_out(&desk.dated, six);
    for (size_t i = 0; i < SIX; i++) IS(NUMBER_OF(one_by_one[i]), six[i]);
    ACCEPTED(call_value_dated_swap);
    for (size_t i = 0; i < SIX; i++) IS(answered_numbers(0)[i], six[i]);
}

/* ---- figures ---- */

static void set_swap(double notional, double rate, uint32_t frequency, uint8_t day_count) {
    struct dated_parts swap = { 5, notional, rate, NAN, frequency, desk.dated.first, desk.dated.second, day_count,
        SENYOLANDA_DATED_SWAP_BYTES };
    desk.dated = swap;
}

static void set_span(uint32_t y1, uint32_t m1, uint32_t d1, uint32_t y2, uint32_t m2, uint32_t d2) {
    struct date first = { y1, m1, d1 }, second = { y2, m2, d2 };
    desk.dated.first = first;
    desk.dated.second = second;
}

static void set_flat_curve(double rate) {
    static const double times[] = { 1 };
    set_curve(1, times, &rate);
}

/* On a curve of 0 nothing is discounted: two payments of 50 and the 100 themselves. */
static void undiscounted_swap(void) {
    set_flat_curve(0);
    set_span(2021, 3, 15, 2023, 3, 15);
    set_swap(100, 0.5, 1, SENYOLANDA_ACTUAL_365);
    IS(NUMBER_OF(call_dated_fixed_leg_pv), 200);
    IS(NUMBER_OF(call_dated_floating_leg_pv), 100);
    IS(NUMBER_OF(call_dated_par_swap_rate), 0);
    IS(NUMBER_OF(call_dated_swap_duration), 1.75);
    desk.receive_fixed = 1;
    IS(NUMBER_OF(call_dated_swap_npv), 100);
    desk.receive_fixed = UINT32_MAX;
    IS(NUMBER_OF(call_dated_swap_npv), 100);
    desk.receive_fixed = 0;
    IS(NUMBER_OF(call_dated_swap_npv), -100);
    set_swap(360, 0.5, 1, SENYOLANDA_ACTUAL_360);
    IS(NUMBER_OF(call_dated_fixed_leg_pv), 360 * 0.5 * (365.0 / 360) + 360 * 0.5 * (365.0 / 360) + 360);
    set_swap(360, 0.5, 2, SENYOLANDA_THIRTY_360);
    IS(NUMBER_OF(call_dated_fixed_leg_pv), 720);
}

/* What the periods of a swap count, of a notional of 360 at a rate of 1: the worth, undiscounted, is 360 and the days. */
static void is_days(double days, uint32_t frequency, uint8_t day_count) {
    set_swap(360, 1, frequency, day_count);
    IS_NEAR(NUMBER_OF(call_dated_fixed_leg_pv), 360 + days, 1e-9);
}

static void counted_days(void) {
    set_flat_curve(0);
    set_span(2023, 1, 31, 2023, 4, 30);
    is_days(28 + 33 + 30, 12, SENYOLANDA_THIRTY_360);
    is_days(89, 12, SENYOLANDA_ACTUAL_360);
    is_days(90, 4, SENYOLANDA_THIRTY_360);
    set_span(2024, 2, 29, 2025, 2, 28);
    is_days(359, 1, SENYOLANDA_THIRTY_360);
    is_days(360 - 1, 2, SENYOLANDA_THIRTY_360);
    set_span(2023, 8, 31, 2024, 2, 29);
    is_days(30 + 30 + 30 + 30 + 30 + 29, 12, SENYOLANDA_THIRTY_360);
    is_days(179, 2, SENYOLANDA_THIRTY_360);
    set_span(2023, 11, 29, 2024, 3, 31);
    is_days(30 + 30 + 30 + 30 + 2, 12, SENYOLANDA_THIRTY_360);
    set_span(2022, 11, 30, 2023, 3, 31);
    is_days(30 + 30 + 28 + 32 + 0, 12, SENYOLANDA_THIRTY_360);
}

/* One payment, discounted: the legs and the par rate in full. */
static void discounted_swap(void) {
    set_flat_curve(0.25);
    set_span(2023, 3, 15, 2024, 3, 14);
    set_swap(100, 0.5, 1, SENYOLANDA_ACTUAL_365);
    double factor = senyolanda_exp_of(-0.25);
    IS(NUMBER_OF(call_dated_fixed_leg_pv), 100 * 0.5 * 1 * factor + 100 * factor);
    IS(NUMBER_OF(call_dated_floating_leg_pv), 100 * (1 / factor - 1) * factor + 100 * factor);
    IS(NUMBER_OF(call_dated_par_swap_rate), (1 - factor) / factor);
    IS(NUMBER_OF(call_dated_swap_duration), 1 / 1.25);
}

/* From a 30th to the 31st nothing is counted: no payment on either leg, and no par rate; actual days count one. */
static void empty_period(void) {
    double factor = senyolanda_exp_of(-0.25 * (1 / 365.0));
    set_flat_curve(0.25);
    set_span(2023, 1, 30, 2023, 1, 31);
    set_swap(100, 0.5, 1, SENYOLANDA_THIRTY_360);
    IS(NUMBER_OF(call_dated_fixed_leg_pv), 100 * factor);
    IS(NUMBER_OF(call_dated_floating_leg_pv), 100 * factor);
    IS(NUMBER_OF(call_dated_par_swap_rate), INFINITY);
    IS(NUMBER_OF(call_dated_swap_npv), 0);
    IS(NUMBER_OF(call_dated_swap_dv01), 0);
    IS(NUMBER_OF(call_dated_swap_duration), 1 / 365.0 * 100 * factor / (100 * factor) / 1.25);
    is_worked_out();
    set_flat_curve(0);
    IS(NUMBER_OF(call_dated_par_swap_rate), NAN);
    set_swap(100, 0.5, 1, SENYOLANDA_ACTUAL_360);
    IS(NUMBER_OF(call_dated_fixed_leg_pv), 100 * 0.5 * (1 / 360.0) + 100);
    is_worked_out();
    set_swap(0, 0.5, 1, SENYOLANDA_THIRTY_360);
    IS(NUMBER_OF(call_dated_swap_duration), 0);
}

/* The numbers of one that is empty at its end, whatever its rate: not even an infinite product gets in. */
static void empty_last_periods(void) {
    static const struct span spans[] = {
        { { 2022, 11, 30 }, { 2023, 1, 31 } }, { { 2020, 1, 30 }, { 2023, 1, 31 } }, { { 1900, 3, 30 }, { 1999, 10, 31 } },
        { { 2024, 4, 30 }, { 2024, 5, 31 } }, { { 2199, 11, 30 }, { 2199, 12, 31 } }, { { 2199, 12, 30 }, { 2199, 12, 31 } }
    };
    static const double rates[] = { 0.05, 0, -0.5, DBL_MAX, -DBL_MAX };
    for (size_t i = 0; i < sizeof spans / sizeof *spans; i++)
        for (size_t k = 0; k < sizeof rates / sizeof *rates; k++)
            for (uint32_t frequency = 1; frequency <= 12; frequency++) {
                if (is_bad_frequency(frequency)) continue;
                tidy_desk();
                desk.dated.first = spans[i].first;
                desk.dated.second = spans[i].second;
                set_swap(1000, rates[k], frequency, SENYOLANDA_THIRTY_360);
                is_worked_out();
            }
    tidy_desk();
}

/* A hundred years by month, to the day, and a day more; the frequencies that end first. */
static void most_periods(void) {
    tidy_desk();
    set_swap(100, 0.05, 12, SENYOLANDA_ACTUAL_360);
    set_span(1950, 1, 31, 2050, 1, 31);
    CHECK(periods_of(&desk.dated)->count == 1200);
    is_worked_out();
    set_span(1950, 1, 31, 2050, 2, 1);
    REFUSED(call_value_dated_swap, 7, 0);
    desk.dated.frequency = 5;
    REFUSED(call_value_dated_swap, 8, 0);
    desk.dated.frequency = 12;
    desk.dated.first.day = 32;
    REFUSED(call_value_dated_swap, 15, 0);
    set_span(1950, 2, 28, 2050, 2, 28);
    is_worked_out();
    set_span(1948, 2, 29, 2048, 2, 29);
    is_worked_out();
    set_span(2000, 2, 29, 2100, 2, 28);
    CHECK(periods_of(&desk.dated)->count == 1200);
    is_worked_out();
    set_span(2000, 2, 29, 2100, 3, 1);
    REFUSED(call_value_dated_swap, 7, 0);
    set_span(2099, 12, 31, 2199, 12, 31);
    is_worked_out();
    set_span(2099, 12, 30, 2199, 12, 31);
    REFUSED(call_value_dated_swap, 7, 0);
    set_span(1999, 12, 31, 2199, 12, 31);
    desk.dated.frequency = 6;
    is_worked_out();
    desk.dated.first.day = 30;
    REFUSED(call_value_dated_swap, 7, 0);
    set_span(1900, 1, 1, 2199, 12, 31);
    for (desk.dated.frequency = 1; desk.dated.frequency <= 4; desk.dated.frequency++) is_worked_out();
}

/* Too many periods, were the dates dates or the frequency one: what is given is the lowest of the other causes. */
static void several_causes(void) {
    tidy_desk();
    set_swap(100, 0.05, 12, 3);
    set_span(1950, 1, 31, 2150, 1, 31);
    REFUSED(call_value_dated_swap, 7, 0);
    desk.dated.first.day = 32;
    REFUSED(call_value_dated_swap, 11, 0);
    desk.dated.rate = NAN;
    REFUSED(call_value_dated_swap, 9, 0);
    desk.dated.frequency = 24;
    REFUSED(call_value_dated_swap, 8, 0);
    desk.dated.first.day = 31;
    REFUSED(call_value_dated_swap, 8, 0);
    desk.rates[3] = NAN;
    REFUSED(call_value_dated_swap, 6, 3);
    desk.dated.notional = -1;
    REFUSED(call_value_dated_swap, 1, 0);
    desk.dated.kind = 4;
    REFUSED(call_value_dated_swap, 11, 0);
    tidy_desk();
    set_swap(100, 0.05, 12, 2);
    set_span(2150, 1, 31, 1950, 1, 31);
    REFUSED(call_value_dated_swap, 15, 0);
    desk.dated.day_count = 3;
    REFUSED(call_value_dated_swap, 11, 0);
    tidy_desk();
}

/* A period that would end after 2199 ends at the second date. */
static void last_years(void) {
    tidy_desk();
    for (uint32_t day = 1; day <= 31; day++)
        for (uint32_t frequency = 1; frequency <= 12; frequency++) {
            if (is_bad_frequency(frequency)) continue;
            set_swap(100, 0.05, frequency, (uint8_t)(day % 3));
            set_span(2198, 12, day, 2199, 12, 31);
            is_worked_out();
            set_span(2199, 10, day, 2199, 12, 30);
            is_worked_out();
        }
}

/* ---- any swap ---- */

static void describe_swap(void) {
    const struct dated_parts *swap = &desk.dated;
    fprintf(stderr, ": %.17g at %.17g, %" PRIu32 " times a year, day count %d, from %" PRIu32 "-%" PRIu32 "-%" PRIu32
        " to %" PRIu32 "-%" PRIu32 "-%" PRIu32, swap->notional, swap->rate, swap->frequency, swap->day_count,
        swap->first.year, swap->first.month, swap->first.day, swap->second.year, swap->second.month, swap->second.day);
}

/* A span of few years, of many, or up to 2199; the second date is often that of a whole number of periods, or beside it. */
static void set_random_span(uint32_t step) {
    struct span span = random_span();
    if (random_below(2)) span.second = months_on(span.first, step * (1 + random_below(8)));
    if (random_below(4) == 0 && span.second.year <= LAST_YEAR) span.second = next_day(span.second);
    if (!is_date(span.second)) span.second = (struct date){ LAST_YEAR, 12, 31 };
    desk.dated.first = span.first;
    desk.dated.second = span.second;
}

static void set_random_swap(void) {
    static const uint32_t frequencies[] = { 1, 2, 3, 4, 6, 12 };
    static const double tenors[] = { NAN, INFINITY, -INFINITY, 0, -7, 2, DBL_MAX, 1e-300 };
    uint32_t frequency = frequencies[random_below(6)];
    do set_random_span(12 / frequency);
    while (!is_later(desk.dated.second, desk.dated.first));
    set_swap((double)random_below(2000000) / 16, (double)random_below(4000) / 10000 - 0.1, frequency, (uint8_t)random_below(3));
    desk.dated.tenor = tenors[random_below(8)];
    if (random_below(16) == 0) desk.dated.rate = 0;
    if (random_below(16) == 0) desk.dated.notional = 0;
    desk.receive_fixed = random_below(2);
}

/* Curves at rest, flat or of three knots; swaps of too many periods are 7. */
static void random_swaps(void) {
    trying(describe_swap);
    for (int i = 0; i < 6000; i++) {
        tidy_desk();
        if (i % 3 == 1) set_flat_curve((double)random_below(3000) / 10000 - 0.05);
        if (i % 3 == 2) set_random_segments();
        set_random_swap();
        if (periods_of(&desk.dated)->count > 1200) REFUSED(call_value_dated_swap, 7, 0);
        else is_worked_out();
    }
    trying(NULL);
    tidy_desk();
}

/* Any tenor gives the same bits. */
static void unread_tenors(void) {
    double six[SIX];
    tidy_desk();
    ACCEPTED(call_value_dated_swap);
    for (size_t i = 0; i < SIX; i++) six[i] = answered_numbers(0)[i];
    for (int round = 0; round < 1000; round++) {
        desk.dated.tenor = random_number();
        ACCEPTED(call_value_dated_swap);
        CHECK(same_numbers(answered_numbers(0), six, SIX));
    }
    tidy_desk();
}

/* Numbers of any size: what overflows does so as the loop does. */
static void extreme_swaps(void) {
    trying(describe_swap);
    for (int i = 0; i < 3000; i++) {
        tidy_desk();
        set_random_swap();
        if (periods_of(&desk.dated)->count > 100) continue;
        double notional = random_number(), rate = random_number(), zero = random_number();
        desk.dated.notional = is_bad_amount(notional) ? DBL_MAX : notional;
        desk.dated.rate = isfinite(rate) ? rate : -DBL_MAX;
        set_flat_curve(isfinite(zero) ? zero : DBL_MAX);
        is_worked_out();
    }
    trying(NULL);
    tidy_desk();
}

int main(int arguments, char **words) {
    open_tests("test_dated_swaps", matrix, arguments, words);
    try_functions(functions);
    undiscounted_swap();
    counted_days();
    discounted_swap();
    empty_period();
    empty_last_periods();
    most_periods();
    several_causes();
    last_years();
    random_swaps();
    unread_tenors();
    extreme_swaps();
    try_records(functions, damaged_record, 200000);
    return close_checks();
}
