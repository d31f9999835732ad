/* Bonds: prices, yields, durations, convexity. */
#include "damaged.h"

#include <float.h>
#include <math.h>

static const struct claim matrix[] = {
    /*                                      1 2 3 4 5 6 7 8 9 10 11 12 13 14 15 16 */
    CLAIM(bond_price,                      "1 . . . . . 7 . 9 .. 11 .. .. .. .. .."),
    CLAIM(bond_dv01,                       "1 . . . . . 7 . 9 .. 11 .. .. .. .. .."),
    CLAIM(bond_current_yield,              "1 . . . . . 7 . 9 .. 11 .. .. .. .. .."),
    CLAIM(bond_yield_to_maturity,          "1 . . . . . 7 . 9 .. 11 12 .. .. .. .."),
    CLAIM(bond_macaulay_duration,          "1 . . . . . 7 . 9 .. 11 .. .. .. .. .."),
    CLAIM(bond_modified_duration,          "1 . . . . . 7 . 9 .. 11 .. .. .. .. .."),
    CLAIM(bond_convexity,                  "1 . . . . . 7 . 9 .. 11 .. .. .. .. .."),
    CLAIM(bond_price_change,               "1 . . . . . 7 . 9 .. 11 .. .. .. .. .."),
    CLAIM(bond_macaulay_duration_at_price, "1 . . . . . 7 . 9 .. 11 12 .. .. .. .."),
    CLAIM(bond_modified_duration_at_price, "1 . . . . . 7 . 9 .. 11 12 .. .. .. .."),
    CLAIM(bond_convexity_at_price,         "1 . . . . . 7 . 9 .. 11 12 .. .. .. .."),
    CLAIM(zero_coupon_bond_price,          ". . . . . . 7 . 9 .. .. .. .. .. .. .."),
    CLAIM(periods_per_year,                ". . . . . . . . . .. 11 .. .. .. .. .."),
    END_OF_MATRIX,
};

/* ---- calls ---- */

typedef senyolanda_result bond_number(const uint8_t *, size_t, double, double *);

static senyolanda_result number_of_bond(bond_number *function, double asked) {
    struct lent_bytes bond = lend_bond();
    double *answer = lend_number();
    return CALL(function(bond.bytes, bond.length, asked, answer));
}

static senyolanda_result call_bond_price(void) { return number_of_bond(senyolanda_bond_price, desk.yield); }
static senyolanda_result call_bond_dv01(void) { return number_of_bond(senyolanda_bond_dv01, desk.yield); }
static senyolanda_result call_bond_current_yield(void) { return number_of_bond(senyolanda_bond_current_yield, desk.market); }
static senyolanda_result call_bond_yield_to_maturity(void) {
    return number_of_bond(senyolanda_bond_yield_to_maturity, desk.market);
}

static senyolanda_result call_bond_macaulay_duration(void) {
    return number_of_bond(senyolanda_bond_macaulay_duration, desk.yield);
}

static senyolanda_result call_bond_modified_duration(void) {
    return number_of_bond(senyolanda_bond_modified_duration, desk.yield);
}

static senyolanda_result call_bond_convexity(void) { return number_of_bond(senyolanda_bond_convexity, desk.yield); }

static senyolanda_result call_bond_price_change(void) {
    struct lent_bytes bond = lend_bond();
    double *change = lend_number();
    return CALL(senyolanda_bond_price_change(bond.bytes, bond.length, desk.yield, desk.delta, change));
}

static senyolanda_result call_bond_macaulay_duration_at_price(void) {
    return number_of_bond(senyolanda_bond_macaulay_duration_at_price, desk.market);
}

static senyolanda_result call_bond_modified_duration_at_price(void) {
    return number_of_bond(senyolanda_bond_modified_duration_at_price, desk.market);
}

static senyolanda_result call_bond_convexity_at_price(void) {
    return number_of_bond(senyolanda_bond_convexity_at_price, desk.market);
}

static senyolanda_result call_zero_coupon_bond_price(void) {
    double *price = lend_number();
    return CALL(senyolanda_zero_coupon_bond_price(desk.yield, desk.bond.maturity, price));
}

static senyolanda_result call_periods_per_year(void) {
    uint32_t *periods = lend_count();
    return CALL(senyolanda_periods_per_year(desk.frequency, periods));
}

/* ---- causes: at rest an annual bond of 100 that pays 50 a year for two years, at 100 ---- */

/* How many periods there are only a known frequency says; with another, 7 is for a maturity that is not finite alone. */
static const struct cause bond_causes[] = {
    NO_RECORD(WHOLE(bond.kind, 0)),
    NO_RECORD(WHOLE(bond.kind, 1), WHOLE(bond.length, SENYOLANDA_LOAN_BYTES)),
    NO_RECORD(WHOLE(bond.kind, 4), WHOLE(bond.length, SENYOLANDA_SWAP_BYTES)),
    NO_RECORD(WHOLE(bond.length, 0)),
    NO_RECORD(WHOLE(bond.length, SENYOLANDA_BOND_BYTES - 1)),
    NO_RECORD(WHOLE(bond.length, SENYOLANDA_BOND_BYTES + 1)),
    BAD_AMOUNT(bond.face),
    NOT_FINITE(7, bond.maturity),
    CAUSE_UNLESS(11, 7, NUMBER(bond.maturity, 1200.5)),
    CAUSE_UNLESS(11, 7, NUMBER(bond.maturity, DBL_MAX)),
    CAUSE(7, NUMBER(bond.maturity, 600.25), WHOLE(bond.frequency, 1)),
    CAUSE(7, NUMBER(bond.maturity, 300.125), WHOLE(bond.frequency, 2)),
    CAUSE(7, NUMBER(bond.maturity, 100.05), WHOLE(bond.frequency, 3)),
    CAUSE(7, NUMBER(bond.maturity, DBL_MAX), WHOLE(bond.frequency, 3)),
    NOT_FINITE(9, bond.coupon),
    CAUSE(11, WHOLE(bond.frequency, 4)),
    CAUSE(11, WHOLE(bond.frequency, 255)),
    END_OF_CAUSES,
};

static const struct cause taken_bonds[] = {
    AMOUNT_TAKEN(bond.face),
    FINITE_TAKEN(bond.coupon),
    TAKEN(NUMBER(delta, NAN)),
    END_OF_CAUSES,
};

static const struct cause taken_maturities[] = {
    TAKEN(NUMBER(bond.maturity, 1200.49999)),
    TAKEN(NUMBER(bond.maturity, 0x1.2c1ffffffffffp+10)),
    TAKEN(NUMBER(bond.maturity, 0x1.2c1ffffffffffp+9), WHOLE(bond.frequency, 1)),
    TAKEN(NUMBER(bond.maturity, 0x1.2c1ffffffffffp+8), WHOLE(bond.frequency, 2)),
    TAKEN(NUMBER(bond.maturity, 100.04), WHOLE(bond.frequency, 3)),
    TAKEN(NUMBER(bond.maturity, -0.0)),
    TAKEN(NUMBER(bond.maturity, -DBL_MAX)),
    TAKEN(WHOLE(bond.frequency, 0)),
    TAKEN(WHOLE(bond.frequency, 3)),
    END_OF_CAUSES,
};

static const struct cause yield_causes[] = {
    NOT_FINITE(9, yield),
    FINITE_TAKEN(yield),
    TAKEN(NUMBER(yield, 0.0)),
    TAKEN(NUMBER(yield, -1.0)),
    END_OF_CAUSES,
};

static const struct cause market_causes[] = {
    NOT_FINITE(9, market),
    FINITE_TAKEN(market),
    TAKEN(NUMBER(market, 0.0)),
    END_OF_CAUSES,
};

/* The bond is worth 200 at a yield of 0 and little more than 1 at a yield of 50. */
static const struct cause search_causes[] = {
    NOT_FINITE(9, market),
    CAUSE(12, NUMBER(market, 200.01)),
    CAUSE(12, NUMBER(market, DBL_MAX)),
    CAUSE(12, NUMBER(market, 1.0)),
    CAUSE(12, NUMBER(market, 0.0)),
    CAUSE(12, NUMBER(market, -DBL_MAX)),
    TAKEN(NUMBER(market, 199.99)),
    TAKEN(NUMBER(market, 1.1)),
    END_OF_CAUSES,
};

static const struct cause zero_coupon_causes[] = {
    NOT_FINITE(7, bond.maturity),
    FINITE_TAKEN(bond.maturity),
    TAKEN(NUMBER(bond.maturity, 1200.5)),
    END_OF_CAUSES,
};

static const struct cause frequency_causes[] = {
    CODES(frequency, 3),
    TAKEN(WHOLE(frequency, 1)),
    TAKEN(WHOLE(frequency, 2)),
    END_OF_CAUSES,
};

/* ---- what a record deserves ---- */

static double times_a_year(uint8_t frequency) {
    static const double times[] = { 1, 2, 4, 12 };
    return times[frequency];
}

static senyolanda_result bond_deserved(const struct record *record) {
    if (record->length != 26 || record->bytes[0] != 2) return refusal(11, 0);
    double face = number_in(record->bytes + 1), coupon = number_in(record->bytes + 9), maturity = number_in(record->bytes + 17);
    uint8_t frequency = record->bytes[25];
    if (is_bad_amount(face)) return refusal(1, 0);
    if (!isfinite(maturity)) return refusal(7, 0);
    if (frequency < 4 && maturity * times_a_year(frequency) >= 1200.5) return refusal(7, 0);
    if (!isfinite(coupon)) return refusal(9, 0);
    return frequency < 4 ? 0 : refusal(11, 0);
}

/* ---- what each function can meet ---- */

static const struct function functions[] = {
    { FUNCTION(bond_price), { bond_causes, taken_maturities, taken_bonds, yield_causes }, bond_deserved },
    { FUNCTION(bond_dv01), { bond_causes, taken_maturities, taken_bonds, yield_causes }, bond_deserved },
    { FUNCTION(bond_current_yield), { bond_causes, taken_maturities, taken_bonds, market_causes }, bond_deserved },
    { FUNCTION(bond_yield_to_maturity), { bond_causes, taken_maturities, search_causes }, bond_deserved },
    { FUNCTION(bond_macaulay_duration), { bond_causes, taken_maturities, taken_bonds, yield_causes }, bond_deserved },
    { FUNCTION(bond_modified_duration), { bond_causes, taken_maturities, taken_bonds, yield_causes }, bond_deserved },
    { FUNCTION(bond_convexity), { bond_causes, taken_maturities, taken_bonds, yield_causes }, bond_deserved },
    { FUNCTION(bond_price_change), { bond_causes, taken_maturities, taken_bonds, yield_causes }, bond_deserved },
    { FUNCTION(bond_macaulay_duration_at_price), { bond_causes, taken_maturities, search_causes }, bond_deserved },
    { FUNCTION(bond_modified_duration_at_price), { bond_causes, taken_maturities, search_causes }, bond_deserved },
    { FUNCTION(bond_convexity_at_price), { bond_causes, taken_maturities, search_causes }, bond_deserved },
    { FUNCTION(zero_coupon_bond_price), { zero_coupon_causes, yield_causes }, NULL },
    { FUNCTION(periods_per_year), { frequency_causes }, NULL },
    END_OF_FUNCTIONS,
};

/* ---- figures ---- */

static void set_bond(double face, double coupon, double maturity, uint8_t frequency) {
    struct bond_parts bond = { 2, face, coupon, maturity, frequency, SENYOLANDA_BOND_BYTES };
    desk.bond = bond;
}

static double price_at(double yield) {
    desk.yield = yield;
    return NUMBER_OF(call_bond_price);
}

static void document_01(void) {
    set_bond(100, 0.5, 2, SENYOLANDA_ANNUAL);
    IS(price_at(1), 62.5);
    IS(price_at(0), 200);
    set_bond(100, 0.5, 0, SENYOLANDA_ANNUAL);
    IS(price_at(0.5), 100);
}

/* At a yield of 0 the price is 100 and 50 for each period. */
static void are_periods(double maturity, double periods) {
    set_bond(100, 0.5, maturity, SENYOLANDA_ANNUAL);
    IS(price_at(0), 100 + 50 * periods);
}

static void periods(void) {
    are_periods(2.5, 3);
    are_periods(0x1.3ffffffffffffp+1, 2);
    are_periods(0.49999999999999994, 0);
    are_periods(0.5, 1);
    are_periods(-3, 0);
    are_periods(0x1.2c1ffffffffffp+10, 1200);
}

static void is_frequency(uint32_t frequency, uint32_t periods) {
    desk.frequency = frequency;
    CHECK(COUNT_OF(call_periods_per_year) == periods);
}

static void frequencies(void) {
    is_frequency(SENYOLANDA_ANNUAL, 1);
    is_frequency(SENYOLANDA_SEMI_ANNUAL, 2);
    is_frequency(SENYOLANDA_QUARTERLY, 4);
    is_frequency(SENYOLANDA_MONTHLY, 12);
    set_bond(100, 1, 1, SENYOLANDA_SEMI_ANNUAL);
    IS(price_at(2), 62.5);
    set_bond(100, 2, 0.5, SENYOLANDA_QUARTERLY);
    IS(price_at(4), 62.5);
    set_bond(100, 6, 1.0 / 6, SENYOLANDA_MONTHLY);
    IS(price_at(12), 62.5);
}

/* Below 1e-12 nothing is discounted; at 1e-12 the power formula is used. */
static void vanishing_yields(void) {
    set_bond(100, 0.5, 2, SENYOLANDA_ANNUAL);
    IS(price_at(9.999e-13), 200);
    IS(price_at(-9.999e-13), 200);
    double base = 1 + 1e-12, discount = 1 / (base * base);
    IS(price_at(1e-12), 50 * (1 - discount) / 1e-12 + 100 * discount);
}

static void sensitivities(void) {
    set_bond(100, 0.5, 2, SENYOLANDA_ANNUAL);
    double price = price_at(1), less = price_at(1 - 0.0001);
    desk.yield = 1;
    IS(NUMBER_OF(call_bond_dv01), less - price);
    IS(NUMBER_OF(call_bond_macaulay_duration), 1.6);
    IS(NUMBER_OF(call_bond_modified_duration), 0.8);
    IS(NUMBER_OF(call_bond_convexity), 1.1);
    desk.delta = 0.25;
    IS(NUMBER_OF(call_bond_price_change), -0.8 * 0.25 + 0.5 * 1.1 * 0.25 * 0.25);
    desk.market = 200;
    IS(NUMBER_OF(call_bond_current_yield), 0.25);
    desk.market = 0x1.fffffffffffffp-53;
    IS(NUMBER_OF(call_bond_current_yield), 0);
    desk.market = 0x1p-52;
    IS(NUMBER_OF(call_bond_current_yield), 50 / 0x1p-52);
}

static void zero_coupons(void) {
    desk.yield = 1;
    desk.bond.maturity = 2;
    IS(NUMBER_OF(call_zero_coupon_bond_price), 0.25);
    desk.bond.maturity = -3;
    IS(NUMBER_OF(call_zero_coupon_bond_price), 8);
    desk.yield = 3;
    desk.bond.maturity = 0.5;
    IS(NUMBER_OF(call_zero_coupon_bond_price), senyolanda_exp_of(-0.5 * senyolanda_ln_of(4)));
}

/* ---- yields ---- */

/* The three functions at a price are the three at the yield that was found. */
static void same_at_price(double market) {
    desk.market = market;
    double yield = NUMBER_OF(call_bond_yield_to_maturity);
    double macaulay = NUMBER_OF(call_bond_macaulay_duration_at_price);
    double modified = NUMBER_OF(call_bond_modified_duration_at_price);
    double convexity = NUMBER_OF(call_bond_convexity_at_price);
    desk.yield = yield;
    IS(macaulay, NUMBER_OF(call_bond_macaulay_duration));
    IS(modified, NUMBER_OF(call_bond_modified_duration));
    IS(convexity, NUMBER_OF(call_bond_convexity));
}

static void yields(void) {
    static const double yields[] = { 0.01, 0.05, 0.5, 0.9, 1, 20 };
    set_bond(100, 0.5, 2, SENYOLANDA_ANNUAL);
    for (size_t i = 0; i < sizeof yields / sizeof *yields; i++) {
        desk.market = price_at(yields[i]);
        IS_NEAR(NUMBER_OF(call_bond_yield_to_maturity), yields[i], 1e-7);
        same_at_price(desk.market);
    }
}

static void found(double market) {
    desk.market = market;
    ACCEPTED(call_bond_yield_to_maturity);
    same_at_price(market);
}

static void not_found(double market) {
    desk.market = market;
    REFUSED(call_bond_yield_to_maturity, 12, 0);
    REFUSED(call_bond_macaulay_duration_at_price, 12, 0);
    REFUSED(call_bond_modified_duration_at_price, 12, 0);
    REFUSED(call_bond_convexity_at_price, 12, 0);
}

/* The wider bracket ends at the yields 1e-6 and 50: a product of end errors that is 0 goes on, one bit further is 12. */
static void ends_of_the_bracket(void) {
    set_bond(100, 0.5, 2, SENYOLANDA_ANNUAL);
    double highest = price_at(1e-6), lowest = price_at(50);
    found(highest);
    not_found(nextafter(highest, INFINITY));
    found(lowest);
    not_found(nextafter(lowest, 0));
}

/* A coupon that overflows over no period makes every price NaN; a NaN product goes on. */
static void not_a_number(void) {
    set_bond(DBL_MAX, DBL_MAX, 0, SENYOLANDA_ANNUAL);
    IS(price_at(0.5), NAN);
    desk.market = 100;
    ACCEPTED(call_bond_yield_to_maturity);
    ACCEPTED(call_bond_convexity_at_price);
}

int main(int arguments, char **words) {
    open_tests("test_bonds", matrix, arguments, words);
    try_functions(functions);
    document_01();
    periods();
    frequencies();
    vanishing_yields();
    sensitivities();
    zero_coupons();
    yields();
    ends_of_the_bracket();
    not_a_number();
    tidy_desk();
    try_records(functions, damaged_record, 1000000);
    return close_checks();
}
