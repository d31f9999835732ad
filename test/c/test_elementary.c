/* exp, ln and powers: document 01's steps, written out again here, to the bit. */
#include "damaged.h"
#include "powers.h"

#include <float.h>
#include <math.h>

static const struct claim matrix[] = {
    /*               1 2 3 4 5 6 7 8 9 10 11 12 13 14 15 16 */
    CLAIM(exp,      ". . . . . . . . . .. .. .. .. .. .. .."),
    CLAIM(exp_each, ". . . . . . . . . .. .. .. .. .. .. .."),
    CLAIM(ln,       ". . . . . . . . . .. .. .. .. .. .. .."),
    CLAIM(power,    ". . . . . . . . . .. .. .. .. .. .. .."),
    END_OF_MATRIX,
};

/* ---- calls ---- */

static senyolanda_result call_exp(void) {
    double *answer = lend_number();
    return CALL(senyolanda_exp(desk.x, answer));
}

/* The list is the desk's times. */
static senyolanda_result call_exp_each(void) {
    double *numbers = lend_numbers_in_hand(desk.times, desk.times_count);
    return CALL(senyolanda_exp_each(numbers, desk.times_count));
}

static senyolanda_result call_ln(void) {
    double *answer = lend_number();
    return CALL(senyolanda_ln(desk.x, answer));
}

static senyolanda_result call_power(void) {
    double *answer = lend_number();
    return CALL(senyolanda_power(desk.x, desk.y, answer));
}

/* ---- what each function can meet: nothing is refused ---- */

static const struct cause taken_x[] = {
    TAKEN(NUMBER(x, NAN)),
    TAKEN(NUMBER(x, INFINITY)),
    TAKEN(NUMBER(x, -INFINITY)),
    TAKEN(NUMBER(x, -0.0)),
    FINITE_TAKEN(x),
    END_OF_CAUSES,
};

static const struct cause taken_y[] = {
    TAKEN(NUMBER(y, NAN)),
    TAKEN(NUMBER(y, INFINITY)),
    TAKEN(NUMBER(y, -INFINITY)),
    FINITE_TAKEN(y),
    END_OF_CAUSES,
};

static const struct cause taken_lists[] = {
    TAKEN(WHOLE(times_count, 0)),
    TAKEN(WHOLE(times_count, 1)),
    TAKEN(WHOLE(times_count, 8)),
    TAKEN(WHOLE(times_count, 122)),
    TAKEN(NUMBER(times[3], NAN)),
    END_OF_CAUSES,
};

static const struct function functions[] = {
    { FUNCTION(exp), { taken_x }, NULL },
    { FUNCTION(exp_each), { taken_lists }, NULL },
    { FUNCTION(ln), { taken_x }, NULL },
    { FUNCTION(power), { taken_x, taken_y }, NULL },
    END_OF_FUNCTIONS,
};

/* ---- document 01's steps ---- */

static const double log2_of_e = 1.4426950408889634, ln2_high = 6.93147180369123816490e-01, ln2_low = 1.90821492927058770002e-10;

static double exp_by_steps(double x) {
    double inverse[14] = { 1 }, factorial = 1;
    for (int k = 1; k < 14; k++) inverse[k] = 1 / (factorial *= k);
    if (isnan(x)) return x;
    if (x > 709) return INFINITY;
    if (x < -708) return 0;
    double k = round(x * log2_of_e);
    double r = (x - k * ln2_high) - k * ln2_low;
    double sum = inverse[13];
    for (int i = 12; i >= 0; i--) sum = sum * r + inverse[i];
    return ldexp(sum, (int)k);
}

static double ln_by_steps(double x) {
    if (isnan(x) || x < 0) return NAN;
    if (x == 0) return -INFINITY;
    if (isinf(x)) return x;
    int e;
    double m = 2 * frexp(x, &e);
    e--;
    if (m > 1.4142135623730951) {
        m /= 2;
        e++;
    }
    double s = (m - 1) / (m + 1), w = s * s, q = 1.0 / 21;
    for (int j = 9; j >= 0; j--) q = q * w + 1.0 / (2 * j + 1);
    return e * ln2_high + (2 * s * q + e * ln2_low);
}

static double power_by_steps(double x, double y) {
    if (fabs(y) <= 1200 && y == trunc(y)) {
        double answer = whole_power_by_steps(x, (uint32_t)fabs(y));
        return y < 0 ? 1 / answer : answer;
    }
    return x == 1 ? 1 : exp_by_steps(y * ln_by_steps(x));
}

/* ---- tests ---- */

static double exp_of(double x) {
    desk.x = x;
    return NUMBER_OF(call_exp);
}

static double ln_of(double x) {
    desk.x = x;
    return NUMBER_OF(call_ln);
}

static double power_of(double x, double y) {
    desk.x = x;
    desk.y = y;
    return NUMBER_OF(call_power);
}

static void ends(void) {
    IS(exp_of(0), 1);
    IS(exp_of(-0.0), 1);
    IS(exp_of(NAN), NAN);
    IS(exp_of(INFINITY), INFINITY);
    IS(exp_of(-INFINITY), 0);
    IS(exp_of(0x1.6280000000001p+9), INFINITY);
    CHECK(exp_of(709) < INFINITY);
    IS(exp_of(-0x1.6200000000001p+9), 0);
    CHECK(exp_of(-708) > 0);
    IS(ln_of(1), 0);
    IS(ln_of(0), -INFINITY);
    IS(ln_of(-0.0), -INFINITY);
    IS(ln_of(-SMALLEST), NAN);
    IS(ln_of(NAN), NAN);
    IS(ln_of(INFINITY), INFINITY);
    IS(ln_of(2), ln2_high + ln2_low);
    IS(power_of(2, 10), 1024);
    IS(power_of(2, -2), 0.25);
    IS(power_of(-2, 3), -8);
    IS(power_of(NAN, 0), 1);
    IS(power_of(0, -1), INFINITY);
    IS(power_of(1, NAN), 1);
    IS(power_of(1, 1e300), 1);
    IS(power_of(2, NAN), NAN);
    IS(power_of(-2, 0.5), NAN);
    IS(power_of(-1, 1200), 1);
    IS(power_of(-1, 1201), NAN);
    IS(power_of(-1, -1201), NAN);
}

static void edges_of_steps(void) {
    static const double numbers[] = { 0.34657359027997264, -0.34657359027997264, 1.4142135623730951, 1.4142135623730954,
        SMALLEST, 0x1p-1022, 0x1.fffffffffffffp-1023, DBL_MAX, 0x1.fffffffffffffp-1, 0x1.0000000000001p+0, 708.9999, -708, 709 };
    for (size_t i = 0; i < sizeof numbers / sizeof *numbers; i++) {
        IS(exp_of(numbers[i]), exp_by_steps(numbers[i]));
        IS(ln_of(numbers[i]), ln_by_steps(numbers[i]));
        IS(power_of(numbers[i], 1.0 / 12), power_by_steps(numbers[i], 1.0 / 12));
    }
}

static void random_steps(void) {
    for (int i = 0; i < 20000; i++) {
        double x = random_number(), y = random_number(), exponent = (double)random_below(2600) - 1300;
        IS(exp_of(x), exp_by_steps(x));
        IS(ln_of(x), ln_by_steps(x));
        IS(power_of(x, y), power_by_steps(x, y));
        IS(power_of(1 + y / 1000, exponent), power_by_steps(1 + y / 1000, exponent));
    }
}

/* Lists of every length up to 40, so that every rest beside whole groups of eight is there. */
static void lists(void) {
    for (size_t count = 0; count <= 40; count++) {
        desk.times_count = count;
        for (size_t i = 0; i < count; i++)
            desk.times[i] = random_below(3) == 0 ? random_number() : (double)random_below(1400) - 700;
        ACCEPTED(call_exp_each);
        for (size_t i = 0; i < count; i++) IS(answered_numbers(0)[i], exp_by_steps(desk.times[i]));
    }
}

int main(int arguments, char **words) {
    open_tests("test_elementary", matrix, arguments, words);
    try_functions(functions);
    ends();
    edges_of_steps();
    random_steps();
    lists();
    return close_checks();
}
