/*
 * cents COUNT: writes so many amounts to the cent by host/amounts.c and by printf, and compares the bytes; and of a quarter of them,
 * with separators, sees whether the commas stand where they should. Ends with 1 at the first amount that differs.
 */
#include "amounts.h"

#include <float.h>
#include <inttypes.h>
#include <math.h>
#include <stdbool.h>
#include <stdio.h>
#include <stdlib.h>
#include <string.h>

/* ---- amounts ---- */

/* Numbers that look random, the same each time. */
static uint64_t random_bits(void) {
    static uint64_t state = 1;
    uint64_t z = state += UINT64_C(0x9e3779b97f4a7c15);
    z = (z ^ z >> 30) * UINT64_C(0xbf58476d1ce4e5b9);
    z = (z ^ z >> 27) * UINT64_C(0x94d049bb133111eb);
    return z ^ z >> 31;
}

static double of_pattern(uint64_t pattern) {
    double number;
    memcpy(&number, &pattern, sizeof number);
    return number;
}

/* So many bits, as a whole number. */
static double whole(int bits) {
    return (double)(random_bits() >> (64 - bits));
}

static double with_sign(double amount) {
    return random_bits() % 4 == 0 ? -amount : amount;
}

static double beside(double amount) {
    switch (random_bits() % 3) {
    case 0: return nextafter(amount, -INFINITY);
    case 1: return nextafter(amount, INFINITY);
    default: return amount;
    }
}

static int up_to(int most) {
    return 1 + (int)(random_bits() % (uint64_t)most);
}

static const double edges[] = {
    0.0, 0.000244140625, 0.00048828125, 0.001, 0.004, 0.005, 0.006, 0.01, 0.015, 0.025, 0.125, 0.375, 0.625, 0.875, 0.994, 0.995, 0.996,
    0.999, 1.005, 9.995, 99.995, 4503599627370495.5, 4503599627370496.0, 9007199254740991.0, 9007199254740992.0, 92233720368547758.08,
    184467440737095516.16, 9223372036854775808.0, 18446744073709549568.0, 18446744073709551616.0, 1e15, 1e16, 1e19, 1e20, 1e22, 1e100,
    DBL_MAX, DBL_MIN, 4.9406564584124654e-324, (double)INFINITY, (double)NAN};

/* Amounts of a desk and around it, by turns; now and then one of any size, or an edge. Those take printf a hundred times as long. */
static double amount_of(uint64_t turn) {
    if (turn % 128 == 0) return of_pattern(random_bits());
    if (turn % 128 == 1) return with_sign(beside(edges[random_bits() % (sizeof edges / sizeof *edges)]));
    switch (turn % 5) {
    case 0: return with_sign(beside(whole(up_to(50)) / 100));                               /* cents, and beside them */
    case 1: return with_sign(beside((whole(up_to(50)) + 0.5) / 100));                       /* near half a cent, and beside it */
    case 2: return with_sign(whole(up_to(50)) + (double)(1 + 2 * (random_bits() % 4)) / 8); /* just half a cent */
    case 3: return with_sign(ldexp(whole(53), up_to(100) - 80));                            /* up to 2^73, and far down */
    default: return with_sign(ldexp(1 + whole(20), -up_to(40)));                            /* few bits */
    }
}

/* ---- the comparison ---- */

/* Every NaN is written alike, and what rounds to zero has no sign. */
static size_t by_printf(char text[AMOUNT_ROOM], double amount) {
    const int length = snprintf(text, AMOUNT_ROOM, "%.2f", isnan(amount) ? (double)NAN : amount);
    if (strcmp(text, "-0.00") != 0) return (size_t)length;
    strcpy(text, "0.00");
    return 4;
}

/* Whether the text with commas is the other one, with a comma in front of each three digits before the point but the first ones. */
static bool is_separated(const char *with, size_t with_length, const char *without, size_t length) {
    const char *found = memchr(without, '.', length), *point = found != NULL ? found : without;
    size_t at = 0;
    for (size_t k = 0; k < length; k++) {
        const bool first = k == 0 || without[k - 1] == '-';
        const bool comma = !first && without + k < point && (point - (without + k)) % 3 == 0;
        if (comma && (at == with_length || with[at++] != ',')) return false;
        if (at == with_length || with[at++] != without[k]) return false;
    }
    return at == with_length;
}

static bool agrees(double amount) {
    char want[AMOUNT_ROOM], got[AMOUNT_ROOM];
    const size_t length = by_printf(want, amount);
    const char *end = put_amount(got, amount, CENTS);
    if ((size_t)(end - got) == length && memcmp(got, want, length) == 0) return true;
    printf("cents: %a is written %.*s, and by printf %s\n", amount, (int)(end - got), got, want);
    return false;
}

static bool agrees_separated(double amount) {
    char without[AMOUNT_ROOM], with[AMOUNT_ROOM];
    const char *end = put_amount(without, amount, CENTS), *with_end = put_amount(with, amount, SEPARATED);
    if (is_separated(with, (size_t)(with_end - with), without, (size_t)(end - without))) return true;
    printf("cents: %a is written %.*s with separators, and %.*s without\n",
           amount, (int)(with_end - with), with, (int)(end - without), without);
    return false;
}

int main(int argc, char **argv) {
    const unsigned long long count = argc == 2 ? strtoull(argv[1], NULL, 10) : 0;
    if (count == 0) {
        fputs("usage: cents COUNT\n", stderr);
        return 2;
    }
    for (unsigned long long turn = 0; turn < count; turn++) {
        const double amount = amount_of(turn);
        if (!agrees(amount) || (turn % 8 < 2 && !agrees_separated(amount))) return 1;
    }
    printf("cents: %llu amounts as printf writes them\n", count);
    return 0;
}
