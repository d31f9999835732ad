#include "amounts.h"

#include <ctype.h>
#include <errno.h>
#include <math.h>
#include <stdio.h>
#include <stdlib.h>
#include <string.h>

char *put_text(char *at, const char *text) {
    const size_t length = strlen(text);
    memcpy(at, text, length);
    return at + length;
}

/* ---- whole numbers ---- */

static char *put_two_digits(char *at, unsigned number) {
    static const char digits[] =
        "00010203040506070809101112131415161718192021222324252627282930313233343536373839404142434445464748495051525354555657585960"
        "616263646566676869707172737475767778798081828384858687888990919293949596979899";
    memcpy(at, digits + 2 * number, 2);
    return at + 2;
}

char *put_whole(char *at, uint64_t number) {
    char text[20];
    char *start = text + sizeof text;
    for (; number >= 100; number /= 100) put_two_digits(start -= 2, (unsigned)(number % 100));
    if (number >= 10) {
        put_two_digits(start -= 2, (unsigned)number);
    } else {
        *--start = (char)('0' + number);
    }
    const size_t length = (size_t)(text + sizeof text - start);
    memcpy(at, start, length);
    return at + length;
}

/* ---- cents ---- */

static uint64_t pattern_of(double number) {
    uint64_t pattern;
    memcpy(&pattern, &number, sizeof pattern);
    return pattern;
}

/* An amount to the nearest cent, its sign apart. */
struct money {
    uint64_t whole;
    unsigned cents;
    bool below_zero;
};

/*
 * The amount is m times 2^(e - 1075) for a whole m below 2^53, with e the pattern's exponent, or 1 where that is 0.
 * From e = 1075 it is whole, and below 2^64 up to e = 1086. Below e = 1012 it is below 2^53 / 2^64, which is less than half a cent.
 * Between these, with s = 1075 - e from 1 to 63, the part behind the point is f / 2^s for an f below 2^53, so that 100 f is below
 * 2^60 and nothing is lost: its quotient by 2^s is the cents cut off, and its remainder says whether they go up. An exact half
 * goes to the even cent. False for an amount of 2^64 or more, an infinity and NaN.
 */
static bool to_cents(double amount, struct money *money) {
    const uint64_t pattern = pattern_of(amount);
    const unsigned exponent = (unsigned)(pattern >> 52 & 0x7ff);
    const uint64_t digits = pattern & UINT64_C(0xfffffffffffff);
    const uint64_t m = exponent == 0 ? digits : digits | UINT64_C(0x10000000000000);
    money->below_zero = pattern >> 63 != 0;
    money->cents = 0;
    if (exponent > 1086) return false;
    if (exponent >= 1075) {
        money->whole = m << (exponent - 1075);
    } else if (exponent < 1012) {
        money->whole = 0;
    } else {
        const unsigned s = 1075 - exponent;
        const uint64_t below_point = (UINT64_C(1) << s) - 1, half = UINT64_C(1) << (s - 1);
        const uint64_t hundredfold = 100 * (m & below_point);
        const uint64_t cut = hundredfold >> s, rest = hundredfold & below_point;
        const bool up = rest > half || (rest == half && cut % 2 != 0);
        money->whole = m >> s;
        money->cents = (unsigned)cut + (up ? 1 : 0);
        if (money->cents == 100) {
            money->whole++;
            money->cents = 0;
        }
    }
    return true;
}

/* Every NaN is shown alike, whatever its sign and payload. */
static double with_one_nan(double number) {
    return isnan(number) ? (double)NAN : number;
}

/* As printf("%.2f") has it, which in glibc and musl rounds in the same way; but what rounds to zero has no sign. */
static char *put_cents(char *at, double amount) {
    struct money money;
    if (!to_cents(amount, &money)) {
        char text[AMOUNT_ROOM];
        const int length = snprintf(text, sizeof text, "%.2f", with_one_nan(amount));
        memcpy(at, text, (size_t)length);
        return at + length;
    }
    if (money.below_zero && (money.whole != 0 || money.cents != 0)) *at++ = '-';
    at = put_whole(at, money.whole);
    *at++ = '.';
    return put_two_digits(at, money.cents);
}

bool written_cents(double amount, uint64_t *cents) {
    struct money money;
    if (!to_cents(amount, &money)) return false;
    const uint64_t size = 100 * money.whole + money.cents;
    *cents = money.below_zero ? 0 - size : size;
    return true;
}

/* ---- separators and bits ---- */

static char *put_separated(char *at, double amount) {
    char text[AMOUNT_ROOM];
    const char *end = put_cents(text, amount), *next = text;
    const char *point = memchr(text, '.', (size_t)(end - text));
    if (*next == '-') *at++ = *next++;
    for (; point != NULL && next < point; next++) {
        *at++ = *next;
        if (point - next > 1 && (point - next) % 3 == 1) *at++ = ',';
    }
    memcpy(at, next, (size_t)(end - next));
    return at + (end - next);
}

static char *put_bits(char *at, double amount) {
    const uint64_t pattern = pattern_of(with_one_nan(amount));
    for (int shift = 60; shift >= 0; shift -= 4) *at++ = "0123456789abcdef"[pattern >> shift & 15];
    return at;
}

char *put_amount(char *at, double amount, enum form form) {
    switch (form) {
    case SEPARATED: return put_separated(at, amount);
    case BITS: return put_bits(at, amount);
    default: return put_cents(at, amount);
    }
}

void put_shortest(char text[SHORTEST_ROOM], double number) {
    int digits = 0;
    do {
        snprintf(text, SHORTEST_ROOM, "%.*g", ++digits, with_one_nan(number));
    } while (digits < 17 && strtod(text, NULL) != number);
}

char *put_decimal(char *at, double number) {
    char text[SHORTEST_ROOM];
    put_shortest(text, number);
    return put_text(at, text);
}

/* ---- numbers from text ---- */

/* strtod reads hexadecimal too, which no decimal is. */
static bool is_hexadecimal(const char *text) {
    if (*text == '+' || *text == '-') text++;
    return text[0] == '0' && (text[1] == 'x' || text[1] == 'X');
}

const char *read_decimal_up_to(const char *text, const char *end, double *number) {
    char *stop;
    errno = 0;
    *number = strtod(text, &stop);
    if (stop == text || stop != end || isspace((unsigned char)*text) || is_hexadecimal(text))
        return "is no decimal number, such as 250000 or 0.06";
    if (errno == ERANGE && isinf(*number)) return "is too large for a binary64";
    if (errno == ERANGE && *number == 0) return "is too small for a binary64, which would hold 0";
    return NULL;
}

const char *read_decimal(const char *text, double *number) {
    return read_decimal_up_to(text, text + strlen(text), number);
}

bool read_whole(const char *text, uint32_t *number) {
    uint64_t value = 0;
    if (*text == '\0') return false;
    for (; *text != '\0'; text++) {
        if (!isdigit((unsigned char)*text)) return false;
        value = 10 * value + (uint64_t)(*text - '0');
        if (value > UINT32_MAX) return false;
    }
    *number = (uint32_t)value;
    return true;
}
