#include "damaged.h"

#include <float.h>
#include <inttypes.h>
#include <math.h>
#include <stdio.h>

static uint64_t state = 0x9e3779b97f4a7c15;

/* xorshift64* */
uint64_t random_bits(void) {
    state ^= state >> 12;
    state ^= state << 25;
    state ^= state >> 27;
    return state * 0x2545f4914f6cdd1d;
}

uint32_t random_below(uint32_t end) {
    return (uint32_t)((random_bits() >> 32) * end >> 32);
}

double random_number(void) {
    static const double special[] = { 0.0, -0.0, 1.0, -1.0, 0x1p-1074, -0x1p-1074, DBL_MAX, -DBL_MAX, INFINITY, -INFINITY, NAN };
    switch (random_below(4)) {
    case 0: return special[random_below(sizeof special / sizeof *special)];
    case 1: return number_of_bits(random_bits());
    case 2: return number_of_bits(random_bits() | 0x7ff0000000000000);
    default: return (double)random_below(2000000) / 1024 - 500;
    }
}

int is_bad_amount(double amount) {
    return !isfinite(amount) || amount < 0;
}

int is_bad_term(uint32_t term) {
    return term == 0 || term > 1200;
}

/* What an ordinary record holds: an amount up to a million, a rate up to a half, years up to 100. */
static double ordinary(double most) {
    return most * (double)random_below(1000000) / 1000000;
}

static double amount(void) {
    return random_below(8) == 0 ? random_number() : ordinary(1e6);
}

static double rate(void) {
    return random_below(8) == 0 ? random_number() : ordinary(0.5);
}

static double years(void) {
    return random_below(8) == 0 ? random_number() : ordinary(100);
}

static uint32_t count_to(uint32_t most) {
    return random_below(16) == 0 ? (uint32_t)random_bits() : 1 + random_below(most);
}

static struct record random_loan(void) {
    struct loan_parts loan = { 1, amount(), rate(), count_to(1200), SENYOLANDA_LOAN_BYTES };
    return record_of_loan(&loan);
}

static struct record random_bond(void) {
    struct bond_parts bond = { 2, amount(), rate(), years(), (uint8_t)random_below(4), SENYOLANDA_BOND_BYTES };
    return record_of_bond(&bond);
}

static struct record random_row(void) {
    struct row_parts row = { 3, count_to(1200), amount(), amount(), amount(), amount(), SENYOLANDA_ROW_BYTES };
    return record_of_row(&row);
}

static struct record random_swap(void) {
    struct swap_parts swap = { 4, amount(), rate(), years(), count_to(12), (uint8_t)random_below(3), SENYOLANDA_SWAP_BYTES };
    return record_of_swap(&swap);
}

/* Dates from 1895 to 2204, most of them of the calendar; the second is mostly some years after the first. */
static struct date any_date(uint32_t year) {
    struct date date = { year, random_below(32) == 0 ? random_below(256) : random_below(13), random_below(32) };
    return date;
}

static struct record random_dated(void) {
    static const uint32_t frequencies[] = { 1, 2, 3, 4, 6, 12 };
    uint32_t frequency = random_below(8) == 0 ? count_to(12) : frequencies[random_below(6)], year = 1895 + random_below(308);
    struct date first = any_date(year);
    struct date second = any_date(random_below(8) == 0 ? 1895 + random_below(310) : year + random_below(30));
    struct dated_parts dated = { 5, amount(), rate(), random_number(), frequency, first, second,
        (uint8_t)random_below(random_below(8) == 0 ? 5 : 3), SENYOLANDA_DATED_SWAP_BYTES };
    return record_of_dated_swap(&dated);
}

struct record random_record(uint8_t kind) {
    switch (kind) {
    case 1: return random_loan();
    case 2: return random_bond();
    case 3: return random_row();
    case 4: return random_swap();
    default: return random_dated();
    }
}

static struct record random_bytes(void) {
    struct record record = { { 0 }, random_below(41) };
    for (size_t i = 0; i < record.length; i++) record.bytes[i] = (uint8_t)random_bits();
    if (random_below(2) == 0 && record.length != 0) record.bytes[0] = (uint8_t)random_below(7);
    return record;
}

struct record damaged_record(void) {
    if (random_below(4) == 0) return random_bytes();
    struct record record = random_record((uint8_t)(1 + random_below(5)));
    switch (random_below(4)) {
    case 0: record.bytes[random_below((uint32_t)record.length)] = (uint8_t)random_bits(); break;
    case 1: record.bytes[random_below((uint32_t)record.length)] ^= (uint8_t)(1u << random_below(8)); break;
    case 2: record.length = random_below(41); break;
    default: break;
    }
    return record;
}

/* ---- what is being tried ---- */

static const struct function *tried;
static struct record record;

static void describe_record(void) {
    fprintf(stderr, ": %s with the record ", tried->name);
    for (size_t i = 0; i < record.length; i++) fprintf(stderr, "%02x", record.bytes[i]);
}

/* 12 and 13 are not for the record alone to say. */
static int is_due(senyolanda_result result, senyolanda_result deserved) {
    uint32_t number = senyolanda_number(result);
    int is_beyond = (number == 12 || number == 13) && can_give(tried, number) && senyolanda_place(result) == 0;
    return result == deserved || (deserved == 0 && is_beyond);
}

static void try_record(enum placement placement) {
    senyolanda_result deserved = tried->deserved(&record);
    senyolanda_result result = made(tried->called, placement);
    checked(is_due(result, deserved), __FILE__, __LINE__, "the call gives %" PRIu32 " at %" PRIu32 " where %" PRIu32 " is due",
        senyolanda_number(result), senyolanda_place(result), senyolanda_number(deserved));
}

void try_records(const struct function *functions, struct record next(void), size_t tries) {
    trying(describe_record);
    set_found_record(&record);
    for (size_t i = 0; i < tries; i++) {
        record = next();
        for (tried = functions; tried->name != NULL; tried++)
            if (tried->deserved != NULL) try_record(i % PLACEMENTS);
    }
    set_found_record(NULL);
    trying(NULL);
}
