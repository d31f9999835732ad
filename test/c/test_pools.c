/* Pools: prepayment speeds, months, price, duration, convexity, totals. */
#include "damaged.h"

#include <float.h>
#include <math.h>
#include <string.h>

static const struct claim matrix[] = {
    /*                      1 2 3 4 5 6 7 8 9 10 11 12 13 14 15 16 */
    CLAIM(monthly_smm,     ". . . . . . . . . .. 11 .. .. .. .. .."),
    CLAIM(pool_cash_flows, "1 2 3 . . . 7 . . .. 11 .. .. .. .. .."),
    CLAIM(pool_price,      "1 2 . . . . 7 . . .. 11 .. .. .. .. .."),
    CLAIM(pool_duration,   "1 2 . . . . 7 . . .. 11 .. .. .. .. .."),
    CLAIM(pool_convexity,  "1 2 . . . . 7 . . .. 11 .. .. .. .. .."),
    CLAIM(pool_totals,     "1 2 . . . . 7 . . .. 11 .. .. .. .. .."),
    END_OF_MATRIX,
};

/* ---- calls ---- */

static senyolanda_result call_monthly_smm(void) {
    struct lent_numbers history = lend_numbers(desk.history, desk.history_count);
    double *smm = lend_number();
    return CALL(senyolanda_monthly_smm(desk.speed, desk.number, history.numbers, history.count, desk.months, smm));
}

/* The answers: the months, and the desk's places of room. */
enum { COUNT_OF_MONTHS, ROOM };
static senyolanda_result call_pool_cash_flows(void) {
    struct lent_bytes pool = lend_pool();
    struct lent_numbers history = lend_numbers(desk.history, desk.history_count);
    uint32_t *months = lend_count();
    double *room = lend(AS_ROOM, desk.places * sizeof *room);
    return CALL(senyolanda_pool_cash_flows(
        pool.bytes, pool.length, desk.speed, desk.number, history.numbers, history.count, room, desk.places, months));
}

typedef senyolanda_result pool_number(const uint8_t *, size_t, uint32_t, double, const double *, size_t, double, double *);

static senyolanda_result number_of_pool(pool_number *function) {
    struct lent_bytes pool = lend_pool();
    struct lent_numbers history = lend_numbers(desk.history, desk.history_count);
    double *answer = lend_number();
    return CALL(function(
        pool.bytes, pool.length, desk.speed, desk.number, history.numbers, history.count, desk.discount, answer));
}

static senyolanda_result call_pool_price(void) { return number_of_pool(senyolanda_pool_price); }
static senyolanda_result call_pool_duration(void) { return number_of_pool(senyolanda_pool_duration); }
static senyolanda_result call_pool_convexity(void) { return number_of_pool(senyolanda_pool_convexity); }

static senyolanda_result call_pool_totals(void) {
    struct lent_bytes pool = lend_pool();
    double *totals = lend_places(3);
    return CALL(senyolanda_pool_totals(pool.bytes, pool.length, totals));
}

/* ---- causes: at rest three loans, of 3, 4 and 5 months ---- */

#define LOAN_AT(place, loan)                             \
    NO_RECORD_AT(place, WHOLE(loan.kind, 0)),            \
    NO_RECORD_AT(place, WHOLE(loan.kind, 2)),            \
    BAD_AMOUNT_AT(place, loan.principal),                \
    CAUSE_AT(place, 2, WHOLE(loan.term, 0)),             \
    CAUSE_AT(place, 2, WHOLE(loan.term, 1201))

/* A pool of more than 64 loans is still read to its end. */
static const struct cause pool_causes[] = {
    NO_RECORD(WHOLE(bytes_more, 1)),
    NO_RECORD(WHOLE(bytes_more, 20)),
    NO_RECORD(WHOLE(bytes_more, 20), WHOLE(loans_count, 2)),
    NO_RECORD(WHOLE(bytes_more, 1), WHOLE(loans_count, 0)),
    NO_RECORD(WHOLE(bytes_more, 1), WHOLE(loans_count, 65)),
    LOAN_AT(0, loans[0]),
    LOAN_AT(1, loans[1]),
    LOAN_AT(2, loans[2]),
    AMOUNT_TAKEN(loans[0].principal),
    AMOUNT_TAKEN(loans[2].principal),
    TAKEN(WHOLE(loans[1].term, 1)),
    TAKEN(NUMBER(loans[1].rate, NAN)),
    CAUSE(7, WHOLE(loans_count, 65)),
    CAUSE(7, WHOLE(loans_count, 66)),
    CAUSE_AT(63, 1, WHOLE(loans_count, 64), NUMBER(loans[63].principal, -1)),
    CAUSE_AT(64, 1, WHOLE(loans_count, 65), NUMBER(loans[64].principal, NAN)),
    CAUSE_AT(64, 2, WHOLE(loans_count, 65), WHOLE(loans[64].term, 0)),
    NO_RECORD_AT(64, WHOLE(loans_count, 65), WHOLE(loans[64].kind, 4)),
    TAKEN(WHOLE(loans_count, 64)),
    TAKEN(WHOLE(loans_count, 1)),
    TAKEN(WHOLE(loans_count, 0)),
    END_OF_CAUSES,
};

static const struct cause speed_causes[] = {
    CODES(speed, 2),
    TAKEN(WHOLE(speed, 0), NUMBER(number, NAN)),
    TAKEN(WHOLE(speed, 1), NUMBER(number, -INFINITY)),
    TAKEN(WHOLE(speed, 2), WHOLE(history_count, 4)),
    TAKEN(WHOLE(speed, 2), WHOLE(history_count, 0)),
    TAKEN(WHOLE(speed, 0), WHOLE(history_count, 0)),
    TAKEN(WHOLE(speed, 2), NUMBER(history[0], NAN)),
    TAKEN(WHOLE(months, 0)),
    TAKEN(WHOLE(months, UINT32_MAX)),
    TAKEN(WHOLE(speed, 2), WHOLE(months, UINT32_MAX)),
    TAKEN(NUMBER(discount, NAN)),
    TAKEN(NUMBER(discount, -12)),
    END_OF_CAUSES,
};

static const struct cause room_causes[] = {
    CAUSE(3, WHOLE(places, 0)),
    CAUSE(3, WHOLE(places, 2)),
    CAUSE(3, WHOLE(places, 14)),
    CAUSE(3, WHOLE(places, 3599), WHOLE(loans[1].term, 1200)),
    CAUSE(3, WHOLE(places, 17), WHOLE(loans_count, 65), WHOLE(loans[64].term, 6)),
    CAUSE(7, WHOLE(places, 18), WHOLE(loans_count, 65), WHOLE(loans[64].term, 6)),
    TAKEN(WHOLE(places, 15)),
    TAKEN(WHOLE(places, 16)),
    TAKEN(WHOLE(places, 3600), WHOLE(loans[1].term, 1200)),
    TAKEN(WHOLE(places, 0), WHOLE(loans_count, 0)),
    TAKEN(WHOLE(places, 9), WHOLE(loans_count, 1)),
    END_OF_CAUSES,
};

/* ---- what records end to end deserve ---- */

static const uint8_t *loan_in(const struct record *records, uint32_t index) {
    return records->bytes + index * SENYOLANDA_LOAN_BYTES;
}

static int is_other_kind(const uint8_t *loan) {
    return loan[0] != 1;
}

static int has_bad_amount(const uint8_t *loan) {
    return is_bad_amount(number_in(loan + 1));
}

static int has_bad_term(const uint8_t *loan) {
    return is_bad_term(count_in(loan + 17));
}

static senyolanda_result first_bad(const struct record *records, int is_bad(const uint8_t *), uint32_t number) {
    for (uint32_t i = 0; i < records->length / SENYOLANDA_LOAN_BYTES; i++)
        if (is_bad(loan_in(records, i))) return refusal(number, i);
    return 0;
}

static senyolanda_result pool_deserved(const struct record *records) {
    if (records->length % SENYOLANDA_LOAN_BYTES != 0) return refusal(11, 0);
    senyolanda_result kind = first_bad(records, is_other_kind, 11);
    senyolanda_result amount = first_bad(records, has_bad_amount, 1);
    return kind != 0 ? kind : amount != 0 ? amount : first_bad(records, has_bad_term, 2);
}

static int has_no_room(const uint8_t *loan) {
    return 3 * (size_t)count_in(loan + 17) > desk.places;
}

static senyolanda_result cash_flows_deserved(const struct record *records) {
    senyolanda_result deserved = pool_deserved(records);
    if (deserved != 0) return deserved;
    return first_bad(records, has_no_room, 3) != 0 ? refusal(3, 0) : 0;
}

/* Up to three loans end to end, one byte or the length damaged, or nothing. */
static struct record damaged_pool(void) {
    struct record records = { { 0 }, 0 };
    for (uint32_t loans = random_below(4); loans != 0; loans--) {
        struct record loan = random_record(1);
        memcpy(records.bytes + records.length, loan.bytes, loan.length);
        records.length += loan.length;
    }
    uint32_t damage = random_below(4), byte = random_below((uint32_t)records.length + 1);
    if (damage == 0) records.bytes[byte] ^= (uint8_t)(1u << random_below(8));
    if (damage == 1) records.length = random_below(MOST_BYTES);
    return records;
}

/* ---- what each function can meet ---- */

static const struct function functions[] = {
    { FUNCTION(monthly_smm), { speed_causes }, NULL },
    { FUNCTION(pool_cash_flows), { pool_causes, speed_causes, room_causes }, cash_flows_deserved },
    { FUNCTION(pool_price), { pool_causes, speed_causes }, pool_deserved },
    { FUNCTION(pool_duration), { pool_causes, speed_causes }, pool_deserved },
    { FUNCTION(pool_convexity), { pool_causes, speed_causes }, pool_deserved },
    { FUNCTION(pool_totals), { pool_causes }, pool_deserved },
    END_OF_FUNCTIONS,
};

/* ---- an unknown speed beside a bad loan ---- */

typedef void spoiling(struct loan_parts *loan);
static void of_another_kind(struct loan_parts *loan) { loan->kind = 2; }
static void of_bad_amount(struct loan_parts *loan) { loan->principal = -1; }
static void of_bad_term(struct loan_parts *loan) { loan->term = 0; }

/* What the functions that are asked with a speed refuse where the second loan is spoiled so. */
static void refused_beside(spoiling *spoil, uint32_t speed, uint32_t number, uint32_t place) {
    tidy_desk();
    spoil(&desk.loans[1]);
    desk.speed = speed;
    REFUSED(call_pool_cash_flows, number, place);
    REFUSED(call_pool_price, number, place);
    REFUSED(call_pool_duration, number, place);
    REFUSED(call_pool_convexity, number, place);
}

/* A record of another kind and an unknown speed are both 11, and a single argument counts before an item; 1 and 2 are lower. */
static void unknown_speeds(void) {
    refused_beside(of_another_kind, SENYOLANDA_CPR, 11, 1);
    refused_beside(of_another_kind, SENYOLANDA_HISTORY + 1, 11, 0);
    refused_beside(of_another_kind, UINT32_MAX, 11, 0);
    refused_beside(of_bad_amount, SENYOLANDA_HISTORY + 1, 1, 1);
    refused_beside(of_bad_term, SENYOLANDA_HISTORY + 1, 2, 1);
    tidy_desk();
}

/* ---- figures ---- */

static double smm(uint32_t speed, double number, uint32_t month) {
    desk.speed = speed;
    desk.number = number;
    desk.months = month;
    return NUMBER_OF(call_monthly_smm);
}

static double of_year(double cpr) {
    return 1 - senyolanda_power_of(1 - cpr, 1.0 / 12);
}

static void speeds(void) {
    desk.history_count = 1;
    IS(smm(SENYOLANDA_HISTORY, NAN, 0), 0.5);
    IS(smm(SENYOLANDA_HISTORY, NAN, 1), 0.5);
    IS(smm(SENYOLANDA_HISTORY, NAN, 2), 0);
    desk.history_count = 3;
    IS(smm(SENYOLANDA_HISTORY, NAN, 2), 0.25);
    IS(smm(SENYOLANDA_HISTORY, NAN, 3), 0.125);
    IS(smm(SENYOLANDA_HISTORY, NAN, UINT32_MAX), 0);
    desk.history_count = 0;
    IS(smm(SENYOLANDA_HISTORY, NAN, 0), 0);
    IS(smm(SENYOLANDA_CPR, 0, 7), 0);
    IS(smm(SENYOLANDA_CPR, 1, 7), 1);
    IS(smm(SENYOLANDA_CPR, 0.08, 7), of_year(0.08));
    IS(smm(SENYOLANDA_PSA, 1.5, 0), 0);
    IS(smm(SENYOLANDA_PSA, 1.5, 15), of_year(0.06 * 1.5 * 0.5));
    IS(smm(SENYOLANDA_PSA, 1.5, 30), of_year(0.06 * 1.5));
    IS(smm(SENYOLANDA_PSA, 1.5, 31), of_year(0.06 * 1.5));
}

static void set_loan(size_t index, double principal, double rate, uint32_t term) {
    struct loan_parts loan = { 1, principal, rate, term, SENYOLANDA_LOAN_BYTES };
    desk.loans[index] = loan;
    desk.loans_count = index + 1;
}

static double price_at(double rate) {
    desk.discount = rate;
    return NUMBER_OF(call_pool_price);
}

/* Document 01's loan, half of which is prepaid in month 1; the scheduled balance does not feel it. */
static void set_pool(void) {
    tidy_desk();
    set_loan(0, 1200, 0, 3);
    desk.speed = SENYOLANDA_HISTORY;
    desk.history_count = 1;
}

static void months(void) {
    static const double wanted[] = { 400, 0, 400, 400, 0, 0, 400, 0, 0 };
    set_pool();
    desk.places = 11;
    CHECK(COUNT_OF(call_pool_cash_flows) == 3);
    for (size_t i = 0; i < 9; i++) IS(answered_numbers(ROOM)[i], wanted[i]);
    CHECK(answered_numbers_stay(ROOM, 9));
    set_loan(1, 1000, 6, 2);
    static const double both[] = { 800, 500, 700, 1000, 300, 0, 400, 0, 0 };
    ACCEPTED(call_pool_cash_flows);
    for (size_t i = 0; i < 9; i++) IS(answered_numbers(ROOM)[i], both[i]);
}

/* The same at a rate that 1 does not feel: equal parts, and the interest on what is scheduled. */
static void months_of_equal_parts(void) {
    const double rate = 1e-17, r = rate / 12, wanted[] = { 400, 1200 * r, 400, 400, 800 * r, 0, 400, 400 * r, 0 };
    set_pool();
    desk.loans[0].rate = rate;
    desk.places = 9;
    CHECK(COUNT_OF(call_pool_cash_flows) == 3);
    for (size_t i = 0; i < 9; i++) IS(answered_numbers(ROOM)[i], wanted[i]);
    IS(price_at(0), 1600);
}

static void prices(void) {
    const double bump = 0.0001, rate = 0.5;
    set_pool();
    IS(price_at(0), 1600);
    IS(price_at(12), 550);
    double up = price_at(rate + bump), down = price_at(rate - bump), price = price_at(rate);
    IS(NUMBER_OF(call_pool_duration), (down - up) / (2 * bump * price));
    IS(NUMBER_OF(call_pool_convexity), (up + down - 2 * price) / (bump * bump * price));
    desk.loans_count = 0;
    IS(price_at(rate), 0);
    IS(NUMBER_OF(call_pool_duration), 0);
    IS(NUMBER_OF(call_pool_convexity), 0);
}

static void are_totals(double balance, double coupon, double maturity) {
    ACCEPTED(call_pool_totals);
    IS(answered_numbers(0)[0], balance);
    IS(answered_numbers(0)[1], coupon);
    IS(answered_numbers(0)[2], maturity);
}

static void totals(void) {
    set_loan(0, 1000, 0.5, 4);
    set_loan(1, 3000, 0.25, 8);
    are_totals(4000, 0.3125, 7);
    desk.loans_count = 0;
    are_totals(0, 0, 0);
}

int main(int arguments, char **words) {
    open_tests("test_pools", matrix, arguments, words);
    try_functions(functions);
    unknown_speeds();
    speeds();
    months();
    months_of_equal_parts();
    prices();
    totals();
    tidy_desk();
    try_records(functions, damaged_pool, 100000);
    desk.places = 3600;
    try_records(functions, damaged_pool, 100000);
    return close_checks();
}
