#include "desk.h"

#include <string.h>

struct desk desk;
static const struct record *found_record;

static const struct desk at_rest = {
    .loan = { 1, 1200, 0, 12, SENYOLANDA_LOAN_BYTES },
    .new_loan = { 1, 1200, 0, 24, SENYOLANDA_LOAN_BYTES },
    .bond = { 2, 100, 0.5, 2, 0, SENYOLANDA_BOND_BYTES },
    .row = { 3, 7, 100, 90, 10, 800, SENYOLANDA_ROW_BYTES },
    .swap = { 4, 100, 0.05, 2, 2, 0, SENYOLANDA_SWAP_BYTES },
    .dated = { 5, 100, 0.05, 2, 2, { 2023, 1, 31 }, { 2025, 1, 15 }, 2, SENYOLANDA_DATED_SWAP_BYTES },
    .frequency = 2,
    .payment = 100,
    .balance = 1200,
    .places = 12 * WIDTH,
    .year_places = SENYOLANDA_MOST_YEARS * YEAR_WIDTH,
    .drawn = 12,
    .year = 1,
    .only = 3,
    .balloon = 12,
    .adjustable = { 1, 1200, 0.06, 36, SENYOLANDA_LOAN_BYTES },
    .initial = 0.06,
    .cap = 0.02,
    .lifetime = 0.05,
    .index_count = 3,
    .value = 2400,
    .extra = 100,
    .cost = 100,
    .months = 6,
    .loans_count = 3,
    .answers_count = 3,
    .number = 0.06,
    .history = { 0.5, 0.25, 0.125, 0.0625 },
    .history_count = MONTHS,
    .discount = 0.05,
    .yield = 1,
    .market = 100,
    .delta = 0.5,
    .t = 1.25,
    .t2 = 2,
    .model = { 0.05, -0.02, 0.01, 0.5 },
    .times_count = 5,
    .rates_count = 5,
    .asked_count = 3,
    .receive_fixed = 1,
    .days = 90,
    .first = { 2023, 1, 31 },
    .second = { 2025, 1, 15 },
    .day_number = 44957,
    .points = 100,
    .flow_times_count = 4,
    .flow_amounts_count = 4,
    .dated_count = 8,
    .x = 2,
    .y = 3,
};

/* The desk's lists hold more than is lent of them at rest. */
static struct desk in_good_order(void) {
    struct desk order = at_rest;
    for (size_t i = 0; i < LOANS; i++) {
        struct loan_parts loan = { 1, 1000 + (double)i, 0.06, 3 + (uint32_t)(i % 3), SENYOLANDA_LOAN_BYTES };
        order.loans[i] = loan;
    }
    for (size_t i = 0; i < LINES * YEAR_WIDTH; i++) order.years[i] = 0.5 + (double)i;
    for (size_t i = 0; i < ENTRIES; i++) order.index[i] = 0.05 + 0.01 * (double)(i % 7);
    for (size_t i = 0; i < KNOTS; i++) {
        order.times[i] = 0.5 * (double)(i + 1);
        order.rates[i] = 0.03 + 0.0001 * (double)i;
    }
    for (size_t i = 0; i < ASKED; i++) order.asked[i] = 0.4 * (double)(i + 1);
    for (size_t i = 0; i < FLOWS; i++) {
        order.flow_times[i] = 0.25 * (double)(i + 1);
        order.flow_amounts[i] = 10 + (double)i;
    }
    return order;
}

void tidy_desk(void) {
    static struct desk order;
    if (order.loans_count == 0) order = in_good_order();
    desk = order;
}

/* A record is written from its kind on, part after part, little-endian. */
static void put_byte(struct record *record, uint8_t byte) {
    record->bytes[record->length++] = byte;
}

static void put_whole(struct record *record, uint64_t whole, unsigned bytes) {
    for (unsigned i = 0; i < bytes; i++) put_byte(record, (uint8_t)(whole >> 8 * i));
}

static void put_count(struct record *record, uint32_t count) {
    put_whole(record, count, 4);
}

static void put_number(struct record *record, double number) {
    put_whole(record, bits_of(number), 8);
}

static struct record record_of_kind(uint8_t kind) {
    struct record record = { { kind }, 1 };
    return record;
}

static struct record of_length(struct record record, size_t length) {
    record.length = length;
    return record;
}

struct record record_of_loan(const struct loan_parts *loan) {
    struct record record = record_of_kind(loan->kind);
    put_number(&record, loan->principal);
    put_number(&record, loan->rate);
    put_count(&record, loan->term);
    return of_length(record, loan->length);
}

struct record record_of_bond(const struct bond_parts *bond) {
    struct record record = record_of_kind(bond->kind);
    put_number(&record, bond->face);
    put_number(&record, bond->coupon);
    put_number(&record, bond->maturity);
    put_byte(&record, bond->frequency);
    return of_length(record, bond->length);
}

struct record record_of_row(const struct row_parts *row) {
    struct record record = record_of_kind(row->kind);
    put_count(&record, row->month);
    put_number(&record, row->payment);
    put_number(&record, row->principal);
    put_number(&record, row->interest);
    put_number(&record, row->balance);
    return of_length(record, row->length);
}

struct record record_of_swap(const struct swap_parts *swap) {
    struct record record = record_of_kind(swap->kind);
    put_number(&record, swap->notional);
    put_number(&record, swap->rate);
    put_number(&record, swap->tenor);
    put_count(&record, swap->frequency);
    put_byte(&record, swap->day_count);
    return of_length(record, swap->length);
}

static void put_date(struct record *record, struct date date) {
    put_whole(record, date.year, 2);
    put_whole(record, date.month, 1);
    put_whole(record, date.day, 1);
}

struct record record_of_dated_swap(const struct dated_parts *dated) {
    struct record record = record_of_kind(dated->kind);
    put_number(&record, dated->notional);
    put_number(&record, dated->rate);
    put_number(&record, dated->tenor);
    put_count(&record, dated->frequency);
    put_date(&record, dated->first);
    put_date(&record, dated->second);
    put_byte(&record, dated->day_count);
    return of_length(record, dated->length);
}

static uint64_t whole_in(const uint8_t *bytes, unsigned count) {
    uint64_t whole = 0;
    for (unsigned i = 0; i < count; i++) whole |= (uint64_t)bytes[i] << 8 * i;
    return whole;
}

double number_in(const uint8_t *bytes) {
    return number_of_bits(whole_in(bytes, 8));
}

uint32_t count_in(const uint8_t *bytes) {
    return (uint32_t)whole_in(bytes, 4);
}

struct date date_in(const uint8_t *bytes) {
    struct date date = { (uint32_t)whole_in(bytes, 2), bytes[2], bytes[3] };
    return date;
}

void set_found_record(const struct record *found) {
    found_record = found;
}

static struct lent_bytes lend_found_or(const uint8_t *bytes, size_t length) {
    return found_record != NULL ? lend_bytes(found_record->bytes, found_record->length) : lend_bytes(bytes, length);
}

static struct lent_bytes lend_record(struct record record) {
    return lend_found_or(record.bytes, record.length);
}

struct lent_bytes lend_loan(void) {
    return lend_record(record_of_loan(&desk.loan));
}

struct lent_bytes lend_adjustable(void) {
    return lend_record(record_of_loan(&desk.adjustable));
}

struct lent_bytes lend_bond(void) {
    return lend_record(record_of_bond(&desk.bond));
}

struct lent_bytes lend_row(void) {
    return lend_record(record_of_row(&desk.row));
}

struct lent_bytes lend_swap(void) {
    return lend_record(record_of_swap(&desk.swap));
}

struct lent_bytes lend_dated_swap(void) {
    return lend_record(record_of_dated_swap(&desk.dated));
}

struct lent_bytes lend_pool(void) {
    uint8_t bytes[(LOANS + 1) * SENYOLANDA_LOAN_BYTES] = { 0 };
    size_t length = 0;
    for (size_t i = 0; i < desk.loans_count; i++) {
        struct record record = record_of_loan(&desk.loans[i]);
        memcpy(bytes + length, record.bytes, record.length);
        length += record.length;
    }
    return lend_found_or(bytes, length + desk.bytes_more);
}
