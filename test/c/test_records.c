/* Records: bytes to values and back, every length and code one off, and a million that are random or damaged. */
#include "damaged.h"

#include <float.h>
#include <math.h>
#include <string.h>

static const struct claim matrix[] = {
    /*                       1 2 3 4 5 6 7 8 9 10 11 12 13 14 15 16 */
    CLAIM(read_loan,        ". . . . . . . . . .. 11 .. .. .. .. .."),
    CLAIM(write_loan,       ". . . . . . . . . .. .. .. .. .. .. .."),
    CLAIM(read_bond,        ". . . . . . . . . .. 11 .. .. .. .. .."),
    CLAIM(write_bond,       ". . . . . . . . . .. 11 .. .. .. .. .."),
    CLAIM(read_row,         ". . . . . . . . . .. 11 .. .. .. .. .."),
    CLAIM(write_row,        ". . . . . . . . . .. .. .. .. .. .. .."),
    CLAIM(read_swap,        ". . . . . . . . . .. 11 .. .. .. .. .."),
    CLAIM(write_swap,       ". . . . . . . . . .. 11 .. .. .. .. .."),
    CLAIM(read_dated_swap,  ". . . . . . . . . .. 11 .. .. .. .. .."),
    CLAIM(write_dated_swap, ". . . . . . . . . .. 11 .. .. .. 15 .."),
    END_OF_MATRIX,
};

/* ---- calls ---- */

static senyolanda_result call_read_loan(void) {
    struct lent_bytes record = lend_loan();
    double *principal = lend_number(), *rate = lend_number();
    uint32_t *term = lend_count();
    return CALL(senyolanda_read_loan(record.bytes, record.length, principal, rate, term));
}

static senyolanda_result call_write_loan(void) {
    uint8_t *record = lend(FOR_ANSWER, SENYOLANDA_LOAN_BYTES);
    return CALL(senyolanda_write_loan(desk.loan.principal, desk.loan.rate, desk.loan.term, record));
}

static senyolanda_result call_read_bond(void) {
    struct lent_bytes record = lend_bond();
    double *face = lend_number(), *coupon = lend_number(), *maturity = lend_number();
    uint32_t *frequency = lend_count();
    return CALL(senyolanda_read_bond(record.bytes, record.length, face, coupon, maturity, frequency));
}

static senyolanda_result call_write_bond(void) {
    uint8_t *record = lend(FOR_ANSWER, SENYOLANDA_BOND_BYTES);
    return CALL(senyolanda_write_bond(desk.bond.face, desk.bond.coupon, desk.bond.maturity, desk.frequency, record));
}

static senyolanda_result call_read_row(void) {
    struct lent_bytes record = lend_row();
    uint32_t *month = lend_count();
    double *payment = lend_number(), *principal = lend_number(), *interest = lend_number(), *balance = lend_number();
    return CALL(senyolanda_read_row(record.bytes, record.length, month, payment, principal, interest, balance));
}

static senyolanda_result call_write_row(void) {
    uint8_t *record = lend(FOR_ANSWER, SENYOLANDA_ROW_BYTES);
    const struct row_parts *row = &desk.row;
    return CALL(senyolanda_write_row(row->month, row->payment, row->principal, row->interest, row->balance, record));
}

static senyolanda_result call_read_swap(void) {
    struct lent_bytes record = lend_swap();
    double *notional = lend_number(), *rate = lend_number(), *tenor = lend_number();
    uint32_t *frequency = lend_count(), *day_count = lend_count();
    return CALL(senyolanda_read_swap(record.bytes, record.length, notional, rate, tenor, frequency, day_count));
}

static senyolanda_result call_write_swap(void) {
    uint8_t *record = lend(FOR_ANSWER, SENYOLANDA_SWAP_BYTES);
    const struct swap_parts *swap = &desk.swap;
    return CALL(senyolanda_write_swap(swap->notional, swap->rate, swap->tenor, swap->frequency, desk.day_count, record));
}

static uint32_t *lend_date(void) {
    return lend(FOR_ANSWER, SENYOLANDA_DATE_NUMBERS * sizeof(uint32_t));
}

static senyolanda_result call_read_dated_swap(void) {
    struct lent_bytes record = lend_dated_swap();
    double *notional = lend_number(), *rate = lend_number(), *tenor = lend_number();
    uint32_t *frequency = lend_count(), *first = lend_date(), *second = lend_date(), *day_count = lend_count();
    return CALL(senyolanda_read_dated_swap(
        record.bytes, record.length, notional, rate, tenor, frequency, first, second, day_count));
}

static senyolanda_result call_write_dated_swap(void) {
    uint8_t *record = lend(FOR_ANSWER, SENYOLANDA_DATED_SWAP_BYTES);
    const struct dated_parts *dated = &desk.dated;
    return CALL(senyolanda_write_dated_swap(dated->notional, dated->rate, dated->tenor, dated->frequency,
        dated->first.year, dated->first.month, dated->first.day,
        dated->second.year, dated->second.month, dated->second.day, desk.day_count, record));
}

/* ---- causes: 11, and 15 for a date that no record can hold; a reader looks at nothing but kind, length and code ---- */

/* Kinds and lengths one off, and a record in good order of another kind. */
#define NO_RECORDS(record, bytes, other_kind, other_bytes)                      \
    NO_RECORD(WHOLE(record.kind, 0)),                                           \
    NO_RECORD(WHOLE(record.kind, 6)),                                           \
    NO_RECORD(WHOLE(record.kind, 255)),                                         \
    NO_RECORD(WHOLE(record.kind, other_kind)),                                  \
    NO_RECORD(WHOLE(record.kind, other_kind), WHOLE(record.length, other_bytes)), \
    NO_RECORD(WHOLE(record.length, 0)),                                         \
    NO_RECORD(WHOLE(record.length, 1)),                                         \
    NO_RECORD(WHOLE(record.length, bytes - 1)),                                 \
    NO_RECORD(WHOLE(record.length, bytes + 1)),                                 \
    NO_RECORD(WHOLE(record.length, 64))

static const struct cause loan_causes[] = {
    NO_RECORDS(loan, SENYOLANDA_LOAN_BYTES, 2, SENYOLANDA_BOND_BYTES),
    TAKEN(NUMBER(loan.principal, NAN)),
    TAKEN(NUMBER(loan.principal, -1)),
    TAKEN(WHOLE(loan.term, 0)),
    TAKEN(WHOLE(loan.term, UINT32_MAX)),
    END_OF_CAUSES,
};

static const struct cause bond_causes[] = {
    NO_RECORDS(bond, SENYOLANDA_BOND_BYTES, 1, SENYOLANDA_LOAN_BYTES),
    CAUSE(11, WHOLE(bond.frequency, 4)),
    CAUSE(11, WHOLE(bond.frequency, 255)),
    TAKEN(WHOLE(bond.frequency, 3)),
    TAKEN(NUMBER(bond.face, -1)),
    TAKEN(NUMBER(bond.maturity, INFINITY)),
    END_OF_CAUSES,
};

static const struct cause row_causes[] = {
    NO_RECORDS(row, SENYOLANDA_ROW_BYTES, 4, SENYOLANDA_SWAP_BYTES),
    TAKEN(WHOLE(row.month, 0)),
    TAKEN(NUMBER(row.balance, -INFINITY)),
    END_OF_CAUSES,
};

static const struct cause swap_causes[] = {
    NO_RECORDS(swap, SENYOLANDA_SWAP_BYTES, 3, SENYOLANDA_ROW_BYTES),
    CAUSE(11, WHOLE(swap.day_count, 3)),
    CAUSE(11, WHOLE(swap.day_count, 255)),
    TAKEN(WHOLE(swap.day_count, 2)),
    TAKEN(WHOLE(swap.frequency, 0)),
    TAKEN(WHOLE(swap.frequency, UINT32_MAX)),
    TAKEN(NUMBER(swap.tenor, NAN)),
    END_OF_CAUSES,
};

/* A dated swap's and an undated one's are no records of each other, whole or cut to the other's length; any date is read. */
static const struct cause swap_as_dated_causes[] = {
    NO_RECORD(WHOLE(swap.kind, 5)),
    NO_RECORD(WHOLE(swap.kind, 5), WHOLE(swap.length, SENYOLANDA_DATED_SWAP_BYTES)),
    NO_RECORD(WHOLE(swap.length, SENYOLANDA_DATED_SWAP_BYTES)),
    END_OF_CAUSES,
};

static const struct cause dated_causes[] = {
    NO_RECORDS(dated, SENYOLANDA_DATED_SWAP_BYTES, 4, SENYOLANDA_SWAP_BYTES),
    NO_RECORD(WHOLE(dated.length, SENYOLANDA_SWAP_BYTES)),
    NO_RECORD(WHOLE(dated.kind, 3), WHOLE(dated.length, SENYOLANDA_ROW_BYTES)),
    CAUSE(11, WHOLE(dated.day_count, 3)),
    CAUSE(11, WHOLE(dated.day_count, 255)),
    TAKEN(WHOLE(dated.day_count, 0)),
    TAKEN(WHOLE(dated.frequency, 0)),
    TAKEN(WHOLE(dated.frequency, UINT32_MAX)),
    TAKEN(NUMBER(dated.notional, -1)),
    TAKEN(NUMBER(dated.tenor, NAN)),
    TAKEN(WHOLE(dated.first.year, 0), WHOLE(dated.first.month, 0), WHOLE(dated.first.day, 0)),
    TAKEN(WHOLE(dated.second.year, UINT16_MAX), WHOLE(dated.second.month, UINT8_MAX), WHOLE(dated.second.day, UINT8_MAX)),
    TAKEN(WHOLE(dated.second.year, 2023), WHOLE(dated.second.day, 31)),
    END_OF_CAUSES,
};

/* The largest numbers that a record has bytes for, and one more. */
#define WIDER_THAN_A_RECORD(date)                                               \
    CAUSE(15, WHOLE(date.year, 65536)),                                         \
    CAUSE(15, WHOLE(date.year, UINT32_MAX)),                                    \
    CAUSE(15, WHOLE(date.month, 256)),                                          \
    CAUSE(15, WHOLE(date.month, UINT32_MAX)),                                   \
    CAUSE(15, WHOLE(date.day, 256)),                                            \
    CAUSE(15, WHOLE(date.day, UINT32_MAX)),                                     \
    TAKEN(WHOLE(date.year, 65535), WHOLE(date.month, 255), WHOLE(date.day, 255)), \
    TAKEN(WHOLE(date.year, 0), WHOLE(date.month, 0), WHOLE(date.day, 0))

static const struct cause written_date_causes[] = {
    WIDER_THAN_A_RECORD(dated.first),
    WIDER_THAN_A_RECORD(dated.second),
    TAKEN(WHOLE(dated.second.year, 2023), WHOLE(dated.second.day, 31)),
    TAKEN(WHOLE(dated.second.year, 1900)),
    TAKEN(WHOLE(dated.frequency, 0)),
    TAKEN(NUMBER(dated.notional, -1)),
    END_OF_CAUSES,
};

static const struct cause frequency_causes[] = {
    CODES(frequency, 3),
    END_OF_CAUSES,
};

static const struct cause day_count_causes[] = {
    CODES(day_count, 2),
    END_OF_CAUSES,
};

/* ---- what a record deserves of its reader ---- */

static senyolanda_result deserved(const struct record *record, uint8_t kind, size_t length, uint8_t codes) {
    int is_one = record->length == length && record->bytes[0] == kind;
    return is_one && (codes == 0 || record->bytes[length - 1] < codes) ? 0 : refusal(11, 0);
}

static senyolanda_result loan_deserved(const struct record *record) {
    return deserved(record, 1, 21, 0);
}

static senyolanda_result bond_deserved(const struct record *record) {
    return deserved(record, 2, 26, 4);
}

static senyolanda_result row_deserved(const struct record *record) {
    return deserved(record, 3, 37, 0);
}

static senyolanda_result swap_deserved(const struct record *record) {
    return deserved(record, 4, 30, 3);
}

static senyolanda_result dated_deserved(const struct record *record) {
    return deserved(record, 5, 38, 3);
}

/* ---- what each function can meet ---- */

static const struct function functions[] = {
    { FUNCTION(read_loan), { loan_causes }, loan_deserved },
    { FUNCTION(write_loan), { NULL }, NULL },
    { FUNCTION(read_bond), { bond_causes }, bond_deserved },
    { FUNCTION(write_bond), { frequency_causes }, NULL },
    { FUNCTION(read_row), { row_causes }, row_deserved },
    { FUNCTION(write_row), { NULL }, NULL },
    { FUNCTION(read_swap), { swap_causes, swap_as_dated_causes }, swap_deserved },
    { FUNCTION(write_swap), { day_count_causes }, NULL },
    { FUNCTION(read_dated_swap), { dated_causes }, dated_deserved },
    { FUNCTION(write_dated_swap), { day_count_causes, written_date_causes }, NULL },
    END_OF_FUNCTIONS,
};

/* ---- there and back ---- */

static struct record desk_loan(void) {
    return record_of_loan(&desk.loan);
}

static struct record desk_bond(void) {
    return record_of_bond(&desk.bond);
}

static struct record desk_row(void) {
    return record_of_row(&desk.row);
}

static struct record desk_swap(void) {
    return record_of_swap(&desk.swap);
}

static struct record desk_dated(void) {
    return record_of_dated_swap(&desk.dated);
}

/* A kind of record: its numbers, counts and dates on the desk, in the order of its reader's answers; how many codes it knows. */
struct kind {
    call *reader, *writer;
    struct record (*record)(void);
    double *numbers[4];
    uint32_t *count, *code;
    uint32_t codes;
    size_t first_number, count_at, code_at;
    struct date *dates[2];
    size_t dates_at;
};

static const struct kind kinds[] = {
    { call_read_loan, call_write_loan, desk_loan, { &desk.loan.principal, &desk.loan.rate }, &desk.loan.term, NULL, 0, 0, 2, 0,
        { NULL, NULL }, 0 },
    { call_read_bond, call_write_bond, desk_bond, { &desk.bond.face, &desk.bond.coupon, &desk.bond.maturity }, NULL,
        &desk.frequency, 4, 0, 0, 3, { NULL, NULL }, 0 },
    { call_read_row, call_write_row, desk_row, { &desk.row.payment, &desk.row.principal, &desk.row.interest, &desk.row.balance },
        &desk.row.month, NULL, 0, 1, 0, 0, { NULL, NULL }, 0 },
    { call_read_swap, call_write_swap, desk_swap, { &desk.swap.notional, &desk.swap.rate, &desk.swap.tenor },
        &desk.swap.frequency, &desk.day_count, 3, 0, 3, 4, { NULL, NULL }, 0 },
    { call_read_dated_swap, call_write_dated_swap, desk_dated, { &desk.dated.notional, &desk.dated.rate, &desk.dated.tenor },
        &desk.dated.frequency, &desk.day_count, 3, 0, 3, 6, { &desk.dated.first, &desk.dated.second }, 4 },
};

static size_t numbers_of(const struct kind *kind) {
    size_t count = 0;
    while (count < 4 && kind->numbers[count] != NULL) count++;
    return count;
}

/* Of the calendar or not. */
static struct date random_triple(void) {
    struct date date = { random_below(UINT16_MAX + 1), random_below(UINT8_MAX + 1), random_below(UINT8_MAX + 1) };
    return date;
}

static void set_at_random(const struct kind *kind) {
    for (size_t i = 0; i < numbers_of(kind); i++) *kind->numbers[i] = random_number();
    if (kind->count != NULL) *kind->count = (uint32_t)random_bits();
    if (kind->code != NULL) *kind->code = random_below(kind->codes);
    for (size_t i = 0; i < 2 && kind->dates[i] != NULL; i++) *kind->dates[i] = random_triple();
    desk.bond.frequency = (uint8_t)desk.frequency;
    desk.swap.day_count = desk.dated.day_count = (uint8_t)desk.day_count;
}

/* Every NaN is written alike. */
static void set_as_written(const struct kind *kind) {
    for (size_t i = 0; i < numbers_of(kind); i++)
        if (isnan(*kind->numbers[i])) *kind->numbers[i] = number_of_bits(0x7ff8000000000000);
}

static int is_answered_date(size_t k, const struct date *date) {
    const uint32_t *answer = answered_counts(k);
    return answer[0] == date->year && answer[1] == date->month && answer[2] == date->day;
}

static void is_read(const struct kind *kind) {
    ACCEPTED(kind->reader);
    for (size_t i = 0; i < numbers_of(kind); i++) IS(answered_numbers(kind->first_number + i)[0], *kind->numbers[i]);
    if (kind->count != NULL) CHECK(answered_count(kind->count_at) == *kind->count);
    if (kind->code != NULL) CHECK(answered_count(kind->code_at) == *kind->code);
    for (size_t i = 0; i < 2 && kind->dates[i] != NULL; i++) CHECK(is_answered_date(kind->dates_at + i, kind->dates[i]));
}

static void is_written(const struct kind *kind) {
    ACCEPTED(kind->writer);
    set_as_written(kind);
    struct record record = kind->record();
    CHECK(memcmp(answered_bytes(0), record.bytes, record.length) == 0);
}

/* What was written is read back to the bit, a NaN too. */
static void is_read_back(const struct kind *kind) {
    is_read(kind);
    for (size_t i = 0; i < numbers_of(kind); i++)
        CHECK(bits_of(answered_numbers(kind->first_number + i)[0]) == bits_of(*kind->numbers[i]));
}

static void there_and_back(void) {
    for (size_t i = 0; i < 100000; i++) {
        const struct kind *kind = &kinds[i % (sizeof kinds / sizeof *kinds)];
        set_at_random(kind);
        is_read(kind);
        is_written(kind);
        is_read_back(kind);
    }
}

/* Document 01's loan, byte for byte. */
static void one_record(void) {
    static const uint8_t bytes[] = { 1, 0, 0, 0, 0, 0, 0xc0, 0x92, 0x40, 0, 0, 0, 0, 0, 0, 0, 0, 3, 0, 0, 0 };
    struct loan_parts loan = { 1, 1200, 0, 3, SENYOLANDA_LOAN_BYTES };
    desk.loan = loan;
    ACCEPTED(call_write_loan);
    CHECK(memcmp(answered_bytes(0), bytes, sizeof bytes) == 0);
}

/* A dated swap, byte for byte: 64 at 0.5, a tenor that nobody filled in, twice a year from 31 January 2023 to 29 February 2024. */
static void one_dated_record(void) {
    static const uint8_t bytes[] = { 5, 0, 0, 0, 0, 0, 0, 0x50, 0x40, 0, 0, 0, 0, 0, 0, 0xe0, 0x3f, 0, 0, 0, 0, 0, 0, 0xf8, 0x7f,
        2, 0, 0, 0, 0xe7, 0x07, 1, 31, 0xe8, 0x07, 2, 29, 2 };
    struct dated_parts dated = { 5, 64, 0.5, number_of_bits(0xfff0000000000001), 2, { 2023, 1, 31 }, { 2024, 2, 29 }, 2,
        SENYOLANDA_DATED_SWAP_BYTES };
    desk.dated = dated;
    desk.day_count = SENYOLANDA_THIRTY_360;
    ACCEPTED(call_write_dated_swap);
    CHECK(sizeof bytes == SENYOLANDA_DATED_SWAP_BYTES && memcmp(answered_bytes(0), bytes, sizeof bytes) == 0);
}

int main(int arguments, char **words) {
    open_tests("test_records", matrix, arguments, words);
    try_functions(functions);
    one_record();
    one_dated_record();
    there_and_back();
    tidy_desk();
    try_records(functions, damaged_record, 1000000);
    return close_checks();
}
