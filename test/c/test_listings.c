/* Listings: the rows that draws give, as text. */
#include "damaged.h"
#include "loans.h"

#include <float.h>
#include <inttypes.h>
#include <math.h>
#include <stdarg.h>
#include <stdio.h>
#include <string.h>

static const struct claim matrix[] = {
    /*              1 2 3 4 5 6 7 8 9 10 11 12 13 14 15 16 */
    CLAIM(listing, "1 2 . . . . . . . .. 11 .. .. .. .. .."),
    END_OF_MATRIX,
};

/* The answers: the size, then the text. */
enum { SIZE, TEXT };
static senyolanda_result call_listing(void) {
    struct lent_bytes loan = lend_loan();
    uint32_t *size = lend_count();
    uint8_t *text = lend(FOR_ANSWER, SENYOLANDA_LISTING_BYTES);
    return CALL(senyolanda_listing(loan.bytes, loan.length, text, size));
}

static const struct function functions[] = {
    { FUNCTION(listing), { loan_causes }, loan_deserved },
    END_OF_FUNCTIONS,
};

/* The text that is wanted, and its length; no zero byte belongs to it. */
static char wanted[SENYOLANDA_LISTING_BYTES + 1];
static size_t wanted_size;

static void want(const char *format, ...) {
    va_list values;
    va_start(values, format);
    wanted_size += (size_t)vsnprintf(wanted + wanted_size, sizeof wanted - wanted_size, format, values);
    va_end(values);
}

static void want_row(const double *row) {
    want("%.0f", row[0]);
    for (size_t i = 1; i < WIDTH; i++)
        want(" %016" PRIx64, isnan(row[i]) ? UINT64_C(0x7ff8000000000000) : bits_of(row[i]));
    want("\n");
}

/* Room for seven rows does not divide the portions of a listing. */
static void want_listing_of(const struct record *record) {
    double room[7 * WIDTH];
    struct senyolanda_loan loan;
    uint32_t written, owed = 1, rows = 0;
    wanted_size = 0;
    want("month payment principal interest balance\n");
    senyolanda_result result = senyolanda_loan_open(record->bytes, record->length, &loan);
    CHECK(result == 0);
    while (result == 0 && owed > 0) {
        result = senyolanda_loan_draw(&loan, room, 7 * WIDTH, &written, &owed);
        for (uint32_t row = 0; row < written; row++) want_row(room + row * WIDTH);
        rows += written;
    }
    want("rows %" PRIu32 " left %" PRIu32 "\n", rows, owed);
}

static void is_listing(void) {
    CHECK(answered_count(SIZE) == wanted_size);
    CHECK(memcmp(answered_bytes(TEXT), wanted, wanted_size) == 0);
    CHECK(answered_bytes_stay(TEXT, wanted_size));
}

static void lists(double principal, double rate, uint32_t term) {
    set_loan(principal, rate, term);
    struct record record = record_of_loan(&desk.loan);
    want_listing_of(&record);
    ACCEPTED(call_listing);
    is_listing();
}

/* Document 01's listing, byte by byte. */
static void document_01_listing(void) {
    wanted_size = 0;
    want(
        "month payment principal interest balance\n"
        "1 4079000000000000 4079000000000000 0000000000000000 4089000000000000\n"
        "2 4079000000000000 4079000000000000 0000000000000000 4079000000000000\n"
        "3 4079000000000000 4079000000000000 0000000000000000 0000000000000000\n"
        "rows 3 left 0\n");
    set_loan(1200, 0, 3);
    ACCEPTED(call_listing);
    is_listing();
}

static void whole_listings(void) {
    document_01_listing();
    lists(1200, 0, 3);
    lists(1000, 6, 1);
    lists(1000, 6, 2);
    lists(1000, NAN, 2);
    lists(1000, -INFINITY, 24);
    lists(-0.0, 0.05, 11);
    lists(DBL_MAX, 0.05, 12);
    lists(250000, 0.06, 13);
    lists(250000, 0.06, 360);
    lists(SMALLEST, 0.06, 999);
    lists(250000, 0.06, 1200);
    for (int i = 0; i < 200; i++) lists(random_below(8000000) / 8.0, random_number(), 1 + random_below(1200));
}

/* A listing lends so much memory that fewer records are tried with it. */
int main(int arguments, char **words) {
    open_tests("test_listings", matrix, arguments, words);
    try_functions(functions);
    whole_listings();
    tidy_desk();
    try_records(functions, damaged_record, 20000);
    return close_checks();
}
