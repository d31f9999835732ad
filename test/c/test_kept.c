/* The header's functions over the structs of interest-only, balloon and adjustable loans: they give what those over plain numbers
   give, and a refusal leaves the struct as it was. */
#include "functions.h"

#include <math.h>
#include <string.h>

static const struct claim matrix[] = { END_OF_MATRIX };

enum { MOST_PLACES = 14 * WIDTH };
static double room[MOST_PLACES], years[2 * YEAR_WIDTH];
static uint32_t written, owed;
static uint8_t row[SENYOLANDA_ROW_BYTES];
static struct senyolanda_year line;

static struct record loan_of(double principal, double rate, uint32_t term) {
    struct loan_parts parts = { 1, principal, rate, term, SENYOLANDA_LOAN_BYTES };
    return record_of_loan(&parts);
}

static void is_loan(
    const struct senyolanda_loan *loan, uint32_t term, uint32_t done, double rate, double payment, double balance) {
    CHECK(loan->term == term && loan->done == done);
    IS(loan->rate, rate);
    IS(loan->payment, payment);
    IS(loan->balance, balance);
}

static void is_row(size_t index, uint32_t month, double payment, double principal, double interest, double balance) {
    struct senyolanda_row found = senyolanda_row_at(room, index);
    CHECK(found.month == month);
    IS(found.payment, payment);
    IS(found.principal, principal);
    IS(found.interest, interest);
    IS(found.balance, balance);
}

static void is_year(double months, double interest, double principal, double balance) {
    IS(line.months, months);
    IS(line.interest, interest);
    IS(line.principal, principal);
    IS(line.balance, balance);
}

/* The record of the row that was written last. */
static void is_row_record(uint32_t month, double payment) {
    CHECK(row[0] == 3 && count_in(row + 1) == month);
    IS(number_in(row + 5), payment);
}

static int counted(uint32_t wanted, uint32_t left) {
    return written == wanted && owed == left;
}

/* Nothing of a kept loan changed in a call that was refused. */
#define STAYS(kept, before) CHECK(memcmp(&(kept), &(before), sizeof (kept)) == 0)

/* 1,000 at a half a month: a month of interest alone, then document 01's two months. */
static void interest_only_loans(void) {
    struct record record = loan_of(1000, 6, 3);
    struct senyolanda_interest_only kept, before;
    memset(&kept, 0x5a, sizeof kept);
    before = kept;
    CHECK(senyolanda_interest_only_open(record.bytes, record.length, 3, &kept) == refusal(SENYOLANDA_BAD_KIND, 0));
    CHECK(senyolanda_interest_only_open_with_payment(record.bytes, record.length, 0, 100, &kept) == refusal(16, 0));
    STAYS(kept, before);
    CHECK(senyolanda_interest_only_open_with_payment(record.bytes, record.length, 2, 100, &kept) == 0);
    is_loan(&kept.loan, 3, 0, 6, 100, 1000);
    CHECK(kept.months == 2);
    CHECK(senyolanda_interest_only_open(record.bytes, record.length, 1, &kept) == 0);
    is_loan(&kept.loan, 3, 0, 6, 900, 1000);
    CHECK(kept.months == 1);
    CHECK(senyolanda_interest_only_draw(&kept, room, WIDTH, &written, &owed) == 0);
    CHECK(counted(1, 2));
    is_row(0, 1, 500, 0, 500, 1000);
    CHECK(senyolanda_interest_only_next_row(&kept, row, &written, &owed) == 0);
    CHECK(counted(1, 1));
    is_row_record(2, 900);
    is_loan(&kept.loan, 3, 2, 6, 900, 600);
    before = kept;
    CHECK(senyolanda_interest_only_draw(&kept, room, WIDTH - 1, &written, &owed) == refusal(3, 0));
    STAYS(kept, before);
    CHECK(senyolanda_interest_only_open(record.bytes, record.length, 1, &kept) == 0);
    CHECK(senyolanda_interest_only_draw_with_years(&kept, room, MOST_PLACES, years, YEAR_WIDTH, &written, &owed) == 0);
    CHECK(counted(3, 0));
    CHECK(senyolanda_interest_only_year(&kept, years, YEAR_WIDTH, 1, &line) == 0);
    is_year(3, 1300, 1000, 0);
    CHECK(senyolanda_interest_only_year(&kept, years, YEAR_WIDTH, 2, &line) == refusal(14, 0));
    is_year(3, 1300, 1000, 0);
    kept.months = 3;
    before = kept;
    CHECK(senyolanda_interest_only_next_row(&kept, row, &written, &owed) == refusal(16, 0));
    CHECK(senyolanda_interest_only_draw_with_years(&kept, room, 0, years, YEAR_WIDTH, &written, &owed) == refusal(16, 0));
    STAYS(kept, before);
}

/* 1,400 at 0 over 14 months, all of it repaid in month 13. */
static void balloon_loans(void) {
    struct record record = loan_of(1400, 0, 14);
    struct senyolanda_balloon kept, before;
    memset(&kept, 0x5a, sizeof kept);
    before = kept;
    CHECK(senyolanda_balloon_open(record.bytes, record.length, 15, &kept) == refusal(SENYOLANDA_BAD_KIND, 0));
    CHECK(senyolanda_balloon_open_with_payment(record.bytes, record.length, 0, 50, &kept) == refusal(16, 0));
    STAYS(kept, before);
    CHECK(senyolanda_balloon_open_with_payment(record.bytes, record.length, 14, 50, &kept) == 0);
    is_loan(&kept.loan, 14, 0, 0, 50, 1400);
    CHECK(kept.month == 14);
    CHECK(senyolanda_balloon_open(record.bytes, record.length, 13, &kept) == 0);
    is_loan(&kept.loan, 14, 0, 0, 100, 1400);
    CHECK(kept.month == 13);
    CHECK(senyolanda_balloon_draw_with_years(&kept, room, WIDTH, years, 2 * YEAR_WIDTH - 1, &written, &owed) == refusal(3, 0));
    CHECK(senyolanda_balloon_draw_with_years(&kept, room, 12 * WIDTH, years, 2 * YEAR_WIDTH, &written, &owed) == 0);
    CHECK(counted(12, 1));
    CHECK(senyolanda_balloon_year(&kept, years, 2 * YEAR_WIDTH, 1, &line) == 0);
    is_year(12, 0, 1200, 200);
    CHECK(senyolanda_balloon_year(&kept, years, 2 * YEAR_WIDTH, 2, &line) == refusal(14, 0));
    is_year(12, 0, 1200, 200);
    before = kept;
    CHECK(senyolanda_balloon_next_row(&kept, row, &written, &owed) == 0);
    CHECK(counted(1, 0));
    is_row_record(13, 200);
    is_loan(&kept.loan, 14, 13, 0, 100, 0);
    kept = before;
    CHECK(senyolanda_balloon_draw(&kept, room, MOST_PLACES, &written, &owed) == 0);
    CHECK(counted(1, 0));
    is_row(0, 13, 200, 200, 0, 0);
    CHECK(senyolanda_balloon_draw(&kept, room, 0, &written, &owed) == 0);
    CHECK(counted(0, 0));

    /* Month 13 is past a balloon in month 12. */
    kept.month = 12;
    before = kept;
    CHECK(senyolanda_balloon_draw(&kept, room, MOST_PLACES, &written, &owed) == refusal(SENYOLANDA_PAST_THE_TERM, 0));
    CHECK(senyolanda_balloon_next_row(&kept, row, &written, &owed) == refusal(10, 0));
    CHECK(senyolanda_balloon_year(&kept, years, 2 * YEAR_WIDTH, 1, &line) == refusal(10, 0));
    STAYS(kept, before);
}

/* 1,400 over 14 months, twelve of them at 0 and two at a half a month. */
static void adjustable_loans(void) {
    static const double index[] = { 6, NAN }, bad[] = { NAN };
    struct record record = loan_of(1400, NAN, 14);
    struct senyolanda_adjustable kept, before;
    memset(&kept, 0x5a, sizeof kept);
    before = kept;
    CHECK(senyolanda_adjustable_open(record.bytes, record.length, 0, 6, -1, index, 1, &kept) == refusal(SENYOLANDA_BAD_KIND, 0));
    CHECK(senyolanda_adjustable_open(record.bytes, record.length, 0, 6, 9, NULL, 0, &kept) == refusal(16, 0));
    STAYS(kept, before);
    CHECK(senyolanda_adjustable_open(record.bytes, record.length, 0, 6, 9, index, 2, &kept) == 0);
    is_loan(&kept.loan, 14, 0, 0, 100, 1400);
    CHECK(kept.initial == 0 && kept.cap == 6 && kept.lifetime == 9);
    before = kept;
    CHECK(senyolanda_adjustable_draw(&kept, bad, 1, room, MOST_PLACES, &written, &owed) == refusal(16, 0));
    STAYS(kept, before);
    CHECK(senyolanda_adjustable_draw(&kept, index, 2, room, 13 * WIDTH, &written, &owed) == 0);
    CHECK(counted(13, 1));
    is_row(11, 12, 100, 100, 0, 200);
    is_row(12, 13, 180, 80, 100, 120);
    is_loan(&kept.loan, 14, 13, 6, 180, 120);
    CHECK(senyolanda_adjustable_next_row(&kept, index, 1, row, &written, &owed) == 0);
    CHECK(counted(1, 0));
    is_row_record(14, 180);
    kept = before;
    CHECK(senyolanda_adjustable_draw_with_years(&kept, index, 1, room, MOST_PLACES, years, 2 * YEAR_WIDTH, &written, &owed) == 0);
    CHECK(counted(14, 0));
    CHECK(senyolanda_adjustable_year(&kept, years, 2 * YEAR_WIDTH, 2, &line) == 0);
    is_year(2, 160, 200, 0);
    CHECK(senyolanda_adjustable_year(&kept, years, 2 * YEAR_WIDTH, 3, &line) == refusal(14, 0));

    /* Of a finished loan 16 is asked too. */
    before = kept;
    CHECK(senyolanda_adjustable_draw_with_years(&kept, bad, 1, room, 0, years, 2 * YEAR_WIDTH, &written, &owed) == refusal(16, 0));
    CHECK(senyolanda_adjustable_next_row(&kept, NULL, 0, row, &written, &owed) == refusal(16, 0));
    STAYS(kept, before);
    CHECK(counted(14, 0));
}

int main(int arguments, char **words) {
    open_tests("test_kept", matrix, arguments, words);
    interest_only_loans();
    balloon_loans();
    adjustable_loans();
    return close_checks();
}
