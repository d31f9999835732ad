/*
 * What the header adds of its own: its version, numbers and words of refusals, and functions over structs, which give what those
 * over plain numbers give; and what its sentences say of units and of edges, where no other program asks.
 */
#include "functions.h"

#include <math.h>
#include <stdio.h>
#include <string.h>

static const struct claim matrix[] = { END_OF_MATRIX };

/* The string has the three numbers, and a later version is a larger number. */
static void version(void) {
    char words[40];
    snprintf(words, sizeof words, "%d.%d.%d", SENYOLANDA_VERSION_MAJOR, SENYOLANDA_VERSION_MINOR, SENYOLANDA_VERSION_PATCH);
    CHECK(strcmp(words, SENYOLANDA_VERSION) == 0);
    CHECK(SENYOLANDA_VERSION_NUMBER
        == SENYOLANDA_VERSION_OF(SENYOLANDA_VERSION_MAJOR, SENYOLANDA_VERSION_MINOR, SENYOLANDA_VERSION_PATCH));
    CHECK(SENYOLANDA_VERSION_OF(1, 2, 3) < SENYOLANDA_VERSION_OF(1, 2, 4));
    CHECK(SENYOLANDA_VERSION_OF(1, 2, 999) < SENYOLANDA_VERSION_OF(1, 3, 0));
    CHECK(SENYOLANDA_VERSION_OF(1, 999, 999) < SENYOLANDA_VERSION_OF(2, 0, 0));
}

static void results(void) {
    senyolanda_result result = refusal(SENYOLANDA_BAD_KNOT, UINT32_MAX);
    CHECK(senyolanda_number(result) == 6);
    CHECK(senyolanda_place(result) == UINT32_MAX);
    CHECK(senyolanda_number(0) == SENYOLANDA_ACCEPTED);
}

/* The numbers of documents 01 and 02, in their order, each with words of its own. */
static void refusals(void) {
    static const enum senyolanda_refusal numbers[] = { SENYOLANDA_ACCEPTED, SENYOLANDA_BAD_AMOUNT, SENYOLANDA_BAD_TERM,
        SENYOLANDA_NO_ROOM, SENYOLANDA_UNEQUAL_LISTS, SENYOLANDA_BAD_KNOT_COUNT, SENYOLANDA_BAD_KNOT, SENYOLANDA_BAD_TIME,
        SENYOLANDA_BAD_FREQUENCY, SENYOLANDA_BAD_NUMBER, SENYOLANDA_PAST_THE_TERM, SENYOLANDA_BAD_RECORD, SENYOLANDA_NO_YIELD,
        SENYOLANDA_NO_BREAK_EVEN, SENYOLANDA_NO_ROW_DRAWN, SENYOLANDA_BAD_DATE, SENYOLANDA_BAD_KIND };
    for (uint32_t i = 0; i < 17; i++) {
        CHECK((uint32_t)numbers[i] == i);
        for (uint32_t j = 0; j <= 17; j++)
            CHECK((strcmp(senyolanda_refusal_text(i), senyolanda_refusal_text(j)) == 0) == (i == j));
    }
    CHECK(strcmp(senyolanda_refusal_text(17), senyolanda_refusal_text(UINT32_MAX)) == 0);
}

static void numbers(void) {
    IS(senyolanda_exp_of(0), 1);
    IS(senyolanda_ln_of(0), -INFINITY);
    IS(senyolanda_power_of(2, -3), 0.125);
}

/* Document 01's loan of 1,000 at rate 6 over two months, drawn row by row. */
static struct record loan_record(void) {
    struct loan_parts parts = { 1, 1000, 6, 2, SENYOLANDA_LOAN_BYTES };
    return record_of_loan(&parts);
}

static void is_loan(const struct senyolanda_loan *loan, uint32_t done, double payment, double balance) {
    CHECK(loan->term == 2);
    CHECK(loan->done == done);
    IS(loan->rate, 6);
    IS(loan->payment, payment);
    IS(loan->balance, balance);
}

static void is_row(const double *room, uint32_t month, double principal, double interest, double balance) {
    struct senyolanda_row row = senyolanda_row_at(room, 0);
    CHECK(row.month == month);
    IS(row.payment, 900);
    IS(row.principal, principal);
    IS(row.interest, interest);
    IS(row.balance, balance);
}

static void loans(void) {
    struct record record = loan_record();
    struct senyolanda_loan loan;
    double room[WIDTH];
    uint32_t written, owed;
    CHECK(senyolanda_loan_open(record.bytes, record.length, &loan) == 0);
    is_loan(&loan, 0, 900, 1000);
    CHECK(senyolanda_loan_draw(&loan, room, WIDTH, &written, &owed) == 0);
    CHECK(written == 1 && owed == 1);
    is_row(room, 1, 400, 500, 600);
    CHECK(senyolanda_loan_draw(&loan, room, WIDTH, &written, &owed) == 0);
    CHECK(written == 1 && owed == 0);
    is_row(room, 2, 600, 300, 0);
    is_loan(&loan, 2, 900, 0);
    CHECK(senyolanda_loan_open_with_payment(record.bytes, record.length, 700, &loan) == 0);
    is_loan(&loan, 0, 700, 1000);
}

static void next_row(void) {
    struct record record = loan_record();
    struct senyolanda_loan loan;
    uint8_t row[SENYOLANDA_ROW_BYTES];
    uint32_t written, owed;
    CHECK(senyolanda_loan_open(record.bytes, record.length, &loan) == 0);
    CHECK(senyolanda_loan_next_row(&loan, row, &written, &owed) == 0);
    CHECK(written == 1 && owed == 1 && row[0] == 3 && count_in(row + 1) == 1);
    is_loan(&loan, 1, 900, 600);
}

/* Rows of a full room stand one after the other. */
static void rows(void) {
    double room[3 * WIDTH];
    for (size_t i = 0; i < 3 * WIDTH; i++) room[i] = (double)i;
    for (size_t i = 0; i < 3; i++) {
        struct senyolanda_row row = senyolanda_row_at(room, i);
        CHECK(row.month == WIDTH * i);
        IS(row.payment, room[WIDTH * i + 1]);
        IS(row.principal, room[WIDTH * i + 2]);
        IS(row.interest, room[WIDTH * i + 3]);
        IS(row.balance, room[WIDTH * i + 4]);
    }
}

/* The years that so many months start; the longest term has lines enough where any loan has. */
static void started_years(void) {
    static const uint32_t months[] = { 0, 1, 11, 12, 13, 24, 25 }, wanted[] = { 0, 1, 1, 1, 2, 2, 3 };
    for (size_t i = 0; i < 7; i++) CHECK(SENYOLANDA_STARTED_YEARS(months[i]) == wanted[i]);
    CHECK(SENYOLANDA_STARTED_YEARS(5 + 8) == 2);
    CHECK(SENYOLANDA_STARTED_YEARS(SENYOLANDA_MOST_MONTHS) == SENYOLANDA_MOST_YEARS);
}

static void is_year(struct senyolanda_year year, double months, double interest, double principal, double balance) {
    IS(year.months, months);
    IS(year.interest, interest);
    IS(year.principal, principal);
    IS(year.balance, balance);
}

/* 13 months whose payments just cover the interest, an eighth of 800: drawn up to the first year's end, then the rest. */
static void years(void) {
    double room[12 * WIDTH], years[SENYOLANDA_STARTED_YEARS(13) * YEAR_WIDTH];
    for (size_t i = 0; i < 2 * YEAR_WIDTH; i++) years[i] = NAN;
    struct senyolanda_loan loan = { 13, 0, 1.5, 100, 800 }, before = loan;
    struct senyolanda_year line = { 1, 2, 3, 4 };
    uint32_t written = 9, owed = 9;
    CHECK(senyolanda_loan_draw_with_years(&loan, room, 12 * WIDTH, years, 2 * YEAR_WIDTH - 1, &written, &owed) == refusal(3, 0));
    CHECK(memcmp(&loan, &before, sizeof loan) == 0 && written == 9 && owed == 9);
    CHECK(senyolanda_loan_draw_with_years(&loan, room, 12 * WIDTH, years, 2 * YEAR_WIDTH, &written, &owed) == 0);
    CHECK(loan.done == 12 && written == 12 && owed == 1);
    CHECK(senyolanda_loan_year(&loan, years, 2 * YEAR_WIDTH, 2, &line) == refusal(SENYOLANDA_NO_ROW_DRAWN, 0));
    is_year(line, 1, 2, 3, 4);
    CHECK(senyolanda_loan_draw_with_years(&loan, room, 12 * WIDTH, years, 2 * YEAR_WIDTH, &written, &owed) == 0);
    CHECK(loan.done == 13 && written == 1 && owed == 0);
    CHECK(senyolanda_loan_year(&loan, years, 2 * YEAR_WIDTH, 1, &line) == 0);
    is_year(line, 12, 1200, 0, 800);
    CHECK(senyolanda_loan_year(&loan, years, 2 * YEAR_WIDTH, 2, &line) == 0);
    is_year(line, 1, 100, 800, 0);
    is_year(senyolanda_year_at(years, 0), 12, 1200, 0, 800);
    is_year(senyolanda_year_at(years, 1), 1, 100, 800, 0);
}

/* 200 undiscounted; the count is in flows. */
static void flows(void) {
    static const struct senyolanda_cash_flow flows[] = { { 0.5, 25 }, { 1, 25 }, { 1.5, 25 }, { 2, 125 }, { NAN, NAN } };
    static const double tenors[] = { 1 }, rates[] = { 0 };
    double pv = 0, points = 0, sensitivity[2];
    uint32_t found = 0;
    CHECK(senyolanda_flows_pv(flows, 4, tenors, 1, rates, 1, 0, &pv) == 0);
    IS(pv, 200);
    CHECK(senyolanda_flows_z_spread(flows, 4, tenors, 1, rates, 1, 200, &points, &found) == 0);
    IS_NEAR(points, 0, 1e-6);
    CHECK(found == 1);
    CHECK(senyolanda_flows_duration_convexity(flows, 4, tenors, 1, rates, 1, 0, sensitivity) == 0);
    IS(sensitivity[0], 1.625);
    IS(sensitivity[1], 2.9375);
    CHECK(senyolanda_flows_pv(flows, 5, tenors, 1, rates, 1, 0, &pv) == refusal(7, 4));
    IS(pv, 200);
}

/* A loan's payment column is its payment, also where less is owed; interest that it does not cover is not owed later. */
static void payments(void) {
    struct record record = loan_record();
    struct senyolanda_loan loan;
    double room[2 * WIDTH];
    uint32_t written, owed;
    CHECK(senyolanda_loan_open_with_payment(record.bytes, record.length, 4000, &loan) == 0);
    CHECK(senyolanda_loan_draw(&loan, room, 2 * WIDTH, &written, &owed) == 0);
    IS(senyolanda_row_at(room, 0).payment, 4000);
    IS(senyolanda_row_at(room, 0).principal, 1000);
    CHECK(senyolanda_loan_open_with_payment(record.bytes, record.length, 100, &loan) == 0);
    CHECK(senyolanda_loan_draw(&loan, room, 2 * WIDTH, &written, &owed) == 0);
    IS(senyolanda_row_at(room, 0).interest, 500);
    IS(senyolanda_row_at(room, 0).balance, 1000);
}

/* A loan that was cut is the one at index finished, and starts again when the book goes on from there. */
static void book(void) {
    uint8_t records[2 * SENYOLANDA_LOAN_BYTES];
    double room[3 * WIDTH], rest[2 * WIDTH];
    uint32_t answers[2], finished = 9, cut = 9, waiting = 9;
    senyolanda_write_loan(1000, 6, 2, records);
    senyolanda_write_loan(1000, 0, 2, records + SENYOLANDA_LOAN_BYTES);
    CHECK(senyolanda_draw_book(records, sizeof records, answers, 2, room, 3 * WIDTH, &finished, &cut, &waiting) == 0);
    CHECK(finished == 1 && cut == 1 && waiting == 0);
    CHECK(senyolanda_draw_book(records + finished * SENYOLANDA_LOAN_BYTES, sizeof records - finished * SENYOLANDA_LOAN_BYTES,
        answers, 1, rest, 2 * WIDTH, &finished, &cut, &waiting) == 0);
    CHECK(finished == 1 && cut == 0 && waiting == 0);
    CHECK(memcmp(rest, room + 2 * WIDTH, sizeof *rest * WIDTH) == 0);
}

/* The worked-out payment at a rate of 0, at one that 1 does not feel, and at one whose power overflows. */
static void worked_out(void) {
    static const double rates[] = { 0, 1e-15, 12 }, wanted[] = { 1, 1, NAN };
    uint8_t loan[SENYOLANDA_LOAN_BYTES];
    for (size_t i = 0; i < 3; i++) {
        double payment = 0;
        senyolanda_write_loan(1200, rates[i], SENYOLANDA_MOST_MONTHS, loan);
        CHECK(senyolanda_monthly_payment(loan, sizeof loan, &payment) == 0);
        IS(payment, wanted[i]);
    }
}

static void savings(void) {
    struct record record = loan_record();
    uint32_t months = 9;
    double interest = 9;
    CHECK(senyolanda_prepayment_savings(record.bytes, record.length, -1, &months, &interest) == 0);
    CHECK(months == 0);
    IS(interest, 0);
    CHECK(senyolanda_prepayment_savings(record.bytes, record.length, NAN, &months, &interest) == 0);
    CHECK(months == 1);
    IS(interest, 300);
}

/* A part of the price for a basis point, and for a change of the yield; no amounts. */
static void bond_units(void) {
    uint8_t bond[SENYOLANDA_BOND_BYTES];
    double price = 0, higher = 0, dv01 = 0, duration = 0, change = 0, ytm = 0;
    CHECK(senyolanda_write_bond(1000, 0.05, 10, SENYOLANDA_SEMI_ANNUAL, bond) == 0);
    CHECK(senyolanda_bond_price(bond, sizeof bond, 0.05, &price) == 0);
    CHECK(senyolanda_bond_price(bond, sizeof bond, 0.051, &higher) == 0);
    CHECK(senyolanda_bond_dv01(bond, sizeof bond, 0.05, &dv01) == 0);
    CHECK(senyolanda_bond_modified_duration(bond, sizeof bond, 0.05, &duration) == 0);
    IS_NEAR(dv01 / price, 0.0001 * duration, 1e-6);
    CHECK(senyolanda_bond_price_change(bond, sizeof bond, 0.05, 0.001, &change) == 0);
    IS_NEAR(change, (higher - price) / price, 1e-6);
    CHECK(change < 0);

    /* At a yield of 0 it pays 1,500, and that yield is not found. */
    CHECK(senyolanda_bond_price(bond, sizeof bond, 0, &price) == 0);
    IS(price, 1500);
    CHECK(senyolanda_bond_yield_to_maturity(bond, sizeof bond, 1500, &ytm) == refusal(SENYOLANDA_NO_YIELD, 0));

    /* Less than half a period, which is a quarter of a year: the face, at every yield. */
    CHECK(senyolanda_write_bond(1000, 0.05, 0.24, SENYOLANDA_SEMI_ANNUAL, bond) == 0);
    CHECK(senyolanda_bond_price(bond, sizeof bond, 0.3, &price) == 0);
    IS(price, 1000);
    CHECK(senyolanda_bond_modified_duration(bond, sizeof bond, 0.3, &duration) == 0);
    IS(duration, 0);
    CHECK(senyolanda_bond_yield_to_maturity(bond, sizeof bond, 1000, &ytm) == 0);
    IS(ytm, 0.999);
}

/* The pool's months at a history that ends; all together they may pay more than was lent. */
static void pool_months(void) {
    static const double history[] = { 0.5, 0.5 };
    uint8_t loan[SENYOLANDA_LOAN_BYTES];
    double room[4 * SENYOLANDA_POOL_MONTH_PLACES], duration = 0, price = 0, higher = 0, smm = 9;
    uint32_t months = 0;
    senyolanda_write_loan(1200, 0, 4, loan);
    CHECK(senyolanda_pool_cash_flows(loan, sizeof loan, SENYOLANDA_HISTORY, 9, history, 2, room, 12, &months) == 0);
    CHECK(months == 4);
    IS(room[2], 450);
    IS(room[5], 300);
    IS(room[8], 0);
    CHECK(senyolanda_pool_price(loan, sizeof loan, SENYOLANDA_HISTORY, 9, history, 2, 0, &price) == 0);
    IS(price, 1950);
    CHECK(senyolanda_pool_price(loan, sizeof loan, SENYOLANDA_HISTORY, 9, history, 2, 0.0001, &higher) == 0);
    CHECK(senyolanda_pool_duration(loan, sizeof loan, SENYOLANDA_HISTORY, 9, history, 2, 0, &duration) == 0);
    IS_NEAR((price - higher) / price, 0.0001 * duration, 1e-8);
    CHECK(senyolanda_monthly_smm(SENYOLANDA_PSA, 1, NULL, 0, 0, &smm) == 0);
    IS(smm, 0);
    CHECK(senyolanda_monthly_smm(SENYOLANDA_CPR, 1.5, NULL, 0, 1, &smm) == 0);
    CHECK(isnan(smm));
    CHECK(senyolanda_pool_cash_flows(NULL, 0, SENYOLANDA_CPR, 0.06, NULL, 0, NULL, 0, &months) == 0);
    CHECK(months == 0);
}

/* What points cannot tell, what no rate serves, and what has no period. */
static void curve_edges(void) {
    static const double times[] = { 1, 2, 3 }, rates[] = { 0.05, 0.06, 0.065 }, par[] = { -2, 1e9 };
    static const double late[] = { 20, 25, 30 };
    double model[4], zeros[SENYOLANDA_MOST_KNOTS], rate = 0;
    uint8_t swap[SENYOLANDA_SWAP_BYTES];
    CHECK(senyolanda_nelson_siegel_fit(times, 1, rates, 1, model) == 0);
    CHECK(model[0] == 0.05 && model[1] == 0 && model[2] == 0 && model[3] == 0.5);
    CHECK(senyolanda_nelson_siegel_fit(times, 2, rates, 2, model) == 0);
    CHECK(model[0] == 0 && model[1] == 0 && model[2] == 0 && model[3] == 0.5);
    CHECK(senyolanda_nelson_siegel_fit(late, 3, rates, 3, model) == 0);
    CHECK(model[0] == 0 && model[1] == 0 && model[2] == 0);
    CHECK(senyolanda_nelson_siegel_fit(times, 3, rates, 3, model) == 0);
    CHECK(model[0] != 0 && model[1] != 0 && model[2] != 0);
    CHECK(senyolanda_bootstrap(times, 1, par, 1, zeros) == 0);
    CHECK(isnan(zeros[0]));
    CHECK(senyolanda_bootstrap(times, 1, par + 1, 1, zeros) == 0);
    IS(zeros[0], senyolanda_ln_of(1 + 1e9));
    CHECK(senyolanda_write_swap(1000, 0.05, 0.2, 2, SENYOLANDA_ACTUAL_365, swap) == 0);
    CHECK(senyolanda_par_swap_rate(swap, sizeof swap, times, 3, rates, 3, &rate) == 0);
    CHECK(!isfinite(rate));
}

/* A swap's dv01 is for a rise of every zero rate: who receives fixed loses. */
static void swap_signs(void) {
    static const double tenors[] = { 1 }, zeros[] = { 0.03 }, higher[] = { 0.0301 };
    uint8_t swap[SENYOLANDA_SWAP_BYTES];
    double npv = 0, risen = 0, dv01 = 0;
    CHECK(senyolanda_write_swap(1000, 0.05, 5, 1, SENYOLANDA_ACTUAL_365, swap) == 0);
    for (uint32_t receives = 0; receives < 3; receives++) {
        CHECK(senyolanda_swap_npv(swap, sizeof swap, tenors, 1, zeros, 1, receives, &npv) == 0);
        CHECK(senyolanda_swap_npv(swap, sizeof swap, tenors, 1, higher, 1, receives, &risen) == 0);
        CHECK(senyolanda_swap_dv01(swap, sizeof swap, tenors, 1, zeros, 1, receives, &dv01) == 0);
        IS_NEAR(dv01, risen - npv, 1e-9);
        CHECK((npv > 0) == (receives != 0) && (dv01 < 0) == (receives != 0));
    }
}

/* 31 January is followed by 28 February and then by 31 March: periods are counted from the first date. */
static void periods_of_months(void) {
    static const uint32_t wanted[3][SENYOLANDA_DATE_NUMBERS] = { { 2023, 1, 31 }, { 2023, 2, 28 }, { 2023, 3, 31 } };
    uint32_t date[SENYOLANDA_DATE_NUMBERS];
    for (uint32_t i = 0; i < 3; i++) {
        CHECK(senyolanda_months_later(2023, 1, 31, i, date) == 0);
        CHECK(memcmp(date, wanted[i], sizeof date) == 0);
    }
    CHECK(senyolanda_months_later(2199, 12, 31, 1, date) == refusal(SENYOLANDA_BAD_DATE, 0));
    CHECK(memcmp(date, wanted[2], sizeof date) == 0);
}

/* From March 1900 on a day's number is the spreadsheets', in which 29 February 1900 has one too. */
static void spreadsheet_numbers(void) {
    uint32_t number = 0;
    CHECK(senyolanda_day_number(1900, 1, 1, &number) == 0 && number == 2);
    CHECK(senyolanda_day_number(1900, 3, 1, &number) == 0 && number == 61);
    CHECK(senyolanda_day_number(2023, 1, 31, &number) == 0 && number == 44957);
    CHECK(senyolanda_day_number(2199, 12, 31, &number) == 0 && number == 109574);
}

/* The two rules for 30/360: half a year from 31 August is 183 days over 360 without dates, and 179 days over 360 with them. */
static void two_rules(void) {
    static const double tenors[] = { 1 }, zeros[] = { 0 };
    uint8_t undated[SENYOLANDA_SWAP_BYTES], dated[SENYOLANDA_DATED_SWAP_BYTES];
    double pv = 0;
    CHECK(senyolanda_write_swap(360, 1, 0.5, 2, SENYOLANDA_THIRTY_360, undated) == 0);
    CHECK(senyolanda_fixed_leg_pv(undated, sizeof undated, tenors, 1, zeros, 1, &pv) == 0);
    IS_NEAR(pv, 360 + 183, 1e-9);
    CHECK(senyolanda_write_dated_swap(360, 1, NAN, 2, 2023, 8, 31, 2024, 2, 29, SENYOLANDA_THIRTY_360, dated) == 0);
    CHECK(senyolanda_dated_fixed_leg_pv(dated, sizeof dated, tenors, 1, zeros, 1, &pv) == 0);
    IS_NEAR(pv, 360 + 179, 1e-9);
}

/* From a 30th to the 31st no day is counted by 30/360: there is nothing to divide by. */
static void no_counted_day(void) {
    static const double tenors[] = { 1 }, zeros[] = { 0.03, 0 };
    uint8_t swap[SENYOLANDA_DATED_SWAP_BYTES];
    double rate = 0;
    CHECK(senyolanda_write_dated_swap(360, 1, 0, 2, 2023, 1, 30, 2023, 1, 31, SENYOLANDA_THIRTY_360, swap) == 0);
    CHECK(senyolanda_dated_par_swap_rate(swap, sizeof swap, tenors, 1, zeros, 1, &rate) == 0);
    IS(rate, INFINITY);
    CHECK(senyolanda_dated_par_swap_rate(swap, sizeof swap, tenors, 1, zeros + 1, 1, &rate) == 0);
    IS(rate, NAN);
}

int main(int arguments, char **words) {
    open_tests("test_header", matrix, arguments, words);
    version();
    results();
    refusals();
    numbers();
    loans();
    next_row();
    rows();
    started_years();
    years();
    flows();
    payments();
    book();
    worked_out();
    savings();
    bond_units();
    pool_months();
    curve_edges();
    swap_signs();
    periods_of_months();
    spreadsheet_numbers();
    two_rules();
    no_counted_day();
    return close_checks();
}
