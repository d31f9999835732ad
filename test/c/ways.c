#include "ways.h"

#include "damaged.h"

#include <stdio.h>
#include <string.h>

enum { MOST_ROWS = SENYOLANDA_MOST_MONTHS };

static const struct kind *drawn;

/* The desk before the first draw; the rows by the kind's rule, that of month k at the index k - 1; the loan after so many months;
   and the lines after all of them. */
static struct desk untouched;
static double rows[MOST_ROWS][WIDTH];
static struct senyolanda_loan after[MOST_ROWS + 1];
static double lines[LINES * YEAR_WIDTH];

void describe_hand(void) {
    const struct loan_parts *terms = drawn != NULL ? drawn->terms : &desk.loan;
    fprintf(stderr, ": term %u, rate %.17g, payment %.17g, done %u, balance %.17g, %zu places, %zu year places",
        (unsigned)terms->term, terms->rate, desk.payment, (unsigned)desk.done, desk.balance, desk.places, desk.year_places);
    fprintf(stderr, ", only %u, balloon %u, initial %.17g, cap %.17g, lifetime %.17g, %zu entries", (unsigned)desk.only,
        (unsigned)desk.balloon, desk.initial, desk.cap, desk.lifetime, desk.index_count);
}

static uint32_t started_years(uint32_t months) {
    return (months + 11) / 12;
}

void set_hand(const struct kind *kind, double balance, double rate, double payment, uint32_t term, uint32_t done) {
    drawn = kind;
    kind->terms->rate = rate;
    kind->terms->term = term;
    desk.payment = payment;
    desk.done = done;
    desk.balance = balance;
    desk.places = WIDTH * MOST_ROWS;
    desk.year_places = YEAR_WIDTH * (size_t)started_years(term);
}

/* ---- what is due ---- */

/* Document 02's rule for a year's line. */
static void enter_row(double *years, const double *row) {
    uint32_t before = (uint32_t)row[0] - 1;
    double *line = years + YEAR_WIDTH * (size_t)(before / 12);
    if (before % 12 == 0) line[0] = line[1] = line[2] = line[3] = 0;
    line[0] += 1;
    line[1] += row[3];
    line[2] += row[2];
    line[3] = row[4];
}

static void work_rows_out(void) {
    struct senyolanda_loan loan = { drawn->terms->term, desk.done, drawn->terms->rate, desk.payment, desk.balance };
    after[loan.done] = loan;
    memcpy(lines, desk.years, sizeof lines);
    while (loan.done < drawn->end()) {
        double *row = rows[loan.done];
        drawn->work_row_out(&loan, row);
        after[loan.done] = loan;
        enter_row(lines, row);
    }
}

/* ---- draws ---- */

/* Takes over what the call handed back, which is the loan that was worked out; written plus owed is what was owed. */
static uint32_t move_on(void) {
    uint32_t written = answered_count(WRITTEN);
    struct senyolanda_loan loan = answered_loan(), wanted = after[desk.done + written];
    CHECK(written + answered_count(OWED) == drawn->end() - desk.done);
    CHECK(loan.done == wanted.done && loan.term == wanted.term);
    CHECK(same_number(loan.rate, wanted.rate) && same_number(loan.payment, wanted.payment));
    IS(loan.balance, wanted.balance);
    drawn->terms->rate = loan.rate;
    desk.payment = loan.payment;
    desk.done = loan.done;
    desk.balance = loan.balance;
    return written;
}

/* As many rows as the room holds and the loan owes, which are those worked out; places past them stay. */
static void is_portion(void) {
    uint32_t held = (uint32_t)(desk.places / WIDTH), due = drawn->end() - desk.done;
    const double *wanted = desk.done < MOST_ROWS ? rows[desk.done] : NULL;
    size_t numbers = WIDTH * (size_t)answered_count(WRITTEN);
    CHECK(answered_count(WRITTEN) == (held < due ? held : due));
    CHECK(numbers == 0 || same_numbers(answered_numbers(ROOM), wanted, numbers));
    CHECK(answered_numbers_stay(ROOM, numbers));
}

static void draw_portion(void) {
    ACCEPTED(drawn->draw);
    is_portion();
    move_on();
}

/* The lines of the years that the rows are in move on; every other place stays as it was lent, to the bit. */
static void draw_portion_with_years(void) {
    double wanted[LINES * YEAR_WIDTH];
    memcpy(wanted, desk.years, sizeof wanted);
    ACCEPTED(drawn->draw_with_years);
    is_portion();
    for (uint32_t i = 0; i < answered_count(WRITTEN); i++) enter_row(wanted, rows[desk.done + i]);
    CHECK(same_numbers(answered_numbers(YEARS), wanted, desk.year_places));
    CHECK(answered_numbers_stay(YEARS, YEAR_WIDTH * (size_t)started_years(desk.done + answered_count(WRITTEN))));
    memcpy(desk.years, answered_numbers(YEARS), desk.year_places * sizeof *desk.years);
    move_on();
}

/* Of the lines that the draws left: each year that they began is found, and no other. */
static void look_up_every_year(void) {
    desk.drawn = desk.done;
    for (desk.year = 0; desk.year <= started_years(drawn->terms->term) + 1; desk.year++) {
        if (desk.year == 0 || desk.year > started_years(desk.drawn)) {
            REFUSED(drawn->look_up_year, 14, 0);
            continue;
        }
        ACCEPTED(drawn->look_up_year);
        CHECK(same_numbers(answered_numbers(0), desk.years + YEAR_WIDTH * (size_t)(desk.year - 1), YEAR_WIDTH));
    }
}

/* Room for no row, and a place too few for the lines: refused, and nothing moves. */
static void draw_refused(void) {
    size_t places = desk.places, year_places = desk.year_places;
    desk.places = random_below(WIDTH);
    REFUSED(drawn->draw, 3, 0);
    REFUSED(drawn->draw_with_years, 3, 0);
    desk.places = places;
    desk.year_places = YEAR_WIDTH * (size_t)started_years(drawn->terms->term) - 1;
    REFUSED(drawn->draw_with_years, 3, 0);
    desk.year_places = year_places;
}

/* Draws until nothing is owed: as many draws as rows are enough. */
static void draw_by(void portion(void), size_t places) {
    uint32_t owed = drawn->end() - untouched.done, held = (uint32_t)(places / WIDTH), draws = 0;
    desk = untouched;
    desk.places = places;
    for (; desk.done < drawn->end() && draws < owed; draws++) portion();
    CHECK(draws == (owed + held - 1) / held);
    CHECK(desk.done == drawn->end());
}

static void draw_with_years_by(size_t places) {
    draw_by(draw_portion_with_years, places);
    CHECK(same_numbers(desk.years, lines, LINES * YEAR_WIDTH));
}

/* Portions of any size, with and without lines, and now and then a draw that is refused. */
static void draw_mixed(uint32_t most_rows) {
    desk = untouched;
    while (desk.done < drawn->end()) {
        uint32_t before = desk.done;
        if (random_below(4) == 0) draw_refused();
        desk.places = WIDTH + random_below(WIDTH * most_rows);
        if (random_below(2) == 0) draw_portion();
        else draw_portion_with_years();
        if (desk.done == before) break;
    }
    CHECK(desk.done == drawn->end());
}

static void draw_row_by_row(void) {
    desk = untouched;
    for (uint32_t month = desk.done + 1; month <= drawn->end(); month++) {
        ACCEPTED(drawn->next_row);
        const uint8_t *record = answered_bytes(ROOM);
        CHECK(record[0] == 3 && count_in(record + 1) == month);
        for (size_t i = 1; i < WIDTH; i++) IS(number_in(record + 8 * i - 3), rows[month - 1][i]);
        CHECK(move_on() == 1);
    }
}

/* A finished loan writes 0 and owes 0, whatever the room, and everything stays. */
static void stays(call *called) {
    ACCEPTED(called);
    CHECK(answered_count(WRITTEN) == 0 && answered_count(OWED) == 0);
    CHECK(answered_stays(COUNTS) && answered_stays(AMOUNTS) && answered_stays(ROOM));
}

static void draw_finished(void) {
    for (desk.places = 0; desk.places <= WIDTH; desk.places++) {
        stays(drawn->draw);
        stays(drawn->draw_with_years);
        CHECK(answered_stays(YEARS));
    }
    stays(drawn->next_row);
}

void draw_all_ways(const struct kind *kind, const uint32_t *portions, size_t count) {
    drawn = kind;
    untouched = desk;
    work_rows_out();
    draw_by(draw_portion, WIDTH * MOST_ROWS);
    draw_with_years_by(WIDTH * MOST_ROWS);
    look_up_every_year();
    for (size_t i = 0; i < count; i++) {
        draw_by(draw_portion, WIDTH * (size_t)portions[i] + portions[i] % WIDTH);
        draw_with_years_by(WIDTH * (size_t)portions[i] + i % WIDTH);
        draw_mixed(portions[i]);
    }
    draw_row_by_row();
    draw_finished();
    desk = untouched;
}

void draw_some_ways(const struct kind *kind) {
    static const uint32_t portions[] = { 1, 5, 12, 13 };
    draw_all_ways(kind, portions, sizeof portions / sizeof *portions);
}

/* ---- one loan ---- */

void open_into_hand(const struct kind *kind, call *open, double rate, double payment) {
    ACCEPTED(open);
    struct senyolanda_loan loan = answered_loan();
    CHECK(loan.term == kind->terms->term && loan.done == 0);
    IS(loan.rate, rate);
    IS(loan.payment, payment);
    IS(loan.balance, kind->terms->principal);
    set_hand(kind, loan.balance, loan.rate, loan.payment, loan.term, 0);
}

void draw_whole(const struct kind *kind) {
    ACCEPTED(kind->draw);
    CHECK(answered_count(WRITTEN) == kind->end() && answered_count(OWED) == 0);
    CHECK(answered_loan().done == kind->end());
}

void is_row(uint32_t month, double payment, double principal, double interest, double balance) {
    const double *row = answered_numbers(ROOM) + WIDTH * (size_t)(month - 1);
    IS(row[0], month);
    IS(row[1], payment);
    IS(row[2], principal);
    IS(row[3], interest);
    IS(row[4], balance);
}

void is_line(uint32_t year, double months, double interest, double principal, double balance) {
    const double *line = answered_numbers(YEARS) + YEAR_WIDTH * (size_t)(year - 1);
    IS(line[0], months);
    IS(line[1], interest);
    IS(line[2], principal);
    IS(line[3], balance);
}

const struct level_loan *draw_level(double principal, double rate, uint32_t term) {
    static struct level_loan loan;
    set_loan(principal, rate, term);
    ACCEPTED(call_open);
    loan.payment = answered_loan().payment;
    set_hand(&level, principal, rate, loan.payment, term, 0);
    ACCEPTED(call_draw_with_years);
    memcpy(loan.rows, answered_numbers(ROOM), sizeof *loan.rows * WIDTH * term);
    memcpy(loan.years, answered_numbers(YEARS), sizeof *loan.years * desk.year_places);
    return &loan;
}
