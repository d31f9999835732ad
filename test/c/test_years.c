/*
 * Year-end totals: a draw with lines gives what the plain draw gives and enters its rows into their years' lines, in portions as
 * in one draw. Lines that were made up are gone on with, all others stay, and after every draw every year is looked up.
 */
#include "damaged.h"
#include "loans.h"

#include <float.h>
#include <math.h>
#include <stdio.h>
#include <string.h>

static const struct claim matrix[] = {
    /*                      1 2 3 4 5 6 7 8 9 10 11 12 13 14 15 16 */
    CLAIM(draw_with_years, ". 2 3 . . . . . . 10 .. .. .. .. .. .."),
    CLAIM(look_up_year,    ". 2 3 . . . . . . 10 .. .. .. 14 .. .."),
    END_OF_MATRIX,
};

/* ---- causes ---- */

/* At rest all 12 months are drawn and year 1 is asked for. */
static const struct cause lookup_causes[] = {
    CAUSE(2, WHOLE(loan.term, 0)),
    CAUSE(2, WHOLE(loan.term, 1201)),
    CAUSE(2, WHOLE(loan.term, UINT32_MAX)),
    CAUSE(3, WHOLE(year_places, 0)),
    CAUSE(3, WHOLE(year_places, YEAR_WIDTH - 1)),
    CAUSE(3, WHOLE(year_places, 2 * YEAR_WIDTH - 1), WHOLE(loan.term, 13)),
    CAUSE(3, WHOLE(year_places, 100 * YEAR_WIDTH - 1), WHOLE(loan.term, 1200)),
    CAUSE(3, WHOLE(year_places, YEAR_WIDTH - 1), WHOLE(drawn, 13)),
    CAUSE(10, WHOLE(drawn, 13)),
    CAUSE(10, WHOLE(drawn, UINT32_MAX)),
    CAUSE(10, WHOLE(drawn, 2), WHOLE(loan.term, 1)),
    CAUSE(10, WHOLE(drawn, 1201), WHOLE(loan.term, 1200)),
    CAUSE(14, WHOLE(year, 0)),
    CAUSE(14, WHOLE(year, 2)),
    CAUSE(14, WHOLE(year, UINT32_MAX)),
    CAUSE(14, WHOLE(drawn, 0)),
    CAUSE(14, WHOLE(year, 2), WHOLE(drawn, 12), WHOLE(loan.term, 24)),
    CAUSE(14, WHOLE(year, 3), WHOLE(drawn, 24), WHOLE(loan.term, 1200)),
    CAUSE(14, WHOLE(year, 101), WHOLE(drawn, 1200), WHOLE(loan.term, 1200)),
    TAKEN(WHOLE(drawn, 1)),
    TAKEN(WHOLE(year, 2), WHOLE(drawn, 13), WHOLE(loan.term, 24)),
    TAKEN(WHOLE(year, 100), WHOLE(drawn, 1189), WHOLE(loan.term, 1200)),
    TAKEN(WHOLE(year_places, YEAR_WIDTH)),
    TAKEN(WHOLE(year_places, 2 * YEAR_WIDTH + 1), WHOLE(loan.term, 24)),
    TAKEN(NUMBER(years[0], NAN)),
    TAKEN(NUMBER(balance, NAN)),
    TAKEN(NUMBER(payment, -INFINITY)),
    TAKEN(NUMBER(loan.rate, NAN)),
    END_OF_CAUSES,
};

static const struct function functions[] = {
    { FUNCTION(draw_with_years), { state_causes, one_month_causes, room_causes, line_causes }, NULL },
    { FUNCTION(look_up_year), { lookup_causes }, NULL },
    END_OF_FUNCTIONS,
};

/* ---- what is being tried ---- */

static void describe_loan(void) {
    fprintf(stderr, ": term %u, rate %.17g, payment %.17g, done %u, balance %.17g, %zu places, %zu year places, year %u",
        (unsigned)desk.loan.term, desk.loan.rate, desk.payment, (unsigned)desk.done, desk.balance, desk.places, desk.year_places,
        (unsigned)desk.year);
}

/* ---- the loan in hand and its lines, from draw to draw ---- */

enum { MOST_ROWS = SENYOLANDA_MOST_MONTHS };

static uint32_t started_years(uint32_t months) {
    return (months + 11) / 12;
}

/* A loan that nobody need have opened, with room for all its rows and just the lines that its term wants. */
static void set_hand(double balance, double rate, double payment, uint32_t term, uint32_t done) {
    set_loan(balance, rate, term);
    desk.payment = payment;
    desk.balance = balance;
    desk.done = done;
    desk.places = WIDTH * MOST_ROWS;
    desk.year_places = YEAR_WIDTH * (size_t)started_years(term);
}

static void set_line(size_t index, double months, double interest, double principal, double balance) {
    double *line = desk.years + YEAR_WIDTH * index;
    line[0] = months;
    line[1] = interest;
    line[2] = principal;
    line[3] = balance;
}

/* Takes over what the last draw handed back. */
static void move_on(void) {
    struct senyolanda_loan loan = answered_loan();
    desk.done = loan.done;
    desk.balance = loan.balance;
    memcpy(desk.years, answered_numbers(YEARS), desk.year_places * sizeof *desk.years);
}

/* ---- lookups ---- */

/* A year that the months drawn have begun gives its line; 0 and every later one are refused with 14. */
static void look_up_year(void) {
    if (desk.year == 0 || desk.year > started_years(desk.drawn)) {
        REFUSED(call_look_up_year, 14, 0);
    } else {
        ACCEPTED(call_look_up_year);
        CHECK(same_numbers(answered_numbers(0), desk.years + YEAR_WIDTH * (size_t)(desk.year - 1), YEAR_WIDTH));
    }
}

static void look_up_every_year(void) {
    desk.drawn = desk.done;
    for (desk.year = 0; desk.year <= started_years(desk.loan.term) + 2; desk.year++) look_up_year();
}

/* ---- a draw beside the plain draw ---- */

/* What the plain draw gives, and the lines that its rows make of the desk's. */
static struct {
    struct senyolanda_loan loan;
    uint32_t written, owed;
    double rows[MOST_ROWS * WIDTH], years[LINES * YEAR_WIDTH];
} plain;

/* Document 02's rule for one row. */
static void enter_row(const double *row) {
    uint32_t before = (uint32_t)row[0] - 1;
    double *line = plain.years + YEAR_WIDTH * (size_t)(before / 12);
    if (before % 12 == 0) line[0] = line[1] = line[2] = line[3] = 0;
    line[0] += 1;
    line[1] += row[3];
    line[2] += row[2];
    line[3] = row[4];
}

static void draw_plain(void) {
    ACCEPTED(call_draw);
    plain.loan = answered_loan();
    plain.written = answered_count(WRITTEN);
    plain.owed = answered_count(OWED);
    memcpy(plain.rows, answered_numbers(ROOM), plain.written * WIDTH * sizeof *plain.rows);
    memcpy(plain.years, desk.years, sizeof plain.years);
    for (uint32_t i = 0; i < plain.written; i++) enter_row(plain.rows + WIDTH * (size_t)i);
}

/* The loan, the counts and the rows are those of the plain draw, and places past the rows stay. */
static void gives_what_plain_gives(void) {
    struct senyolanda_loan loan = answered_loan();
    size_t numbers = WIDTH * (size_t)plain.written;
    CHECK(answered_count(WRITTEN) == plain.written && answered_count(OWED) == plain.owed);
    CHECK(loan.term == plain.loan.term && loan.done == plain.loan.done);
    CHECK(same_number(loan.rate, plain.loan.rate) && same_number(loan.payment, plain.loan.payment));
    IS(loan.balance, plain.loan.balance);
    CHECK(same_numbers(answered_numbers(ROOM), plain.rows, numbers));
    CHECK(answered_numbers_stay(ROOM, numbers));
}

/* The lines of years with a row are those wanted; every place before and behind them is as it was lent, to the bit. */
static void enters_its_rows(void) {
    const double *years = answered_numbers(YEARS);
    size_t first = YEAR_WIDTH * (size_t)(desk.done / 12), end = YEAR_WIDTH * (size_t)started_years(plain.loan.done);
    if (plain.written == 0) first = end = 0;
    CHECK(memcmp(years, desk.years, first * sizeof *years) == 0);
    CHECK(same_numbers(years + first, plain.years + first, end - first));
    CHECK(answered_numbers_stay(YEARS, end));
}

static void draw_portion(void) {
    draw_plain();
    ACCEPTED(call_draw_with_years);
    gives_what_plain_gives();
    enters_its_rows();
    move_on();
    look_up_every_year();
}

/* Room for no row, and a place too few for the lines: what such a draw hands back is what it was handed. */
static void draw_refused(void) {
    size_t places = desk.places, year_places = desk.year_places;
    desk.places = random_below(WIDTH);
    REFUSED(call_draw_with_years, 3, 0);
    move_on();
    desk.places = places;
    desk.year_places = YEAR_WIDTH * (size_t)started_years(desk.loan.term) - 1;
    REFUSED(call_draw_with_years, 3, 0);
    move_on();
    desk.year_places = year_places;
}

/* ---- portions ---- */

/* The loan and its lines before the first draw. */
static struct desk untouched;

/* As many draws as months are enough. */
static void draw_in_portions(size_t places) {
    desk = untouched;
    desk.places = places;
    for (uint32_t draws = 0; desk.done < desk.loan.term && draws < desk.loan.term; draws++) draw_portion();
    CHECK(desk.done == desk.loan.term);
}

/* Rooms of any size, now and then with draws between that are refused. */
static void draw_mixed(uint32_t most_rows) {
    desk = untouched;
    for (uint32_t draws = 0; desk.done < desk.loan.term && draws < desk.loan.term; draws++) {
        if (random_below(3) == 0) draw_refused();
        desk.places = WIDTH + random_below(WIDTH * most_rows);
        draw_portion();
    }
    CHECK(desk.done == desk.loan.term);
}

/* The lines are those that one draw left. */
static void are_those_of_one_draw(const struct desk *one) {
    CHECK(same_numbers(desk.years, one->years, LINES * YEAR_WIDTH));
}

/* One draw; then portions of each size from the first to the last, with and without places that are too few for one row more, and
   mixed ones of up to that size. */
static void draw_all_ways(uint32_t first, uint32_t last) {
    static struct desk one;
    untouched = desk;
    draw_in_portions(WIDTH * MOST_ROWS);
    one = desk;
    for (uint32_t portion = first; portion <= last; portion++) {
        draw_in_portions(WIDTH * portion);
        are_those_of_one_draw(&one);
        draw_in_portions(WIDTH * portion + 1 + portion % (WIDTH - 1));
        are_those_of_one_draw(&one);
        draw_mixed(portion);
        are_those_of_one_draw(&one);
    }
}

/* What lines may hold that nobody drew. */
static const double odd[] = { NAN, INFINITY, -INFINITY, -0.0, DBL_MAX, -DBL_MAX, 0x1p-1074, 12 };
enum { ODD = sizeof odd / sizeof *odd };

static void make_up_lines(double number) {
    for (size_t i = 0; i < LINES * YEAR_WIDTH; i++) desk.years[i] = number;
}

/* Thirty months, two and a half years, in portions of every size; whatever the lines held before the first draw. */
static void thirty_months(void) {
    for (size_t i = 0; i < ODD; i++) {
        set_hand(250000, 0.065, 9104.25, 30, 0);
        make_up_lines(odd[i]);
        draw_all_ways(1, 30);
    }
}

/* Terms beside the ends of years, with no place more than their lines, and with places behind them that make no line, or one. */
static void ends_of_years(void) {
    static const uint32_t terms[] = { 1, 11, 12, 13, 24, 25, 1200 };
    static const size_t more[] = { 0, 1, YEAR_WIDTH - 1, YEAR_WIDTH, YEAR_WIDTH + 1 };
    for (size_t i = 0; i < sizeof terms / sizeof *terms; i++)
        for (size_t k = 0; k < sizeof more / sizeof *more; k++) {
            tidy_desk();
            set_hand(250000, 0.0425, 2500, terms[i], 0);
            desk.year_places += more[k];
            draw_all_ways(11, 13);
        }
}

/* ---- figures worked out by hand ---- */

static void is_line(size_t index, double months, double interest, double principal, double balance) {
    const double *line = answered_numbers(YEARS) + YEAR_WIDTH * index;
    IS(line[0], months);
    IS(line[1], interest);
    IS(line[2], principal);
    IS(line[3], balance);
}

static void figures(void) {
    set_hand(1200, 0, 40, 30, 0);
    ACCEPTED(call_draw_with_years);
    is_line(0, 12, 0, 480, 720);
    is_line(1, 12, 0, 480, 240);
    is_line(2, 6, 0, 240, 0);
    set_hand(1000, 6, 900, 2, 0);
    ACCEPTED(call_draw_with_years);
    is_line(0, 2, 800, 1000, 0);

    /* Each month's interest is an eighth of 800, which the payment just covers. */
    set_hand(800, 1.5, 100, 13, 0);
    ACCEPTED(call_draw_with_years);
    is_line(0, 12, 1200, 0, 800);
    is_line(1, 1, 100, 800, 0);
    set_hand(1000, NAN, NAN, 2, 0);
    ACCEPTED(call_draw_with_years);
    is_line(0, 2, NAN, 1000, 0);

    /* Sums start at +0, so that interest of -0 adds up to +0. */
    set_hand(1000, -0.0, 500, 2, 0);
    ACCEPTED(call_draw_with_years);
    IS(answered_numbers(ROOM)[3], -0.0);
    is_line(0, 2, 0, 1000, 0);

    /* From left to right: 2^53 takes in none of the three 1s behind it, where their sum would change it. */
    set_hand(0x1p53, 0, 1, 12, 1);
    set_line(0, 1, 0, 0x1p53, 0);
    desk.places = 3 * WIDTH;
    ACCEPTED(call_draw_with_years);
    is_line(0, 4, 0, 0x1p53, 0x1p53 - 3);
}

/* Months 7 to 12 of 24, which add to the line of year 1; then month 13, which begins year 2. */
static void goes_on(void) {
    set_hand(900, 0, 50, 24, 6);
    set_line(0, 6, 1, 300, 900);
    set_line(1, 5, 5, 5, 5);
    desk.places = 6 * WIDTH;
    ACCEPTED(call_draw_with_years);
    is_line(0, 12, 1, 600, 600);
    is_line(1, 5, 5, 5, 5);
    move_on();
    desk.places = WIDTH;
    ACCEPTED(call_draw_with_years);
    is_line(0, 12, 1, 600, 600);
    is_line(1, 1, 0, 50, 550);
}

/* A line that was made up is taken as it stands; the balance is the row's, in which NaN is raised to 0. */
static void goes_on_with_any_line(void) {
    set_hand(900, 0, 50, 24, 6);
    desk.places = WIDTH;
    set_line(0, NAN, INFINITY, -0.0, 7);
    ACCEPTED(call_draw_with_years);
    is_line(0, NAN, INFINITY, 50, 850);
    set_line(0, -0.0, -0.0, DBL_MAX, NAN);
    ACCEPTED(call_draw_with_years);
    is_line(0, 1, 0, DBL_MAX, 850);
    set_line(0, 0x1p53, -INFINITY, -DBL_MAX, -7);
    ACCEPTED(call_draw_with_years);
    is_line(0, 0x1p53, -INFINITY, -DBL_MAX, 850);
    desk.balance = NAN;
    ACCEPTED(call_draw_with_years);
    IS(answered_loan().balance, NAN);
    IS(answered_numbers(YEARS)[3], 0);
}

/* ---- how many lines are enough ---- */

static void are_too_few(size_t year_places) {
    desk.year_places = year_places;
    REFUSED(call_draw_with_years, 3, 0);
    REFUSED(call_look_up_year, 3, 0);
}

/* The lines that the term wants are enough with rows due, for a finished loan and past the term; a place fewer is not. */
static void wants_lines(uint32_t term, uint32_t done) {
    set_hand(1000, 0.06, 100, term, done);
    desk.drawn = done;
    desk.year = started_years(done);
    if (done > term) {
        REFUSED(call_draw_with_years, 10, 0);
        REFUSED(call_look_up_year, 10, 0);
    } else {
        ACCEPTED(call_draw_with_years);
        look_up_year();
    }
    are_too_few(desk.year_places - 1);
    are_too_few(0);
}

static void enough_lines(void) {
    static const uint32_t terms[] = { 1, 11, 12, 13, 23, 24, 25, 1188, 1189, 1199, 1200 };
    for (size_t i = 0; i < sizeof terms / sizeof *terms; i++) {
        const uint32_t done[] = { 0, 1, terms[i] / 2, terms[i] - 1, terms[i], terms[i] + 1, terms[i] + 13, UINT32_MAX };
        for (size_t k = 0; k < sizeof done / sizeof *done; k++) wants_lines(terms[i], done[k]);
    }
}

/* ---- states that nobody opened ---- */

/* A finished loan writes 0 and owes 0, whatever the room, and everything stays. */
static void finished_loans(void) {
    for (uint32_t term = 1; term <= 37; term++) {
        tidy_desk();
        set_hand(random_number(), random_number(), random_number(), term, term);
        for (desk.places = 0; desk.places <= WIDTH; desk.places++) {
            ACCEPTED(call_draw_with_years);
            CHECK(answered_count(WRITTEN) == 0 && answered_count(OWED) == 0);
            CHECK(answered_stays(COUNTS) && answered_stays(AMOUNTS) && answered_stays(ROOM) && answered_stays(YEARS));
        }
        look_up_every_year();
    }
}

/* Any months done, any numbers in the loan and in its lines. */
static void made_up_loans(void) {
    for (int i = 0; i < 2000; i++) {
        uint32_t term = 1 + random_below(60), done = random_below(term + 1);
        set_hand(random_number(), random_number(), random_number(), term, done);
        desk.year_places += random_below(2 * YEAR_WIDTH);
        for (size_t k = 0; k < LINES * YEAR_WIDTH; k++) desk.years[k] = random_number();
        untouched = desk;
        draw_mixed(1 + random_below(30));
    }
}

int main(int arguments, char **words) {
    open_tests("test_years", matrix, arguments, words);
    try_functions(functions);
    trying(describe_loan);
    figures();
    goes_on();
    goes_on_with_any_line();
    thirty_months();
    ends_of_years();
    enough_lines();
    finished_loans();
    made_up_loans();
    return close_checks();
}
