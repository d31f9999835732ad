#include "lines.h"

#include "command.h"

#include <string.h>

/* ---- lines, and their cells as text ---- */

enum { COLUMNS = 5 };

static const char *const row_names[COLUMNS] = {"month", "payment", "principal", "interest", "balance"};
static const char *const year_names[COLUMNS] = {"year", "months", "interest", "principal", "balance"};

/* What stands in front, and four cells behind it: amounts, but that the first of them may be a whole number or empty. */
struct line {
    const char *word;   /* null where there is none */
    uint32_t number;    /* behind the word; 0 where there is none */
    enum { AMOUNT, WHOLE, EMPTY } first;
    double cells[COLUMNS - 1];
    const double *rate;   /* of an adjustable loan's year, for tables; null for every other line */
};

/* A statement that is being written, and how wide the columns of its table are. */
struct statement {
    const struct schedule *schedule;
    const struct layout *layout;
    size_t width[COLUMNS];
};

static const char *const *names_of(const struct layout *layout) {
    return layout->rows ? row_names : year_names;
}

static char *put_front(char *at, const struct line *line) {
    if (line->word != NULL) at = put_text(at, line->word);
    return line->number == 0 ? at : put_whole(at, line->number);
}

static char *put_cell(char *at, const struct line *line, int column, enum form form) {
    if (column == 0) return put_front(at, line);
    const double cell = line->cells[column - 1];
    if (column > 1 || line->first == AMOUNT) return put_amount(at, cell, form);
    return line->first == WHOLE ? put_whole(at, (uint64_t)cell) : at;
}

/* ---- the lines of a statement ---- */

static struct line row_line(const struct schedule *schedule, uint32_t index) {
    const struct senyolanda_row row = senyolanda_row_at(schedule->rows, index);
    const struct line line = {NULL, row.month, AMOUNT, {row.payment, row.principal, row.interest, row.balance}, NULL};
    return line;
}

/* Null where a year has the rate of all. */
static const double *rate_of_year(const struct schedule *schedule, uint32_t index) {
    return schedule->kind->name == ADJUSTABLE ? &schedule->rates[index] : NULL;
}

static struct line year_line(const struct schedule *schedule, uint32_t index) {
    const struct senyolanda_year year = senyolanda_year_at(schedule->years, index);
    const double *rate = rate_of_year(schedule, index);
    const struct line line = {NULL, index + 1, WHOLE, {year.months, year.interest, year.principal, year.balance}, rate};
    return line;
}

/* A year's line in the columns of the rows above it: what is paid in a year is not among its numbers. */
static struct line year_line_under_rows(const struct schedule *schedule, uint32_t index) {
    const struct senyolanda_year year = senyolanda_year_at(schedule->years, index);
    const double *rate = rate_of_year(schedule, index);
    const struct line line = {"year ", index + 1, EMPTY, {0, year.principal, year.interest, year.balance}, rate};
    return line;
}

static struct line total_line(const struct senyolanda_row *total, const struct layout *layout) {
    const struct line under_rows = {
        "total", 0, AMOUNT, {total->payment, total->principal, total->interest, total->balance}, NULL};
    const struct line under_years = {
        "total", 0, WHOLE, {total->month, total->interest, total->principal, total->balance}, NULL};
    return layout->rows ? under_rows : under_years;
}

typedef void take_line(struct statement *statement, const struct line *line);

static void take_row(struct statement *statement, uint32_t index, take_line *take) {
    const struct line line = row_line(statement->schedule, index);
    take(statement, &line);
}

static void take_year(struct statement *statement, uint32_t index, take_line *take) {
    const struct line line = (statement->layout->rows ? year_line_under_rows : year_line)(statement->schedule, index);
    take(statement, &line);
}

static void take_total(struct statement *statement, take_line *take) {
    const struct line line = total_line(&statement->schedule->total, statement->layout);
    take(statement, &line);
}

/* All lines in their order; a year ends with its twelfth month, or with the term. */
static void take_lines(struct statement *statement, take_line *take) {
    const struct layout *layout = statement->layout;
    const uint32_t months = statement->schedule->months;
    for (uint32_t month = 0; month < months; month++) {
        const bool ends_year = month % MONTHS_OF_A_YEAR == MONTHS_OF_A_YEAR - 1 || month == months - 1;
        if (layout->rows) take_row(statement, month, take);
        if (layout->years && ends_year) take_year(statement, month / MONTHS_OF_A_YEAR, take);
    }
    if (layout->total) take_total(statement, take);
}

/* ---- comma-separated lines ---- */

static void print_csv_names(const char *const names[COLUMNS]) {
    char *at = put_text(start_line(), "loan");
    for (int column = 0; column < COLUMNS; column++) {
        *at++ = ',';
        at = put_text(at, names[column]);
    }
    *at++ = '\n';
    end_line(at);
}

static void print_csv_line(struct statement *statement, const struct line *line) {
    char *at = put_whole(start_line(), statement->schedule->number);
    for (int column = 0; column < COLUMNS; column++) {
        *at++ = ',';
        at = put_cell(at, line, column, statement->layout->form);
    }
    *at++ = '\n';
    end_line(at);
}

void print_csv(const struct schedule *schedule, const struct layout *layout, bool is_first) {
    struct statement statement = {schedule, layout, {0}};
    if (is_first) print_csv_names(names_of(layout));
    take_lines(&statement, print_csv_line);
}

/* ---- tables ---- */

/* The cells of a line as texts, and their lengths. */
struct texts {
    char text[COLUMNS][AMOUNT_ROOM];
    size_t length[COLUMNS];
};

/* Compiles only where the longest line has room. */
typedef char lines_have_room[COLUMNS * (AMOUNT_ROOM + 2) < LINE_ROOM ? 1 : -1];

static void set_text(struct texts *texts, int column, const char *end) {
    texts->length[column] = (size_t)(end - texts->text[column]);
}

static void set_names(struct texts *texts, const char *const names[COLUMNS]) {
    for (int column = 0; column < COLUMNS; column++) set_text(texts, column, put_text(texts->text[column], names[column]));
}

static void set_cells(struct texts *texts, const struct line *line, enum form form) {
    for (int column = 0; column < COLUMNS; column++)
        set_text(texts, column, put_cell(texts->text[column], line, column, form));
}

static void widen(size_t width[COLUMNS], const struct texts *texts) {
    for (int column = 0; column < COLUMNS; column++)
        if (texts->length[column] > width[column]) width[column] = texts->length[column];
}

/* Each cell stands at the right of its column, two spaces from the one before; a rate that is not null stands behind them. */
static void print_texts(const struct texts *texts, const size_t width[COLUMNS], const double *rate) {
    char *at = start_line();
    for (int column = 0; column < COLUMNS; column++) {
        const size_t spaces = width[column] - texts->length[column] + (column == 0 ? 0 : 2);
        memset(at, ' ', spaces);
        memcpy(at + spaces, texts->text[column], texts->length[column]);
        at += spaces + texts->length[column];
    }
    if (rate != NULL) at = put_decimal(put_text(at, "  rate "), *rate);
    *at++ = '\n';
    end_line(at);
}

static void widen_for_line(struct statement *statement, const struct line *line) {
    struct texts texts;
    set_cells(&texts, line, statement->layout->form);
    widen(statement->width, &texts);
}

static void print_line(struct statement *statement, const struct line *line) {
    struct texts texts;
    set_cells(&texts, line, statement->layout->form);
    print_texts(&texts, statement->width, line->rate);
}

static void print_title(const struct schedule *schedule, enum form form, bool is_first) {
    const struct kind *kind = schedule->kind;
    char *at = start_line();
    at = put_whole(put_text(at, is_first ? "Loan " : "\nLoan "), schedule->number);
    at = put_amount(put_text(at, ": principal "), schedule->principal, form);
    at = put_decimal(put_text(at, kind->name == ADJUSTABLE ? ", initial rate " : ", rate "), schedule->rate);
    at = put_whole(put_text(at, ", months "), schedule->term);
    at = put_kind(at, kind);
    *at++ = '\n';
    end_line(at);
}

void print_table(const struct schedule *schedule, const struct layout *layout, bool is_first) {
    struct statement statement = {schedule, layout, {0}};
    struct texts names;
    set_names(&names, names_of(layout));
    widen(statement.width, &names);
    take_lines(&statement, widen_for_line);
    print_title(schedule, layout->form, is_first);
    print_texts(&names, statement.width, NULL);
    take_lines(&statement, print_line);
    if (layout->form != BITS && !adds_up(schedule, layout))
        put_words("Totals add the unrounded amounts: they can differ by some cents from the sum of the amounts above.\n");
}
