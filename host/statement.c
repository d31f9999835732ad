/* statement: loans in, their schedules and year-end totals out, as aligned tables or as CSV. */
#include "command.h"
#include "lines.h"

#include <inttypes.h>

static const char help[] =
    "usage: senyolanda statement [OPTION..] PRINCIPAL RATE MONTHS\n"
    "       senyolanda statement [OPTION..] --records FILE\n"
    "\n"
    "Writes a loan's schedule: each month's payment, the principal and the interest in it, and the balance after it; behind every\n"
    "twelfth month and behind the last a line for the year, with the principal and the interest of its months; then the total.\n"
    "PRINCIPAL and RATE are decimals, the rate a year (0.06 is six per cent); MONTHS is a whole number.\n"
    "\n"
    "  --records FILE    take the loans from FILE, records of 21 bytes end to end; - is standard input\n"
    "  --payment AMOUNT  pay AMOUNT each month and the rest in the last; else the payment is worked out\n"
    "  --years           write the years' lines alone: the months of each, their interest and principal, and the balance after them\n"
    "  --csv             write comma-separated rows, or years' lines with --years, each with its loan's number, from 1\n"
    "  --total           write among comma-separated rows what a table has: a line behind each year, and the total at the end\n"
    "  --separators      write a comma between thousands; not with --csv, where a comma parts the cells, nor with --bits\n"
    "  --bits            write each amount as the 16 hexadecimal digits of its binary64\n"
    "  --all             list every refused record, and read on however many there are\n"
    "  -h, --help        write this\n"
    "  --                take no word behind this for an option\n"
    "\n"
    "A loan pays the same each month, unless one of these says that it, or every loan of FILE, is of another kind:\n"
    "\n"
    "  --interest-only K  pay interest alone in the first K months, and a level payment, or that of --payment, in those after them\n"
    "  --balloon M        pay as over all MONTHS, and the whole balance in month M; no rows come after it\n"
    "  --adjustable INITIAL CAP LIFETIME\n"
    "                     pay at the rate INITIAL in year 1; not with --payment. A later year has its index rate, held within CAP of\n"
    "                     the last year's rate, then not above INITIAL plus LIFETIME, and a payment worked out for the balance and\n"
    "                     the months left. A table has each year's rate behind its line. RATE is not read, and 0 may stand there;\n"
    "                     nor is a record's rate\n"
    "  --index LIST       take the index rates of year 2, 3, .. from LIST, with commas between them, as in 0.05,0.055,0.06. It is\n"
    "                     wanted with --adjustable: a rate for each later year of the term, or '' for none; more are not read\n"
    "\n"
    "A value may stand behind its option or in it, as in --records=FILE or --adjustable=0.05,0.02,0.06. A minus in front of a\n"
    "number makes no option of it.\n"
    "\n"
    "Amounts are rounded for print alone, to the nearest cent and an exact half to the even one. A total, and a year's line, add\n"
    "the unrounded amounts from the top down, so that they can differ by some cents from the sum of what is printed above them; a\n"
    "table in which one does says so at its foot. A rate above 1, which is 100 per cent a year, is taken, with a warning; so are\n"
    "a cap and an index rate.\n"
    "\n"
    "Loans are counted from 1. A refused loan gets a line on standard error, such as `loan 3: refused 2 at 2`: the loan's number,\n"
    "the refusal's number and the loan's place, which is counted from 0, and the cause in words, such as `index entry 3, for year\n"
    "4`, counted from 1; the loans after it get their statements. After 20 such lines refusals are only counted. A file whose first\n"
    "10 records are all refused, none of them with 16, is read no further.\n"
    "\n"
    "Exit status: 0, every loan has its statement; 1, a loan was refused, or the file holds none or ends inside a record; 2, bad\n"
    "usage, or a failure to read or write.\n";

enum { REFUSALS_LISTED = 20, REFUSALS_AT_THE_START = 10 };

/* ---- the command line ---- */

enum {
    ALL, AS_ADJUSTABLE, AS_BALLOON, AS_BITS, AS_CSV, AS_INTEREST_ONLY, GIVEN_PAYMENT, INDEX, RECORDS, SEPARATORS, TOTAL, YEARS, OPTIONS
};

static struct option options[OPTIONS + 1] = {
    [ALL] = {.name = "--all"},
    [AS_ADJUSTABLE] = {.name = "--adjustable", .wants = "an initial rate, a cap and a lifetime cap, as in 0.05 0.02 0.06", .is_three = true},
    [AS_BALLOON] = {.name = "--balloon", .wants = "a month"},
    [AS_BITS] = {.name = "--bits"},
    [AS_CSV] = {.name = "--csv"},
    [AS_INTEREST_ONLY] = {.name = "--interest-only", .wants = "a number of months"},
    [GIVEN_PAYMENT] = {.name = "--payment", .wants = "an amount"},
    [INDEX] = {.name = "--index", .wants = "index rates, as in 0.05,0.055,0.06"},
    [RECORDS] = {.name = "--records", .wants = "a file's name"},
    [SEPARATORS] = {.name = "--separators"},
    [TOTAL] = {.name = "--total"},
    [YEARS] = {.name = "--years"},
};

static bool is_given(int option) {
    return options[option].value != NULL;
}

/* What came of the loans so far, of which kind they are, and how they are written. */
struct run {
    struct layout layout;
    struct kind kind;
    size_t good, refused, high_rates;
    size_t unfit;   /* among the refused: good loans, but for the kind */
    struct schedule schedule;
};

/* ---- loans ---- */

static void refuse_loan(struct run *run, senyolanda_result result) {
    const uint32_t number = senyolanda_number(result);
    const size_t place = run->good + run->refused++;
    char cause[CAUSE_ROOM];
    if (number == SENYOLANDA_BAD_KIND) run->unfit++;
    if (run->refused > REFUSALS_LISTED && !is_given(ALL)) return;
    put_cause(cause, &run->kind, run->schedule.term, result);
    say("loan %zu: refused %" PRIu32 " at %zu: %s", place + 1, number, place, cause);
}

/* The statement of the loan that the bytes hold, or the line that says why there is none. A rate that is not read gets no warning. */
static void state_loan(const uint8_t *record, size_t length, struct run *run) {
    run->schedule.number = run->good + run->refused + 1;
    run->schedule.kind = &run->kind;
    const senyolanda_result result = draw_schedule(record, length, &run->schedule);
    if (result != 0) {
        refuse_loan(run, result);
        return;
    }
    (is_given(AS_CSV) ? print_csv : print_table)(&run->schedule, &run->layout, run->good == 0);
    run->good++;
    if (run->schedule.rate > 1 && run->kind.name != ADJUSTABLE) run->high_rates++;
}

static enum status state_words(char **words, struct run *run) {
    uint8_t record[SENYOLANDA_LOAN_BYTES];
    double principal, rate;
    uint32_t months;
    const char *wrong;
    if ((wrong = read_decimal(words[0], &principal)) != NULL) return fail("the principal '%s' %s", words[0], wrong);
    if ((wrong = read_decimal(words[1], &rate)) != NULL) return fail("the rate '%s' %s", words[1], wrong);
    if (!read_whole(words[2], &months)) return fail("the months '%s' are no whole number from 0 to 4294967295", words[2]);
    senyolanda_write_loan(principal, rate, months, record);
    state_loan(record, sizeof record, run);
    if (run->high_rates > 0) say("a rate of %s is %.15g per cent a year; six per cent is 0.06", words[1], 100 * rate);
    return run->refused > 0 ? REFUSED : DONE;
}

/* ---- loans from a file ---- */

/* One line at the end for what the file has beside good loans: refused ones, and bytes that are no whole record. */
static void say_what_came(const struct run *run, size_t left_over) {
    const size_t records = run->good + run->refused;
    char tail[128] = "", unlisted[128] = "";
    if (left_over > 0)
        snprintf(tail, sizeof tail, "the file ends inside a record, %zu byte%s left over after %zu record%s: ",
                 left_over, plural(left_over), records, plural(records));
    if (run->refused > REFUSALS_LISTED && !is_given(ALL))
        snprintf(unlisted, sizeof unlisted, ", the last %zu of them not listed above; --all lists them", run->refused - REFUSALS_LISTED);
    say("%s%zu loan%s good, %zu refused%s", tail, run->good, plural(run->good), run->refused, unlisted);
}

static enum status state_records(FILE *file, const char *name, struct run *run) {
    uint8_t record[SENYOLANDA_LOAN_BYTES];
    size_t length;
    for (;;) {
        if (output_failed() || !read_input(file, name, record, sizeof record, &length)) return FAILED;
        if (length < sizeof record) break;
        state_loan(record, length, run);
        if (run->good + run->unfit > 0 || run->refused < REFUSALS_AT_THE_START || is_given(ALL)) continue;
        say("the file seems not to hold loans' records, which have 21 bytes each, the first of them 1; --all reads on");
        return REFUSED;
    }
    if (run->good + run->refused + length == 0) {
        say("the file is empty: no loan's record is there");
        return REFUSED;
    }
    if (run->refused > 0 || length > 0) say_what_came(run, length);
    if (run->high_rates > 0)
        say("%zu loan%s a rate above 1, which is 100 per cent a year; six per cent is 0.06",
            run->high_rates, run->high_rates == 1 ? " has" : "s have");
    return run->refused > 0 || length > 0 ? REFUSED : DONE;
}

static enum status state_file(const char *name, struct run *run) {
    FILE *file = open_input(name);
    if (file == NULL) return FAILED;
    const enum status status = state_records(file, name, run);
    close_input(file);
    return status;
}

/* The layout that the options ask for; false where two of them do not go together, which is then said. A spreadsheet
   would add a year's line up with the comma-separated rows above it, so that one among them has to be asked for. */
static bool choose_layout(struct layout *layout) {
    layout->rows = !is_given(YEARS);
    layout->total = !is_given(AS_CSV) || is_given(TOTAL);
    layout->years = is_given(YEARS) || layout->total;
    layout->form = is_given(AS_BITS) ? BITS : is_given(SEPARATORS) ? SEPARATED : CENTS;
    if (!is_given(SEPARATORS) || (!is_given(AS_CSV) && !is_given(AS_BITS))) return true;
    fail("--separators does not go with %s", is_given(AS_CSV) ? "--csv, where a comma parts the cells" : "--bits");
    return false;
}

static bool choose_payment(struct kind *kind) {
    kind->is_payment_given = is_given(GIVEN_PAYMENT);
    if (!kind->is_payment_given) return true;
    const char *text = options[GIVEN_PAYMENT].value, *wrong = read_decimal(text, &kind->payment);
    if (wrong != NULL) fail("the payment '%s' %s", text, wrong);
    return wrong == NULL;
}

/* The kind that the options name, with its value; false where they name two or the value is none, which is then said. */
static bool name_kind(struct kind *kind) {
    static const struct {
        int option;
        bool (*read)(const struct option *option, struct kind *kind);
    } kinds[] = {
        [INTEREST_ONLY] = {AS_INTEREST_ONLY, read_months},
        [BALLOON] = {AS_BALLOON, read_months},
        [ADJUSTABLE] = {AS_ADJUSTABLE, read_adjustment},
    };
    for (int name = INTEREST_ONLY; name <= ADJUSTABLE; name++) {
        const struct option *option = &options[kinds[name].option];
        if (option->value == NULL) continue;
        if (kind->name != LEVEL) {
            fail("%s does not go with %s: a loan is of one kind", option->name, options[kinds[kind->name].option].name);
            return false;
        }
        if (!kinds[name].read(option, kind)) return false;
        kind->name = name;
    }
    return true;
}

/* What does not go with a kind, or is missing beside it; null where all is well. */
static const char *amiss_with(const struct kind *kind) {
    if (kind->name != ADJUSTABLE) return is_given(INDEX) ? "--index goes with --adjustable alone" : NULL;
    if (kind->is_payment_given) return "--payment does not go with --adjustable, which works out each year's payment";
    return is_given(INDEX) ? NULL : "--adjustable wants --index beside it, the index rates of the years after the first";
}

/* The kind that the options ask for; false where there is none such, which is then said. */
static bool choose_kind(struct kind *kind) {
    if (!name_kind(kind)) return false;
    const char *amiss = amiss_with(kind);
    if (amiss != NULL) {
        fail("%s", amiss);
        return false;
    }
    return !is_given(INDEX) || read_index(&options[INDEX], kind);
}

/* The loans from a file, or one from the words. */
static enum status state_loans(char **words, struct run *run) {
    size_t count = 0;
    while (words[count] != NULL) count++;
    if (is_given(RECORDS)) {
        if (count > 0) return fail("the loans come from --records or from the command line, not from both");
        return state_file(options[RECORDS].value, run);
    }
    if (count < 3) return fail("a principal, a rate and months are wanted, or --records; see --help");
    if (count > 3) return fail("'%s' is a word too many; --help says what is wanted", words[3]);
    return state_words(words, run);
}

static enum status run_statement(char **words) {
    static struct run run;
    if (!choose_layout(&run.layout) || !choose_payment(&run.kind) || !choose_kind(&run.kind)) return FAILED;
    const enum status status = state_loans(words, &run);
    if (status != FAILED && run.good > 0) warn_of_rates(&run.kind);
    return status;
}

const struct command statement_command = {
    "statement", "write loans' statements, as tables or as comma-separated rows", help, options, run_statement};
