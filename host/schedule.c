/* schedule: one loan's record in, the proved listing of its schedule out, every amount to the bit. */
#include "command.h"
#include "senyolanda.h"

#include <inttypes.h>

static const char help[] =
    "usage: senyolanda schedule [FILE]\n"
    "\n"
    "Reads one loan's record from FILE, or from standard input where there is no FILE or it is -, and writes a line for each month:\n"
    "the month, and the payment, the principal and the interest in it and the balance after it, as the 16 hexadecimal digits of\n"
    "their binary64. A record has 21 bytes, little-endian: one of kind, which is 1; the principal and the rate a year as binary64;\n"
    "the term in months as four bytes.\n"
    "\n"
    "  -h, --help   write this\n"
    "\n"
    "A record that is refused gets one line, `refused NUMBER at 0`, and the cause in words on standard error: 1, a principal below\n"
    "zero or not finite; 2, a term of no months or of more than 1,200; 11, a record of another kind or length.\n"
    "\n"
    "Exit status: 0, the loan is listed; 1, it was refused; 2, bad usage, or a failure to read or write.\n";

static enum status list_refusal(senyolanda_result result) {
    const uint32_t number = senyolanda_number(result), place = senyolanda_place(result);
    char line[64];
    snprintf(line, sizeof line, "refused %" PRIu32 " at %" PRIu32, number, place);
    put_words(line);
    put_words("\n");
    say("%s: %s", line, senyolanda_refusal_text(number));
    return REFUSED;
}

/* A byte more than a record has is read, so that a longer input is seen and refused. */
static enum status list_file(FILE *file, const char *name) {
    static uint8_t text[SENYOLANDA_LISTING_BYTES];
    uint8_t record[SENYOLANDA_LOAN_BYTES + 1];
    uint32_t size;
    size_t length;
    if (!read_input(file, name, record, sizeof record, &length)) return FAILED;
    const senyolanda_result result = senyolanda_listing(record, length, text, &size);
    if (result != 0) return list_refusal(result);
    put_bytes((const char *)text, size);
    return DONE;
}

static enum status run(char **words) {
    const char *name = words[0] != NULL ? words[0] : "-";
    if (words[0] != NULL && words[1] != NULL) return fail("'%s' is a word too many; --help says what is wanted", words[1]);
    FILE *file = open_input(name);
    if (file == NULL) return FAILED;
    const enum status status = list_file(file, name);
    close_input(file);
    return status;
}

static struct option no_options[] = {{.name = NULL}};

const struct command schedule_command = {"schedule", "list the schedule of one loan's record, to the bit", help, no_options, run};
