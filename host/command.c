#include "command.h"

#include <ctype.h>
#include <errno.h>
#include <stdarg.h>
#include <string.h>

/* The command that is run; null before one is known. */
static const struct command *running;

/* ---- output ---- */

/* What waits to be written. Standard output has no buffer beside this one, so that errno is that of the write which failed. */
static struct {
    char bytes[16 * LINE_ROOM];
    size_t used;
    bool begun;     /* something was written */
    int failure;    /* the first failure's errno; 0 where there is none */
} output;

static void note_failure(void) {
    if (output.failure == 0) output.failure = errno != 0 ? errno : EIO;
}

/* A line on standard error is one write, so that it stays whole among those of other programs. */
void open_output(void) {
    static char error_line[LINE_ROOM];
    setvbuf(stdout, NULL, _IONBF, 0);
    setvbuf(stderr, error_line, _IOLBF, sizeof error_line);
}

static void write_bytes(const char *bytes, size_t count) {
    if (count == 0 || output.failure != 0) return;
    output.begun = true;
    errno = 0;
    if (fwrite(bytes, 1, count, stdout) != count) note_failure();
}

static void flush_output(void) {
    write_bytes(output.bytes, output.used);
    output.used = 0;
}

char *start_line(void) {
    if (sizeof output.bytes - output.used < LINE_ROOM) flush_output();
    return output.bytes + output.used;
}

void end_line(const char *end) {
    output.used = (size_t)(end - output.bytes);
}

void put_bytes(const char *bytes, size_t count) {
    if (sizeof output.bytes - output.used < count) flush_output();
    if (sizeof output.bytes < count) {
        write_bytes(bytes, count);
    } else {
        memcpy(output.bytes + output.used, bytes, count);
        output.used += count;
    }
}

void put_words(const char *words) {
    put_bytes(words, strlen(words));
}

bool output_failed(void) {
    return output.failure != 0;
}

enum status close_output(enum status status) {
    flush_output();
    errno = 0;
    if (output.begun && fclose(stdout) != 0) note_failure();
    if (output.failure == 0) return status;
    return fail("cannot write to standard output: %s", strerror(output.failure));
}

/* ---- lines on standard error ---- */

static void say_words(const char *format, va_list words) {
    flush_output();
    fputs("senyolanda", stderr);
    if (running != NULL) fprintf(stderr, " %s", running->name);
    fputs(": ", stderr);
    vfprintf(stderr, format, words);
    fputc('\n', stderr);
}

void say(const char *format, ...) {
    va_list words;
    va_start(words, format);
    say_words(format, words);
    va_end(words);
}

enum status fail(const char *format, ...) {
    va_list words;
    va_start(words, format);
    say_words(format, words);
    va_end(words);
    return FAILED;
}

const char *plural(size_t count) {
    return count == 1 ? "" : "s";
}

/* ---- input ---- */

static bool is_standard(const char *name) {
    return strcmp(name, "-") == 0;
}

static const char *shown_name(const char *name) {
    return is_standard(name) ? "standard input" : name;
}

FILE *open_input(const char *name) {
    FILE *file = is_standard(name) ? stdin : fopen(name, "rb");
    if (file == NULL) fail("cannot open %s: %s", shown_name(name), strerror(errno));
    return file;
}

bool read_input(FILE *file, const char *name, void *bytes, size_t count, size_t *length) {
    errno = 0;
    *length = fread(bytes, 1, count, file);
    if (!ferror(file)) return true;
    fail("cannot read %s: %s", shown_name(name), strerror(errno));
    return false;
}

void close_input(FILE *file) {
    if (file != stdin) fclose(file);
}

/* ---- options ---- */

/* Whether a text begins with a word, in capitals or not. */
static bool begins(const char *text, const char *word) {
    for (; *word != '\0'; text++, word++)
        if (tolower((unsigned char)*text) != *word) return false;
    return true;
}

/* A minus in front of a number is no option, nor is a minus alone. */
static bool is_option(const char *word) {
    if (word[0] != '-' || word[1] == '\0') return false;
    return strchr("0123456789.", word[1]) == NULL && !begins(word + 1, "inf") && !begins(word + 1, "nan");
}

/* What stands behind the name in --name=VALUE, or null where the word is not of that form. */
static const char *value_within(const char *word, const char *name) {
    const size_t length = strlen(name);
    return strncmp(word, name, length) == 0 && word[length] == '=' ? word + length + 1 : NULL;
}

/* The option that a word names, by itself or with a value; null where there is none. */
static struct option *named_option(struct option *options, const char *word) {
    for (; options->name != NULL; options++)
        if (strcmp(word, options->name) == 0 || value_within(word, options->name) != NULL) return options;
    return NULL;
}

/* Takes the two words behind the first of three; gives the last word taken, or null where one is missing. */
static char **take_behind(struct option *option, char **word) {
    for (int k = 0; k < WORDS_BEHIND; k++)
        if ((option->behind[k] = *++word) == NULL) return NULL;
    return word;
}

/* Takes the option that a word names, and its value from the word or from the next one; gives the last word taken, or null where
   there is trouble, which is then said. */
static char **take_option(struct option *options, char **word) {
    struct option *option = named_option(options, *word);
    if (option == NULL) {
        fail("there is no option %s; --help says which there are", *word);
        return NULL;
    }
    const char *within = value_within(*word, option->name);
    if (option->wants == NULL && within != NULL) {
        fail("%s takes no value, and '%s' was given", option->name, within);
        return NULL;
    }
    const bool is_behind = option->wants != NULL && within == NULL;
    if (is_behind) within = *++word;
    option->value = within != NULL ? within : "";
    option->behind[0] = NULL;
    if (is_behind && within != NULL && option->is_three && strchr(within, ',') == NULL) word = take_behind(option, word);
    if (option->wants != NULL && (within == NULL || word == NULL)) {
        fail("%s wants %s", option->name, option->wants);
        return NULL;
    }
    return word;
}

/* What the words came to: the command's to run, help to write, or trouble. */
enum asked { TO_RUN, TO_HELP, TROUBLE };

/* Takes the options, and moves the other words to the front, up to a null. */
static enum asked take_words(struct option *options, char **words) {
    char **kept = words;
    bool options_end = false, help = false;
    for (char **word = words; *word != NULL; word++) {
        if (options_end || !is_option(*word)) {
            *kept++ = *word;
        } else if (strcmp(*word, "--") == 0) {
            options_end = true;
        } else if (strcmp(*word, "-h") == 0 || strcmp(*word, "--help") == 0) {
            help = true;
        } else if ((word = take_option(options, word)) == NULL) {
            return TROUBLE;
        }
    }
    *kept = NULL;
    return help ? TO_HELP : TO_RUN;
}

enum status run_command(const struct command *command, char **words) {
    running = command;
    switch (take_words(command->options, words)) {
    case TO_RUN: return command->run(words);
    case TO_HELP: put_words(command->help); return DONE;
    default: return FAILED;
    }
}
