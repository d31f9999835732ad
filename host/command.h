/*
 * What every command shares: exit statuses, lines on standard error, options, input, and output that notices when it cannot be
 * written. A command is a file of its own and a line in the table of main.c.
 */
#ifndef COMMAND_H
#define COMMAND_H

#include <stdbool.h>
#include <stddef.h>
#include <stdio.h>

/* Done; refused, or different where two things are compared; trouble. A comparison exits as cmp does: a refusal is trouble there. */
enum status { DONE = 0, REFUSED = 1, FAILED = 2 };

enum { WORDS_BEHIND = 2 };

struct option {
    const char *name;    /* with its dashes */
    const char *wants;   /* what its value is, in words; null where it has none */
    const char *value;   /* null until the option is given; "" for one without a value */
    bool is_three;       /* its value may be three words, or one with commas in it */
    const char *behind[WORDS_BEHIND];   /* of three words the second and the third; null where it was one */
};

struct command {
    const char *name;
    const char *task;          /* one line for the list of commands */
    const char *help;
    struct option *options;    /* up to one without a name; all commands have -h and --help beside them */
    enum status (*run)(char **words);   /* the words that are no options, up to a null */
};

extern const struct command days_command, schedule_command, statement_command;

/* Takes the options out of the words, and runs the command on the others; with -h or --help it writes the help. */
enum status run_command(const struct command *command, char **words);

/* ---- lines on standard error ---- */

/* One line, with the program's and the command's name in front, behind what was put to standard output so far. */
void say(const char *format, ...);

/* The same, for trouble. */
enum status fail(const char *format, ...);

/* "s" for any number but 1. */
const char *plural(size_t count);

/* ---- input ---- */

/* A file to read, or standard input where the name is -; null where it cannot be opened, which is then said. */
FILE *open_input(const char *name);

/* Reads as many bytes as there are, up to a count; false where reading failed, which is then said. */
bool read_input(FILE *file, const char *name, void *bytes, size_t count, size_t *length);

void close_input(FILE *file);

/* ---- output ---- */

/* Before anything else. */
void open_output(void);

/* Room for one line to standard output, and the end of what was put there. No line is longer than the room. */
enum { LINE_ROOM = 4096 };
char *start_line(void);
void end_line(const char *end);

void put_bytes(const char *bytes, size_t count);
void put_words(const char *words);

/* Whether something could not be written; known only once the buffer was full or was flushed. */
bool output_failed(void);

/* Behind everything else: writes what is left and closes standard output. Gives the status, or trouble where anything was not
   written, which is then said. */
enum status close_output(enum status status);

#endif
