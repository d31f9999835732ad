/* senyolanda: the program, with a command for each task. */
#include "command.h"
#include "senyolanda.h"

#include <string.h>

static const struct command *const commands[] = {&statement_command, &schedule_command, &days_command};
enum { COMMANDS = sizeof commands / sizeof *commands };

static const struct command *named_command(const char *name) {
    for (int k = 0; k < COMMANDS; k++)
        if (strcmp(name, commands[k]->name) == 0) return commands[k];
    return NULL;
}

static void put_usage(void (*put)(const char *words)) {
    put("usage: senyolanda COMMAND [WORD..]\n"
        "       senyolanda COMMAND --help\n"
        "       senyolanda --help | --version\n"
        "\n"
        "Commands:\n");
    for (int k = 0; k < COMMANDS; k++) {
        char line[160];
        snprintf(line, sizeof line, "  %-10s %s\n", commands[k]->name, commands[k]->task);
        put(line);
    }
    put("\n"
        "Exit status: 0, done; 1, something was refused; 2, bad usage, or a failure to read or write. What was refused or went\n"
        "wrong is said on standard error.\n");
}

static void put_error(const char *words) {
    fputs(words, stderr);
}

static enum status unknown(const char *word) {
    return fail("there is no %s '%s'; senyolanda --help says which there are", *word == '-' ? "option" : "command", word);
}

/* The help of a command, or of the program where no command is named. */
static enum status help(const char *name) {
    const struct command *command = name != NULL ? named_command(name) : NULL;
    if (name != NULL && command == NULL) return unknown(name);
    if (command != NULL) {
        put_words(command->help);
    } else {
        put_usage(put_words);
    }
    return DONE;
}

static enum status run(char **words) {
    if (*words == NULL) {
        put_usage(put_error);
        return FAILED;
    }
    if (strcmp(*words, "-h") == 0 || strcmp(*words, "--help") == 0 || strcmp(*words, "help") == 0) return help(words[1]);
    if (strcmp(*words, "--version") == 0) {
        put_words("senyolanda " SENYOLANDA_VERSION "\n");
        return DONE;
    }
    const struct command *command = named_command(*words);
    return command != NULL ? run_command(command, words + 1) : unknown(*words);
}

int main(int argc, char **argv) {
    open_output();
    return (int)close_output(run(argc > 0 ? argv + 1 : argv));
}
