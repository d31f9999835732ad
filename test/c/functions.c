#include "functions.h"

#include <stdio.h>
#include <stdlib.h>
#include <string.h>

enum { MOST_CAUSES = 200 };

/* ---- causes set on the desk ---- */

static void set(const struct setting *setting) {
    unsigned char *at = (unsigned char *)&desk + setting->at;
    uint8_t byte = (uint8_t)setting->whole;
    uint32_t count = (uint32_t)setting->whole;
    size_t size = (size_t)setting->whole;
    if (setting->is_number) memcpy(at, &setting->number, sizeof setting->number);
    else if (setting->width == sizeof byte) memcpy(at, &byte, sizeof byte);
    else if (setting->width == sizeof count) memcpy(at, &count, sizeof count);
    else memcpy(at, &size, sizeof size);
}

static size_t settings_of(const struct cause *cause) {
    size_t count = 0;
    while (count < sizeof cause->settings / sizeof *cause->settings && cause->settings[count].name != NULL) count++;
    return count;
}

static void make(const struct cause *cause) {
    for (size_t i = 0; i < settings_of(cause); i++) set(&cause->settings[i]);
}

static int sets(const struct cause *cause, size_t at) {
    for (size_t i = 0; i < settings_of(cause); i++)
        if (cause->settings[i].at == at) return 1;
    return 0;
}

/* Two causes that set one argument cannot be there together. */
static int can_meet(const struct cause *one, const struct cause *other) {
    for (size_t i = 0; i < settings_of(one); i++)
        if (sets(other, one->settings[i].at)) return 0;
    return 1;
}

/* ---- which of two causes is given ---- */

static uint32_t bit(uint32_t number) {
    return (uint32_t)1 << number % 32;
}

/* Lower wins: the number, then a single argument before an item, then the place. */
static uint64_t rank(const struct cause *cause) {
    return (uint64_t)cause->number << 40 | (uint64_t)(cause->kind == ITEM) << 36 | cause->place;
}

/* A record that is none takes every other number away; beside its own, 11, it is a cause like another. */
static const struct cause *winner(const struct cause *one, const struct cause *other) {
    if (one->unless & bit(other->number)) return other;
    if (other->unless & bit(one->number)) return one;
    if (one->before_all != other->before_all && one->number != other->number) return one->before_all ? one : other;
    return rank(one) <= rank(other) ? one : other;
}

/* ---- what is being tried ---- */

static const struct function *tried;
static const struct cause *first_tried, *second_tried;

static void describe_cause(const struct cause *cause) {
    for (size_t i = 0; cause != NULL && i < settings_of(cause); i++) fprintf(stderr, ", %s", cause->settings[i].name);
}

static void describe_tried(void) {
    fprintf(stderr, ": %s", tried->name);
    describe_cause(first_tried);
    describe_cause(second_tried);
}

/* ---- the matrix ---- */

static const struct claim *matrix;

static uint32_t numbers_in(const char *refusals) {
    uint32_t numbers = 0;
    for (char *rest; *refusals != 0; refusals = rest != refusals ? rest : rest + 1) {
        unsigned long number = strtoul(refusals, &rest, 10);
        if (number != 0) numbers |= bit((uint32_t)number);
    }
    return numbers;
}

static uint32_t claimed(const struct function *function) {
    const struct claim *claim = matrix;
    while (claim->function != NULL && strcmp(claim->function, function->name) != 0) claim++;
    if (claim->function != NULL) return numbers_in(claim->refusals);
    checked(0, __FILE__, __LINE__, "%s is in the matrix", function->name);
    return 0;
}

int can_give(const struct function *function, uint32_t number) {
    return number < 32 && (claimed(function) & bit(number)) != 0;
}

/* ---- every cause, alone and with every other ---- */

static uint32_t seen;

static void try_pair(const struct cause *one, const struct cause *other) {
    const struct cause *given = other == NULL ? one : winner(one, other);
    first_tried = one;
    second_tried = other;
    tidy_desk();
    make(one);
    if (other != NULL) make(other);
    senyolanda_result result = gives(tried->called, refusal(given->number, given->place), __FILE__, __LINE__, "the call");
    if (result != 0) seen |= bit(senyolanda_number(result));
}

static size_t gather(const struct function *function, const struct cause *all[MOST_CAUSES]) {
    size_t count = 0;
    for (size_t family = 0; family < FAMILIES && function->families[family] != NULL; family++)
        for (const struct cause *cause = function->families[family]; settings_of(cause) != 0; cause++) {
            if (count == MOST_CAUSES) abort();
            all[count++] = cause;
        }
    return count;
}

/* A cause that is taken is tried alone: beside another it might take that one away. */
static void try_pairs_of(const struct cause *one, const struct cause *const *others, size_t count) {
    for (size_t i = 0; i < count; i++)
        if (one->number != 0 && others[i]->number != 0 && can_meet(one, others[i])) try_pair(one, others[i]);
}

static void try_function(const struct function *function) {
    const struct cause *all[MOST_CAUSES];
    size_t count = gather(function, all);
    tried = function;
    first_tried = second_tried = NULL;
    seen = 0;
    tidy_desk();
    gives(function->called, 0, __FILE__, __LINE__, "the call at rest");
    for (size_t i = 0; i < count; i++) {
        try_pair(all[i], NULL);
        try_pairs_of(all[i], all + i + 1, count - i - 1);
    }
    checked(seen == claimed(function), __FILE__, __LINE__, "the refusals seen are those of the matrix");
}

void try_functions(const struct function *functions) {
    size_t tables = 0, claims = 0;
    trying(describe_tried);
    for (; functions[tables].name != NULL; tables++) try_function(&functions[tables]);
    trying(NULL);
    tidy_desk();
    while (matrix[claims].function != NULL) claims++;
    checked(tables == claims, __FILE__, __LINE__, "every function of the matrix has a table");
}

void open_tests(const char *program, const struct claim *claims, int arguments, char **words) {
    if (arguments == 2 && strcmp(words[1], "--functions") == 0) {
        for (; claims->function != NULL; claims++) puts(claims->function);
        exit(0);
    }
    matrix = claims;
    open_checks(program);
    tidy_desk();
}
