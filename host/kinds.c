#include "kinds.h"

#include "amounts.h"

#include <inttypes.h>
#include <math.h>
#include <string.h>

/* ---- from the command line ---- */

bool read_months(const struct option *option, struct kind *kind) {
    if (read_whole(option->value, &kind->months)) return true;
    fail("%s wants %s, and '%s' is no whole number from 0 to 4294967295", option->name, option->wants, option->value);
    return false;
}

/* Reads the entry, from 1, of an option's value that stands between two ends of a text. */
static bool read_entry(const struct option *option, size_t entry, const char *text, const char *end, double *number) {
    const char *wrong = read_decimal_up_to(text, end, number);
    if (wrong != NULL) fail("entry %zu of %s, '%.*s', %s", entry, option->name, (int)(end - text), text, wrong);
    return wrong == NULL;
}

/* Reads decimals with commas between them, none of them from an empty text, and keeps at most so many. */
static bool read_list(const struct option *option, double *numbers, size_t most, size_t *count) {
    *count = 0;
    if (*option->value == '\0') return true;
    for (const char *next = option->value, *end;; next = end + 1) {
        double number;
        end = next + strcspn(next, ",");
        if (!read_entry(option, *count + 1, next, end, &number)) return false;
        if (*count < most) numbers[*count] = number;
        ++*count;
        if (*end == '\0') return true;
    }
}

/* Reads a value of three words, a decimal each. */
static bool read_words(const struct option *option, double *numbers) {
    const char *words[] = {option->value, option->behind[0], option->behind[1]};
    for (size_t k = 0; k < sizeof words / sizeof *words; k++)
        if (!read_entry(option, k + 1, words[k], words[k] + strlen(words[k]), &numbers[k])) return false;
    return true;
}

bool read_adjustment(const struct option *option, struct kind *kind) {
    enum { NUMBERS = 3 };
    double numbers[NUMBERS];
    size_t count = NUMBERS;
    if (!(option->behind[0] != NULL ? read_words(option, numbers) : read_list(option, numbers, NUMBERS, &count))) return false;
    if (count != NUMBERS) {
        fail("%s wants %s, and '%s' was given", option->name, option->wants, option->value);
        return false;
    }
    kind->initial = numbers[0];
    kind->cap = numbers[1];
    kind->lifetime = numbers[2];
    return true;
}

bool read_index(const struct option *option, struct kind *kind) {
    size_t count;
    if (!read_list(option, kind->index, MOST_ENTRIES, &count)) return false;
    kind->entries = count < MOST_ENTRIES ? count : MOST_ENTRIES;
    return true;
}

/* ---- in words ---- */

char *put_kind(char *at, const struct kind *kind) {
    switch (kind->name) {
    case INTEREST_ONLY:
        at = put_whole(put_text(at, ", interest only for "), kind->months);
        return put_text(put_text(at, " month"), plural(kind->months));
    case BALLOON: return put_whole(put_text(at, ", balloon in month "), kind->months);
    case ADJUSTABLE:
        at = put_decimal(put_text(at, ", adjustable with cap "), kind->cap);
        return put_decimal(put_text(at, " and lifetime cap "), kind->lifetime);
    default: return at;
    }
}

static bool is_bad_cap(double cap) {
    return !isfinite(cap) || cap < 0;
}

/* Of an adjustable loan: what stands alone comes before the list, and its length before the entry at the refusal's place. */
static void put_adjustment_cause(char text[CAUSE_ROOM], const struct kind *kind, uint32_t term, uint32_t place) {
    const uint32_t wanted = SENYOLANDA_STARTED_YEARS(term) - 1;
    if (!isfinite(kind->initial)) {
        snprintf(text, CAUSE_ROOM, "the initial rate is not finite");
    } else if (is_bad_cap(kind->cap)) {
        snprintf(text, CAUSE_ROOM, "the cap is below zero or not finite");
    } else if (is_bad_cap(kind->lifetime)) {
        snprintf(text, CAUSE_ROOM, "the lifetime cap is below zero or not finite");
    } else if (kind->entries < wanted) {
        snprintf(text, CAUSE_ROOM, "the index has %zu rate%s, and a term of %" PRIu32 " months wants %" PRIu32,
                 kind->entries, plural(kind->entries), term, wanted);
    } else {
        snprintf(text, CAUSE_ROOM, "index entry %" PRIu32 ", for year %" PRIu32 ", is not finite", place + 1, place + 2);
    }
}

/* Refusal 16, in words that know the kind. */
static void put_kind_cause(char text[CAUSE_ROOM], const struct kind *kind, uint32_t term, uint32_t place) {
    switch (kind->name) {
    case INTEREST_ONLY:
        snprintf(text, CAUSE_ROOM, "the months of interest alone, %" PRIu32 ", are not from 1 to one fewer than the term's %" PRIu32,
                 kind->months, term);
        break;
    case BALLOON:
        snprintf(text, CAUSE_ROOM, "the balloon's month, %" PRIu32 ", is not from 1 to the term's %" PRIu32, kind->months, term);
        break;
    default: put_adjustment_cause(text, kind, term, place);
    }
}

void put_cause(char text[CAUSE_ROOM], const struct kind *kind, uint32_t term, senyolanda_result result) {
    const uint32_t number = senyolanda_number(result);
    if (number == SENYOLANDA_BAD_KIND) {
        put_kind_cause(text, kind, term, senyolanda_place(result));
    } else {
        snprintf(text, CAUSE_ROOM, "%s", senyolanda_refusal_text(number));
    }
}

/* ---- warnings ---- */

/* Whether the rate is above 1, which is then said. */
static bool warn_of(const char *name, double rate) {
    char text[SHORTEST_ROOM];
    if (!(rate > 1)) return false;
    put_shortest(text, rate);
    say("%s of %s is %.15g per cent a year; six per cent is 0.06", name, text, 100 * rate);
    return true;
}

void warn_of_rates(const struct kind *kind) {
    warn_of("an initial rate", kind->initial);
    warn_of("a cap", kind->cap);
    warn_of("a lifetime cap", kind->lifetime);
    for (size_t entry = 0; entry < kind->entries; entry++)
        if (warn_of("an index rate", kind->index[entry])) break;
}
