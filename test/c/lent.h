/*
 * Memory to lend to a call. Every piece lies between two pages that nobody may touch, against the one or against the other, so
 * that a read or a write one byte past an end stops the program; what was lent is compared after the call.
 */
#ifndef LENT_H
#define LENT_H

#include <stddef.h>
#include <stdint.h>

enum purpose {
    TO_READ,       /* the call may never change it */
    FOR_ANSWER,    /* an accepted call fills it */
    AS_ROOM        /* an accepted call may change it, or a part of it */
};

/* Where the pieces lie. EMPTY_AS_NULL: against the end, and an empty list is a null pointer. */
enum placement { AGAINST_END, AGAINST_BEGINNING, EMPTY_AS_NULL, PLACEMENTS };

/* Takes back what was lent; the next pieces lie as the placement says. */
void lend_afresh(enum placement placement);

/* A piece of so many bytes, filled with a pattern; an empty one has no byte that may be touched. */
void *lend(enum purpose purpose, size_t size);

/* Copies of bytes, of numbers and of counts, lent to be read. */
struct lent_bytes {
    const uint8_t *bytes;
    size_t length;
};
struct lent_numbers {
    const double *numbers;
    size_t count;
};
struct lent_bytes lend_bytes(const uint8_t *bytes, size_t length);
struct lent_numbers lend_numbers(const double *numbers, size_t count);
const uint32_t *lend_counts(const uint32_t *counts, size_t count);

/* Places for answers. */
double *lend_number(void);
uint32_t *lend_count(void);
double *lend_places(size_t count);

/* Places that go in with numbers and come back with others. */
double *lend_numbers_in_hand(const double *numbers, size_t count);
uint32_t *lend_counts_in_hand(const uint32_t *counts, size_t count);

/* Whether an empty piece was lent since the last time that all was taken back. */
int lent_something_empty(void);

/* Remembers all that is lent, then makes the call: CALL(senyolanda_exp(x, answer)). */
#define CALL(call) (remember_lent(), (call))
void remember_lent(void);

/* What is wrong with the lent memory after a call that was accepted or refused; null where all is well. */
const char *wrong_with_lent(int accepted);

/* What stands in the piece k, from 0, of those that were lent to be written. */
const double *answered_numbers(size_t k);
const uint8_t *answered_bytes(size_t k);
const uint32_t *answered_counts(size_t k);
uint32_t answered_count(size_t k);

/* Whether such a piece is as it was lent: all of it, or its bytes or its numbers from an index on. */
int answered_stays(size_t k);
int answered_bytes_stay(size_t k, size_t from);
int answered_numbers_stay(size_t k, size_t from);

#endif
