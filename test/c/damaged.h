/*
 * Random and damaged records, the same ones in every run: random bytes of random length, and records in good order with a byte,
 * a number or the length changed.
 */
#ifndef DAMAGED_H
#define DAMAGED_H

#include "functions.h"

uint64_t random_bits(void);
uint32_t random_below(uint32_t end);

/* A number of any size and sign, the special ones among them, NaNs of every pattern too. */
double random_number(void);

/* Lines 1 and 2 of document 01's table, for what a record deserves. */
int is_bad_amount(double amount);
int is_bad_term(uint32_t term);

/* A record in good order but for its numbers, of a random kind or of a given one; and one that may be damaged. */
struct record random_record(uint8_t kind);
struct record damaged_record(void);

/* Tries so many of the records that 'next' gives with every function that reads one. */
void try_records(const struct function *functions, struct record next(void), size_t tries);

#endif
