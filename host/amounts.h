/* Numbers as text, and text as numbers. What puts text gives its end, and writes no zero behind it. */
#ifndef AMOUNTS_H
#define AMOUNTS_H

#include <stdbool.h>
#include <stdint.h>

/* How an amount is written: to the nearest cent, the same with a comma between thousands, or as the 16 digits of its pattern. */
enum form { CENTS, SEPARATED, BITS };

/* The longest amount is the lowest binary64 with separators: a sign, 309 digits, 102 commas, a point and two more digits. */
enum { AMOUNT_ROOM = 420 };

char *put_text(char *at, const char *text);
char *put_whole(char *at, uint64_t number);
char *put_amount(char *at, double amount, enum form form);

/* The shortest decimal that reads back as the number; the second has a zero behind it. */
enum { SHORTEST_ROOM = 32 };
char *put_decimal(char *at, double number);
void put_shortest(char text[SHORTEST_ROOM], double number);

/* The cents that are written for an amount below 2^64 in size, modulo 2^64; false for any other. */
bool written_cents(double amount, uint64_t *cents);

/* Reads a decimal that is the whole text; infinity and NaN have to be meant, as `inf` and `nan`. Gives null, or what is wrong with
   the text, to follow its name. */
const char *read_decimal(const char *text, double *number);

/* The same of a decimal that ends where it is said, behind which more text may stand. */
const char *read_decimal_up_to(const char *text, const char *end, double *number);

/* Reads a whole number up to 4,294,967,295, digits alone. */
bool read_whole(const char *text, uint32_t *number);

#endif
