/*
 * Checks that are counted, and calls that are tried in every placement of their lent memory. A check that fails is named with
 * its file and line and with what was being tried; the program goes on and ends non-zero.
 */
#ifndef HARNESS_H
#define HARNESS_H

#include "lent.h"
#include "senyolanda.h"

/* A call of one function over the arguments that the desk holds. */
typedef senyolanda_result call(void);

/* Counts a check. */
#define CHECK(holds) checked((holds) != 0, __FILE__, __LINE__, "%s", #holds)

/* The number is the wanted one to the bit; a NaN is like every other. */
#define IS(number, wanted) is_number((number), (wanted), __FILE__, __LINE__, #number)

/* The number is no further from the wanted one than so much. */
#define IS_NEAR(number, wanted, miss) is_near((number), (wanted), (miss), __FILE__, __LINE__, #number)

/* The call, in every placement, is accepted, or refused with a number at a place; lent memory is left as it must be. */
#define ACCEPTED(called) gives((called), 0, __FILE__, __LINE__, #called)
#define REFUSED(called, number, place) gives((called), refusal((number), (place)), __FILE__, __LINE__, #called)

/* The call is accepted; its first answer, a number or a count. */
#define NUMBER_OF(called) (ACCEPTED(called), answered_numbers(0)[0])
#define COUNT_OF(called) (ACCEPTED(called), answered_count(0))

void checked(int holds, const char *file, int line, const char *format, ...);
void is_number(double number, double wanted, const char *file, int line, const char *what);
void is_near(double number, double wanted, double miss, const char *file, int line, const char *what);

/* The answer is what the last placement gave. */
senyolanda_result gives(call *called, senyolanda_result wanted, const char *file, int line, const char *what);

senyolanda_result refusal(uint32_t number, uint32_t place);

/* One call in one placement; lent memory is left as it must be. */
senyolanda_result made(call *called, enum placement placement);

/* Prints what is being tried, for the line of a failure. A test sets it where file and line do not say enough. */
typedef void description(void);
void trying(description *describe);

/* Two numbers are the same to the bit, or both NaN; and so many of two lists, each with its like. */
int same_number(double x, double y);
int same_numbers(const double *some, const double *others, size_t count);

uint64_t bits_of(double number);
double number_of_bits(uint64_t bits);

/* Opens and closes a test program: its name, and its line at the end. The answer is what main returns. */
void open_checks(const char *program);
int close_checks(void);

#endif
