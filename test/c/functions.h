/*
 * A test claims in a matrix which refusals each of its functions can give, and has a table of the causes that each can meet.
 * Every cause is tried alone and with every other; the lowest number wins, a bad single argument before a bad item of a list,
 * the first bad item before the next. What was seen is then compared with the matrix: every number, and no other.
 */
#ifndef FUNCTIONS_H
#define FUNCTIONS_H

#include "desk.h"

/* A row of the matrix: CLAIM(draw, ". 2 3 . . . . . . 10 .. .. .. .. .. .."). */
struct claim {
    const char *function, *refusals;
};
#define CLAIM(function, refusals) { "senyolanda_" #function, refusals }
#define END_OF_MATRIX { NULL, NULL }

/* One argument of the desk, and the value that it is set to. */
struct setting {
    const char *name;
    size_t at, width;
    int is_number;
    double number;
    uint64_t whole;
};
#define ARGUMENT(argument) offsetof(struct desk, argument), sizeof desk.argument
#define NUMBER(argument, value) { #argument " = " #value, ARGUMENT(argument), 1, (value), 0 }
#define WHOLE(argument, value) { #argument " = " #value, ARGUMENT(argument), 0, 0, (value) }

/* What the settings bring about when nothing else is wrong: a refusal, or number 0, the call is accepted. */
struct cause {
    uint32_t number, place;
    enum { SINGLE, ITEM } kind;
    int before_all;              /* a record that is none: 11, and no other number */
    uint32_t unless;             /* causes of these numbers, a bit each, take this one away */
    struct setting settings[3];
};
#define TAKEN(...) { 0, 0, SINGLE, 0, 0, { __VA_ARGS__ } }
#define CAUSE(number, ...) { number, 0, SINGLE, 0, 0, { __VA_ARGS__ } }
#define CAUSE_AT(place, number, ...) { number, place, ITEM, 0, 0, { __VA_ARGS__ } }
#define CAUSE_UNLESS(other, number, ...) { number, 0, SINGLE, 0, 1u << (other), { __VA_ARGS__ } }
#define CAUSE_UNLESS_EITHER(one, other, number, ...) { number, 0, SINGLE, 0, 1u << (one) | 1u << (other), { __VA_ARGS__ } }
#define NO_RECORD(...) { 11, 0, SINGLE, 1, 0, { __VA_ARGS__ } }
#define NO_RECORD_AT(place, ...) { 11, place, ITEM, 1, 0, { __VA_ARGS__ } }
#define END_OF_CAUSES { 0, 0, SINGLE, 0, 0, { { NULL, 0, 0, 0, 0, 0 } } }

/* A number that is not finite; and the largest that are, which are taken. */
#define NOT_FINITE_AT(place, number, argument)                \
    CAUSE_AT(place, number, NUMBER(argument, NAN)),           \
    CAUSE_AT(place, number, NUMBER(argument, INFINITY)),      \
    CAUSE_AT(place, number, NUMBER(argument, -INFINITY))
#define NOT_FINITE(number, argument)                          \
    CAUSE(number, NUMBER(argument, NAN)),                     \
    CAUSE(number, NUMBER(argument, INFINITY)),                \
    CAUSE(number, NUMBER(argument, -INFINITY))
#define FINITE_TAKEN(argument)                                \
    TAKEN(NUMBER(argument, DBL_MAX)),                         \
    TAKEN(NUMBER(argument, -DBL_MAX))

/* A principal, face or notional. */
#define SMALLEST 0x1p-1074
#define BAD_AMOUNT_AT(place, argument)                        \
    CAUSE_AT(place, 1, NUMBER(argument, -SMALLEST)),          \
    NOT_FINITE_AT(place, 1, argument)
#define BAD_AMOUNT(argument) BAD_AMOUNT_AT(0, argument)
#define AMOUNT_TAKEN(argument)                                \
    TAKEN(NUMBER(argument, -0.0)),                            \
    TAKEN(NUMBER(argument, 0.0)),                             \
    TAKEN(NUMBER(argument, DBL_MAX))

/* A code as a plain number of 32 bits, 0 to the last: 256 is not 0. */
#define CODES(argument, last)                                 \
    CAUSE(11, WHOLE(argument, last + 1)),                     \
    CAUSE(11, WHOLE(argument, 256)),                          \
    CAUSE(11, WHOLE(argument, UINT32_MAX)),                   \
    TAKEN(WHOLE(argument, 0)),                                \
    TAKEN(WHOLE(argument, last))

/* The refusal that a record deserves by 1 to 11, by 15 or by 16, with all else at rest; 0 where there is none. */
typedef senyolanda_result verdict(const struct record *record);

enum { FAMILIES = 4 };
struct function {
    const char *name;
    call *called;
    const struct cause *families[FAMILIES];      /* each ends with END_OF_CAUSES */
    verdict *deserved;                           /* null where no record is read */
};
#define FUNCTION(function) "senyolanda_" #function, call_##function
#define END_OF_FUNCTIONS { NULL, NULL, { NULL }, NULL }

/* Opens a test program. Called with --functions it only prints the functions of its matrix, and ends. */
void open_tests(const char *program, const struct claim *matrix, int arguments, char **words);

/* Tries every cause of every function, alone and in pairs. */
void try_functions(const struct function *functions);

/* Whether the matrix says that the function can give a number. */
int can_give(const struct function *function, uint32_t number);

#endif
