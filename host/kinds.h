/* The kinds of a loan, as the command line names them, and their words. */
#ifndef KINDS_H
#define KINDS_H

#include "command.h"
#include "senyolanda.h"

/* A year after the first has an index rate. */
enum { MOST_ENTRIES = SENYOLANDA_MOST_YEARS - 1 };

/* What a loan's rows need beside its record. What a kind does not have is 0. */
struct kind {
    enum { LEVEL, INTEREST_ONLY, BALLOON, ADJUSTABLE } name;
    bool is_payment_given;
    double payment;                  /* where it is given */
    uint32_t months;                 /* of interest alone, or up to the balloon */
    double initial, cap, lifetime;   /* an adjustable loan's rate of year 1, and its caps */
    double index[MOST_ENTRIES];      /* its index rates, of year 2, 3, .. */
    size_t entries;
};

/* Reads an option's value: months, an initial rate with its caps, or index rates, of which no more are kept than any loan reads.
   False where it is none, which is then said. */
bool read_months(const struct option *option, struct kind *kind);
bool read_adjustment(const struct option *option, struct kind *kind);
bool read_index(const struct option *option, struct kind *kind);

/* The kind, to stand behind a loan's terms; gives its end. Of a level loan there is nothing to say. */
char *put_kind(char *at, const struct kind *kind);

/* Why a loan of that kind and term is refused. */
enum { CAUSE_ROOM = 160 };
void put_cause(char text[CAUSE_ROOM], const struct kind *kind, uint32_t term, senyolanda_result result);

/* A line for each rate and cap of the kind that is above 1; of the index rates for the first. */
void warn_of_rates(const struct kind *kind);

#endif
