/* A loan drawn whole, of any kind. */
#ifndef DRAWING_H
#define DRAWING_H

#include "kinds.h"

enum { MONTHS_OF_A_YEAR = 12 };

/* Its rows, its years' lines, and the sums of its rows, with all its months and its last balance. */
struct schedule {
    size_t number;   /* among the loans, from 1 */
    const struct kind *kind;
    double principal, rate;   /* the rate is an adjustable loan's first */
    uint32_t term;
    uint32_t months;   /* how many rows there are: the term, or up to a balloon */
    double rows[SENYOLANDA_MOST_MONTHS * SENYOLANDA_ROW_PLACES];
    double years[SENYOLANDA_MOST_YEARS * SENYOLANDA_YEAR_PLACES];
    double rates[SENYOLANDA_MOST_YEARS];   /* an adjustable loan's, of each year */
    struct senyolanda_row total;
};

/* Draws the loan that the bytes hold, as the schedule's kind has it. There is room for the longest term. */
senyolanda_result draw_schedule(const uint8_t *record, size_t length, struct schedule *schedule);

#endif
