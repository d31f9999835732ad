/* What the tests over curves share: the desk's curve set and lent, the causes that it can meet, and a number asked of it. */
#ifndef CURVES_H
#define CURVES_H

#include "functions.h"

/* 4, 5 and 6 of a curve; what only a bootstrap refuses of it; a time asked, a second one, and a list of them. */
extern const struct cause curve_causes[], open_curve_causes[], time_causes[], second_time_causes[], asked_causes[];

void set_curve(size_t count, const double *times, const double *rates);

struct lent_curve {
    const double *times;
    size_t times_count;
    const double *rates;
    size_t rates_count;
};
struct lent_curve lend_curve(void);

/* A function that is asked for a number of a curve, called at the desk's time; two times, for one that asks for both. */
typedef senyolanda_result curve_number(const double *, size_t, const double *, size_t, double, double *);
typedef senyolanda_result curve_number_between(const double *, size_t, const double *, size_t, double, double, double *);
senyolanda_result number_of_curve(curve_number *function);
senyolanda_result number_between(curve_number_between *function);

/* A function that puts its answers in the place of a list of times, called on the desk's list. */
typedef senyolanda_result curve_numbers(const double *, size_t, const double *, size_t, double *, size_t);
senyolanda_result numbers_of_curve(curve_numbers *function);

/* Lists of every length up to the desk's, at times in and around segments at random: each answer is what the other call gives at
   its time alone. */
void as_one_by_one(call *listed, call *alone);

/* Which segment serves a time, by going from knot to knot: the first that it is not beyond, or the first that it is before the end of. */
enum rule { SEGMENT_THAT_ENDS, SEGMENT_THAT_STARTS };
/* A rate along a segment: its two times, its two rates, and the time. */
typedef double along(double t0, double t1, double rate0, double rate1, double t);

/* Curves of 1 to 120 knots at random, asked at each knot, at the floats beside it, between it and the next, and outside: the call
   gives what the formula gives along the segment that the walk comes to, and so does the list call. */
void as_the_walk(call *alone, call *listed, enum rule rule, along *formula);

/* What the call gives at a time, or between two. */
double at(call *called, double t);
double between(call *called, double t1, double t2);

/* Three knots at random, set as the curve, and a time inside the first segment. */
struct segments {
    double t0, t1, t2, rate0, rate1, rate2, inside;
};
struct segments set_random_segments(void);

#endif
