/* A loan's statement, line by line: as an aligned table, or as comma-separated lines. */
#ifndef LINES_H
#define LINES_H

#include "amounts.h"
#include "drawing.h"

/* Which lines a statement has, and how it writes amounts. A year's line stands behind its rows, or alone where there are none. */
struct layout {
    bool rows, years, total;
    enum form form;
};

/* The first of several statements has the names of the columns in front of it, where they are comma-separated; a table that is not
   the first has an empty line there. */
void print_csv(const struct schedule *schedule, const struct layout *layout, bool is_first);
void print_table(const struct schedule *schedule, const struct layout *layout, bool is_first);

/* Whether all that a table prints adds up, so that its foot need say nothing. */
bool adds_up(const struct schedule *schedule, const struct layout *layout);

#endif
