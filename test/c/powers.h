/* Whole powers by document 01's steps, for what a test works out apart from the library. */
#ifndef POWERS_H
#define POWERS_H

#include <stdint.h>

/* Repeated squaring. */
double whole_power_by_steps(double base, uint32_t exponent);

#endif
