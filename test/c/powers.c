#include "powers.h"

double whole_power_by_steps(double base, uint32_t exponent) {
    double answer = 1;
    while (exponent != 0) {
        if (exponent % 2 == 1) answer *= base;
        exponent /= 2;
        if (exponent != 0) base *= base;
    }
    return answer;
}
