#define _DEFAULT_SOURCE
#include "harness.h"

#include <inttypes.h>
#include <math.h>
#include <signal.h>
#include <stdarg.h>
#include <stdio.h>
#include <string.h>
#include <unistd.h>

enum { MOST_LINES = 20 };

static const char *name = "test";
static unsigned long checks, failures;
static description *described;

void trying(description *describe) {
    described = describe;
}

static void describe(void) {
    if (described != NULL) described();
    fputc('\n', stderr);
}

void checked(int holds, const char *file, int line, const char *format, ...) {
    checks++;
    if (holds || ++failures > MOST_LINES) return;
    va_list values;
    va_start(values, format);
    fprintf(stderr, "%s:%d: fails: ", file, line);
    vfprintf(stderr, format, values);
    va_end(values);
    describe();
}

uint64_t bits_of(double number) {
    uint64_t bits;
    memcpy(&bits, &number, sizeof bits);
    return bits;
}

double number_of_bits(uint64_t bits) {
    double number;
    memcpy(&number, &bits, sizeof number);
    return number;
}

int same_number(double x, double y) {
    return bits_of(x) == bits_of(y) || (isnan(x) && isnan(y));
}

int same_numbers(const double *some, const double *others, size_t count) {
    for (size_t i = 0; i < count; i++)
        if (!same_number(some[i], others[i])) return 0;
    return 1;
}

void is_number(double number, double wanted, const char *file, int line, const char *what) {
    checked(same_number(number, wanted), file, line, "%s is %.17g (%016" PRIx64 ") and not %.17g (%016" PRIx64 ")",
        what, number, bits_of(number), wanted, bits_of(wanted));
}

void is_near(double number, double wanted, double miss, const char *file, int line, const char *what) {
    checked(fabs(number - wanted) <= miss, file, line, "%s is %.17g, further than %g from %.17g", what, number, miss, wanted);
}

senyolanda_result refusal(uint32_t number, uint32_t place) {
    return number | (senyolanda_result)place << 32;
}

senyolanda_result made(call *called, enum placement placement) {
    lend_afresh(placement);
    senyolanda_result result = called();
    const char *wrong = wrong_with_lent(result == 0);
    checked(wrong == NULL, __FILE__, __LINE__, "%s", wrong != NULL ? wrong : "");
    return result;
}

static const char *const placements[PLACEMENTS] = { "against the end", "against the beginning", "null where empty" };

senyolanda_result gives(call *called, senyolanda_result wanted, const char *file, int line, const char *what) {
    senyolanda_result result = 0;
    for (enum placement placement = AGAINST_END; placement < PLACEMENTS; placement++) {
        if (placement == EMPTY_AS_NULL && !lent_something_empty()) break;
        result = made(called, placement);
        checked(result == wanted, file, line, "%s, lent %s, gives %" PRIu32 " at %" PRIu32 " and not %" PRIu32 " at %" PRIu32,
            what, placements[placement], senyolanda_number(result), senyolanda_place(result), senyolanda_number(wanted),
            senyolanda_place(wanted));
    }
    return result;
}

/* A guard page was touched. The call under test stands still, so that the handler may print before the program ends. */
static void touched(int signal) {
    fprintf(stderr, "%s: signal %d: memory was touched that was not lent", name, signal);
    describe();
    _exit(1);
}

void open_checks(const char *program) {
    name = program;
    struct sigaction action;
    memset(&action, 0, sizeof action);
    action.sa_handler = touched;
    sigaction(SIGSEGV, &action, NULL);
    sigaction(SIGBUS, &action, NULL);
}

int close_checks(void) {
    printf("%s: %lu checks, %lu failed\n", name, checks, failures);
    return failures != 0;
}
