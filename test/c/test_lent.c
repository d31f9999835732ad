/* The tests' own eyes: calls that do what no call may do are seen, so that a test that finds nothing has looked. */
#define _DEFAULT_SOURCE
#include "functions.h"

#include <stdio.h>
#include <string.h>
#include <sys/wait.h>
#include <unistd.h>

static const struct claim matrix[] = { END_OF_MATRIX };

/* ---- calls by no library, over a list of three numbers and an answer ---- */

static double *list, *answer;

static void lend_both(void) {
    static const double numbers[] = { 1, 2, 3 };
    list = (double *)lend_numbers(numbers, 3).numbers;
    answer = lend_number();
    remember_lent();
}

static senyolanda_result answers(void) {
    lend_both();
    *answer = list[0] + list[2];
    return 0;
}

static senyolanda_result refuses(void) {
    lend_both();
    return refusal(6, 2);
}

static senyolanda_result answers_nothing(void) {
    lend_both();
    return 0;
}

static senyolanda_result refuses_and_answers(void) {
    lend_both();
    *answer = 4;
    return refusal(6, 2);
}

static senyolanda_result writes_to_the_list(void) {
    lend_both();
    *answer = 4;
    list[2] = 0;
    return 0;
}

static senyolanda_result writes_before_the_answer(void) {
    lend_both();
    answer[0] = answer[-1] = 4;
    return 0;
}

static senyolanda_result writes_after_the_answer(void) {
    lend_both();
    answer[0] = answer[1] = 4;
    return 0;
}

static senyolanda_result reads_before_the_list(void) {
    lend_both();
    *answer = ((volatile uint8_t *)list)[-1];
    return 0;
}

static senyolanda_result reads_after_the_list(void) {
    lend_both();
    *answer = ((volatile uint8_t *)(list + 3))[0];
    return 0;
}

static senyolanda_result reads_nothing(void) {
    volatile const uint8_t *nothing = lend(TO_READ, 0);
    return nothing[0];
}

/* ---- what is seen ---- */

static int is_seen(call *called, enum placement placement, const char *wrong) {
    lend_afresh(placement);
    const char *seen = wrong_with_lent(called() == 0);
    return wrong == NULL ? seen == NULL : seen != NULL && strcmp(seen, wrong) == 0;
}

static void comparisons(void) {
    for (enum placement placement = AGAINST_END; placement < PLACEMENTS; placement++) {
        CHECK(is_seen(answers, placement, NULL));
        CHECK(is_seen(refuses, placement, NULL));
        CHECK(is_seen(answers_nothing, placement, "an accepted call left its answer unwritten"));
        CHECK(is_seen(refuses_and_answers, placement, "a refused call changed lent memory"));
        CHECK(is_seen(writes_to_the_list, placement, "memory lent to be read changed"));
    }
    CHECK(is_seen(writes_before_the_answer, AGAINST_END, "bytes beside the lent memory changed"));
    CHECK(is_seen(writes_after_the_answer, AGAINST_BEGINNING, "bytes beside the lent memory changed"));
}

/* Whether the call stops the program; a child is stopped in its stead. */
static int stops(call *called, enum placement placement) {
    int status = 0;
    fflush(stdout);
    pid_t child = fork();
    if (child == 0) {
        lend_afresh(placement);
        _exit(freopen("/dev/null", "w", stderr) != NULL && called() == 0 ? 0 : 2);
    }
    return waitpid(child, &status, 0) == child && WIFEXITED(status) && WEXITSTATUS(status) == 1;
}

static void guard_pages(void) {
    CHECK(!stops(answers, AGAINST_END));
    CHECK(!stops(answers, AGAINST_BEGINNING));
    CHECK(stops(reads_after_the_list, AGAINST_END));
    CHECK(stops(reads_before_the_list, AGAINST_BEGINNING));
    CHECK(stops(writes_after_the_answer, AGAINST_END));
    CHECK(stops(writes_before_the_answer, AGAINST_BEGINNING));
    CHECK(stops(reads_nothing, AGAINST_END));
    CHECK(stops(reads_nothing, EMPTY_AS_NULL));
}

int main(int arguments, char **words) {
    open_tests("test_lent", matrix, arguments, words);
    comparisons();
    guard_pages();
    return close_checks();
}
