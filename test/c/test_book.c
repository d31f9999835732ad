/* A book of loans in one call. */
#include "damaged.h"
#include "powers.h"

#include <math.h>
#include <string.h>

static const struct claim matrix[] = {
    /*                1 2 3 4 5 6 7 8 9 10 11 12 13 14 15 16 */
    CLAIM(draw_book, ". . 3 . . . . . . .. 11 .. .. .. .. .."),
    END_OF_MATRIX,
};

/* ---- the call ---- */

/* The answers: three counts, then the two lists. */
enum { FINISHED, CUT, WAITING, ANSWERS, ROOM };
static senyolanda_result call_draw_book(void) {
    struct lent_bytes book = lend_pool();
    uint32_t *finished = lend_count(), *cut = lend_count(), *waiting = lend_count();
    uint32_t *answers = lend(AS_ROOM, desk.answers_count * sizeof *answers);
    double *room = lend(AS_ROOM, desk.places * sizeof *room);
    return CALL(senyolanda_draw_book(
        book.bytes, book.length, answers, desk.answers_count, room, desk.places, finished, cut, waiting));
}

/* ---- causes: at rest three loans, of 3, 4 and 5 months, and room for all their rows ---- */

/* A loan that would be refused by itself is no cause. */
static const struct cause book_causes[] = {
    NO_RECORD(WHOLE(bytes_more, 1)),
    NO_RECORD(WHOLE(bytes_more, 20)),
    NO_RECORD(WHOLE(bytes_more, 1), WHOLE(loans_count, 0)),
    NO_RECORD(WHOLE(loans_count, 257)),
    NO_RECORD(WHOLE(loans_count, 258)),
    TAKEN(WHOLE(loans_count, 256), WHOLE(answers_count, 256)),
    CAUSE(3, WHOLE(loans_count, 256), WHOLE(answers_count, 255)),
    CAUSE(3, WHOLE(answers_count, 2)),
    CAUSE(3, WHOLE(answers_count, 0)),
    TAKEN(WHOLE(answers_count, 4)),
    CAUSE(3, WHOLE(places, WIDTH - 1)),
    CAUSE(3, WHOLE(places, 0)),
    CAUSE(3, WHOLE(places, WIDTH - 1), WHOLE(loans[0].term, 0), WHOLE(loans[1].kind, 2)),
    TAKEN(WHOLE(places, WIDTH)),
    TAKEN(WHOLE(places, 12 * WIDTH - 1)),
    TAKEN(WHOLE(places, 0), WHOLE(loans_count, 0)),
    TAKEN(WHOLE(places, 0), WHOLE(loans_count, 1), WHOLE(loans[0].term, 1201)),
    TAKEN(WHOLE(loans[0].kind, 3)),
    TAKEN(WHOLE(loans[1].term, 0)),
    TAKEN(NUMBER(loans[2].principal, NAN)),
    TAKEN(NUMBER(loans[1].rate, NAN)),
    END_OF_CAUSES,
};

static const struct function functions[] = {
    { FUNCTION(draw_book), { book_causes }, NULL },
    END_OF_FUNCTIONS,
};

/* ---- the same as one loan at a time ---- */

/* What a book came to, by drawing its loans one by one. */
enum { PLACES = 400 };
static struct {
    uint32_t finished, cut, waiting, answers[LOANS];
    double room[PLACES];
    size_t filled;
} wanted;

/* Opens the loan; where its factor is 1, with equal parts given as its payment. */
static senyolanda_result opened_alone(const struct loan_parts *parts, struct senyolanda_loan *loan) {
    struct record record = record_of_loan(parts);
    if (whole_power_by_steps(1 + parts->rate / 12, parts->term) != 1)
        return senyolanda_loan_open(record.bytes, record.length, loan);
    return senyolanda_loan_open_with_payment(record.bytes, record.length, parts->principal / parts->term, loan);
}

/* Draws the loan behind the others; whether all its rows found room. */
static int drawn_alone(const struct loan_parts *parts, uint32_t *answer) {
    struct senyolanda_loan loan = { 0, 0, 0, 0, 0 };
    uint32_t written = 0, owed = 0;
    senyolanda_result result = opened_alone(parts, &loan);
    if (result == 0) {
        result = senyolanda_loan_draw(&loan, wanted.room + wanted.filled, desk.places - wanted.filled, &written, &owed);
        if (senyolanda_number(result) == 3) return 0;
    }
    *answer = senyolanda_number(result);
    wanted.filled += written * WIDTH;
    wanted.cut = owed == 0 ? 0 : written;
    return owed == 0;
}

static void draw_one_by_one(void) {
    uint32_t count = (uint32_t)desk.loans_count;
    wanted.finished = wanted.cut = 0;
    wanted.filled = 0;
    while (wanted.finished < count && drawn_alone(&desk.loans[wanted.finished], &wanted.answers[wanted.finished])) wanted.finished++;
    wanted.waiting = count - wanted.finished - (wanted.cut != 0);
}

static void is_as_one_by_one(void) {
    draw_one_by_one();
    ACCEPTED(call_draw_book);
    CHECK(answered_count(FINISHED) == wanted.finished);
    CHECK(answered_count(CUT) == wanted.cut);
    CHECK(answered_count(WAITING) == wanted.waiting);
    uint32_t answers[LOANS];
    size_t answered = desk.loans_count - wanted.waiting;
    memcpy(answers, answered_bytes(ANSWERS), answered * sizeof *answers);
    for (size_t i = 0; i < answered; i++) CHECK(answers[i] == wanted.answers[i]);
    for (size_t i = 0; i < wanted.filled; i++) IS(answered_numbers(ROOM)[i], wanted.room[i]);
    CHECK(answered_numbers_stay(ROOM, wanted.filled));
    for (size_t i = answered * sizeof *answers; i < desk.answers_count * sizeof *answers; i++)
        CHECK(answered_bytes(ANSWERS)[i] == 0xa5);
}

/* At a rate that 1 does not feel. */
static void equal_parts(void) {
    for (size_t i = 0; i < desk.loans_count; i++) desk.loans[i].rate = 1e-17;
    is_as_one_by_one();
    IS(answered_numbers(ROOM)[1], desk.loans[0].principal / desk.loans[0].term);
    tidy_desk();
}

/* A loan of a few months, any rate and any principal, now and then one that is refused, or is no loan. */
static struct loan_parts random_loan(void) {
    double principal = 1000 + random_below(1000), rate = 0.01 * random_below(20);
    struct loan_parts loan = { 1, principal, rate, 1 + random_below(12), SENYOLANDA_LOAN_BYTES };
    switch (random_below(12)) {
    case 0: loan.term = 0; break;
    case 1: loan.principal = random_number(); break;
    case 2: loan.rate = random_number(); break;
    case 3: loan.kind = 2; break;
    case 4: loan.rate = 6 * random_below(3); break;
    case 5: loan.principal = 0; break;
    case 6: loan.rate = random_below(2) == 0 ? 1e-17 : -24; break;
    }
    return loan;
}

static void random_books(void) {
    for (int i = 0; i < 20000; i++) {
        desk.loans_count = random_below(10);
        desk.answers_count = desk.loans_count + random_below(3);
        desk.places = WIDTH + random_below(PLACES - WIDTH);
        for (size_t k = 0; k < desk.loans_count; k++) desk.loans[k] = random_loan();
        is_as_one_by_one();
    }
    tidy_desk();
}

/* Loans of the longest terms beside short ones, and room for a row less, as many, and one more. */
static void ends_of_the_room(void) {
    for (size_t places = WIDTH; places <= 13 * WIDTH; places++) {
        desk.places = places;
        is_as_one_by_one();
    }
    tidy_desk();
}

static void full_books(void) {
    desk.loans_count = desk.answers_count = 256;
    for (size_t i = 0; i < 256; i++) desk.loans[i].term = i % 7 == 3 ? 0 : 1;
    desk.places = 300;
    is_as_one_by_one();
    tidy_desk();
}

int main(int arguments, char **words) {
    open_tests("test_book", matrix, arguments, words);
    try_functions(functions);
    ends_of_the_room();
    full_books();
    equal_parts();
    random_books();
    return close_checks();
}
