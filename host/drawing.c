#include "drawing.h"

enum {
    ROOM = SENYOLANDA_MOST_MONTHS * SENYOLANDA_ROW_PLACES,
    YEAR_ROOM = MONTHS_OF_A_YEAR * SENYOLANDA_ROW_PLACES,
    LINES = SENYOLANDA_MOST_YEARS * SENYOLANDA_YEAR_PLACES
};

static senyolanda_result draw_level(const uint8_t *record, size_t length, struct schedule *schedule) {
    const struct kind *kind = schedule->kind;
    struct senyolanda_loan loan;
    uint32_t owed;
    const senyolanda_result result = kind->is_payment_given
        ? senyolanda_loan_open_with_payment(record, length, kind->payment, &loan)
        : senyolanda_loan_open(record, length, &loan);
    if (result != 0) return result;
    return senyolanda_loan_draw_with_years(&loan, schedule->rows, ROOM, schedule->years, LINES, &schedule->months, &owed);
}

static senyolanda_result draw_interest_only(const uint8_t *record, size_t length, struct schedule *schedule) {
    const struct kind *kind = schedule->kind;
    struct senyolanda_interest_only loan;
    uint32_t owed;
    const senyolanda_result result = kind->is_payment_given
        ? senyolanda_interest_only_open_with_payment(record, length, kind->months, kind->payment, &loan)
        : senyolanda_interest_only_open(record, length, kind->months, &loan);
    if (result != 0) return result;
    return senyolanda_interest_only_draw_with_years(
        &loan, schedule->rows, ROOM, schedule->years, LINES, &schedule->months, &owed);
}

static senyolanda_result draw_balloon(const uint8_t *record, size_t length, struct schedule *schedule) {
    const struct kind *kind = schedule->kind;
    struct senyolanda_balloon loan;
    uint32_t owed;
    const senyolanda_result result = kind->is_payment_given
        ? senyolanda_balloon_open_with_payment(record, length, kind->months, kind->payment, &loan)
        : senyolanda_balloon_open(record, length, kind->months, &loan);
    if (result != 0) return result;
    return senyolanda_balloon_draw_with_years(
        &loan, schedule->rows, ROOM, schedule->years, LINES, &schedule->months, &owed);
}

/* Year by year, since the loan in hand has the rate of the year that was drawn last. */
static senyolanda_result draw_adjustable(const uint8_t *record, size_t length, struct schedule *schedule) {
    const struct kind *kind = schedule->kind;
    struct senyolanda_adjustable loan;
    uint32_t written, owed = 1;
    senyolanda_result result = senyolanda_adjustable_open(
        record, length, kind->initial, kind->cap, kind->lifetime, kind->index, kind->entries, &loan);
    schedule->rate = kind->initial;
    schedule->months = 0;
    for (uint32_t year = 0; result == 0 && owed > 0; year++) {
        double *room = schedule->rows + (size_t)year * YEAR_ROOM;
        result = senyolanda_adjustable_draw_with_years(
            &loan, kind->index, kind->entries, room, YEAR_ROOM, schedule->years, LINES, &written, &owed);
        if (result != 0) break;
        schedule->rates[year] = loan.loan.rate;
        schedule->months += written;
    }
    return result;
}

/* Sums from 0, in the order of the rows; of the months and the balances the last one stands. */
static void add_rows(struct schedule *schedule) {
    struct senyolanda_row total = {0, 0, 0, 0, 0};
    for (uint32_t index = 0; index < schedule->months; index++) {
        const struct senyolanda_row row = senyolanda_row_at(schedule->rows, index);
        total.month = row.month;
        total.payment += row.payment;
        total.principal += row.principal;
        total.interest += row.interest;
        total.balance = row.balance;
    }
    schedule->total = total;
}

senyolanda_result draw_schedule(const uint8_t *record, size_t length, struct schedule *schedule) {
    typedef senyolanda_result draw(const uint8_t *record, size_t length, struct schedule *schedule);
    static draw *const draws[] = {
        [LEVEL] = draw_level, [INTEREST_ONLY] = draw_interest_only, [BALLOON] = draw_balloon, [ADJUSTABLE] = draw_adjustable};
    senyolanda_result result =
        senyolanda_read_loan(record, length, &schedule->principal, &schedule->rate, &schedule->term);
    if (result == 0) result = draws[schedule->kind->name](record, length, schedule);
    if (result == 0) add_rows(schedule);
    return result;
}
