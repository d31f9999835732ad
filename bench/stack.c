/*
 * How deep a stack each function of the library needs: it is called on a painted stack of its own, with the largest input that
 * it takes, and what it painted over is measured, less what an empty call takes. A line `FUNCTION BYTES` for each; ends non-zero
 * where a call is refused.
 */
#define _XOPEN_SOURCE 700
#include "senyolanda.h"

#include <stdio.h>
#include <string.h>
#include <ucontext.h>

enum { STACK = 1 << 20, PAINT = 0xa5 };
enum {
    MONTHS = SENYOLANDA_MOST_MONTHS,
    YEARS = SENYOLANDA_MOST_YEARS,
    LOANS = SENYOLANDA_MOST_LOANS,
    BOOK = SENYOLANDA_MOST_BOOK_LOANS,
    KNOTS = SENYOLANDA_MOST_KNOTS,
    FLOWS = SENYOLANDA_MOST_FLOWS
};

/* ---- what the calls take and fill ---- */

static uint8_t loan[SENYOLANDA_LOAN_BYTES], new_loan[SENYOLANDA_LOAN_BYTES], pool[LOANS * SENYOLANDA_LOAN_BYTES];
static uint8_t bond[SENYOLANDA_BOND_BYTES], row[SENYOLANDA_ROW_BYTES], swap[SENYOLANDA_SWAP_BYTES], text[SENYOLANDA_LISTING_BYTES];
static double times[KNOTS], rates[KNOTS], zeros[KNOTS], model[4] = { 0.05, -0.02, 0.01, 0.5 };
static double flow_times[FLOWS], amounts[FLOWS], dated[2 * FLOWS], history[MONTHS], bond_times[FLOWS], bond_amounts[FLOWS];
static double room[MONTHS * SENYOLANDA_ROW_PLACES], asked[MONTHS], numbers[8], x, rate, payment, balance;
static uint32_t counts[SENYOLANDA_LOAN_COUNTS], term, written, owed, count, code;
static double loan_amounts[SENYOLANDA_LOAN_AMOUNTS];
static uint32_t year_counts[SENYOLANDA_LOAN_COUNTS];
static double year_amounts[SENYOLANDA_LOAN_AMOUNTS], years[YEARS * SENYOLANDA_YEAR_PLACES], line[SENYOLANDA_YEAR_PLACES];
static uint32_t only_counts[SENYOLANDA_LOAN_COUNTS], balloon_counts[SENYOLANDA_LOAN_COUNTS];
static double only_amounts[SENYOLANDA_LOAN_AMOUNTS], balloon_amounts[SENYOLANDA_LOAN_AMOUNTS];
static uint32_t adjustable_counts[SENYOLANDA_LOAN_COUNTS];
static double adjustable_amounts[SENYOLANDA_LOAN_AMOUNTS], index_rates[YEARS - 1];
static uint8_t dated_swap[SENYOLANDA_DATED_SWAP_BYTES];
static uint32_t first[SENYOLANDA_DATE_NUMBERS], second[SENYOLANDA_DATE_NUMBERS];
static uint8_t book[BOOK * SENYOLANDA_LOAN_BYTES];
static double book_room[BOOK * MONTHS * SENYOLANDA_ROW_PLACES];
static uint32_t answers[BOOK];

#define OF(array) (array), sizeof(array) / sizeof *(array)
#define ADJUSTMENT 0.06, 0.02, 0.05, OF(index_rates)

/* Whether every record could be written, and the loans opened that are drawn with lines. */
static int set_out(void) {
    senyolanda_write_loan(250000.0, 0.06, MONTHS, loan);
    senyolanda_write_loan(250000.0, 0.05, MONTHS, new_loan);
    for (int i = 0; i < LOANS; i++) memcpy(pool + i * SENYOLANDA_LOAN_BYTES, loan, sizeof loan);
    for (int i = 0; i < BOOK; i++) memcpy(book + i * SENYOLANDA_LOAN_BYTES, loan, sizeof loan);
    for (int i = 0; i < MONTHS; i++) asked[i] = i / 12.0;
    senyolanda_write_row(1, 1500.0, 250.0, 1250.0, 249750.0, row);
    for (int i = 0; i < KNOTS; i++) {
        times[i] = 0.75 * (i + 1);
        rates[i] = 0.03 + 0.0001 * i;
    }
    for (int i = 0; i < FLOWS; i++) {
        dated[2 * i] = flow_times[i] = (i + 1) / 12.0;
        dated[2 * i + 1] = amounts[i] = 10.0;
    }
    for (int i = 0; i < MONTHS; i++) history[i] = 0.005;
    for (int i = 0; i < YEARS - 1; i++) index_rates[i] = 0.03 + 0.01 * (i % 5);
    return senyolanda_write_bond(1000.0, 0.05, 100.0, SENYOLANDA_MONTHLY, bond) == 0
        && senyolanda_write_swap(1e6, 0.04, 100.0, 12, SENYOLANDA_ACTUAL_360, swap) == 0
        && senyolanda_write_dated_swap(1e6, 0.04, 0.0, 12, 2000, 1, 31, 2100, 1, 31, SENYOLANDA_THIRTY_360, dated_swap) == 0
        && senyolanda_open(loan, sizeof loan, year_counts, year_amounts) == 0
        && senyolanda_open_interest_only(loan, sizeof loan, MONTHS / 2, only_counts, only_amounts) == 0
        && senyolanda_open_balloon(loan, sizeof loan, MONTHS, balloon_counts, balloon_amounts) == 0
        && senyolanda_open_adjustable(loan, sizeof loan, ADJUSTMENT, adjustable_counts, adjustable_amounts) == 0;
}

/* ---- every function, with its arguments ---- */

#define LOAN OF(loan)
#define HAND counts, loan_amounts
#define YEAR_HAND year_counts, year_amounts
#define ONLY_HAND only_counts, only_amounts
#define BALLOON_HAND balloon_counts, balloon_amounts
#define ADJUSTABLE_HAND adjustable_counts, adjustable_amounts
#define POOL OF(pool), SENYOLANDA_PSA, 1.5, OF(history)
#define BOND OF(bond)
#define CURVE OF(times), OF(rates)
#define SWAP OF(swap), CURVE
#define DATED_SWAP OF(dated_swap), CURVE
#define DATES 2000, 1, 31, 2100, 1, 31
#define LISTS OF(flow_times), OF(amounts), CURVE
#define DATED OF(dated), CURVE
#define CALLS(CALL)                                                                                     \
    CALL(exp, (1.5, &x))                                                                                \
    CALL(exp_each, (OF(room)))                                                                          \
    CALL(ln, (1.5, &x))                                                                                 \
    CALL(power, (1.5, 0.5, &x))                                                                         \
    CALL(read_loan, (LOAN, &x, &rate, &term))                                                           \
    CALL(write_loan, (250000.0, 0.06, MONTHS, loan))                                                    \
    CALL(read_bond, (BOND, &x, &rate, &payment, &code))                                                 \
    CALL(write_bond, (1000.0, 0.05, 100.0, SENYOLANDA_MONTHLY, bond))                                   \
    CALL(read_row, (OF(row), &count, &x, &rate, &payment, &balance))                                    \
    CALL(write_row, (1, 1500.0, 250.0, 1250.0, 249750.0, row))                                          \
    CALL(read_swap, (OF(swap), &x, &rate, &payment, &count, &code))                                     \
    CALL(write_swap, (1e6, 0.04, 100.0, 12, SENYOLANDA_ACTUAL_360, swap))                               \
    CALL(read_dated_swap, (OF(dated_swap), &x, &rate, &payment, &count, first, second, &code))          \
    CALL(write_dated_swap, (1e6, 0.04, 0.0, 12, DATES, SENYOLANDA_THIRTY_360, dated_swap))              \
    CALL(day_number, (2199, 12, 31, &count))                                                            \
    CALL(date_of_number, (109574, first))                                                               \
    CALL(months_later, (2000, 1, 31, 1200, first))                                                      \
    CALL(actual_days, (DATES, &count))                                                                  \
    CALL(days_30_360, (DATES, &count))                                                                  \
    CALL(dated_fraction, (SENYOLANDA_THIRTY_360, DATES, &x))                                            \
    CALL(monthly_payment, (LOAN, &x))                                                                   \
    CALL(open, (LOAN, HAND))                                                                            \
    CALL(open_with_payment, (LOAN, 1500.0, HAND))                                                       \
    CALL(next_row, (HAND, row, &written, &owed))                                                        \
    CALL(draw, (HAND, OF(room), &written, &owed))                                                       \
    CALL(draw_with_years, (YEAR_HAND, OF(room), OF(years), &written, &owed))                            \
    CALL(look_up_year, (YEAR_HAND, OF(years), YEARS, line))                                             \
    CALL(open_interest_only, (LOAN, MONTHS / 2, HAND))                                                  \
    CALL(open_interest_only_with_payment, (LOAN, MONTHS / 2, 1500.0, HAND))                             \
    CALL(next_interest_only_row, (MONTHS / 2, HAND, row, &written, &owed))                              \
    CALL(draw_interest_only, (MONTHS / 2, HAND, OF(room), &written, &owed))                             \
    CALL(draw_interest_only_with_years, (MONTHS / 2, ONLY_HAND, OF(room), OF(years), &written, &owed))  \
    CALL(open_balloon, (LOAN, MONTHS, HAND))                                                            \
    CALL(open_balloon_with_payment, (LOAN, MONTHS, 1500.0, HAND))                                       \
    CALL(next_balloon_row, (MONTHS, HAND, row, &written, &owed))                                        \
    CALL(draw_balloon, (MONTHS, HAND, OF(room), &written, &owed))                                       \
    CALL(draw_balloon_with_years, (MONTHS, BALLOON_HAND, OF(room), OF(years), &written, &owed))         \
    CALL(look_up_balloon_year, (MONTHS, YEAR_HAND, OF(years), YEARS, line))                             \
    CALL(open_adjustable, (LOAN, ADJUSTMENT, HAND))                                                     \
    CALL(next_adjustable_row, (ADJUSTMENT, HAND, row, &written, &owed))                                 \
    CALL(draw_adjustable, (ADJUSTMENT, HAND, OF(room), &written, &owed))                                \
    CALL(draw_adjustable_with_years, (ADJUSTMENT, ADJUSTABLE_HAND, OF(room), OF(years), &written, &owed)) \
    CALL(draw_book, (OF(book), OF(answers), OF(book_room), &count, &written, &owed))                    \
    CALL(total_interest, (LOAN, &x))                                                                    \
    CALL(remaining_balance, (LOAN, MONTHS, &x))                                                         \
    CALL(ltv, (LOAN, 500000.0, &x))                                                                     \
    CALL(prepayment_savings, (LOAN, 10.0, &count, &x))                                                  \
    CALL(refinance_breakeven, (LOAN, OF(new_loan), 1000.0, 12, &count))                                 \
    CALL(listing, (LOAN, text, &count))                                                                 \
    CALL(monthly_smm, (SENYOLANDA_PSA, 1.5, OF(history), 12, &x))                                       \
    CALL(pool_cash_flows, (POOL, OF(room), &count))                                                     \
    CALL(pool_price, (POOL, 0.05, &x))                                                                  \
    CALL(pool_duration, (POOL, 0.05, &x))                                                               \
    CALL(pool_convexity, (POOL, 0.05, &x))                                                              \
    CALL(pool_totals, (OF(pool), numbers))                                                              \
    CALL(bond_price, (BOND, 0.04, &x))                                                                  \
    CALL(bond_dv01, (BOND, 0.04, &x))                                                                   \
    CALL(bond_current_yield, (BOND, 900.0, &x))                                                         \
    CALL(bond_yield_to_maturity, (BOND, 900.0, &x))                                                     \
    CALL(bond_macaulay_duration, (BOND, 0.04, &x))                                                      \
    CALL(bond_modified_duration, (BOND, 0.04, &x))                                                      \
    CALL(bond_convexity, (BOND, 0.04, &x))                                                              \
    CALL(bond_price_change, (BOND, 0.04, 0.001, &x))                                                    \
    CALL(bond_macaulay_duration_at_price, (BOND, 900.0, &x))                                            \
    CALL(bond_modified_duration_at_price, (BOND, 900.0, &x))                                            \
    CALL(bond_convexity_at_price, (BOND, 900.0, &x))                                                    \
    CALL(zero_coupon_bond_price, (0.04, 99.5, &x))                                                      \
    CALL(periods_per_year, (SENYOLANDA_MONTHLY, &count))                                                \
    CALL(linear_interpolate, (CURVE, 50.0, &x))                                                         \
    CALL(linear_interpolate_each, (CURVE, OF(asked)))                                                   \
    CALL(cubic_spline_interpolate, (CURVE, 50.0, &x))                                                   \
    CALL(yield_curve_discount_factor, (CURVE, 50.0, &x))                                                \
    CALL(yield_curve_discount_factor_each, (CURVE, OF(asked)))                                          \
    CALL(yield_curve_forward_rate, (CURVE, 50.0, 60.0, &x))                                             \
    CALL(par_yield, (CURVE, 600.0, &x))                                                                 \
    CALL(nelson_siegel_fit, (CURVE, model))                                                             \
    CALL(nelson_siegel_yield, (model, 50.0, &x))                                                        \
    CALL(nelson_siegel_forward_rate, (model, 50.0, &x))                                                 \
    CALL(nelson_siegel_instantaneous_forward, (model, &x))                                              \
    CALL(nelson_siegel_metrics, (model, numbers))                                                       \
    CALL(day_count_fraction, (SENYOLANDA_THIRTY_360, 90, &x))                                           \
    CALL(bootstrap, (CURVE, zeros))                                                                     \
    CALL(discount_curve_rate, (CURVE, 50.0, &x))                                                        \
    CALL(discount_curve_rate_each, (CURVE, OF(asked)))                                                  \
    CALL(discount_curve_factor, (CURVE, 50.0, &x))                                                      \
    CALL(discount_curve_factor_each, (CURVE, OF(asked)))                                                \
    CALL(fixed_leg_pv, (SWAP, &x))                                                                      \
    CALL(floating_leg_pv, (SWAP, &x))                                                                   \
    CALL(swap_npv, (SWAP, 1, &x))                                                                       \
    CALL(par_swap_rate, (SWAP, &x))                                                                     \
    CALL(swap_dv01, (SWAP, 1, &x))                                                                      \
    CALL(swap_duration, (SWAP, &x))                                                                     \
    CALL(value_swap, (SWAP, 1, numbers))                                                                \
    CALL(dated_fixed_leg_pv, (DATED_SWAP, &x))                                                          \
    CALL(dated_floating_leg_pv, (DATED_SWAP, &x))                                                       \
    CALL(dated_swap_npv, (DATED_SWAP, 1, &x))                                                           \
    CALL(dated_par_swap_rate, (DATED_SWAP, &x))                                                         \
    CALL(dated_swap_dv01, (DATED_SWAP, 1, &x))                                                          \
    CALL(dated_swap_duration, (DATED_SWAP, &x))                                                         \
    CALL(value_dated_swap, (DATED_SWAP, 1, numbers))                                                    \
    CALL(zero_curve_rate, (CURVE, 50.0, &x))                                                            \
    CALL(zero_curve_rate_each, (CURVE, OF(asked)))                                                      \
    CALL(swap_curve_rate, (CURVE, 50.0, &x))                                                            \
    CALL(swap_curve_rate_each, (CURVE, OF(asked)))                                                      \
    CALL(zero_curve_discount_factor, (CURVE, 50.0, &x))                                                 \
    CALL(zero_curve_discount_factor_each, (CURVE, OF(asked)))                                           \
    CALL(zero_curve_forward_rate, (CURVE, 50.0, 60.0, &x))                                              \
    CALL(bond_cash_flows, (1000.0, 0.05, 100.0, 12, OF(bond_times), OF(bond_amounts), &count))          \
    CALL(pv_cash_flows, (LISTS, 85.0, &x))                                                              \
    CALL(z_spread, (LISTS, 1500.0, &x, &count))                                                         \
    CALL(duration_convexity, (LISTS, 85.0, numbers))                                                    \
    CALL(dated_pv, (DATED, 85.0, &x))                                                                   \
    CALL(dated_z_spread, (DATED, 1500.0, &x, &count))                                                   \
    CALL(dated_duration_convexity, (DATED, 85.0, numbers))                                              \
    CALL(points_to_decimal, (85.0, &x))

typedef senyolanda_result call(void);
#define DEFINED(function, arguments) \
    static senyolanda_result call_##function(void) { return senyolanda_##function arguments; }
#define NAMED(function, arguments) { "senyolanda_" #function, call_##function },
CALLS(DEFINED)
static const struct {
    const char *name;
    call *called;
} calls[] = { CALLS(NAMED) };

/* ---- the painted stack ---- */

static unsigned char stack[STACK];
static ucontext_t outside, inside;
static call *called;
static senyolanda_result result;
static size_t left;

static senyolanda_result call_nothing(void) { return 0; }

/* The paint that is left is measured before anything else runs on this stack. */
static void enter(void) {
    result = called();
    for (left = 0; left < STACK && stack[left] == PAINT; left++) continue;
}

/* The bytes of the stack down to the deepest that a call painted over. */
static size_t touched(call *function) {
    memset(stack, PAINT, STACK);
    called = function;
    getcontext(&inside);
    inside.uc_stack.ss_sp = stack;
    inside.uc_stack.ss_size = STACK;
    inside.uc_link = &outside;
    makecontext(&inside, enter, 0);
    swapcontext(&outside, &inside);
    return STACK - left;
}

int main(void) {
    if (!set_out()) {
        fputs("stack: a record is refused\n", stderr);
        return 1;
    }
    size_t nothing = touched(call_nothing);
    for (size_t i = 0; i < sizeof calls / sizeof *calls; i++) {
        size_t bytes = touched(calls[i].called) - nothing;
        if (result != 0) {
            fprintf(stderr, "stack: %s refuses its call: %s\n", calls[i].name, senyolanda_refusal_text(senyolanda_number(result)));
            return 1;
        }
        printf("%s %zu\n", calls[i].name, bytes);
    }
    return 0;
}
