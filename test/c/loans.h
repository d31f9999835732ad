/* What the tests over loans share: the desk's loan set, the causes that its record can meet, and the calls on a loan in hand. */
#ifndef LOANS_H
#define LOANS_H

#include "functions.h"

/* A loan's record at a place: which of a break-even's two loans, else 0. */
#define LOAN_AT(place, loan)                                                       \
    NO_RECORD_AT(place, WHOLE(loan.kind, 0)),                                      \
    NO_RECORD_AT(place, WHOLE(loan.kind, 2), WHOLE(loan.length, SENYOLANDA_BOND_BYTES)), \
    NO_RECORD_AT(place, WHOLE(loan.length, 0)),                                    \
    NO_RECORD_AT(place, WHOLE(loan.length, SENYOLANDA_LOAN_BYTES - 1)),            \
    NO_RECORD_AT(place, WHOLE(loan.length, SENYOLANDA_LOAN_BYTES + 1)),            \
    BAD_AMOUNT_AT(place, loan.principal),                                          \
    CAUSE_AT(place, 2, WHOLE(loan.term, 0)),                                       \
    CAUSE_AT(place, 2, WHOLE(loan.term, 1201)),                                    \
    CAUSE_AT(place, 2, WHOLE(loan.term, UINT32_MAX))

/* The desk's loan, and numbers beside it that no line names; a loan in hand, the room for its rows, and its years' lines. */
extern const struct cause loan_causes[], beside_loan_causes[], state_causes[], one_month_causes[], room_causes[], line_causes[];

/* What a record deserves of a function that reads a loan. */
senyolanda_result loan_deserved(const struct record *record);

void set_loan(double principal, double rate, uint32_t term);

/* f, what 1 grows to over so many months; P·r·f; and the payment that documents 01 and 02 work out, over any balance. */
double factor(double rate, uint32_t months);
double grown_interest(double balance, double rate, uint32_t months);
double worked_out(double balance, double rate, uint32_t months);

/* The loan in hand is the desk's: its loan's term and rate, payment, months done and balance. An opening gives one, a draw or a
   next row moves it on. The answers, in this order: its counts and its amounts; of draws and next rows also rows written, rows
   owed, and the desk's places of room or a row's record; of a draw with lines also the desk's places of them. */
enum { COUNTS, AMOUNTS, WRITTEN, OWED, ROOM, YEARS };
senyolanda_result call_open(void);
senyolanda_result call_open_with_payment(void);
senyolanda_result call_draw(void);
senyolanda_result call_draw_with_years(void);
senyolanda_result call_next_row(void);

/* The loan that the last of these calls gave. */
struct senyolanda_loan answered_loan(void);

/* For calls of other kinds, with the answers in the same order: counts and amounts lent for an opening; and a loan in hand, of
   these terms and with the desk's payment, months done and balance, lent to be moved on. */
struct lent_loan {
    uint32_t *counts;
    double *amounts;
    uint32_t *written, *owed;
};
struct lent_loan lend_loan_to_open(void);
struct lent_loan lend_loan_in_hand(const struct loan_parts *terms);

/* Looks the desk's year up among the desk's lines, for its loan with the desk's months drawn; the answer is the year's line. */
senyolanda_result call_look_up_year(void);

/* What a lookup reads, lent: a loan of these terms with the desk's months drawn, and the desk's lines; and where its line goes. */
struct lent_lookup {
    const uint32_t *counts;
    const double *amounts;
    struct lent_numbers years;
    double *line;
};
struct lent_lookup lend_lookup(const struct loan_parts *terms);

#endif
