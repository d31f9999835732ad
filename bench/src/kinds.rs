//! Loans of other kinds than the level one, drawn whole, beside the plain draw of as many rows.
use crate::called;
use crate::job::{unless_refused, Job};
use crate::library::kinds::*;
use crate::library::*;
use crate::loans::{drawn_plainly, opened, record_of, InHand, Record, MONTHS_OF_A_YEAR};
use crate::measure::{filling, lent, unseen, Numbers, Side};

const PRINCIPAL: f64 = 300_000.0;
const RATE: f64 = 0.065;
const CAP: f64 = 0.01;
const LIFETIME: f64 = 0.03;

/// A plain draw is timed; the answer is the rows of a kind, made of plain draws beforehand.
struct Beside {
    room: Vec<f64>,
    rows: Vec<f64>,
}

impl Numbers for Beside {
    fn numbers(&self) -> Vec<f64> {
        self.rows.clone()
    }
}

fn plain_draw(months: usize, rows: Vec<f64>) -> Box<dyn Side> {
    let hand = opened(&record_of(PRINCIPAL, RATE, months as u32));
    let beside = Beside { room: vec![0.0; months * ROW_PLACES], rows };
    filling(beside, move |beside: &mut Beside| {
        drawn_plainly(&hand, &mut beside.room);
    })
}

/// The first rows of a level loan in hand, as many as there is room for, and the loan after them.
fn plain_rows(mut hand: InHand, months: usize) -> (Vec<f64>, InHand) {
    let (mut room, mut written, mut owed) = (vec![0.0; months * ROW_PLACES], 0, 0);
    called!(senyolanda_draw, &mut hand.0, &mut hand.1, [mut room], &mut written, &mut owed);
    room.truncate(written as usize * ROW_PLACES);
    (room, hand)
}

/// A loan of a kind in hand, where its opening is not refused.
fn opened_by(open: impl Fn(&Record, &mut InHand) -> Outcome, months: usize) -> InHand {
    let mut hand = ([0; LOAN_COUNTS], [0.0; LOAN_AMOUNTS]);
    open(&record_of(PRINCIPAL, RATE, months as u32), &mut hand);
    hand
}

/// A draw of so many rows from a loan in hand; a draw that owes more is none.
fn drawing(
    hand: InHand,
    months: usize,
    draw: impl Fn(&mut InHand, &mut [f64], &mut u32, &mut u32) -> Outcome + 'static,
) -> Box<dyn Side> {
    lent(months * ROW_PLACES, move |room| {
        let (mut hand, mut written, mut owed) = (*unseen(&hand), 0, 0);
        let outcome = draw(&mut hand, room, &mut written, &mut owed);
        unless_refused(outcome | Outcome::from(owed), written as usize * ROW_PLACES)
    })
}

/// A third of the months of interest alone; behind them stand the rows of the level loan of the rest.
pub fn interest_only(months: usize) -> Job {
    let only = months / 3;
    let hand = opened_by(
        |record, hand| called!(senyolanda_open_interest_only, [record], only as u32, &mut hand.0, &mut hand.1),
        months,
    );
    let interest = PRINCIPAL * (RATE / 12.0);
    let mut rows: Vec<f64> = (1..=only).flat_map(|month| [month as f64, interest, 0.0, interest, PRINCIPAL]).collect();
    for row in plain_rows(opened(&record_of(PRINCIPAL, RATE, (months - only) as u32)), months - only).0.chunks_exact(ROW_PLACES) {
        rows.extend([row[0] + only as f64, row[1], row[2], row[3], row[4]]);
    }
    let ours = drawing(hand, months, move |hand, room, written, owed| {
        called!(senyolanda_draw_interest_only, only as u32, &mut hand.0, &mut hand.1, [mut room], written, owed)
    });
    Job::beside_the_draw(format!("draw of {months}, interest-only"), months, ours, plain_draw(months, rows))
}

/// A balloon in the last but one of so many months and one; its rows are a level loan's, but for the last.
pub fn balloon(months: usize) -> Job {
    let month = months as u32;
    let hand = opened_by(|record, hand| called!(senyolanda_open_balloon, [record], month, &mut hand.0, &mut hand.1), months + 1);
    let (mut rows, after) = plain_rows(opened(&record_of(PRINCIPAL, RATE, month + 1)), months - 1);
    let balance = after.1[2];
    let interest = balance * (RATE / 12.0);
    rows.extend([months as f64, balance + interest, balance, interest, 0.0]);
    let ours = drawing(hand, months, move |hand, room, written, owed| {
        called!(senyolanda_draw_balloon, month, &mut hand.0, &mut hand.1, [mut room], written, owed)
    });
    Job::beside_the_draw(format!("draw of {months}, balloon"), months, ours, plain_draw(months, rows))
}

/// Index rates that rise and fall by more than the cap.
fn index_of(months: usize) -> Vec<f64> {
    (0..months.saturating_sub(1) / MONTHS_OF_A_YEAR).map(|year| RATE + 0.02 * ((year % 5) as f64 - 1.5)).collect()
}

fn next_rate(last: f64, index: f64) -> f64 {
    let (low, high, top) = (last - CAP, last + CAP, RATE + LIFETIME);
    let held = if index < low { low } else if index > high { high } else { index };
    if held > top { top } else { held }
}

/// The rows of an adjustable loan, each year a plain draw at its own rate and payment.
fn adjusted_rows(months: usize, index: &[f64]) -> Vec<f64> {
    let (mut rows, mut hand) = plain_rows(opened(&record_of(PRINCIPAL, RATE, months as u32)), MONTHS_OF_A_YEAR);
    for &entry in index {
        let (rate, left) = (next_rate(hand.1[0], entry), hand.0[0] - hand.0[1]);
        hand.1 = opened(&record_of(hand.1[2], rate, left)).1;
        let (year, after) = plain_rows(hand, MONTHS_OF_A_YEAR);
        rows.extend(year);
        hand = after;
    }
    rows
}

/// A rate and a payment for each year.
pub fn adjustable(months: usize) -> Job {
    let index = index_of(months);
    let hand = opened_by(
        |record, hand| called!(senyolanda_open_adjustable, [record], RATE, CAP, LIFETIME, [index], &mut hand.0, &mut hand.1),
        months,
    );
    let rows = adjusted_rows(months, &index);
    let ours = drawing(hand, months, move |hand, room, written, owed| {
        called!(senyolanda_draw_adjustable, RATE, CAP, LIFETIME, [index], &mut hand.0, &mut hand.1, [mut room], written, owed)
    });
    Job::beside_the_draw(format!("draw of {months}, adjustable"), months, ours, plain_draw(months, rows))
}
