//! Loans: a schedule, a draw with years' lines, a book of schedules, a payment.
use crate::called;
use crate::job::{one_by_one, unless_refused, Job};
use crate::library::records::senyolanda_write_loan;
use crate::library::*;
use crate::measure::{filling, giving, lent, unseen, Numbers};
use crate::published::mortgage::{AmortizationRow, MortgageCalculator, MortgageTerms};

pub type Record = [u8; LOAN_BYTES];

const MONTHS_OF_A_BOOK: usize = 360;
pub const MONTHS_OF_A_YEAR: usize = 12;

pub fn record_of(principal: f64, rate: f64, months: u32) -> Record {
    let mut record = [0; LOAN_BYTES];
    unsafe { senyolanda_write_loan(principal, rate, months, &mut record) };
    record
}

/// A loan as a record, and as the Rust has it.
fn loan(principal: f64, annual_rate: f64, term_months: u32) -> (Record, MortgageTerms) {
    let terms = MortgageTerms { principal, annual_rate, term_months, down_payment: 0.0 };
    (record_of(principal, annual_rate, term_months), terms)
}

/// Opens a loan and draws all of it; the places that its rows fill.
fn drawn(record: &Record, room: &mut [f64]) -> usize {
    let (mut counts, mut amounts) = ([0; LOAN_COUNTS], [0.0; LOAN_AMOUNTS]);
    let (mut written, mut owed) = (0, 0);
    let outcome = called!(senyolanda_open, [record], &mut counts, &mut amounts)
        | called!(senyolanda_draw, &mut counts, &mut amounts, [mut room], &mut written, &mut owed);
    unless_refused(outcome | Outcome::from(owed), written as usize * ROW_PLACES)
}

pub fn schedule(months: usize) -> Job {
    let (record, terms) = loan(300_000.0, 0.065, months as u32);
    Job::new(
        format!("schedule of {months}"),
        months,
        lent(months * ROW_PLACES, move |room| drawn(&record, room)),
        giving(move || MortgageCalculator::amortization_schedule(unseen(&terms))),
    )
}

/// A loan in hand: its counts and its amounts.
pub type InHand = ([u32; LOAN_COUNTS], [f64; LOAN_AMOUNTS]);

pub fn opened(record: &Record) -> InHand {
    let (mut counts, mut amounts) = ([0; LOAN_COUNTS], [0.0; LOAN_AMOUNTS]);
    called!(senyolanda_open, [record], &mut counts, &mut amounts);
    (counts, amounts)
}

/// Rows of a plain draw. Only an answer has the lines of their years behind them, added up from the rows.
struct PlainRows {
    room: Vec<f64>,
    filled: usize,
}

/// Months, interest, principal and closing balance of a year's rows.
fn line_of(rows: &[f64]) -> [f64; YEAR_PLACES] {
    let sum = |column: usize| rows.chunks_exact(ROW_PLACES).fold(0.0, |sum, row| sum + row[column]);
    [(rows.len() / ROW_PLACES) as f64, sum(3), sum(2), rows[rows.len() - 1]]
}

impl Numbers for PlainRows {
    fn numbers(&self) -> Vec<f64> {
        let rows = &self.room[..self.filled];
        rows.iter().copied().chain(rows.chunks(MONTHS_OF_A_YEAR * ROW_PLACES).flat_map(line_of)).collect()
    }
}

/// Draws all of a loan in hand; the places that its rows fill.
pub fn drawn_plainly(hand: &InHand, room: &mut [f64]) -> usize {
    let ((mut counts, mut amounts), mut written, mut owed) = (*unseen(hand), 0, 0);
    let outcome = called!(senyolanda_draw, &mut counts, &mut amounts, [mut room], &mut written, &mut owed);
    unless_refused(outcome | Outcome::from(owed), written as usize * ROW_PLACES)
}

/// The same with its years' lines.
fn drawn_with_years(hand: &InHand, room: &mut [f64], years: &mut [f64]) -> usize {
    let ((mut counts, mut amounts), mut written, mut owed) = (*unseen(hand), 0, 0);
    let outcome = called!(senyolanda_draw_with_years, &mut counts, &mut amounts, [mut room], [mut years], &mut written, &mut owed);
    unless_refused(outcome | Outcome::from(owed), written as usize * ROW_PLACES + years.len())
}

/// A draw with years' lines, beside the plain draw of the same rows.
pub fn draw_with_years(months: usize) -> Job {
    let hand = opened(&record_of(300_000.0, 0.065, months as u32));
    let row_places = months * ROW_PLACES;
    let year_places = (months + MONTHS_OF_A_YEAR - 1) / MONTHS_OF_A_YEAR * YEAR_PLACES;
    let rows = PlainRows { room: vec![0.0; row_places], filled: 0 };
    Job::beside_the_draw(
        format!("draw of {months} with years' lines"),
        months,
        lent(row_places + year_places, move |room| {
            let (rows, years) = room.split_at_mut(row_places);
            drawn_with_years(&hand, rows, years)
        }),
        filling(rows, move |rows: &mut PlainRows| rows.filled = drawn_plainly(&hand, &mut rows.room)),
    )
}

/// Draws loans, as many in a call as it takes, their records end to end; the places that their rows fill.
fn drawn_together(records: &[Record], room: &mut [f64]) -> usize {
    let mut answers = [0; MOST_BOOK_LOANS];
    records.chunks(MOST_BOOK_LOANS).fold(0, |filled, loans| {
        let (bytes, room) = (loans.concat(), &mut room[filled..]);
        let (mut finished, mut cut, mut waiting) = (0, 0, 0);
        let outcome = unsafe {
            senyolanda_draw_book(
                bytes.as_ptr(), bytes.len(), answers.as_mut_ptr(), answers.len(), room.as_mut_ptr(), room.len(),
                &mut finished, &mut cut, &mut waiting,
            )
        };
        let refused = answers[..loans.len()].iter().fold(outcome | Outcome::from(waiting), |all, &one| all | Outcome::from(one));
        filled + unless_refused(refused, finished as usize * MONTHS_OF_A_BOOK * ROW_PLACES)
    })
}

/// Schedules of 360 months, one after the other into one archive buffer.
fn book_of(name: String, schedules: usize, drawn: fn(&[Record], &mut [f64]) -> usize) -> Job {
    let rows = schedules * MONTHS_OF_A_BOOK;
    let (records, terms): (Vec<Record>, Vec<MortgageTerms>) =
        (0..schedules).map(|i| loan(100_000.0 + 37.0 * i as f64, 0.02 + 5e-6 * i as f64, MONTHS_OF_A_BOOK as u32)).unzip();
    Job::new(
        name,
        rows,
        lent(rows * ROW_PLACES, move |room| drawn(&records, room)),
        filling(Vec::with_capacity(rows), move |archive: &mut Vec<AmortizationRow>| {
            archive.clear();
            for terms in unseen(&terms) {
                archive.extend(MortgageCalculator::amortization_schedule(terms));
            }
        }),
    )
}

pub fn book(schedules: usize) -> Job {
    book_of(format!("book of {schedules} schedules of 360"), schedules, drawn_together)
}

pub fn book_loan_by_loan(schedules: usize) -> Job {
    book_of(format!("the same {schedules}, loan by loan"), schedules, |records, room| {
        records.iter().fold(0, |filled, record| filled + drawn(record, &mut room[filled..]))
    })
}

pub fn payment() -> Job {
    one_by_one(
        "payment",
        vec![loan(300_000.0, 0.065, 360)],
        |(record, _), place| unsafe { senyolanda_monthly_payment(record.as_ptr(), record.len(), place) },
        |(_, terms)| MortgageCalculator::monthly_payment(terms),
    )
}
