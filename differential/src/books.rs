// A book of loans in one call, beside the Rust's schedules one behind the other.
use crate::asking::*;
use crate::harness::{part_of, plain, refused, Answer, Case, Compared, Family};
use crate::library::*;
use crate::loans::{plain_loan, Loan};
use crate::published::mortgage::MortgageCalculator;
use crate::random::Random;
use crate::rows::{numbers_of, WIDTH};
use crate::{called, input};

/// Rows from an own payment are compared for terms up to here; a book has many short loans.
const LONGEST: u32 = 480;
const MOST_ROWS: u32 = 1500;

input!(
    /// Loans, some of which are refused by themselves, a room of so many places, and so many places for answers.
    Book { loans: Vec<Loan>, places: u32, answers: u32 }
);

/// The number that a loan by itself is refused with, or 0.
fn answer(loan: &Loan) -> u32 {
    if !(loan.principal >= 0.0 && loan.principal.is_finite()) {
        return 1;
    }
    if loan.term == 0 || loan.term > 1200 {
        return 2;
    }
    0
}

impl Book {
    /// The loans that have an answer, in order, each with the rows that the room holds of it.
    fn rows_held(&self) -> Vec<(&Loan, u32)> {
        let mut left = self.places / WIDTH;
        let mut held = Vec::new();
        for loan in &self.loans {
            let asked = if answer(loan) == 0 { loan.term } else { 0 };
            if asked > 0 && left == 0 {
                break;
            }
            held.push((loan, asked.min(left)));
            left -= asked.min(left);
            if asked > held[held.len() - 1].1 {
                break;
            }
        }
        held
    }
}

/// A loan of a book: mostly short, now and then one that is refused.
fn booked(random: &mut Random) -> Loan {
    let longest = if random.once_in(4) { LONGEST } else { 24 };
    let loan = plain_loan(random, longest);
    match random.below(12) {
        0 => Loan { principal: random.no_amount(), ..loan },
        1 => Loan { term: random.pick(&[0, 1201, u32::MAX]), ..loan },
        _ => loan,
    }
}

fn drawn(random: &mut Random) -> Case<Book> {
    let loans: Vec<Loan> = (0..random.below(24)).map(|_| booked(random)).collect();
    let due: u32 = loans.iter().filter(|loan| answer(loan) == 0).map(|loan| loan.term).sum();
    let whole = WIDTH * due.min(MOST_ROWS);
    let places = if random.once_in(2) { whole } else { random.whole(WIDTH, whole + 2 * WIDTH) };
    let book = Book { places, answers: loans.len() as u32 + random.whole(0, 2), loans };
    match random.below(48) {
        0 if due > 0 => refused(Book { places: random.whole(0, WIDTH - 1), ..book }, 3, 0),
        1 if !book.loans.is_empty() => refused(Book { answers: random.below(book.loans.len() as u64) as u32, ..book }, 3, 0),
        _ => plain(book),
    }
}

/// Every room from a row to past the end of a few loans; as many loans as a call takes, and one more.
fn edges() -> Vec<Case<Book>> {
    let loan = |term| Loan { principal: 250_000.0, rate: 0.0575, term };
    let few = || vec![loan(3), loan(0), loan(7), loan(1), Loan { principal: -1.0, ..loan(9) }, loan(5)];
    let every = (WIDTH..=18 * WIDTH).map(|places| plain(Book { loans: few(), places, answers: 6 }));
    let full = |count: usize| Book { loans: (0..count).map(|i| loan(1 + (i % 5) as u32)).collect(), places: 800 * WIDTH, answers: 300 };
    every.chain([plain(full(MOST_BOOK_LOANS)), refused(full(MOST_BOOK_LOANS + 1), 11, 0)]).collect()
}

/// Finished, cut short and waiting, then the answers and the room, whole.
fn ours(book: &Book) -> Answer {
    let records: Vec<u8> = book.loans.iter().flat_map(Loan::record).collect();
    let mut answers = vec![UNTOUCHED_COUNT; book.answers as usize];
    let mut room = vec![UNTOUCHED; book.places as usize];
    let mut counts = [UNTOUCHED_COUNT; 3];
    let [finished, cut, waiting] = &mut counts;
    let result = called!(senyolanda_draw_book, [records], [mut answers], [mut room], finished, cut, waiting);
    let lent: Vec<u32> = counts.into_iter().chain(answers).collect();
    settled(result, room, &lent)
}

fn rust(book: &Book) -> Vec<f64> {
    let held = book.rows_held();
    let cut = held.last().map_or(0, |(loan, rows)| if *rows < loan.term && answer(loan) == 0 { *rows } else { 0 });
    let finished = held.len() - usize::from(cut > 0);
    let mut numbers = vec![finished as f64, f64::from(cut), (book.loans.len() - held.len()) as f64];
    numbers.extend(held.iter().map(|(loan, _)| f64::from(answer(loan))));
    numbers.resize(3 + book.answers as usize, f64::from(UNTOUCHED_COUNT));
    for (loan, rows) in held {
        let schedule = if rows == 0 { vec![] } else { MortgageCalculator::amortization_schedule(&loan.terms()) };
        numbers.extend(schedule[..rows as usize].iter().flat_map(numbers_of));
    }
    numbers.resize(3 + (book.answers + book.places) as usize, UNTOUCHED);
    numbers
}

/// A millionth of its loan's principal for money, and nothing for months, answers and counts, and for places that stay.
fn scales(book: &Book, rust: &[f64]) -> Vec<f64> {
    let mut scales = vec![0.0; 3 + book.answers as usize];
    for (loan, rows) in book.rows_held() {
        let row = [0.0, loan.principal, loan.principal, loan.principal, loan.principal];
        scales.extend(row.repeat(rows as usize));
    }
    scales.resize(rust.len(), 0.0);
    scales
}

pub fn families() -> Vec<Compared> {
    vec![Family { name: "book", seed: 210, one_in: 10, edges, draw: drawn, ours, rust, allowed: part_of(1e-6, "of the principal", scales) }.compared()]
}
