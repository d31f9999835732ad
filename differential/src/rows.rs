// Rows of schedules beside mortgage.rs: drawn in portions, one by one, and listed.
use crate::asking::{settled, UNTOUCHED, UNTOUCHED_COUNT};
use crate::harness::{bits, part_of, plain, refused, Allowed, Answer, Case, Compared, Family, Unanswered};
use crate::library::*;
use crate::loans::{drawn, own_edges, wild, Loan, LONGEST_OWN, LONGEST_TERM};
use crate::published::mortgage::{AmortizationRow, MortgageCalculator};
use crate::random::{Random, TURNS};
use crate::{called, input};

/// Places of a row, as rooms are counted here.
pub const WIDTH: u32 = ROW_PLACES as u32;

input!(
    /// A loan to draw with the Rust's payment into rooms of so many places, by turns.
    Drawing { loan: Loan, payment: f64, rooms: Vec<u32> }
);

/// The rooms, with the Rust's own payment for the loan.
pub fn drawing(loan: Loan, rooms: Vec<u32>) -> Drawing {
    let payment = MortgageCalculator::monthly_payment(&loan.terms());
    Drawing { loan, payment, rooms }
}

fn room(random: &mut Random, term: u32) -> u32 {
    let whole = WIDTH * term;
    match random.below(3) {
        0 => whole,
        1 => random.whole(WIDTH, whole + WIDTH),
        _ => random.log_whole(WIDTH, whole + WIDTH),
    }
}

pub fn drawings(random: &mut Random) -> Case<Drawing> {
    let case = wild(random);
    let rooms = (0..random.whole(1, 3)).map(|_| room(random, case.input.term.clamp(1, LONGEST_TERM))).collect();
    let case = case.map(|loan| drawing(loan, rooms));
    match case.meant {
        None if random.once_in(32) => refused(Drawing { rooms: vec![random.whole(0, WIDTH - 1)], ..case.input }, 3, 0),
        _ => case,
    }
}

/// A loan of 120 months with a room of every size, past its end; one of 1,200 with sizes at a row's ends; every turn as a rate.
fn drawing_edges() -> Vec<Case<Drawing>> {
    let in_room = |loan: Loan, places: u32| {
        let short = places < WIDTH;
        let input = drawing(loan, vec![places]);
        if short {
            refused(input, 3, 0)
        } else {
            plain(input)
        }
    };
    let loan = |term| Loan { principal: 250_000.0, rate: 0.0575, term };
    let every = (0..=121 * WIDTH + 1).map(|places| in_room(loan(120), places));
    let (row, all) = (WIDTH, 1200 * WIDTH);
    let ends = [0, 1, row - 1, row, row + 1, 2 * row - 1, 2 * row, 2 * row + 1, all - row - 1, all - row, all - 1, all, all + 1, all + row, 2000 * row];
    let long = ends.map(|places| in_room(loan(1200), places));
    let turns = TURNS.into_iter().flat_map(|rate| [1, 2, 3, 1199, 1200].map(|term| in_room(Loan { principal: 1000.0, rate, term }, WIDTH + 2)));
    every.chain(long).chain(turns).collect()
}

/// A loan in hand: term and months done; rate, payment and balance.
pub struct InHand {
    pub counts: [u32; LOAN_COUNTS],
    pub amounts: [f64; LOAN_AMOUNTS],
}

impl InHand {
    fn term(&self) -> u32 {
        self.counts[0]
    }

    pub fn is_finished(&self) -> bool {
        self.counts[1] >= self.counts[0]
    }
}

/// Opens a loan with the given payment, or its own.
pub fn opened(loan: &Loan, given: Option<f64>) -> Result<InHand, Unanswered> {
    let record = loan.record();
    let (mut counts, mut amounts) = ([UNTOUCHED_COUNT; LOAN_COUNTS], [UNTOUCHED; LOAN_AMOUNTS]);
    let result = match given {
        Some(given) => called!(senyolanda_open_with_payment, [record], given, &mut counts, &mut amounts),
        None => called!(senyolanda_open, [record], &mut counts, &mut amounts),
    };
    settled(result, amounts.to_vec(), &counts)?;
    Ok(InHand { counts, amounts })
}

/// One draw into a room of so many places: written, owed, and the whole room; a refusal must leave the loan as it was.
pub fn draw(hand: &mut InHand, places: u32) -> Answer {
    let mut room = vec![UNTOUCHED; places as usize];
    let (mut written, mut owed) = (UNTOUCHED_COUNT, UNTOUCHED_COUNT);
    let before = (hand.counts, hand.amounts.map(f64::to_bits));
    let result = called!(senyolanda_draw, &mut hand.counts, &mut hand.amounts, [mut room], &mut written, &mut owed);
    if result != 0 && before != (hand.counts, hand.amounts.map(f64::to_bits)) {
        return Err(Unanswered::Broken("a refusal touched the loan in hand"));
    }
    settled(result, room, &[written, owed])
}

/// Every draw until the loan is finished, and one more into no room at all; as many draws as months are enough.
fn all_draws(mut hand: InHand, rooms: &[u32]) -> Answer {
    let mut all = Vec::new();
    for places in rooms.iter().cycle().take(hand.term() as usize) {
        if !hand.is_finished() {
            all.extend(draw(&mut hand, *places)?);
        }
    }
    all.extend(draw(&mut hand, 0)?);
    Ok(all)
}

pub fn numbers_of(row: &AmortizationRow) -> [f64; ROW_PLACES] {
    [f64::from(row.month), row.payment, row.principal, row.interest, row.balance]
}

/// The Rust's whole schedule, as draws into those rooms would hand it over.
fn portioned(schedule: &[AmortizationRow], rooms: &[u32]) -> Vec<f64> {
    let mut all = Vec::new();
    let mut owed = schedule;
    for places in rooms.iter().cycle() {
        let (rows, rest) = owed.split_at(owed.len().min(*places as usize / ROW_PLACES));
        owed = rest;
        all.extend([rows.len() as f64, rest.len() as f64]);
        all.extend(rows.iter().flat_map(numbers_of));
        all.resize(all.len() + *places as usize - rows.len() * ROW_PLACES, UNTOUCHED);
        if owed.is_empty() {
            break;
        }
    }
    all.extend([0.0, 0.0]);
    all
}

/// A row as its record has it.
fn numbers_in(record: &[u8; ROW_BYTES]) -> [f64; ROW_PLACES] {
    let float = |at: usize| f64::from_le_bytes(std::array::from_fn(|i| record[at + i]));
    let month = u32::from_le_bytes(std::array::from_fn(|i| record[1 + i]));
    [f64::from(month), float(5), float(13), float(21), float(29)]
}

/// Every row alone, with written and owed, and what is said of the finished loan, which must leave the record.
fn rows_one_by_one(mut hand: InHand) -> Answer {
    const BLANK: [u8; ROW_BYTES] = [0xa5; ROW_BYTES];
    let mut all = Vec::new();
    for _ in 0..=hand.term() {
        let (mut record, mut written, mut owed) = (BLANK, UNTOUCHED_COUNT, UNTOUCHED_COUNT);
        let result = called!(senyolanda_next_row, &mut hand.counts, &mut hand.amounts, &mut record, &mut written, &mut owed);
        all.extend(settled(result, vec![], &[written, owed])?);
        match (written, record[0]) {
            (0, _) if record == BLANK => {}
            (1, 3) => all.extend(numbers_in(&record)),
            _ => return Err(Unanswered::Broken("a record that is no row's")),
        }
    }
    Ok(all)
}

fn schedule_one_by_one(schedule: &[AmortizationRow]) -> Vec<f64> {
    let mut all = Vec::new();
    for (row, owed) in schedule.iter().zip((0..schedule.len()).rev()) {
        all.extend([1.0, owed as f64]);
        all.extend(numbers_of(row));
    }
    all.extend([0.0, 0.0]);
    all
}

fn one_by_one(random: &mut Random) -> Case<Drawing> {
    let mut case = wild(random);
    if case.meant.is_none() && !random.once_in(16) {
        case.input.term = random.log_whole(1, 60);
    }
    case.map(|loan| drawing(loan, vec![]))
}

/// Rows in one room, at the loan's own payment.
pub fn own_rows(loan: &Loan) -> Answer {
    let places = WIDTH * loan.term.min(LONGEST_TERM);
    opened(loan, None).and_then(|hand| all_draws(hand, &[places]))
}

/// The numbers of a row's line: its month in decimal, then each amount's 16 digits.
fn numbers_of_line(line: &str) -> Option<[f64; ROW_PLACES]> {
    let words: [&str; ROW_PLACES] = line.split(' ').collect::<Vec<_>>().try_into().ok()?;
    let mut numbers = [f64::from(words[0].parse::<u32>().ok()?); ROW_PLACES];
    for (number, word) in numbers.iter_mut().zip(words).skip(1) {
        *number = f64::from_bits(u64::from_str_radix(word, 16).ok().filter(|_| word.len() == 16)?);
    }
    Some(numbers)
}

/// What a listing says, as one draw of all rows and one of the finished loan would hand it over.
fn told_in(text: &str) -> Option<Vec<f64>> {
    let lines: Vec<&str> = text.strip_suffix('\n')?.split('\n').collect();
    let (last, lines) = lines.split_last()?;
    let rows = match lines {
        ["month payment principal interest balance", rows @ ..] => rows,
        _ => return None,
    };
    let mut all: Vec<f64> = match last.split(' ').collect::<Vec<_>>()[..] {
        ["rows", rows, "left", left] => vec![rows.parse().ok()?, left.parse().ok()?],
        _ => return None,
    };
    for line in rows {
        all.extend(numbers_of_line(line)?);
    }
    all.extend([0.0, 0.0]);
    Some(all)
}

/// The listing's rows; the bytes behind the text must stay, and all of them where it is refused.
fn listed(loan: &Loan) -> Answer {
    const BLANK: u8 = 0xa5;
    let (record, mut text, mut size) = (loan.record(), [BLANK; LISTING_BYTES], UNTOUCHED_COUNT);
    let result = called!(senyolanda_listing, [record], &mut text, &mut size);
    let end = if result == 0 { size as usize } else { 0 };
    match text.get(end..) {
        Some(behind) if behind.iter().all(|byte| *byte == BLANK) => {}
        _ => return Err(Unanswered::Broken("bytes behind the text changed")),
    }
    settled(result, vec![], &[size])?;
    std::str::from_utf8(&text[..end]).ok().and_then(told_in).ok_or(Unanswered::Broken("a text that is no listing"))
}

/// A millionth of the principal for money, and nothing for months and for what a draw says beside its rows.
fn of_principal() -> Allowed<Loan> {
    part_of(1e-6, "of the principal", |loan, rust| {
        let rows = 2..rust.len() - 2;
        let exact = |place: usize| !rows.contains(&place) || (place - rows.start) % ROW_PLACES == 0;
        (0..rust.len()).map(|place| if exact(place) { 0.0 } else { loan.principal }).collect()
    })
}

pub fn families() -> Vec<Compared> {
    vec![
        Family {
            name: "rows-from-one-payment",
            seed: 202,
            one_in: 1,
            edges: drawing_edges,
            draw: drawings,
            ours: |input| opened(&input.loan, Some(input.payment)).and_then(|hand| all_draws(hand, &input.rooms)),
            rust: |input| portioned(&MortgageCalculator::amortization_schedule(&input.loan.terms()), &input.rooms),
            allowed: bits(),
        }
        .compared(),
        Family {
            name: "rows-one-by-one",
            seed: 203,
            one_in: 1,
            edges: || [1, 2, 1199, 1200].map(|term| plain(drawing(Loan { principal: 1000.0, rate: 0.12, term }, vec![]))).to_vec(),
            draw: one_by_one,
            ours: |input| opened(&input.loan, Some(input.payment)).and_then(rows_one_by_one),
            rust: |input| schedule_one_by_one(&input.loan.mortgage().amortize()),
            allowed: bits(),
        }
        .compared(),
        Family {
            name: "own-payment-rows",
            seed: 204,
            one_in: 1,
            edges: || own_edges().into_iter().map(plain).collect(),
            draw: |random| drawn(random, LONGEST_OWN),
            ours: own_rows,
            rust: |loan| portioned(&MortgageCalculator::amortization_schedule(&loan.terms()), &[WIDTH * loan.term]),
            allowed: of_principal(),
        }
        .compared(),
        Family {
            name: "listings",
            seed: 211,
            one_in: 10,
            edges: || own_edges().into_iter().map(plain).collect(),
            draw: |random| drawn(random, LONGEST_OWN),
            ours: listed,
            rust: |loan| portioned(&MortgageCalculator::amortization_schedule(&loan.terms()), &[WIDTH * loan.term]),
            allowed: of_principal(),
        }
        .compared(),
    ]
}
