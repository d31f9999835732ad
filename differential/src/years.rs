// Year-end lines beside mortgage.rs: drawn with in portions and looked up, beside sums over the Rust's rows.
use crate::asking::{asked_for, settled, UNTOUCHED, UNTOUCHED_COUNT};
use crate::harness::{bits, plain, refused, Answer, Case, Compared, Family};
use crate::library::*;
use crate::loans::{Loan, LONGEST_TERM};
use crate::published::mortgage::{AmortizationRow, MortgageCalculator};
use crate::random::Random;
use crate::rows::{drawing, drawings, opened, Drawing, InHand, WIDTH};
use crate::{called, input};

const MONTHS_OF_A_YEAR: usize = 12;
const YEAR_WIDTH: u32 = YEAR_PLACES as u32;

input!(
    /// A loan to draw into its rooms, with so many places for its years' lines.
    WithLines { drawing: Drawing, year_places: u32 }
);

fn started_years(months: u32) -> u32 {
    (months + 11) / 12
}

fn with_lines(random: &mut Random) -> Case<WithLines> {
    let case = drawings(random);
    let enough = YEAR_WIDTH * started_years(case.input.loan.term.clamp(1, LONGEST_TERM));
    match case.meant {
        None if random.once_in(32) => refused(WithLines { drawing: case.input, year_places: random.below(u64::from(enough)) as u32 }, 3, 0),
        _ => {
            let year_places = enough + random.whole(0, 2 * YEAR_WIDTH);
            case.map(|drawing| WithLines { drawing, year_places })
        }
    }
}

/// Every term to past its third year, and the longest, in portions that end within a year; just enough lines, and a place fewer.
fn edges() -> Vec<Case<WithLines>> {
    let drawn = |term| drawing(Loan { principal: 250_000.0, rate: 0.0575, term }, vec![5 * WIDTH, 13 * WIDTH]);
    let enough = |term| WithLines { drawing: drawn(term), year_places: YEAR_WIDTH * started_years(term) };
    let fewer = |term| WithLines { year_places: enough(term).year_places - 1, ..enough(term) };
    (1..=38).chain([1188, 1189, 1200]).flat_map(|term| [plain(enough(term)), refused(fewer(term), 3, 0)]).collect()
}

/// One draw into a room of so many places; a refusal must leave the lines too, which nothing was drawn into before.
fn draw(hand: &mut InHand, places: u32, years: &mut [f64]) -> Answer {
    let mut room = vec![UNTOUCHED; places as usize];
    let (mut written, mut owed) = (UNTOUCHED_COUNT, UNTOUCHED_COUNT);
    let (counts, amounts) = (&mut hand.counts, &mut hand.amounts);
    let result = called!(senyolanda_draw_with_years, counts, amounts, [mut room], [mut years], &mut written, &mut owed);
    settled(result, [&room, &*years].concat(), &[written, owed])
}

/// The lines after all draws, whole with the places behind them, and then each as it is looked up.
fn ours(input: &WithLines) -> Answer {
    let Drawing { loan, payment, rooms } = &input.drawing;
    let mut hand = opened(loan, Some(*payment))?;
    let mut years = vec![UNTOUCHED; input.year_places as usize];
    for places in rooms.iter().cycle().take(loan.term as usize) {
        if !hand.is_finished() {
            draw(&mut hand, *places, &mut years)?;
        }
    }
    let mut all = years.clone();
    for year in 1..=started_years(loan.term) {
        all.extend(asked_for(|line| called!(senyolanda_look_up_year, &hand.counts, &hand.amounts, [years], year, line))?);
    }
    Ok(all)
}

/// Months, interest, principal and closing balance of a year's rows.
fn line_of(rows: &[AmortizationRow]) -> [f64; YEAR_PLACES] {
    let sum = |amount: fn(&AmortizationRow) -> f64| rows.iter().fold(0.0, |sum, row| sum + amount(row));
    [rows.len() as f64, sum(|row| row.interest), sum(|row| row.principal), rows[rows.len() - 1].balance]
}

fn rust(input: &WithLines) -> Vec<f64> {
    let schedule = MortgageCalculator::amortization_schedule(&input.drawing.loan.terms());
    let lines: Vec<f64> = schedule.chunks(MONTHS_OF_A_YEAR).flat_map(line_of).collect();
    let mut all = lines.clone();
    all.resize(input.year_places as usize, UNTOUCHED);
    all.extend(lines);
    all
}

pub fn families() -> Vec<Compared> {
    vec![Family { name: "year-lines", seed: 212, one_in: 10, edges, draw: with_lines, ours, rust, allowed: bits() }.compared()]
}
