// The library as a Rust program calls it: a loan opened, drawn in portions, with year-end totals too, and held to document 01's
// figures; loans of the other kinds, held to figures worked out by hand; dates counted by a calendar of this program's own, and dated
// swaps; and refusals that give number and place and leave lent memory alone.
#[allow(dead_code)]
mod library;

use library::dates::*;
use library::kinds::*;
use library::records::{senyolanda_read_dated_swap, senyolanda_write_dated_swap, senyolanda_write_loan};
use library::*;

/// A loan in hand: term and months done; rate, payment and balance.
#[derive(Clone, Copy, Debug, Default, PartialEq)]
struct Loan {
    counts: [u32; LOAN_COUNTS],
    amounts: [f64; LOAN_AMOUNTS],
}

#[derive(Clone, Copy, Debug, PartialEq)]
struct Refusal {
    number: u32,
    place: u32,
}

fn read(result: Outcome) -> Result<(), Refusal> {
    match result {
        0 => Ok(()),
        _ => Err(Refusal { number: result as u32, place: (result >> 32) as u32 }),
    }
}

fn record(principal: f64, rate: f64, term: u32) -> [u8; LOAN_BYTES] {
    let mut bytes = [0; LOAN_BYTES];
    read(called!(senyolanda_write_loan, principal, rate, term, &mut bytes)).unwrap();
    bytes
}

fn open(bytes: &[u8], loan: &mut Loan) -> Result<(), Refusal> {
    read(called!(senyolanda_open, [bytes], &mut loan.counts, &mut loan.amounts))
}

// Rows written and rows still owed.
fn draw(loan: &mut Loan, room: &mut [f64]) -> Result<(u32, u32), Refusal> {
    let (mut written, mut owed) = (7, 7);
    match read(called!(senyolanda_draw, &mut loan.counts, &mut loan.amounts, [mut room], &mut written, &mut owed)) {
        Ok(()) => Ok((written, owed)),
        Err(refusal) => {
            assert_eq!((written, owed), (7, 7), "a refused draw counts nothing");
            Err(refusal)
        }
    }
}

// Rows still owed after a draw that enters its rows into their years' lines.
fn draw_with_years(loan: &mut Loan, room: &mut [f64], years: &mut [f64]) -> Result<u32, Refusal> {
    let (mut written, mut owed) = (7, 7);
    let Loan { counts, amounts } = loan;
    read(called!(senyolanda_draw_with_years, counts, amounts, [mut room], [mut years], &mut written, &mut owed))?;
    Ok(owed)
}

fn look_up_year(loan: &Loan, years: &[f64], year: u32) -> Result<[f64; YEAR_PLACES], Refusal> {
    let mut line = [7.0; YEAR_PLACES];
    read(called!(senyolanda_look_up_year, &loan.counts, &loan.amounts, [years], year, &mut line))?;
    Ok(line)
}

// All rows of a loan, drawn through room for so many numbers, as bit patterns.
fn drawn_whole(mut loan: Loan, places: usize) -> Vec<[u64; ROW_PLACES]> {
    let mut rows = Vec::new();
    let mut room = vec![0.0; places];
    loop {
        let (written, owed) = draw(&mut loan, &mut room).unwrap();
        rows.extend(room.chunks_exact(ROW_PLACES).take(written as usize).map(|row| std::array::from_fn(|i| row[i].to_bits())));
        if owed == 0 {
            return rows;
        }
    }
}

// All rows of a loan of a kind, by its draw into room for so many numbers, which gives what is written and owed.
fn drawn_by(places: usize, mut draw: impl FnMut(&mut [f64], &mut u32, &mut u32) -> Outcome) -> Result<Vec<[f64; ROW_PLACES]>, Refusal> {
    let (mut rows, mut room) = (Vec::new(), vec![0.0; places]);
    let (mut written, mut owed) = (7, 7);
    while owed > 0 {
        read(draw(&mut room, &mut written, &mut owed))?;
        rows.extend(room.chunks_exact(ROW_PLACES).take(written as usize).map(|row| <[f64; ROW_PLACES]>::try_from(row).unwrap()));
    }
    Ok(rows)
}

// A month's rate of a half, behind a month of interest alone.
fn interest_only() {
    let (bytes, mut loan) = (record(1000.0, 6.0, 3), Loan::default());
    for places in ROW_PLACES..=4 * ROW_PLACES {
        read(called!(senyolanda_open_interest_only, [bytes], 1, &mut loan.counts, &mut loan.amounts)).unwrap();
        let Loan { counts, amounts } = &mut loan;
        let rows = drawn_by(places, |room, written, owed| {
            called!(senyolanda_draw_interest_only, 1, counts, amounts, [mut room], written, owed)
        });
        let figures = [[1.0, 500.0, 0.0, 500.0, 1000.0], [2.0, 900.0, 400.0, 500.0, 600.0], [3.0, 900.0, 600.0, 300.0, 0.0]];
        assert_eq!(rows.unwrap(), figures, "through room for {places} numbers");
    }
    let before = loan;
    for months in [0, 3, 4, u32::MAX] {
        let refused = read(called!(senyolanda_open_interest_only, [bytes], months, &mut loan.counts, &mut loan.amounts));
        assert_eq!((refused, loan), (Err(Refusal { number: 16, place: 0 }), before));
    }
}

// 1,400 at 0 over 14 months, all of it repaid in month 13: two years have a row.
fn balloon() {
    let (bytes, mut loan) = (record(1400.0, 0.0, 14), Loan::default());
    let (mut room, mut years, mut line) = ([0.0; 14 * ROW_PLACES], [1.5; 2 * YEAR_PLACES], [7.0; YEAR_PLACES]);
    let (mut written, mut owed) = (7, 7);
    read(called!(senyolanda_open_balloon, [bytes], 13, &mut loan.counts, &mut loan.amounts)).unwrap();
    let Loan { counts, amounts } = &mut loan;
    read(called!(senyolanda_draw_balloon_with_years, 13, counts, amounts, [mut room], [mut years], &mut written, &mut owed)).unwrap();
    assert_eq!((written, owed, &room[12 * ROW_PLACES..13 * ROW_PLACES]), (13, 0, &[13.0, 200.0, 200.0, 0.0, 0.0][..]));
    assert_eq!(years, [12.0, 0.0, 1200.0, 200.0, 1.0, 0.0, 200.0, 0.0]);
    read(called!(senyolanda_look_up_balloon_year, 13, &loan.counts, &loan.amounts, [years], 2, &mut line)).unwrap();
    assert_eq!(line, [1.0, 0.0, 200.0, 0.0]);
    let past = read(called!(senyolanda_look_up_balloon_year, 12, &loan.counts, &loan.amounts, [years], 2, &mut line));
    assert_eq!(past, Err(Refusal { number: 10, place: 0 }));
}

// Twelve months at 0 leave 200 of 1,400, which two months at a half a month repay; the second entry is not read.
fn adjustable() {
    let (bytes, index, mut loan) = (record(1400.0, f64::NAN, 14), [6.0, f64::NAN], Loan::default());
    for places in ROW_PLACES..=15 * ROW_PLACES {
        read(called!(senyolanda_open_adjustable, [bytes], 0.0, 6.0, 9.0, [index], &mut loan.counts, &mut loan.amounts)).unwrap();
        assert_eq!(loan, Loan { counts: [14, 0], amounts: [0.0, 100.0, 1400.0] });
        let Loan { counts, amounts } = &mut loan;
        let rows = drawn_by(places, |room, written, owed| {
            called!(senyolanda_draw_adjustable, 0.0, 6.0, 9.0, [index], counts, amounts, [mut room], written, owed)
        });
        let ends = [[12.0, 100.0, 100.0, 0.0, 200.0], [13.0, 180.0, 80.0, 100.0, 120.0], [14.0, 180.0, 120.0, 60.0, 0.0]];
        assert_eq!(rows.unwrap()[11..], ends, "through room for {places} numbers");
        assert_eq!(loan, Loan { counts: [14, 14], amounts: [6.0, 180.0, 0.0] });
    }
    let (mut row, mut written, mut owed, long) = ([7; ROW_BYTES], 7, 7, record(1400.0, 0.0, 25));
    let refused = read(called!(senyolanda_open_adjustable, [long], 0.0, 6.0, 9.0, [index], &mut loan.counts, &mut loan.amounts));
    assert_eq!(refused, Err(Refusal { number: 16, place: 1 }));
    let none: [f64; 0] = [];
    let Loan { counts, amounts } = &mut loan;
    let refused = read(called!(senyolanda_next_adjustable_row, 0.0, 6.0, 9.0, [none], counts, amounts, &mut row, &mut written, &mut owed));
    assert_eq!((refused, row, written, owed), (Err(Refusal { number: 16, place: 0 }), [7; ROW_BYTES], 7, 7));
    assert_eq!(loan, Loan { counts: [14, 14], amounts: [6.0, 180.0, 0.0] });
}

// The days from one date to another, by actual days and by 30/360.
fn days(first: [u32; DATE_NUMBERS], second: [u32; DATE_NUMBERS]) -> Result<(u32, u32), Refusal> {
    let ([y1, m1, d1], [y2, m2, d2]) = (first, second);
    let (mut actual, mut thirty) = (7, 7);
    let answers = (
        read(called!(senyolanda_actual_days, y1, m1, d1, y2, m2, d2, &mut actual)),
        read(called!(senyolanda_days_30_360, y1, m1, d1, y2, m2, d2, &mut thirty)),
    );
    assert_eq!(answers.0, answers.1, "the two count the same dates");
    assert!(answers.0.is_ok() || (actual, thirty) == (7, 7), "a refusal counts nothing");
    answers.0.map(|()| (actual, thirty))
}

fn number(date: [u32; DATE_NUMBERS]) -> Result<u32, Refusal> {
    let mut number = 7;
    read(called!(senyolanda_day_number, date[0], date[1], date[2], &mut number))?;
    Ok(number)
}

fn dates() {
    // day after day from 1900 to 2199, each with its number, and back
    let (mut next, mut date) = (2, [7; DATE_NUMBERS]);
    for year in 1900..2200 {
        let leap = year % 4 == 0 && (year % 100 != 0 || year % 400 == 0);
        for month in 1..=12 {
            let length = match month {
                2 => 28 + leap as u32,
                4 | 6 | 9 | 11 => 30,
                _ => 31,
            };
            for day in 1..=length {
                assert_eq!(number([year, month, day]), Ok(next));
                read(called!(senyolanda_date_of_number, next, &mut date)).unwrap();
                assert_eq!(date, [year, month, day]);
                next += 1;
            }
            assert_eq!(number([year, month, length + 1]), Err(Refusal { number: 15, place: 0 }));
        }
    }
    assert_eq!(next, 109575);
    assert_eq!(read(called!(senyolanda_date_of_number, next, &mut date)), Err(Refusal { number: 15, place: 0 }));
    assert_eq!(date, [2199, 12, 31], "a refusal leaves the date");

    for (first, second, counts) in [
        ([2023, 1, 31], [2023, 2, 28], (28, 28)),
        ([2023, 1, 30], [2023, 3, 31], (60, 60)),
        ([2023, 2, 28], [2023, 3, 31], (31, 33)),
        ([2023, 8, 31], [2023, 9, 30], (30, 30)),
        ([2023, 1, 30], [2023, 1, 31], (1, 0)),
    ] {
        assert_eq!(days(first, second), Ok(counts), "from {first:?} to {second:?}");
        assert_eq!(days(second, first), Err(Refusal { number: 15, place: 0 }));
        assert_eq!(days(first, first), Err(Refusal { number: 15, place: 0 }));
    }
    for (months, later) in [[2023, 1, 31], [2023, 2, 28], [2023, 3, 31], [2023, 4, 30]].into_iter().enumerate() {
        read(called!(senyolanda_months_later, 2023, 1, 31, months as u32, &mut date)).unwrap();
        assert_eq!(date, later);
    }
}

// A dated swap of 360 at a rate of 1: on a curve of 0 its fixed leg is 360 and the days that it counts.
fn dated_swaps() {
    let (mut bytes, tenors, zeros) = ([0; DATED_SWAP_BYTES], [1.0], [0.0]);
    let (mut valuation, mut pv) = ([7.0; 6], 7.0);
    read(called!(senyolanda_write_dated_swap, 360.0, 1.0, f64::NAN, 2, 2023, 8, 31, 2024, 2, 29, 2, &mut bytes)).unwrap();
    read(called!(senyolanda_value_dated_swap, [bytes], [tenors], [zeros], 1, &mut valuation)).unwrap();
    assert!((valuation[1] - 539.0).abs() < 1e-9 && valuation[2] == 360.0 && valuation[3] == 0.0, "{valuation:?}");

    let (mut notional, mut rate, mut tenor, mut frequency, mut day_count) = (7.0, 7.0, 7.0, 7, 7);
    let (mut first, mut second) = ([7; DATE_NUMBERS], [7; DATE_NUMBERS]);
    let result = called!(
        senyolanda_read_dated_swap, [bytes], &mut notional, &mut rate, &mut tenor, &mut frequency, &mut first, &mut second, &mut day_count
    );
    assert_eq!((read(result), notional, rate, frequency, first, second, day_count), (Ok(()), 360.0, 1.0, 2, [2023, 8, 31], [2024, 2, 29], 2));
    assert!(tenor.is_nan());

    // 29 February 2023 stands in a record, and nobody values it
    read(called!(senyolanda_write_dated_swap, 360.0, 1.0, 0.5, 2, 2023, 2, 29, 2024, 2, 29, 2, &mut bytes)).unwrap();
    let refused = read(called!(senyolanda_dated_fixed_leg_pv, [bytes], [tenors], [zeros], &mut pv));
    assert_eq!((refused, pv), (Err(Refusal { number: 15, place: 0 }), 7.0));
    let before = bytes;
    let refused = read(called!(senyolanda_write_dated_swap, 360.0, 1.0, 0.5, 2, 65536, 2, 28, 2024, 2, 29, 2, &mut bytes));
    assert_eq!((refused, bytes), (Err(Refusal { number: 15, place: 0 }), before));
}

fn main() {
    let mut loan = Loan::default();
    open(&record(1200.0, 0.0, 3), &mut loan).unwrap();
    let figures = [
        [0x3ff0000000000000, 0x4079000000000000, 0x4079000000000000, 0, 0x4089000000000000],
        [0x4000000000000000, 0x4079000000000000, 0x4079000000000000, 0, 0x4079000000000000],
        [0x4008000000000000, 0x4079000000000000, 0x4079000000000000, 0, 0],
    ];
    for places in ROW_PLACES..=4 * ROW_PLACES {
        assert_eq!(drawn_whole(loan, places), figures, "through room for {places} numbers");
    }

    // a rate that 1 does not feel: the payment is equal parts
    let mut parts = Loan::default();
    open(&record(1000.0, 1e-17, 2), &mut parts).unwrap();
    assert_eq!(parts, Loan { counts: [2, 0], amounts: [1e-17, 500.0, 1000.0] });

    // a draw of one row, and what is left
    let mut room = [1.5; 2 * ROW_PLACES - 1];
    assert_eq!(draw(&mut loan, &mut room), Ok((1, 2)));
    assert_eq!(room, [1.0, 400.0, 400.0, 0.0, 800.0, 1.5, 1.5, 1.5, 1.5]);
    assert_eq!(loan, Loan { counts: [3, 1], amounts: [0.0, 400.0, 800.0] });

    // room for all but one number of a row: refused with 3, and neither the room nor the loan is touched
    let before = loan;
    let mut short = [1.5; ROW_PLACES - 1];
    assert_eq!(draw(&mut loan, &mut short), Err(Refusal { number: 3, place: 0 }));
    assert_eq!((loan, short), (before, [1.5; ROW_PLACES - 1]));

    // thirteen months, drawn up to the year's end and then the rest: a line for each year, and none before its first row
    let mut year_loan = Loan::default();
    open(&record(1300.0, 0.0, 13), &mut year_loan).unwrap();
    let (mut room, mut years) = ([0.0; 12 * ROW_PLACES], [1.5; 2 * YEAR_PLACES]);
    assert_eq!(draw_with_years(&mut year_loan, &mut room, &mut years[1..]), Err(Refusal { number: 3, place: 0 }));
    assert_eq!(years, [1.5; 2 * YEAR_PLACES]);
    assert_eq!(draw_with_years(&mut year_loan, &mut room, &mut years), Ok(1));
    assert_eq!(look_up_year(&year_loan, &years, 1), Ok([12.0, 0.0, 1200.0, 100.0]));
    assert_eq!(look_up_year(&year_loan, &years, 2), Err(Refusal { number: 14, place: 0 }));
    assert_eq!(draw_with_years(&mut year_loan, &mut room, &mut years), Ok(0));
    assert_eq!(look_up_year(&year_loan, &years, 2), Ok([1.0, 0.0, 100.0, 0.0]));

    // a term of 0, a record of no bytes: the loan stays
    assert_eq!(open(&record(1200.0, 0.0, 0), &mut loan), Err(Refusal { number: 2, place: 0 }));
    assert_eq!(open(&[], &mut loan), Err(Refusal { number: 11, place: 0 }));
    assert_eq!(loan, before);

    // a pool whose third loan owes less than nothing: the place is its index
    let pool = [record(1200.0, 0.0, 3), record(1000.0, 6.0, 2), record(-1.0, 0.0, 3)].concat();
    let mut totals = [1.5; 3];
    assert_eq!(read(called!(senyolanda_pool_totals, [pool], &mut totals)), Err(Refusal { number: 1, place: 2 }));
    assert_eq!(totals, [1.5; 3]);

    interest_only();
    balloon();
    adjustable();
    dates();
    dated_swaps();

    println!("from Rust: loans of every kind drawn in portions, with years' lines, dates and dated swaps, and refusals that touch nothing");
}
