//! Bonds that pay each half year: price, yield and duration.
use crate::job::{one_by_one, Job};
use crate::library::records::senyolanda_write_bond;
use crate::library::*;
use crate::measure::{scattered, unseen};
use crate::published::bond::{self, Bond, CouponFrequency};

const CODE_OF_SEMI_ANNUAL: u32 = 1;
const YIELD: f64 = 0.043;
const MARKET: f64 = 951.0;

type LibraryNumber = unsafe extern "C" fn(*const u8, usize, f64, &mut f64) -> Outcome;

/// A bond of so many half years, as a record and as the Rust has it.
fn bond_of(periods: usize) -> ([u8; BOND_BYTES], Bond) {
    let (face_value, coupon_rate, maturity_years) = (1000.0, 0.05, periods as f64 / 2.0);
    let mut record = [0; BOND_BYTES];
    unsafe { senyolanda_write_bond(face_value, coupon_rate, maturity_years, CODE_OF_SEMI_ANNUAL, &mut record) };
    (record, Bond { face_value, coupon_rate, maturity_years, frequency: CouponFrequency::SemiAnnual, settlement_date: 0 })
}

/// A bond asked for a number at a yield or at a price.
fn number(what: &str, periods: usize, at: f64, ours: LibraryNumber, rust: impl Fn(f64, &Bond) -> f64 + 'static) -> Job {
    let (record, bond) = bond_of(periods);
    one_by_one(
        format!("bond {what} of {periods} periods"),
        vec![at],
        move |at, place| unsafe { ours(record.as_ptr(), record.len(), *at, place) },
        move |at| rust(*at, unseen(&bond)),
    )
}

pub fn price(periods: usize) -> Job {
    number("price", periods, YIELD, senyolanda_bond_price, bond::price)
}

pub fn yield_to_maturity(periods: usize) -> Job {
    number("yield", periods, MARKET, senyolanda_bond_yield_to_maturity, bond::yield_to_maturity)
}

pub fn duration(periods: usize) -> Job {
    number("duration", periods, YIELD, senyolanda_bond_modified_duration, bond::modified_duration).of_rows(periods)
}

/// A book of bonds of 1 to 60 half years, in no order, each asked for a number.
fn mixed(what: &str, count: usize, at: f64, ours: LibraryNumber, rust: impl Fn(f64, &Bond) -> f64 + 'static) -> Job {
    one_by_one(
        format!("{count} bonds of 1 to 60 periods, {what}"),
        scattered(60).map(|below| bond_of(1 + below)).take(count).collect(),
        move |(record, _), place| unsafe { ours(record.as_ptr(), record.len(), at, place) },
        move |(_, bond)| rust(at, bond),
    )
}

pub fn mixed_prices(count: usize) -> Job {
    mixed("prices", count, YIELD, senyolanda_bond_price, bond::price)
}

pub fn mixed_yields(count: usize) -> Job {
    mixed("yields", count, MARKET, senyolanda_bond_yield_to_maturity, bond::yield_to_maturity)
}
