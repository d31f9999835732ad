//! Pools at a constant speed of prepayment: months, price and duration.
use crate::job::{one_by_one, unless_refused, Job};
use crate::library::*;
use crate::loans::record_of;
use crate::measure::{giving, lent, unseen};
use crate::published::mortgage::{MbsPool, MortgageLoan, MortgageType, PrepaymentModel};
use std::ptr::null;

const CPR: f64 = 0.06;
const CODE_OF_CPR: u32 = 0;
const RATE: f64 = 0.05;

/// Loans that differ, as records end to end and as the Rust's pool.
fn pool(loans: usize, months: usize) -> (Vec<u8>, MbsPool) {
    let loan = |i: usize| MortgageLoan {
        principal: 100_000.0 + 1_000.0 * i as f64,
        annual_rate: 0.03 + 0.0005 * i as f64,
        term_months: months as u32,
        mortgage_type: MortgageType::Fixed,
        origination_date: 0,
    };
    let pool = MbsPool::new((0..loans).map(loan).collect());
    let record = |loan: &MortgageLoan| record_of(loan.principal, loan.annual_rate, loan.term_months);
    (pool.loans.iter().flat_map(record).collect(), pool)
}

fn name(what: &str, loans: usize, months: usize) -> String {
    format!("pool {what} of {loans} loans of {months}")
}

pub fn months(loans: usize, months: usize) -> Job {
    let (records, pool) = pool(loans, months);
    let places = months * POOL_MONTH_PLACES;
    let ours = lent(places, move |room| {
        let mut written = 0;
        let outcome = unsafe {
            senyolanda_pool_cash_flows(
                records.as_ptr(), records.len(), CODE_OF_CPR, CPR, null(), 0, room.as_mut_ptr(), room.len(), &mut written,
            )
        };
        unless_refused(outcome, written as usize * POOL_MONTH_PLACES)
    });
    let rust = giving(move || unseen(&pool).cash_flows(&PrepaymentModel::CPR(CPR)));
    Job::new(name("months", loans, months), loans * months, ours, rust)
}

type LibraryNumber = unsafe extern "C" fn(*const u8, usize, u32, f64, *const f64, usize, f64, &mut f64) -> Outcome;

/// Its Rust works all months out anew for each price, and months are counted already.
fn number(
    what: &str,
    loans: usize,
    months: usize,
    ours: LibraryNumber,
    rust: impl Fn(&MbsPool, f64, &PrepaymentModel) -> f64 + 'static,
) -> Job {
    let (records, pool) = pool(loans, months);
    let ours = move |rate: &f64, place: &mut f64| unsafe {
        ours(records.as_ptr(), records.len(), CODE_OF_CPR, CPR, null(), 0, *rate, place)
    };
    let rust = move |rate: &f64| rust(unseen(&pool), *rate, &PrepaymentModel::CPR(CPR));
    one_by_one(name(what, loans, months), vec![RATE], ours, rust).of_rows(loans * months).with_the_rust_uncounted()
}

pub fn price(loans: usize, months: usize) -> Job {
    number("price", loans, months, senyolanda_pool_price, MbsPool::price)
}

pub fn duration(loans: usize, months: usize) -> Job {
    number("duration", loans, months, senyolanda_pool_duration, MbsPool::duration)
}
