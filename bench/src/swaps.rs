//! Swaps: the bootstrap, a whole valuation, and one of a dated swap.
use crate::called;
use crate::curves::{curve, YEARS};
use crate::job::{unless_refused, Job};
use crate::library::dates::*;
use crate::library::records::{senyolanda_write_dated_swap, senyolanda_write_swap};
use crate::library::*;
use crate::measure::{filling, giving, lent, unseen, Numbers};
use crate::published::swaps::{value_swap, DayCount, DiscountCurve, SwapSpec};

const CODE_OF_ACTUAL_360: u32 = 0;
const CODE_OF_THIRTY_360: u32 = 2;
const QUARTERLY: u32 = 4;
/// npv, fixed leg, floating leg, par rate, dv01, duration.
const VALUES: usize = 6;

pub fn bootstrap(years: f64, knots: usize) -> Job {
    let par = curve(years, knots);
    let theirs = par.clone();
    let ours = lent(MOST_KNOTS, move |room| {
        let zeros = room.try_into().expect("room for every knot");
        let outcome = unsafe {
            senyolanda_bootstrap(par.times.as_ptr(), par.times.len(), par.rates.as_ptr(), par.rates.len(), zeros)
        };
        unless_refused(outcome, par.times.len())
    });
    let rust = giving(move || {
        let par = unseen(&theirs);
        DiscountCurve::from_par_rates(&par.times, &par.rates)
    });
    Job::new(format!("bootstrap of {knots} knots over {years} years"), knots, ours, rust)
}

/// A swap that pays each quarter.
pub fn value(periods: usize, knots: usize) -> Job {
    let (notional, fixed_rate, tenor_years) = (1e6, 0.04, periods as f64 / f64::from(QUARTERLY));
    let mut record = [0; SWAP_BYTES];
    unsafe { senyolanda_write_swap(notional, fixed_rate, tenor_years, QUARTERLY, CODE_OF_ACTUAL_360, &mut record) };
    let spec = SwapSpec { notional, fixed_rate, tenor_years, payment_frequency: QUARTERLY, day_count: DayCount::Actual360 };
    let curve = curve(YEARS, knots);
    let theirs = curve.discount_curve();
    let ours = lent(6, move |room| {
        let valuation = room.try_into().expect("room for six numbers");
        let outcome = unsafe {
            senyolanda_value_swap(
                record.as_ptr(), record.len(), curve.times.as_ptr(), curve.times.len(), curve.rates.as_ptr(), curve.rates.len(),
                1, valuation,
            )
        };
        unless_refused(outcome, 6)
    });
    let rust = giving(move || value_swap(unseen(&spec), unseen(&theirs), true));
    Job::new(format!("value_swap of {periods} periods, {knots} knots"), periods, ours, rust)
}

/// The values of an undated swap as it is timed. Only an answer has the dated swap's, asked one by one.
struct Undated {
    values: [f64; VALUES],
    dated: [f64; VALUES],
}

impl Numbers for Undated {
    fn numbers(&self) -> Vec<f64> {
        self.dated.to_vec()
    }
}

/// A swap from the last day of a January on that pays each quarter, by 30/360, beside an undated one of as many periods.
pub fn dated_value(periods: usize, knots: usize) -> Job {
    let (notional, rate) = (1e6, 0.04);
    let (first, last) = (2024, 2024 + periods as u32 / QUARTERLY);
    let (mut dated, mut undated) = ([0; DATED_SWAP_BYTES], [0; SWAP_BYTES]);
    unsafe {
        senyolanda_write_dated_swap(notional, rate, 0.0, QUARTERLY, first, 1, 31, last, 1, 31, CODE_OF_THIRTY_360, &mut dated);
        senyolanda_write_swap(notional, rate, periods as f64 / f64::from(QUARTERLY), QUARTERLY, CODE_OF_THIRTY_360, &mut undated);
    }
    let curve = curve(YEARS, knots);
    let same = curve.clone();
    let (times, rates) = (curve.times.clone(), curve.rates.clone());
    let mut one_by_one = [f64::NAN; VALUES];
    let [npv, fixed, floating, par, dv01, duration] = &mut one_by_one;
    called!(senyolanda_dated_swap_npv, [dated], [times], [rates], 1, npv);
    called!(senyolanda_dated_fixed_leg_pv, [dated], [times], [rates], fixed);
    called!(senyolanda_dated_floating_leg_pv, [dated], [times], [rates], floating);
    called!(senyolanda_dated_par_swap_rate, [dated], [times], [rates], par);
    called!(senyolanda_dated_swap_dv01, [dated], [times], [rates], 1, dv01);
    called!(senyolanda_dated_swap_duration, [dated], [times], [rates], duration);
    Job::beside_the_undated(
        format!("value of a dated swap of {periods} periods, {knots} knots"),
        periods,
        lent(VALUES, move |room| {
            let values = room.try_into().expect("room for six numbers");
            let (times, rates) = (&curve.times, &curve.rates);
            unless_refused(called!(senyolanda_value_dated_swap, [dated], [times], [rates], 1, values), VALUES)
        }),
        filling(Undated { values: [0.0; VALUES], dated: one_by_one }, move |room: &mut Undated| {
            let (times, rates) = (&same.times, &same.rates);
            called!(senyolanda_value_swap, [undated], [times], [rates], 1, &mut room.values);
        }),
    )
}
