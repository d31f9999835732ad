//! Curves, their years cut evenly into knots: lookups on the three kinds, and the fit.
use crate::job::{one_by_one, unless_refused, Job};
use crate::library::*;
use crate::measure::{giving, lent, scattered, unseen};
use crate::published::spread_analytics::ZeroRateCurve;
use crate::published::swaps::DiscountCurve;
use crate::published::yield_curve::{NelsonSiegel, YieldCurve, YieldPoint};

/// So few that the processor soon foresees them all, and so many that it does not.
const LOOKUPS: usize = 64;
const MIXED_LOOKUPS: usize = 4096;
pub const YEARS: f64 = 30.0;

#[derive(Clone)]
pub struct Curve {
    pub times: Vec<f64>,
    pub rates: Vec<f64>,
}

pub fn curve(years: f64, knots: usize) -> Curve {
    let times: Vec<f64> = (1..=knots).map(|k| years * k as f64 / knots as f64).collect();
    let rates = times.iter().map(|t| 0.02 + 0.03 * t / (t + 10.0)).collect();
    Curve { times, rates }
}

impl Curve {
    pub fn zero_rates(&self) -> ZeroRateCurve {
        ZeroRateCurve { tenors: self.times.clone(), rates: self.rates.clone() }
    }

    pub fn discount_curve(&self) -> DiscountCurve {
        DiscountCurve { tenors: self.times.clone(), zero_rates: self.rates.clone() }
    }

    fn points(&self) -> Vec<YieldPoint> {
        let each = self.times.iter().zip(&self.rates);
        each.map(|(&maturity_years, &yield_rate)| YieldPoint { maturity_years, yield_rate }).collect()
    }
}

type LibraryNumber = unsafe extern "C" fn(*const f64, usize, *const f64, usize, f64, &mut f64) -> Outcome;
type LibraryNumbers = unsafe extern "C" fn(*const f64, usize, *const f64, usize, *mut f64, usize) -> Outcome;

/// Whether lookups are asked for one by one or as a list.
#[derive(Clone, Copy, PartialEq)]
pub enum Asked {
    OneByOne,
    AsAList,
}

/// Lookups at times all over the years. A list is filled afresh for each run, since its answers take its place; the time of that is
/// in.
fn lookups(
    kind: &str,
    asked: Asked,
    times: Vec<f64>,
    curve: Curve,
    (one, each): (LibraryNumber, LibraryNumbers),
    rust: impl Fn(f64) -> f64 + 'static,
) -> Job {
    let count = times.len();
    let name = format!("{count} lookups at {} knots, {kind}", curve.times.len());
    let (listed, knots) = (times.clone(), curve.clone());
    let alone = one_by_one(
        name.clone(),
        times,
        move |t, place| unsafe {
            one(curve.times.as_ptr(), curve.times.len(), curve.rates.as_ptr(), curve.rates.len(), *t, place)
        },
        move |t| rust(*t),
    );
    if asked == Asked::OneByOne {
        return alone;
    }
    let ours = lent(count, move |room| {
        room.copy_from_slice(&listed);
        let outcome = unsafe {
            each(knots.times.as_ptr(), knots.times.len(), knots.rates.as_ptr(), knots.rates.len(), room.as_mut_ptr(), room.len())
        };
        unless_refused(outcome, room.len())
    });
    Job { name: name + ", a list", ours, ..alone }
}

/// Many times in no order.
fn mixed_times() -> Vec<f64> {
    scattered(MIXED_LOOKUPS).map(|part| YEARS * (part as f64 + 0.5) / MIXED_LOOKUPS as f64).take(MIXED_LOOKUPS).collect()
}

/// The same few times again and again.
fn few_times() -> Vec<f64> {
    (0..LOOKUPS).map(|k| YEARS * ((k * 37 % LOOKUPS) as f64 + 0.5) / LOOKUPS as f64).collect()
}

pub fn yield_curve(asked: Asked, knots: usize) -> Job {
    yields("yield curve", asked, few_times(), knots)
}

pub fn mixed_yield_curve(asked: Asked, knots: usize) -> Job {
    yields("yield curve, mixed", asked, mixed_times(), knots)
}

fn yields(kind: &str, asked: Asked, times: Vec<f64>, knots: usize) -> Job {
    let curve = curve(YEARS, knots);
    let theirs = YieldCurve::new(curve.points());
    let ours: (LibraryNumber, LibraryNumbers) = (senyolanda_linear_interpolate, senyolanda_linear_interpolate_each);
    lookups(kind, asked, times, curve, ours, move |t| unseen(&theirs).linear_interpolate(t).unwrap_or(f64::NAN))
}

/// The Rust's zero rate is private here, so a lookup is a discount factor, with its exp.
pub fn discount_curve(asked: Asked, knots: usize) -> Job {
    let curve = curve(YEARS, knots);
    let theirs = curve.discount_curve();
    let ours: (LibraryNumber, LibraryNumbers) = (senyolanda_discount_curve_factor, senyolanda_discount_curve_factor_each);
    lookups("discount curve", asked, few_times(), curve, ours, move |t| unseen(&theirs).discount_factor(t))
}

pub fn zero_curve(asked: Asked, knots: usize) -> Job {
    let curve = curve(YEARS, knots);
    let theirs = curve.zero_rates();
    let ours: (LibraryNumber, LibraryNumbers) = (senyolanda_zero_curve_rate, senyolanda_zero_curve_rate_each);
    lookups("zero curve", asked, few_times(), curve, ours, move |t| unseen(&theirs).rate_at(t))
}

pub fn fit(points: usize) -> Job {
    let curve = curve(YEARS, points);
    let theirs = curve.points();
    let ours = lent(4, move |room| {
        let model = room.try_into().expect("room for four numbers");
        let outcome = unsafe {
            senyolanda_nelson_siegel_fit(curve.times.as_ptr(), points, curve.rates.as_ptr(), points, model)
        };
        unless_refused(outcome, 4)
    });
    let rust = giving(move || NelsonSiegel::fit(unseen::<Vec<_>>(&theirs)));
    Job::new(format!("Nelson-Siegel fit of {points} points"), points, ours, rust)
}
