// Many times asked of a curve in one call, beside the Rust's lookups one by one: the three kinds of curve, their rates and their discount factors.
use crate::curves::{any_at, asked_time, plain_at, At, Curve};
use crate::harness::{bits, plain, refused, relative, Allowed, Answer, Case, Compared, Family, Unanswered};
use crate::library::*;
use crate::random::{Random, NOT_FINITE};
use crate::spreads::zero_curve;
use crate::published::opened_swaps::opened_rate;
use crate::swaps::discount_curve;
use crate::{called, input};

const MOST_ASKED: u32 = 40;

input!(
    /// A curve with a list of times asked of it.
    AtEach { curve: Curve, asked: Vec<f64> }
);

/// A drawn case's curve, refused or not, with a list of times, of which one may be refused.
fn listed(random: &mut Random, case: Case<At>) -> Case<AtEach> {
    if case.meant.is_some_and(|meant| meant & 0xffff_ffff != 7) {
        let asked = vec![f64::NAN; random.whole(0, 3) as usize];
        return case.map(|at| AtEach { curve: at.curve, asked });
    }
    let curve = case.input.curve;
    let mut asked: Vec<f64> = (0..random.whole(0, MOST_ASKED)).map(|_| asked_time(random, &curve)).collect();
    if asked.is_empty() || !random.once_in(16) {
        return plain(AtEach { curve, asked });
    }
    let place = random.below(asked.len() as u64) as usize;
    asked[place] = random.pick(&NOT_FINITE);
    refused(AtEach { curve, asked }, 7, place)
}

type EachOfCurve = unsafe extern "C" fn(*const f64, usize, *const f64, usize, *mut f64, usize) -> u64;

fn over_each(input: &AtEach, call: EachOfCurve) -> Answer {
    let (Curve { times, rates }, mut asked) = (&input.curve, input.asked.clone());
    let result = called!(call, [times], [rates], [mut asked]);
    let untouched = asked.iter().zip(&input.asked).all(|(x, y)| x.to_bits() == y.to_bits());
    match result {
        0 => Ok(asked),
        _ if untouched => Err(Unanswered::Refused(result)),
        _ => Err(Unanswered::Broken("a refusal touched the list")),
    }
}

fn each_of(input: &AtEach, one: impl Fn(&Curve, f64) -> f64) -> Vec<f64> {
    input.asked.iter().map(|t| one(&input.curve, *t)).collect()
}

/// A family of rates, which are sums, products and quotients alone, or of discount factors, where exp's own distance is allowed.
fn rates(name: &'static str, seed: u64, ours: fn(&AtEach) -> Answer, rust: fn(&AtEach) -> Vec<f64>) -> Compared {
    family(name, seed, ours, rust, any_listed, bits())
}

fn factors(name: &'static str, seed: u64, ours: fn(&AtEach) -> Answer, rust: fn(&AtEach) -> Vec<f64>) -> Compared {
    family(name, seed, ours, rust, plain_listed, relative(1e-12))
}

fn family(
    name: &'static str,
    seed: u64,
    ours: fn(&AtEach) -> Answer,
    rust: fn(&AtEach) -> Vec<f64>,
    draw: fn(&mut Random) -> Case<AtEach>,
    allowed: Allowed<AtEach>,
) -> Compared {
    Family { name, seed, one_in: 4, edges: Vec::new, draw, ours, rust, allowed }.compared()
}

fn any_listed(random: &mut Random) -> Case<AtEach> {
    let case = any_at(random);
    listed(random, case)
}

fn plain_listed(random: &mut Random) -> Case<AtEach> {
    let case = plain_at(random);
    listed(random, case)
}

pub fn families() -> Vec<Compared> {
    vec![
        rates(
            "linear-interpolation-list",
            801,
            |input| over_each(input, senyolanda_linear_interpolate_each),
            |input| each_of(input, |curve, t| curve.yields().linear_interpolate(t).unwrap()),
        ),
        factors(
            "yield-curve-discount-factor-list",
            802,
            |input| over_each(input, senyolanda_yield_curve_discount_factor_each),
            |input| each_of(input, |curve, t| curve.yields().discount_factor(t)),
        ),
        rates(
            "discount-curve-rate-list",
            803,
            |input| over_each(input, senyolanda_discount_curve_rate_each),
            |input| each_of(input, |curve, t| opened_rate(&curve.times, &curve.rates, t)),
        ),
        factors(
            "discount-curve-factor-list",
            804,
            |input| over_each(input, senyolanda_discount_curve_factor_each),
            |input| each_of(input, |curve, t| discount_curve(curve).discount_factor(t)),
        ),
        rates(
            "zero-curve-rate-list",
            805,
            |input| over_each(input, senyolanda_zero_curve_rate_each),
            |input| each_of(input, |curve, t| zero_curve(curve).rate_at(t)),
        ),
        rates(
            "swap-curve-rate-list",
            806,
            |input| over_each(input, senyolanda_swap_curve_rate_each),
            |input| each_of(input, |curve, t| crate::spreads::swap_curve(curve).rate_at(t)),
        ),
        factors(
            "zero-curve-discount-factor-list",
            807,
            |input| over_each(input, senyolanda_zero_curve_discount_factor_each),
            |input| each_of(input, |curve, t| zero_curve(curve).discount_factor(t)),
        ),
    ]
}
