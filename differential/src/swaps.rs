// Day counts, discount curves, bootstraps and swaps beside swaps.rs.
use crate::asking::*;
use crate::curves::{discounting, interpolation, or_refused, over, plain_curve, At, Curve};
use crate::harness::{absolute, bits, part_of, plain, refused, relative, Answer, Case, Compared, Family, Unanswered};
use crate::library::*;
use crate::published::opened_swaps::opened_rate;
use crate::published::swaps::{self, DayCount, DiscountCurve, SwapSpec};
use crate::random::{Random, NOT_FINITE};
use crate::{called, input};

const MOST_KNOTS: usize = 120;
const MOST_PERIODS: f64 = 1200.0;
/// The ends between which a zero rate is looked for, the least error of document 01 at either, and its shortest and longest tenors.
const BRACKET: [f64; 2] = [-1.0, 5.0];
const LEAST_END_ERROR: f64 = 1e-3;
const SHORTEST_TENOR: f64 = 1.0 / 12.0;
const LONGEST_TENOR: f64 = 100.0;

input!(Days { day_count: u32, days: u32 });
input!(Swap { notional: f64, rate: f64, tenor: f64, frequency: u32, day_count: u32 });
input!(Valued { swap: Swap, curve: Curve, receive_fixed: u32 });

fn day_count(code: u32) -> DayCount {
    [DayCount::Actual360, DayCount::Actual365, DayCount::Thirty360][code as usize].clone()
}

impl Swap {
    fn record(&self) -> [u8; SWAP_BYTES] {
        let mut record = [4; SWAP_BYTES];
        record[1..9].copy_from_slice(&self.notional.to_le_bytes());
        record[9..17].copy_from_slice(&self.rate.to_le_bytes());
        record[17..25].copy_from_slice(&self.tenor.to_le_bytes());
        record[25..29].copy_from_slice(&self.frequency.to_le_bytes());
        record[29] = self.day_count as u8;
        record
    }

    pub fn spec(&self) -> SwapSpec {
        SwapSpec {
            notional: self.notional,
            fixed_rate: self.rate,
            tenor_years: self.tenor,
            payment_frequency: self.frequency,
            day_count: day_count(self.day_count),
        }
    }

    /// The same swap with its rate's size, so that no terms of its sums cancel.
    fn without_signs(&self) -> SwapSpec {
        SwapSpec { fixed_rate: self.rate.abs(), ..self.spec() }
    }
}

pub fn discount_curve(curve: &Curve) -> DiscountCurve {
    DiscountCurve { tenors: curve.times.clone(), zero_rates: curve.rates.clone() }
}

fn days_drawn(random: &mut Random) -> Case<Days> {
    let days = if random.once_in(2) { random.whole(0, 40_000) } else { random.whole(0, u32::MAX) };
    if random.once_in(32) {
        refused(Days { day_count: random.pick(&[3, 4, 255, 256, u32::MAX]), days }, 11, 0)
    } else {
        plain(Days { day_count: random.whole(0, 2), days })
    }
}

fn days_edges() -> Vec<Case<Days>> {
    (0..=2).flat_map(|day_count| [0, 1, 30, 359, 360, 361, 364, 365, 366, u32::MAX].map(|days| plain(Days { day_count, days }))).collect()
}

/// A swap of at most 1,200 periods, whole ones and others.
fn plain_swap(random: &mut Random) -> Swap {
    let frequency = if random.once_in(4) { random.log_whole(1, 365) } else { random.pick(&[1, 2, 4, 12]) };
    let longest = (MOST_PERIODS / f64::from(frequency)).min(60.0);
    let tenor = match random.below(4) {
        0 => f64::from(random.whole(1, 30)).min(longest),
        1 => (f64::from(random.whole(0, 10)) + 0.5) / f64::from(frequency),
        _ => random.log_between(0.5 / f64::from(frequency), longest),
    };
    let notional = if random.once_in(32) { 0.0 } else { random.log_between(1.0, 1e12) };
    Swap { notional, rate: random.between(-0.02, 0.2), tenor, frequency, day_count: random.whole(0, 2) }
}

/// A swap with one cause of a refusal.
fn spoiled(random: &mut Random, swap: Swap) -> Case<Swap> {
    let not_finite = random.pick(&NOT_FINITE);
    match random.below(7) {
        0 => refused(Swap { notional: random.no_amount(), ..swap }, 1, 0),
        1 => refused(Swap { tenor: not_finite, ..swap }, 7, 0),
        2 => refused(Swap { tenor: random.pick(&[1201.0, 1e300]) / f64::from(swap.frequency), ..swap }, 7, 0),
        3 => refused(Swap { frequency: 0, ..swap }, 8, 0),
        4 => refused(Swap { frequency: random.pick(&[366, 367, 1000]), tenor: 1.0, ..swap }, 8, 0),
        5 => refused(Swap { rate: not_finite, ..swap }, 9, 0),
        _ => refused(Swap { day_count: random.pick(&[3, 255]), ..swap }, 11, 0),
    }
}

fn valued(random: &mut Random) -> Case<Valued> {
    let (swap, curve, receive_fixed) = (plain_swap(random), plain_curve(random), random.pick(&[0, 1, 2, u32::MAX]));
    if random.once_in(24) {
        return spoiled(random, swap).map(|swap| Valued { swap, curve, receive_fixed });
    }
    or_refused(random, curve).map(|curve| Valued { swap, curve, receive_fixed })
}

/// Swaps whose net value, fixed leg and dv01 are next to nothing, as the Rust works them out.
fn worth_nothing(swap: Swap, curve: Curve) -> [Valued; 3] {
    let discounts = discount_curve(&curve);
    let spec = |rate| SwapSpec { fixed_rate: rate, ..swap.spec() };
    let zero_of = |value: &dyn Fn(f64) -> f64| -value(0.0) / (value(1.0) - value(0.0)) * 1.0000001;
    let npv = zero_of(&|rate| swaps::swap_npv(&spec(rate), &discounts, true));
    let leg = zero_of(&|rate| swaps::fixed_leg_pv(&spec(rate), &discounts));
    let dv01 = zero_of(&|rate| swaps::swap_dv01(&spec(rate), &discounts, true));
    [npv, leg, dv01].map(|rate| Valued { swap: Swap { rate, ..swap.clone() }, curve: curve.clone(), receive_fixed: 1 })
}

/// Few, many and half periods, and each day count; values next to nothing; half a period more than 1,200.
fn edges() -> Vec<Case<Valued>> {
    let curve = Curve { times: vec![0.5, 1.0, 5.0, 30.0], rates: vec![0.02, 0.025, 0.03, 0.035] };
    let mut all = Vec::new();
    for frequency in [1, 2, 4, 12, 364, 365] {
        for periods in [0.5, 1.0, 1.5, 2.0, 2.5, 1199.0, 1200.0, 1200.4999999999998] {
            for day_count in 0..=2 {
                let swap = Swap { notional: 1e6, rate: 0.03, tenor: periods / f64::from(frequency), frequency, day_count };
                all.extend([0, 1].map(|receive_fixed| plain(Valued { swap: swap.clone(), curve: curve.clone(), receive_fixed })));
            }
        }
    }
    let swap = |tenor| Swap { notional: 1.0, rate: 0.0, tenor, frequency: 1, day_count: 1 };
    for years in 2..=60 {
        all.extend(worth_nothing(swap(f64::from(years)), Curve { times: vec![1.0], rates: vec![0.05] }).map(plain));
    }
    all.push(refused(Valued { swap: swap(1200.5), curve, receive_fixed: 1 }, 7, 0));
    all
}

type OfSwap = unsafe extern "C" fn(*const u8, usize, *const f64, usize, *const f64, usize, &mut f64) -> u64;
type OfSide = unsafe extern "C" fn(*const u8, usize, *const f64, usize, *const f64, usize, u32, &mut f64) -> u64;

/// Asks a function over a swap and its curve for one number.
fn of_swap(input: &Valued, call: OfSwap) -> Answer {
    let (record, Curve { times, rates }) = (input.swap.record(), &input.curve);
    asked(|answer| called!(call, [record], [times], [rates], answer))
}

fn of_side(input: &Valued, call: OfSide) -> Answer {
    let (record, Curve { times, rates }) = (input.swap.record(), &input.curve);
    asked(|answer| called!(call, [record], [times], [rates], input.receive_fixed, answer))
}

fn valuation(input: &Valued) -> Answer {
    let (record, Curve { times, rates }) = (input.swap.record(), &input.curve);
    asked_for(|answer| called!(senyolanda_value_swap, [record], [times], [rates], input.receive_fixed, answer))
}

fn rust_valuation(input: &Valued) -> Vec<f64> {
    let v = swaps::value_swap(&input.swap.spec(), &discount_curve(&input.curve), input.receive_fixed != 0);
    vec![v.npv, v.fixed_pv, v.floating_pv, v.par_rate, v.dv01, v.duration]
}

/// The sum of the discount factors that a swap's legs read, the first one, 1, among them.
fn discounts(input: &Valued) -> f64 {
    let (curve, frequency) = (discount_curve(&input.curve), f64::from(input.swap.frequency));
    let payments = (input.swap.tenor * frequency).round() as u32;
    let sum: f64 = (1..=payments).map(|k| curve.discount_factor(f64::from(k) / frequency)).sum();
    1.0 + sum + curve.discount_factor(input.swap.tenor)
}

fn fixed_leg_scale(input: &Valued) -> f64 {
    swaps::fixed_leg_pv(&input.swap.without_signs(), &discount_curve(&input.curve))
}

/// What the legs' discount factors are worth: the fixed leg without signs, and twice the notional for each that the floating leg reads.
fn legs(input: &Valued) -> f64 {
    fixed_leg_scale(input) + 2.0 * input.swap.notional * discounts(input)
}

/// A duration's sums may cancel where the rate is below zero.
fn duration_scale(input: &Valued, duration: f64) -> f64 {
    let (curve, plain, absolute) = (discount_curve(&input.curve), input.swap.spec(), input.swap.without_signs());
    let cancelled = swaps::fixed_leg_pv(&absolute, &curve) / swaps::fixed_leg_pv(&plain, &curve).abs();
    cancelled * (swaps::swap_duration(&absolute, &curve).abs() + duration.abs())
}

/// Each of the six as its own family has it, in the same 1e-12.
fn valuation_scale(input: &Valued, rust: &[f64]) -> Vec<f64> {
    let legs = legs(input);
    vec![legs, fixed_leg_scale(input), rust[2].abs(), 1e3 * rust[3].abs(), 2.0 * legs, duration_scale(input, rust[5])]
}

/// The error of a knot's par swap with its zero rate at either end of the bracket, the knots before it solved.
fn end_errors(curve: &Curve, zeros: &[f64], knot: usize) -> [f64; 2] {
    let (tenor, coupon) = (curve.times[knot], curve.rates[knot]);
    BRACKET.map(|end| {
        let mut zero_rates = zeros[..knot].to_vec();
        zero_rates.push(end);
        let trial = DiscountCurve { tenors: curve.times[..=knot].to_vec(), zero_rates };
        let paid = |k: u32| f64::from(k).min(tenor);
        let coupons: f64 = (1..=tenor.ceil().max(1.0) as u32).map(|k| coupon * (paid(k) - paid(k - 1)) * trial.discount_factor(paid(k))).sum();
        coupons + trial.discount_factor(tenor) - 1.0
    })
}

/// Whether both end errors of every knot are large enough to compare.
fn told_apart(curve: &Curve) -> bool {
    let zeros = DiscountCurve::from_par_rates(&curve.times, &curve.rates).zero_rates;
    (0..zeros.len()).all(|knot| end_errors(curve, &zeros, knot).iter().all(|error| error.abs() > LEAST_END_ERROR))
}

/// One knot with any par rate, often with no sign change.
fn one_knot(random: &mut Random) -> Curve {
    loop {
        let curve = Curve { times: vec![random.log_between(SHORTEST_TENOR, LONGEST_TENOR)], rates: vec![random.signed_log_between(1e-3, 1e3)] };
        if told_apart(&curve) {
            return curve;
        }
    }
}

/// Rising tenors with par rates that wander little from one knot to the next, as a market's do, and end errors large enough to compare.
fn par_curve(random: &mut Random) -> Curve {
    loop {
        let count = if random.once_in(4) { random.pick(&[1, 2, 3, 119, 120]) } else { random.log_whole(1, MOST_KNOTS as u32) };
        let longest = random.log_between(1.0, LONGEST_TENOR);
        let mut tenors: Vec<f64> = (0..count).map(|_| random.between(SHORTEST_TENOR, longest)).collect();
        tenors.sort_by(f64::total_cmp);
        tenors.dedup();
        let mut rate = random.between(-0.005, 0.12);
        let mut rates = Vec::new();
        for _ in &tenors {
            rates.push(rate);
            rate += random.between(-0.001, 0.001);
        }
        let curve = Curve { times: tenors, rates };
        if told_apart(&curve) {
            return curve;
        }
    }
}

fn bootstrapped(random: &mut Random) -> Case<Curve> {
    let curve = if random.once_in(8) { one_knot(random) } else { par_curve(random) };
    if random.once_in(16) {
        let place = random.below(curve.times.len() as u64) as usize;
        if place == 0 {
            let mut times = curve.times.clone();
            times[0] = 0.0;
            return refused(Curve { times, ..curve }, 6, 0);
        }
        let mut times = curve.times[..place].to_vec();
        times.push(100.00000000000001);
        return refused(Curve { times, rates: curve.rates[..=place].to_vec() }, 6, place);
    }
    or_refused(random, curve)
}

/// One knot and more; no sign change, where the answer is ln(1 + c), which may be -infinity or NaN; the shortest and the longest tenors.
fn bootstrap_edges() -> Vec<Case<Curve>> {
    let one = |tenor, rate| Curve { times: vec![tenor], rates: vec![rate] };
    let mut all: Vec<Curve> = [0.0, 0.05, -0.5, -0.9, -1.0, -2.0, 200.0].map(|rate| one(1.0, rate)).to_vec();
    all.extend([SHORTEST_TENOR, 0.5, 1.0, 1.5, 2.0, 99.5, 100.0].map(|tenor| one(tenor, 0.04)));
    for count in [2, 3, 119, 120] {
        let times = (1..=count).map(|i| f64::from(i) * 100.0 / f64::from(count)).collect();
        all.push(Curve { times, rates: (0..count).map(|i| 0.03 + 0.0001 * f64::from(i % 7)).collect() });
    }
    all.into_iter().map(plain).collect()
}

pub fn bootstrap(curve: &Curve) -> Answer {
    let mut zeros = asked_for(|zeros: &mut [f64; MOST_KNOTS]| called!(senyolanda_bootstrap, [curve.times], [curve.rates], zeros))?;
    match zeros.split_off(curve.times.len()).iter().all(|place| place.to_bits() == UNTOUCHED.to_bits()) {
        true => Ok(zeros),
        false => Err(Unanswered::Broken("a place past the last knot was touched")),
    }
}

fn family(name: &'static str, seed: u64, ours: fn(&Valued) -> Answer, rust: fn(&Valued) -> Vec<f64>) -> Family<Valued> {
    Family { name, seed, one_in: 1, edges, draw: valued, ours, rust, allowed: relative(1e-12) }
}

pub fn fixed_leg(input: &Valued) -> Answer {
    of_swap(input, senyolanda_fixed_leg_pv)
}

pub fn curve_rate(input: &At) -> Answer {
    over(input, senyolanda_discount_curve_rate)
}

pub fn families() -> Vec<Compared> {
    vec![
        Family {
            name: "day-count",
            seed: 601,
            one_in: 1,
            edges: days_edges,
            draw: days_drawn,
            ours: |input| asked(|fraction| called!(senyolanda_day_count_fraction, input.day_count, input.days, fraction)),
            rust: |input| vec![swaps::day_count_fraction(&day_count(input.day_count), input.days)],
            allowed: bits(),
        }
        .compared(),
        interpolation("discount-curve-rate", 602, curve_rate, |input| vec![opened_rate(&input.curve.times, &input.curve.rates, input.t)]).compared(),
        discounting(
            "discount-curve-factor",
            603,
            |input: &At| over(input, senyolanda_discount_curve_factor),
            |input| vec![discount_curve(&input.curve).discount_factor(input.t)],
        )
        .compared(),
        Family {
            name: "bootstrap",
            seed: 604,
            one_in: 100,
            edges: bootstrap_edges,
            draw: bootstrapped,
            ours: bootstrap,
            rust: |curve| DiscountCurve::from_par_rates(&curve.times, &curve.rates).zero_rates,
            allowed: absolute(1e-9),
        }
        .compared(),
        Family {
            allowed: part_of(1e-12, "of the leg without signs", |input, _| vec![fixed_leg_scale(input)]),
            ..family("fixed-leg", 605, fixed_leg, |input| vec![swaps::fixed_leg_pv(&input.swap.spec(), &discount_curve(&input.curve))])
        }
        .compared(),
        family(
            "floating-leg",
            606,
            |input| of_swap(input, senyolanda_floating_leg_pv),
            |input| vec![swaps::floating_leg_pv(&input.swap.spec(), &discount_curve(&input.curve))],
        )
        .compared(),
        Family {
            allowed: part_of(1e-12, "of the discounts' worth", |input, _| vec![legs(input)]),
            ..family(
                "swap-npv",
                607,
                |input| of_side(input, senyolanda_swap_npv),
                |input| vec![swaps::swap_npv(&input.swap.spec(), &discount_curve(&input.curve), input.receive_fixed != 0)],
            )
        }
        .compared(),
        Family {
            allowed: relative(1e-9),
            ..family(
                "par-swap-rate",
                608,
                |input| of_swap(input, senyolanda_par_swap_rate),
                |input| vec![swaps::par_swap_rate(&input.swap.spec(), &discount_curve(&input.curve))],
            )
        }
        .compared(),
        Family {
            allowed: part_of(1e-12, "of the discounts' worth", |input, _| vec![2.0 * legs(input)]),
            ..family(
                "swap-dv01",
                609,
                |input| of_side(input, senyolanda_swap_dv01),
                |input| vec![swaps::swap_dv01(&input.swap.spec(), &discount_curve(&input.curve), input.receive_fixed != 0)],
            )
        }
        .compared(),
        Family {
            allowed: part_of(1e-12, "of the duration without signs", |input, rust| vec![duration_scale(input, rust[0])]),
            ..family(
                "swap-duration",
                610,
                |input| of_swap(input, senyolanda_swap_duration),
                |input| vec![swaps::swap_duration(&input.swap.spec(), &discount_curve(&input.curve))],
            )
        }
        .compared(),
        Family { allowed: part_of(1e-12, "each as alone", valuation_scale), ..family("swap-valuation", 611, valuation, rust_valuation) }.compared(),
    ]
}
