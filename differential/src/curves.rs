// Yield curves beside yield_curve.rs, and the curves that swaps and spreads are read from too.
use crate::asking::*;
use crate::harness::{absolute, bits, part_of, plain, refused, relative, Answer, Case, Compared, Family};
use crate::library::*;
use crate::published::yield_curve::{CurveMetrics, NelsonSiegel, YieldCurve, YieldPoint};
use crate::random::{around, Random, NOT_FINITE};
use crate::{called, input};

/// The counts of knots at which code turns.
const COUNTS: [usize; 5] = [1, 2, 3, MOST_KNOTS - 1, MOST_KNOTS];
/// The decay of a fitted model, and the least pivot that document 01 compares.
const FITTED_DECAY: f64 = 0.5;
const LEAST_PIVOT: f64 = 1e-3;

input!(
    /// Times and rates, the knots of a curve.
    Curve { times: Vec<f64>, rates: Vec<f64> }
);
input!(
    /// A curve with a time asked of it.
    At { curve: Curve, t: f64 }
);
input!(Between { curve: Curve, t1: f64, t2: f64 });
input!(
    /// The three betas and the decay of a model, with a time asked of it.
    Model { model: [f64; 4], t: f64 }
);

impl Curve {
    pub fn yields(&self) -> YieldCurve {
        YieldCurve { points: self.points() }
    }

    pub fn points(&self) -> Vec<YieldPoint> {
        self.times.iter().zip(&self.rates).map(|(time, rate)| YieldPoint { maturity_years: *time, yield_rate: *rate }).collect()
    }

    fn last_time(&self) -> f64 {
        *self.times.last().unwrap()
    }
}

fn knots(random: &mut Random) -> usize {
    if random.once_in(4) {
        random.pick(&COUNTS)
    } else {
        random.log_whole(1, MOST_KNOTS as u32) as usize
    }
}

/// Rising times by steps of a day to three years with rates a desk may see, in any order; now and then rates up to 5 within thirty years, where discount
/// factors all but vanish.
pub fn plain_curve(random: &mut Random) -> Curve {
    let mut time = if random.once_in(8) { 0.0 } else { random.log_between(1.0 / 365.0, 1.0) };
    let steep = random.once_in(8);
    let even = steep || random.once_in(2);
    let mut curve = Curve { times: vec![], rates: vec![] };
    for _ in 0..knots(random) {
        curve.times.push(time);
        curve.rates.push(if steep { random.between(0.0, 5.0) } else { random.between(-0.02, 0.15) });
        time += if even { 0.25 } else { random.log_between(1.0 / 365.0, 3.0) };
    }
    curve
}

/// Any knots that are taken: rising times of any size, and any finite rates.
fn wild_curve(random: &mut Random) -> Curve {
    let mut times: Vec<f64> = (0..knots(random)).map(|_| random.amount()).collect();
    times.sort_by(f64::total_cmp);
    times.dedup();
    let rates = times.iter().map(|_| random.finite()).collect();
    Curve { times, rates }
}

/// A time at a knot or one unit beside it, in a segment, before the first, after the last, or below zero.
pub fn asked_time(random: &mut Random, curve: &Curve) -> f64 {
    let place = random.below(curve.times.len() as u64) as usize;
    let knot = curve.times[place];
    let t = match random.below(8) {
        0 | 1 => random.pick(&around(knot)),
        2 => curve.last_time() * random.between(1.0, 2.0),
        3 => curve.times[0] * random.between(-1.0, 1.0),
        4 => random.pick(&[0.0, -0.0, 5e-324, 1e-12, -1.0]),
        5 => random.between(curve.times[0], curve.last_time()),
        _ => random.between(knot, *curve.times.get(place + 1).unwrap_or(&knot)),
    };
    if t.is_finite() {
        t
    } else {
        knot
    }
}

/// A curve with one cause of a refusal: lists that differ, too few or too many knots, or a bad knot.
pub fn spoiled(random: &mut Random, mut curve: Curve) -> Case<Curve> {
    let place = random.below(curve.times.len() as u64) as usize;
    match random.below(6) {
        0 => {
            curve.rates.push(0.01);
            refused(curve, 4, 0)
        }
        1 => refused(Curve { times: vec![], rates: vec![] }, 5, 0),
        2 => {
            let times = (0..=MOST_KNOTS as u32).map(f64::from).collect();
            refused(Curve { times, rates: vec![0.03; MOST_KNOTS + 1] }, 5, 0)
        }
        3 => {
            curve.rates[place] = random.pick(&NOT_FINITE);
            refused(curve, 6, place)
        }
        4 => {
            curve.times[place] = random.pick(&[f64::NAN, f64::INFINITY, -5e-324, -1.0]);
            refused(curve, 6, place)
        }
        _ => {
            let (before, rate) = (curve.times[place], curve.rates[place]);
            curve.times.insert(place + 1, before);
            curve.rates.insert(place + 1, rate);
            curve.times.truncate(MOST_KNOTS);
            curve.rates.truncate(MOST_KNOTS);
            match place + 1 < curve.times.len() {
                true => refused(curve, 6, place + 1),
                false => plain(curve),
            }
        }
    }
}

/// Now and then a curve that is refused.
pub fn or_refused(random: &mut Random, curve: Curve) -> Case<Curve> {
    if random.once_in(24) {
        spoiled(random, curve)
    } else {
        plain(curve)
    }
}

/// The curve with a time, which may be refused for itself.
pub fn timed(random: &mut Random, curve: Curve) -> Case<At> {
    let t = asked_time(random, &curve);
    let case = or_refused(random, curve);
    match case.meant {
        None if random.once_in(48) => refused(At { curve: case.input, t: random.pick(&NOT_FINITE) }, 7, 0),
        _ => case.map(|curve| At { curve, t }),
    }
}

pub fn plain_at(random: &mut Random) -> Case<At> {
    let curve = plain_curve(random);
    timed(random, curve)
}

/// Curves of any knots, for answers that are sums, products and quotients alone.
pub fn any_at(random: &mut Random) -> Case<At> {
    let curve = if random.once_in(2) { wild_curve(random) } else { plain_curve(random) };
    timed(random, curve)
}

/// Knots that rise unevenly, their rates high and low by turns.
fn uneven(count: usize) -> Curve {
    let times = (0..count).map(|i| 0.1 + 0.25 * i as f64 + 0.001 * (i * i % 7) as f64).collect();
    Curve { times, rates: (0..count).map(|i| 0.02 + 0.01 * (i % 3) as f64).collect() }
}

/// Each count of knots, a time at each knot and one unit on either side.
pub fn at_each_knot() -> Vec<Case<At>> {
    let all = COUNTS
        .into_iter()
        .map(uneven)
        .flat_map(|curve| curve.times.clone().into_iter().flat_map(around).map(move |t| At { curve: curve.clone(), t }));
    all.map(plain).collect()
}

pub fn between(random: &mut Random, case: Case<At>) -> Case<Between> {
    let t2 = match (case.meant, random.below(8)) {
        (Some(_), _) => 1.0,
        (_, 0) => case.input.t,
        (_, 1) => case.input.t + random.pick(&[1e-12, -1e-12, 9.9e-13, 1.1e-12]),
        _ => asked_time(random, &case.input.curve),
    };
    match case.meant {
        None if random.once_in(48) => refused(Between { curve: case.input.curve, t1: case.input.t, t2: random.pick(&NOT_FINITE) }, 7, 0),
        _ => case.map(|at| Between { curve: at.curve, t1: at.t, t2: if t2.is_finite() { t2 } else { 0.0 } }),
    }
}

type OfCurve = unsafe extern "C" fn(*const f64, usize, *const f64, usize, f64, &mut f64) -> u64;
type OfTwoTimes = unsafe extern "C" fn(*const f64, usize, *const f64, usize, f64, f64, &mut f64) -> u64;

/// Asks a function over a curve and a time for one number.
pub fn over(input: &At, call: OfCurve) -> Answer {
    let Curve { times, rates } = &input.curve;
    asked(|answer| called!(call, [times], [rates], input.t, answer))
}

pub fn over_two(input: &Between, call: OfTwoTimes) -> Answer {
    let Curve { times, rates } = &input.curve;
    asked(|answer| called!(call, [times], [rates], input.t1, input.t2, answer))
}

/// A time that a par yield is asked for; whole and half numbers of half years, and few of them.
fn par_drawn(random: &mut Random) -> Case<At> {
    let case = plain_at(random);
    let t = match random.below(8) {
        0 => random.pick(&[0.0, 0.2, 0.24999999999999997, 0.25, 0.75, 1.25, 600.0, 600.2, -3.0]),
        1 => f64::from(random.whole(0, 80)) / 4.0,
        _ => random.log_between(0.01, 100.0),
    };
    match case.meant {
        None if random.once_in(48) => refused(At { t: random.pick(&[600.25, 601.0, 1e300]), ..case.input }, 7, 0),
        None => plain(At { t, ..case.input }),
        _ => case,
    }
}

pub fn model_of(input: &Model) -> NelsonSiegel {
    let [beta0, beta1, beta2, lambda] = input.model;
    NelsonSiegel { beta0, beta1, beta2, lambda }
}

/// Betas at most 1 in size, decays of either sign, and a time at which the exponent is at most 700 in size.
fn model(random: &mut Random) -> Case<Model> {
    let decay = random.log_between(0.05, 20.0) * random.pick(&[1.0, 1.0, 1.0, -1.0]);
    let model = [random.between(-1.0, 1.0), random.between(-1.0, 1.0), random.between(-1.0, 1.0), decay];
    let t = match random.below(8) {
        0 => random.pick(&[0.0, -0.0, -1.0, -1e300, 9e-11, 1e-10, 1.1e-10]),
        1 => random.log_between(1e-12, 1e-6),
        _ => random.log_between(1e-6, 600.0 * decay.abs()),
    };
    if random.once_in(32) {
        refused(Model { model, t: random.pick(&NOT_FINITE) }, 7, 0)
    } else {
        plain(Model { model, t })
    }
}

/// A model whose yield is about nothing, and one whose forward rate is, as the Rust works them out.
fn worth_nothing(t: f64) -> [Case<Model>; 2] {
    let sloped = NelsonSiegel { beta0: 0.0, beta1: 1.0, beta2: 1.0, lambda: 1.0 };
    [sloped.yield_at(t), sloped.forward_rate(t)].map(|level| plain(Model { model: [-level, 1.0, 1.0, 1.0], t }))
}

/// About the least time that is worked out, models that no line of the table refuses, and answers of about nothing.
fn model_edges() -> Vec<Case<Model>> {
    let models = [
        [0.03, -0.02, 0.01, 0.5],
        [0.03, -0.02, 0.01, 0.0],
        [f64::NAN, 0.0, 0.0, 0.5],
        [0.0, f64::INFINITY, 1.0, 2.0],
        [0.01, 0.02, 0.03, f64::INFINITY],
    ];
    let times = around(1e-10).into_iter().chain([0.0, -1.0, 1.0, 30.0]);
    let about_nothing = (1..=80).flat_map(|t| worth_nothing(f64::from(t) / 8.0));
    times.flat_map(|t| models.map(|model| plain(Model { model, t }))).chain(about_nothing).collect()
}

/// The sizes of the terms, the slope's and the curvature's over t / decay too, where exp's error is divided by it.
fn model_scale(input: &Model, _: &[f64]) -> Vec<f64> {
    let [beta0, beta1, beta2, decay] = input.model;
    let x = input.t / decay;
    let most = (-x).exp().max(1.0);
    vec![beta0.abs() + (beta1.abs() + beta2.abs()) * most * (1.0 + 1.0 / x.abs() + x.abs())]
}

/// The pivots that elimination meets in the normal equations of a fit through those times, by our own account of them.
fn pivots(times: &[f64]) -> [f64; 3] {
    let mut matrix = [[0.0; 3]; 3];
    for t in times {
        let x = t / FITTED_DECAY;
        let slope = if *t < 1e-10 { 1.0 } else { (1.0 - (-x).exp()) / x };
        let curvature = if *t < 1e-10 { 0.0 } else { slope - (-x).exp() };
        let row = [1.0, slope, curvature];
        for (i, j) in (0..9).map(|place| (place / 3, place % 3)) {
            matrix[i][j] += row[i] * row[j];
        }
    }
    let mut pivots = [0.0; 3];
    for column in 0..3 {
        let largest = (column..3).max_by(|i, j| matrix[*i][column].abs().total_cmp(&matrix[*j][column].abs())).unwrap();
        matrix.swap(column, largest);
        let pivot = matrix[column];
        pivots[column] = pivot[column].abs();
        for row in &mut matrix[column + 1..] {
            let factor = row[column] / pivot[column];
            row.iter_mut().zip(pivot).for_each(|(x, p)| *x -= factor * p);
        }
    }
    pivots
}

/// Points with rates at most 1 in size, and every pivot above the least that is compared; the first may be as near to time 0 as the model tells.
fn points(random: &mut Random) -> Case<Curve> {
    loop {
        let count = if random.once_in(2) { random.whole(3, 6) } else { random.whole(3, MOST_KNOTS as u32) };
        let mut time = if random.once_in(2) { random.log_between(1e-11, 0.01) } else { random.log_between(0.01, 0.5) };
        let mut curve = Curve { times: vec![], rates: vec![] };
        let most = if random.once_in(2) { 1.0 } else { 0.1 };
        for _ in 0..count {
            curve.times.push(time);
            curve.rates.push(if random.once_in(4) { random.pick(&[most, -most]) } else { random.between(-most, most) });
            time += if count > 6 { random.log_between(0.02, 1.0) } else { random.log_between(0.01, 10.0) };
        }
        if pivots(&curve.times).iter().all(|pivot| *pivot > LEAST_PIVOT) {
            return or_refused(random, curve);
        }
    }
}

/// One point is its own level; two leave a pivot of nothing, and so zeros; 120 are the most; three whose first is at the least time told from 0.
fn point_edges() -> Vec<Case<Curve>> {
    let three = |first| plain(Curve { times: vec![first, 0.0625, 8.0], rates: vec![1.0, -1.0, 1.0] });
    [1, 2, MOST_KNOTS - 1, MOST_KNOTS].map(|count| plain(uneven(count))).into_iter().chain(around(1e-10).map(three)).chain([three(0.0)]).collect()
}

pub fn fit(curve: &Curve) -> Answer {
    asked_for(|model| called!(senyolanda_nelson_siegel_fit, [curve.times], [curve.rates], model))
}

pub fn rust_fit(curve: &Curve) -> Vec<f64> {
    let fitted = NelsonSiegel::fit(&curve.points());
    vec![fitted.beta0, fitted.beta1, fitted.beta2, fitted.lambda]
}

fn any_model(random: &mut Random) -> Case<Model> {
    plain(Model { model: [random.any(), random.any(), random.any(), random.any()], t: 0.0 })
}

/// A family of answers of a model; an exp's distance is carried by the terms.
fn of_model(name: &'static str, seed: u64, ours: fn(&Model) -> Answer, rust: fn(&Model) -> Vec<f64>) -> Family<Model> {
    Family { name, seed, one_in: 1, edges: model_edges, draw: model, ours, rust, allowed: part_of(1e-12, "of the terms", model_scale) }
}

/// A family of interpolations, which are sums, products and quotients alone.
pub fn interpolation(name: &'static str, seed: u64, ours: fn(&At) -> Answer, rust: fn(&At) -> Vec<f64>) -> Family<At> {
    Family { name, seed, one_in: 1, edges: at_each_knot, draw: any_at, ours, rust, allowed: bits() }
}

/// A family of discount factors: the exponents have the Rust's bits, so exp's own distance is allowed.
pub fn discounting(name: &'static str, seed: u64, ours: fn(&At) -> Answer, rust: fn(&At) -> Vec<f64>) -> Family<At> {
    Family { draw: plain_at, allowed: relative(1e-12), ..interpolation(name, seed, ours, rust) }
}

pub fn linear(input: &At) -> Answer {
    over(input, senyolanda_linear_interpolate)
}

pub fn spline(input: &At) -> Answer {
    over(input, senyolanda_cubic_spline_interpolate)
}

pub fn par_yield(input: &At) -> Answer {
    over(input, senyolanda_par_yield)
}

pub fn model_yield(input: &Model) -> Answer {
    asked(|answer| called!(senyolanda_nelson_siegel_yield, &input.model, input.t, answer))
}

pub fn families() -> Vec<Compared> {
    vec![
        interpolation("linear-interpolation", 501, linear, |input| vec![input.curve.yields().linear_interpolate(input.t).unwrap()]).compared(),
        interpolation("cubic-spline", 502, spline, |input| vec![input.curve.yields().cubic_spline_interpolate(input.t)]).compared(),
        discounting(
            "yield-curve-discount-factor",
            503,
            |input| over(input, senyolanda_yield_curve_discount_factor),
            |input| vec![input.curve.yields().discount_factor(input.t)],
        )
        .compared(),
        Family {
            name: "yield-curve-forward-rate",
            seed: 504,
            one_in: 1,
            edges: Vec::new,
            draw: |random| {
                let case = any_at(random);
                between(random, case)
            },
            ours: |input| over_two(input, senyolanda_yield_curve_forward_rate),
            rust: |input| vec![input.curve.yields().forward_rate(input.t1, input.t2)],
            allowed: bits(),
        }
        .compared(),
        Family {
            name: "par-yield",
            seed: 505,
            one_in: 1,
            edges: at_each_knot,
            draw: par_drawn,
            ours: par_yield,
            rust: |input| vec![input.curve.yields().par_yield(input.t)],
            allowed: relative(1e-9),
        }
        .compared(),
        Family {
            name: "nelson-siegel-fit",
            seed: 506,
            one_in: 1,
            edges: point_edges,
            draw: points,
            ours: fit,
            rust: rust_fit,
            allowed: absolute(1e-6),
        }
        .compared(),
        of_model("nelson-siegel-yield", 507, model_yield, |input| vec![model_of(input).yield_at(input.t)]).compared(),
        of_model(
            "nelson-siegel-forward-rate",
            508,
            |input| asked(|answer| called!(senyolanda_nelson_siegel_forward_rate, &input.model, input.t, answer)),
            |input| vec![model_of(input).forward_rate(input.t)],
        )
        .compared(),
        Family {
            draw: any_model,
            allowed: bits(),
            ..of_model(
                "nelson-siegel-instantaneous-forward",
                509,
                |input| asked(|answer| called!(senyolanda_nelson_siegel_instantaneous_forward, &input.model, answer)),
                |input| vec![model_of(input).instantaneous_forward()],
            )
        }
        .compared(),
        Family {
            draw: any_model,
            allowed: bits(),
            ..of_model(
                "nelson-siegel-metrics",
                510,
                |input| asked_for(|metrics| called!(senyolanda_nelson_siegel_metrics, &input.model, metrics)),
                |input| {
                    let metrics = CurveMetrics::from_nelson_siegel(&model_of(input));
                    vec![metrics.level, metrics.slope, metrics.curvature]
                },
            )
        }
        .compared(),
    ]
}
