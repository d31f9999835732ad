// Rate curves, cash flows and spreads beside spread_analytics.rs; flows as two lists, and as one list of dated amounts.
use crate::asking::*;
use crate::curves::{between, discounting, interpolation, or_refused, over, over_two, plain_at, plain_curve, At, Between, Curve};
use crate::harness::{bits, part_of, plain, refused, Answer, Case, Compared, Family};
use crate::library::*;
use crate::published::opened_spread_analytics::opened_duration_convexity;
use crate::published::spread_analytics::{bond_cash_flows, pv_cash_flows, z_spread, CashFlow, SwapCurve, ZeroRateCurve};
use crate::random::{Random, NOT_FINITE};
use crate::{called, input};

const MOST_FLOWS: usize = 1200;
/// The ends between which a spread is looked for, in points.
const SEARCHED: [f64; 2] = [-500.0, 2000.0];
const POINTS: f64 = 10_000.0;

input!(Bond { face: f64, coupon: f64, tenor: f64, frequency: u32, times: u32, amounts: u32 });
input!(
    /// Cash flows on a curve, with a spread in points or a market price.
    Flows { times: Vec<f64>, amounts: Vec<f64>, curve: Curve, at: f64 }
);
input!(
    /// The same, with the flows as time, amount, time, amount and so on.
    Dated { flows: Vec<f64>, curve: Curve, at: f64 }
);
input!(Points { points: f64 });

impl Flows {
    pub fn flows(&self) -> Vec<CashFlow> {
        self.times.iter().zip(&self.amounts).map(|(time, amount)| CashFlow { time: *time, amount: *amount }).collect()
    }

    pub fn pv(&self, points: f64) -> f64 {
        pv_cash_flows(&self.flows(), &zero_curve(&self.curve), points)
    }

    /// The same flows with every amount's size, so that no terms of a sum cancel.
    fn without_signs(&self) -> Flows {
        Flows { amounts: self.amounts.iter().map(|amount| amount.abs()).collect(), ..self.clone() }
    }

    fn sensitivity(&self) -> [f64; 2] {
        let (duration, convexity) = opened_duration_convexity(&self.times, &self.amounts, &self.curve.times, &self.curve.rates, self.at);
        [duration, convexity]
    }

    fn dated(&self) -> Dated {
        let mut flows: Vec<f64> = self.times.iter().zip(&self.amounts).flat_map(|(time, amount)| [*time, *amount]).collect();
        flows.extend(self.times.get(self.amounts.len()));
        Dated { flows, curve: self.curve.clone(), at: self.at }
    }
}

impl Dated {
    fn apart(&self) -> Flows {
        let every = |first: usize| self.flows.iter().skip(first).step_by(2).copied().collect();
        Flows { times: every(0), amounts: every(1), curve: self.curve.clone(), at: self.at }
    }
}

pub fn zero_curve(curve: &Curve) -> ZeroRateCurve {
    ZeroRateCurve { tenors: curve.times.clone(), rates: curve.rates.clone() }
}

pub fn swap_curve(curve: &Curve) -> SwapCurve {
    SwapCurve { tenors: curve.times.clone(), swap_rates: curve.rates.clone() }
}

/// One unit of each discount factor in a forward rate, and the rate itself.
fn forward_scale(input: &Between, rust: &[f64]) -> Vec<f64> {
    vec![1.0 / (input.t2 - input.t1).abs() + rust[0].abs()]
}

/// A bond of at most 1,200 flows with rooms for them, exactly or more.
fn bond_drawn(random: &mut Random) -> Case<Bond> {
    let frequency = match random.below(4) {
        0 => random.pick(&[0, 1, 365, 366, u32::MAX]),
        1 => random.log_whole(1, u32::MAX),
        _ => random.pick(&[1, 2, 4, 12]),
    };
    let a_year = f64::from(frequency.max(1));
    let flows = random.log_whole(1, 1199) - random.pick(&[0, 1]);
    let tenor = (f64::from(flows) + random.pick(&[0.0, 0.0, 0.25, 0.5, -0.5, -0.25])) / a_year;
    let (wild, bond) =
        (random.once_in(2), |face, coupon, rooms: [u32; 2]| Bond { face, coupon, tenor, frequency, times: rooms[0], amounts: rooms[1] });
    let (face, coupon) = if wild { (random.amount(), random.finite()) } else { (random.log_between(1.0, 1e9), random.between(0.0, 0.2)) };
    let due = (tenor * a_year).round().max(0.0) as u32;
    let more = [due + random.pick(&[0, 0, 1, 7]), due + random.pick(&[0, 0, 1, 7])];
    match random.below(64) {
        0 => refused(bond(random.no_amount(), coupon, more), 1, 0),
        1 if due > 0 => refused(bond(face, coupon, [random.whole(0, due - 1), due]), 3, 0),
        2 if due > 0 => refused(bond(face, coupon, [due, random.whole(0, due - 1)]), 3, 0),
        3 => refused(Bond { tenor: random.pick(&NOT_FINITE), ..bond(face, coupon, [0, 0]) }, 7, 0),
        4 => refused(Bond { tenor: 1202.0 / a_year, ..bond(face, coupon, [0, 0]) }, 7, 0),
        5 => refused(bond(face, random.pick(&NOT_FINITE), more), 9, 0),
        _ => plain(bond(face, coupon, more)),
    }
}

/// Rooms of every size up to two beyond twelve flows, and half periods.
fn bond_edges() -> Vec<Case<Bond>> {
    let bond = |tenor, frequency, times, amounts| Bond { face: 100.0, coupon: 0.05, tenor, frequency, times, amounts };
    let mut all = Vec::new();
    for times in 0..=14 {
        for amounts in 0..=14 {
            let input = bond(3.0, 4, times, amounts);
            all.push(if times.min(amounts) < 12 { refused(input, 3, 0) } else { plain(input) });
        }
    }
    for (tenor, frequency) in
        [(2.5, 1), (2.5, 0), (0.49999999999999994, 1), (-3.0, 2), (1.25, 2), (100.0, 12), (1200.4999999999998, 1), (1e-7, 3_000_000_000)]
    {
        all.push(plain(bond(tenor, frequency, 1200, 1200)));
    }
    all
}

pub fn bond_flows(input: &Bond) -> Answer {
    let (mut times, mut amounts) = (vec![UNTOUCHED; input.times as usize], vec![UNTOUCHED; input.amounts as usize]);
    let mut flows = UNTOUCHED_COUNT;
    let result = called!(senyolanda_bond_cash_flows, input.face, input.coupon, input.tenor, input.frequency, [mut times], [mut amounts], &mut flows);
    times.extend(amounts);
    settled(result, times, &[flows])
}

fn rust_bond_flows(input: &Bond) -> Vec<f64> {
    let flows = bond_cash_flows(input.face, input.coupon, input.tenor, input.frequency);
    let room = |places: u32, numbers: &dyn Fn(&CashFlow) -> f64| {
        let mut room: Vec<f64> = flows.iter().map(numbers).collect();
        room.resize(places as usize, UNTOUCHED);
        room
    };
    let mut all = vec![flows.len() as f64];
    all.extend(room(input.times, &|flow| flow.time));
    all.extend(room(input.amounts, &|flow| flow.amount));
    all
}

/// Flows of a bond, or at any times within sixty years, at a spread inside the search or somewhat beyond.
fn plain_flows(random: &mut Random) -> Flows {
    let count = if random.once_in(64) { random.pick(&[1199, 1200]) } else { random.log_whole(1, 200) };
    let step = random.pick(&[0.0, 1.0 / 12.0, 0.25, 0.5, 1.0]);
    let mut flows = Flows { times: vec![], amounts: vec![], curve: plain_curve(random), at: random.between(-600.0, 2500.0) };
    for i in 1..=count {
        flows.times.push(if step > 0.0 { (step * f64::from(i)).min(60.0) } else { random.log_between(1.0 / 12.0, 60.0) });
        flows.amounts.push(if i == count { 103.0 } else { random.log_between(0.01, 10.0) });
    }
    flows
}

/// Flows with one cause of a refusal that is theirs.
fn spoiled(random: &mut Random, mut flows: Flows) -> Case<Flows> {
    let place = random.below(flows.times.len() as u64) as usize;
    match random.below(4) {
        0 => {
            flows.times.push(1.0);
            refused(flows, 4, 0)
        }
        1 => {
            flows.times.resize(MOST_FLOWS + 1, 1.0);
            flows.amounts.resize(MOST_FLOWS + 1, 1.0);
            refused(flows, 7, 0)
        }
        2 => {
            flows.times[place] = random.pick(&NOT_FINITE);
            refused(flows, 7, place)
        }
        _ => {
            flows.amounts[place] = random.pick(&NOT_FINITE);
            refused(flows, 9, place)
        }
    }
}

fn or_spoiled(random: &mut Random, flows: Flows) -> Case<Flows> {
    if random.once_in(24) {
        return spoiled(random, flows);
    }
    let Flows { times, amounts, curve, at } = flows;
    or_refused(random, curve).map(|curve| Flows { times, amounts, curve, at })
}

/// Flows at a spread, a quarter of them with amounts of both signs.
fn at_spread(random: &mut Random) -> Case<Flows> {
    let mut flows = plain_flows(random);
    if random.once_in(4) {
        flows.amounts.iter_mut().for_each(|amount| *amount *= random.pick(&[1.0, -1.0]));
    }
    or_spoiled(random, flows)
}

/// Flows at the price of a spread well inside the search, or at one that no spread of the search gives.
fn at_price(random: &mut Random) -> Case<Flows> {
    let mut flows = plain_flows(random);
    flows.at = match random.below(8) {
        0 => flows.pv(SEARCHED[0]) * random.between(1.001, 2.0),
        1 => flows.pv(SEARCHED[1]) * random.between(-1.0, 0.999),
        _ => flows.pv(random.between(SEARCHED[0] + 1.0, SEARCHED[1] - 1.0)),
    };
    if random.once_in(48) {
        return refused(Flows { at: random.pick(&NOT_FINITE), ..flows }, 9, 0);
    }
    or_spoiled(random, flows)
}

/// No flow, one, and flows at time 0 and before, where a spread has no weight or raises the value; two flows that all but cancel.
fn edges() -> Vec<Case<Flows>> {
    let curve = Curve { times: vec![1.0, 2.0, 5.0], rates: vec![0.02, 0.03, 0.04] };
    let flows = |times: &[f64], amounts: &[f64], at| Flows { times: times.to_vec(), amounts: amounts.to_vec(), curve: curve.clone(), at };
    let mut all = Vec::new();
    for at in [0.0, -500.0, 2000.0, 1e-9] {
        all.extend([flows(&[], &[], at), flows(&[1.0], &[100.0], at), flows(&[0.0], &[1.0], at), flows(&[1.0, 2.0], &[0.0, 0.0], at)]);
        all.push(flows(&[-1.0, 1.0, 2.0, 6.0], &[1.0, 2.0, 3.0, 4.0], at));
    }
    for year in 1..=60 {
        let (near, far) = (flows(&[1.0], &[1.0], 0.0).pv(0.0), flows(&[f64::from(year)], &[1.0], 0.0).pv(0.0));
        all.push(flows(&[1.0, f64::from(year)], &[1.0, -near / far * 1.0000001], 0.0));
    }
    all.into_iter().map(plain).collect()
}

/// One flow at the price of a spread that the search meets as a middle, where the last bit of an exp decides which half is kept.
fn middles() -> Vec<Case<Flows>> {
    let curve = Curve { times: vec![1.0], rates: vec![0.05] };
    let mut all = Vec::new();
    for (middle, year) in [750.0, 125.0, 7.8125].into_iter().flat_map(|middle| (1..=60).map(move |year| (middle, f64::from(year)))) {
        let mut flows = Flows { times: vec![year], amounts: vec![1.0], curve: curve.clone(), at: 0.0 };
        flows.at = flows.pv(middle);
        all.push(plain(flows));
    }
    all
}

fn priced() -> Vec<Case<Flows>> {
    edges().into_iter().chain(middles()).collect()
}

fn dated(cases: Vec<Case<Flows>>) -> Vec<Case<Dated>> {
    cases.into_iter().map(|case| case.map(|flows| flows.dated())).collect()
}

/// Two times so near that the rate between them hangs on the last bits of two exps.
fn near_times() -> Vec<Case<Between>> {
    let curve = Curve { times: vec![1.0], rates: vec![0.05] };
    (1..=60)
        .map(f64::from)
        .flat_map(|year| [1.1e-12, 1e-9].map(|more| plain(Between { curve: curve.clone(), t1: year, t2: year * (1.0 + more) })))
        .collect()
}

pub fn pv(input: &Flows) -> Answer {
    let Flows { times, amounts, curve, at } = input;
    asked(|pv| called!(senyolanda_pv_cash_flows, [times], [amounts], [curve.times], [curve.rates], *at, pv))
}

fn dated_pv(input: &Dated) -> Answer {
    let Dated { flows, curve, at } = input;
    asked(|pv| called!(senyolanda_dated_pv, [flows], [curve.times], [curve.rates], *at, pv))
}

/// The spread, after 1 where it was found and 0 where it stands at an end.
pub fn spread(input: &Flows) -> Answer {
    let Flows { times, amounts, curve, at } = input;
    asked_with_count(|found, points| called!(senyolanda_z_spread, [times], [amounts], [curve.times], [curve.rates], *at, points, found))
}

fn dated_spread(input: &Dated) -> Answer {
    let Dated { flows, curve, at } = input;
    asked_with_count(|found, points| called!(senyolanda_dated_z_spread, [flows], [curve.times], [curve.rates], *at, points, found))
}

fn rust_spread(input: &Flows) -> Vec<f64> {
    let no_sign_change = SEARCHED.iter().map(|points| input.pv(*points) - input.at).product::<f64>() > 0.0;
    let points = z_spread(&input.flows(), &zero_curve(&input.curve), input.at);
    vec![if no_sign_change { 0.0 } else { 1.0 }, points]
}

fn sensitivity(input: &Flows) -> Answer {
    let Flows { times, amounts, curve, at } = input;
    asked_for(|answer| called!(senyolanda_duration_convexity, [times], [amounts], [curve.times], [curve.rates], *at, answer))
}

fn dated_sensitivity(input: &Dated) -> Answer {
    let Dated { flows, curve, at } = input;
    asked_for(|answer| called!(senyolanda_dated_duration_convexity, [flows], [curve.times], [curve.rates], *at, answer))
}

fn pv_scale(input: &Flows) -> Vec<f64> {
    vec![input.without_signs().pv(input.at)]
}

/// The width at which the search stops, for the spread; found or not is told exactly.
fn spread_scale() -> Vec<f64> {
    vec![0.0, 1.0]
}

/// Sums of both signs may cancel, above and below the line.
fn sensitivity_scale(input: &Flows, rust: &[f64]) -> Vec<f64> {
    let absolute = input.without_signs();
    let cancelled = absolute.pv(input.at) / input.pv(input.at).abs();
    absolute.sensitivity().iter().zip(rust).map(|(size, answer)| cancelled * (size.abs() + answer.abs())).collect()
}

/// Twice the width at which the search stops.
const SPREAD_ALLOWED: f64 = 2e-8;

pub fn forward_rate(input: &Between) -> Answer {
    over_two(input, senyolanda_zero_curve_forward_rate)
}

pub fn zero_rate(input: &At) -> Answer {
    over(input, senyolanda_zero_curve_rate)
}

pub fn families() -> Vec<Compared> {
    vec![
        interpolation("zero-curve-rate", 701, zero_rate, |input| vec![zero_curve(&input.curve).rate_at(input.t)]).compared(),
        interpolation(
            "swap-curve-rate",
            702,
            |input| over(input, senyolanda_swap_curve_rate),
            |input| vec![swap_curve(&input.curve).rate_at(input.t)],
        )
        .compared(),
        discounting(
            "zero-curve-discount-factor",
            703,
            |input| over(input, senyolanda_zero_curve_discount_factor),
            |input| vec![zero_curve(&input.curve).discount_factor(input.t)],
        )
        .compared(),
        Family {
            name: "zero-curve-forward-rate",
            seed: 704,
            one_in: 1,
            edges: near_times,
            draw: |random| {
                let case = plain_at(random);
                between(random, case)
            },
            ours: forward_rate,
            rust: |input| vec![zero_curve(&input.curve).forward_rate(input.t1, input.t2)],
            allowed: part_of(1e-12, "of a discount's worth and the rate", forward_scale),
        }
        .compared(),
        Family {
            name: "bond-cash-flows",
            seed: 705,
            one_in: 1,
            edges: bond_edges,
            draw: bond_drawn,
            ours: bond_flows,
            rust: rust_bond_flows,
            allowed: bits(),
        }
        .compared(),
        Family {
            name: "present-value",
            seed: 706,
            one_in: 1,
            edges,
            draw: at_spread,
            ours: pv,
            rust: |input| vec![input.pv(input.at)],
            allowed: part_of(1e-12, "of the amounts without signs", |input, _| pv_scale(input)),
        }
        .compared(),
        Family {
            name: "dated-present-value",
            seed: 707,
            one_in: 1,
            edges: || dated(edges()),
            draw: |random| at_spread(random).map(|flows| flows.dated()),
            ours: dated_pv,
            rust: |input| vec![input.apart().pv(input.at)],
            allowed: part_of(1e-12, "of the amounts without signs", |input, _| pv_scale(&input.apart())),
        }
        .compared(),
        Family {
            name: "z-spread",
            seed: 708,
            one_in: 1,
            edges: priced,
            draw: at_price,
            ours: spread,
            rust: rust_spread,
            allowed: part_of(SPREAD_ALLOWED, "points", |_, _| spread_scale()),
        }
        .compared(),
        Family {
            name: "dated-z-spread",
            seed: 709,
            one_in: 1,
            edges: || dated(priced()),
            draw: |random| at_price(random).map(|flows| flows.dated()),
            ours: dated_spread,
            rust: |input| rust_spread(&input.apart()),
            allowed: part_of(SPREAD_ALLOWED, "points", |_, _| spread_scale()),
        }
        .compared(),
        Family {
            name: "duration-convexity",
            seed: 710,
            one_in: 1,
            edges,
            draw: at_spread,
            ours: sensitivity,
            rust: |input| input.sensitivity().to_vec(),
            allowed: part_of(1e-12, "of the sums without signs", sensitivity_scale),
        }
        .compared(),
        Family {
            name: "dated-duration-convexity",
            seed: 711,
            one_in: 1,
            edges: || dated(edges()),
            draw: |random| at_spread(random).map(|flows| flows.dated()),
            ours: dated_sensitivity,
            rust: |input| input.apart().sensitivity().to_vec(),
            allowed: part_of(1e-12, "of the sums without signs", |input, rust| sensitivity_scale(&input.apart(), rust)),
        }
        .compared(),
        Family {
            name: "points-to-decimal",
            seed: 712,
            one_in: 1,
            edges: || crate::random::TURNS.map(|points| plain(Points { points })).to_vec(),
            draw: |random| plain(Points { points: random.any() }),
            ours: |input| asked(|rate| called!(senyolanda_points_to_decimal, input.points, rate)),
            rust: |input| vec![input.points / POINTS],
            allowed: bits(),
        }
        .compared(),
    ]
}
