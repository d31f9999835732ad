// Bonds beside bond.rs. Its powers are the standard library's `powi`, whose loop is document 01's on the machines we know.
use crate::asking::*;
use crate::harness::{bits, plain, refused, relative, Answer, Case, Compared, Family};
use crate::library::*;
use crate::published::bond::{self, CouponFrequency};
use crate::random::{around, Random, NOT_FINITE, TURNS};
use crate::{called, input};

const FREQUENCIES: [CouponFrequency; 4] =
    [CouponFrequency::Annual, CouponFrequency::SemiAnnual, CouponFrequency::Quarterly, CouponFrequency::Monthly];
const MOST_PERIODS: f64 = 1200.0;
/// The yields that document 01 names for prices, and the ends between which a yield is looked for, each a pair.
const YIELDS: [f64; 2] = [0.01, 0.9];
const BRACKETS: [[f64; 2]; 2] = [[0.001, 0.999], [1e-6, 50.0]];

input!(Bond { face: f64, coupon: f64, maturity: f64, code: u32 });
input!(
    /// A bond with a yield or a market price.
    At { bond: Bond, at: f64 }
);
input!(Change { bond: Bond, ytm: f64, delta: f64 });
input!(Zero { ytm: f64, maturity: f64 });
input!(Code { code: u32 });

impl Bond {
    fn record(&self) -> [u8; BOND_BYTES] {
        let mut record = [2; BOND_BYTES];
        record[1..9].copy_from_slice(&self.face.to_le_bytes());
        record[9..17].copy_from_slice(&self.coupon.to_le_bytes());
        record[17..25].copy_from_slice(&self.maturity.to_le_bytes());
        record[25] = self.code as u8;
        record
    }

    fn a_year(&self) -> f64 {
        f64::from(FREQUENCIES[self.code as usize].periods_per_year())
    }

    pub fn bond(&self) -> bond::Bond {
        let frequency = FREQUENCIES[self.code as usize];
        bond::Bond { face_value: self.face, coupon_rate: self.coupon, maturity_years: self.maturity, frequency, settlement_date: 0 }
    }
}

fn at(bond: Bond, at: f64) -> At {
    At { bond, at }
}

/// A bond of document 01's prices, the ends often.
fn plain_bond(random: &mut Random) -> Bond {
    let mut ended = |low: f64, high: f64| if random.once_in(8) { random.pick(&[low, high]) } else { random.log_between(low, high) };
    let (face, coupon, maturity) = (ended(1.0, 1e9), ended(0.01, 1.0), ended(1.0, 50.0));
    Bond { face, coupon, maturity, code: random.whole(0, 3) }
}

fn plain_yield(random: &mut Random) -> f64 {
    if random.once_in(8) {
        random.pick(&YIELDS)
    } else {
        random.log_between(YIELDS[0], YIELDS[1])
    }
}

/// Any bond that is taken: at most 1,200 periods, whatever the numbers.
fn wild_bond(random: &mut Random) -> Bond {
    let code = random.whole(0, 3);
    let bond = Bond { face: random.amount(), coupon: random.finite(), maturity: 0.0, code };
    let longest = MOST_PERIODS / bond.a_year();
    let maturity = match random.below(4) {
        0 => -random.amount(),
        1 => random.pick(&[0.0, -0.0, 5e-324, 0.49999999999999994, 0.5, 1.5, 2.5, longest]),
        2 => (f64::from(random.whole(0, 40)) + 0.5) / bond.a_year(),
        _ => random.log_between(1e-3, longest),
    };
    Bond { maturity, ..bond }
}

/// A bond with one cause of a refusal, asked with a number that has none.
fn spoiled(random: &mut Random, bond: Bond, number: f64) -> Case<At> {
    let not_finite = random.pick(&NOT_FINITE);
    match random.below(6) {
        0 => refused(at(Bond { face: random.no_amount(), ..bond }, number), 1, 0),
        1 => refused(at(Bond { maturity: not_finite, ..bond }, number), 7, 0),
        2 => refused(at(Bond { maturity: random.pick(&[1201.0, 1e300, f64::MAX]) / bond.a_year(), ..bond }, number), 7, 0),
        3 => refused(at(Bond { coupon: not_finite, ..bond }, number), 9, 0),
        4 => refused(at(Bond { code: random.pick(&[4, 5, 255]), ..bond }, number), 11, 0),
        _ => refused(at(bond, not_finite), 9, 0),
    }
}

/// A bond at one of document 01's yields, now and then refused.
fn at_yield(random: &mut Random) -> Case<At> {
    let (bond, ytm) = (plain_bond(random), plain_yield(random));
    if random.once_in(32) {
        spoiled(random, bond, ytm)
    } else {
        plain(at(bond, ytm))
    }
}

fn anywhere(random: &mut Random) -> Case<At> {
    let bond = wild_bond(random);
    let ytm = if random.once_in(2) { random.finite() } else { random.signed_log_between(1e-14, 100.0) };
    plain(at(bond, ytm))
}

/// Every frequency with few, many and half periods, at yields beside 1e-12 a period, at 0 and below; half a period more than 1,200.
fn edges() -> Vec<Case<At>> {
    let mut all = Vec::new();
    for code in 0..=3 {
        let a_year = Bond { face: 0.0, coupon: 0.0, maturity: 0.0, code }.a_year();
        for periods in [0.0, 0.49999999999999994, 0.5, 1.0, 2.0, 2.5, 3.0, 119.5, 1199.0, 1200.0, 1200.4999999999998, -3.0] {
            let small = around(1e-12 * a_year).into_iter().chain(around(-1e-12 * a_year));
            for ytm in small.chain([0.0, -0.0, 0.01, 0.05, 0.9, 1.0, -0.01, -a_year, -2.0 * a_year, 1e-300]) {
                all.push(plain(at(Bond { face: 100.0, coupon: 0.5, maturity: periods / a_year, code }, ytm)));
            }
        }
        all.push(refused(at(Bond { face: 100.0, coupon: 0.5, maturity: 1200.5 / a_year, code }, 0.05), 7, 0));
    }
    all
}

/// The ends of document 01's range, each with each.
fn corners() -> Vec<Case<At>> {
    let mut all = Vec::new();
    for (face, coupon) in [(1.0, 0.01), (1.0, 1.0), (1e9, 0.01), (1e9, 1.0)] {
        for (maturity, code) in [(1.0, 0), (1.0, 3), (50.0, 0), (50.0, 3), (2.5, 0), (1.25, 1)] {
            all.extend(YIELDS.map(|ytm| plain(at(Bond { face, coupon, maturity, code }, ytm))));
        }
    }
    all
}

/// The same bonds at the price of that yield.
fn priced(case: Case<At>) -> Case<At> {
    match case.meant {
        None => case.map(|at| At { at: bond::price(at.at, &at.bond.bond()), ..at }),
        _ => case,
    }
}

/// Prices that no yield gives, below every price and above it, beside those that one gives.
fn at_price(random: &mut Random) -> Case<At> {
    let case = priced(at_yield(random));
    match case.meant {
        None if random.once_in(32) => {
            let bond = case.input.bond;
            let highest = bond::price(BRACKETS[1][0], &bond.bond());
            let market = random.pick(&[0.0, -1.0, -highest, highest * 1.001, highest * 1e6]);
            refused(at(bond, market), 12, 0)
        }
        _ => case,
    }
}

/// Any bond at any price; now and then a bond that is refused for itself.
fn current(random: &mut Random) -> Case<At> {
    let (bond, market) = (wild_bond(random), random.finite());
    if random.once_in(16) {
        spoiled(random, bond, market)
    } else {
        plain(at(bond, market))
    }
}

fn price_anywhere(random: &mut Random) -> Case<At> {
    let bond = if random.once_in(2) { wild_bond(random) } else { plain_bond(random) };
    let market = match random.below(3) {
        0 => random.finite(),
        1 => random.log_between(1e-3, 1e6) * bond.face,
        _ => bond::price(random.log_between(1e-7, 60.0), &bond.bond()),
    };
    or_no_yield(at(bond, if market.is_finite() { market } else { 1.0 }))
}

/// Whether neither pair of ends has errors of two signs, by the Rust's own prices.
fn no_bracket(input: &At) -> bool {
    let bond = input.bond.bond();
    BRACKETS.iter().all(|ends| ends.iter().map(|ytm| bond::price(*ytm, &bond) - input.at).product::<f64>() > 0.0)
}

/// 12 where the Rust has no bracket.
fn or_no_yield(input: At) -> Case<At> {
    if no_bracket(&input) {
        refused(input, 12, 0)
    } else {
        plain(input)
    }
}

/// What the Rust answers at the yield of a market price.
fn at_its_yield(input: &At, answer: fn(f64, &bond::Bond) -> f64) -> Vec<f64> {
    let bond = input.bond.bond();
    vec![answer(bond::yield_to_maturity(input.at, &bond), &bond)]
}

type OfBond = unsafe extern "C" fn(*const u8, usize, f64, &mut f64) -> u64;

fn over(input: &At, call: OfBond) -> Answer {
    let record = input.bond.record();
    asked(|answer| called!(call, [record], input.at, answer))
}

fn change(random: &mut Random) -> Case<Change> {
    let delta = if random.once_in(8) { random.pick(&TURNS) } else { random.signed_log_between(1e-8, 1.0) };
    at_yield(random).map(|at| Change { bond: at.bond, ytm: at.at, delta })
}

fn price_change(input: &Change) -> Answer {
    let record = input.bond.record();
    asked(|answer| called!(senyolanda_bond_price_change, [record], input.ytm, input.delta, answer))
}

/// Whole maturities and others, in the range where a power's |y ln x| is at most 700.
fn zero_coupon(random: &mut Random) -> Case<Zero> {
    let ytm = random.log_between(1e-9, 10.0) * random.pick(&[1.0, 1.0, -0.05]);
    let longest = (crate::elementary::LONGEST / (1.0 + ytm).ln().abs()).min(1e6);
    let maturity = match random.below(4) {
        0 => random.between(-longest, longest).trunc(),
        1 => f64::from(random.whole(0, 100)) / 4.0,
        _ => random.signed_log_between(1e-6, longest),
    };
    match random.below(64) {
        0 => refused(Zero { ytm, maturity: random.pick(&NOT_FINITE) }, 7, 0),
        1 => refused(Zero { ytm: random.pick(&NOT_FINITE), maturity }, 9, 0),
        _ => plain(Zero { ytm, maturity: maturity.clamp(-longest, longest) }),
    }
}

fn zero_coupon_edges() -> Vec<Case<Zero>> {
    let mut all = Vec::new();
    for ytm in [0.0, -0.0, -1.0, 1e-17, 0.05, 0.5, 1.0] {
        all.extend([0.0, -0.0, 1.0, -1.0, 0.5, 2.5, 600.0, 1199.0, 1200.0, 1200.5, 1201.0].map(|maturity| plain(Zero { ytm, maturity })));
    }
    all.retain(|case| (case.input.maturity * (1.0 + case.input.ytm).ln()).abs() <= crate::elementary::LONGEST || case.input.ytm == -1.0);
    all
}

/// A frequency's code, as often one outside its set.
fn frequency_code(random: &mut Random) -> Case<Code> {
    if random.once_in(2) {
        plain(Code { code: random.whole(0, 3) })
    } else {
        refused(Code { code: random.pick(&[4, 5, 255, 256, 259, u32::MAX]) }, 11, 0)
    }
}

/// A family of answers at a yield.
fn by_yield(name: &'static str, seed: u64, ours: fn(&At) -> Answer, rust: fn(&At) -> Vec<f64>) -> Family<At> {
    Family { name, seed, one_in: 1, edges, draw: at_yield, ours, rust, allowed: relative(1e-12) }
}

/// A family of answers at a market price: as far apart as document 01 lets yields lie.
fn by_price(name: &'static str, seed: u64, ours: fn(&At) -> Answer, rust: fn(&At) -> Vec<f64>) -> Family<At> {
    Family { name, seed, one_in: 1, edges: || corners().into_iter().map(priced).collect(), draw: at_price, ours, rust, allowed: relative(1e-9) }
}

pub fn price(input: &At) -> Answer {
    over(input, senyolanda_bond_price)
}

pub fn ytm(input: &At) -> Answer {
    over(input, senyolanda_bond_yield_to_maturity)
}

pub fn duration_at_price(input: &At) -> Answer {
    over(input, senyolanda_bond_macaulay_duration_at_price)
}

pub fn zero_coupon_price(input: &Zero) -> Answer {
    asked(|price| called!(senyolanda_zero_coupon_bond_price, input.ytm, input.maturity, price))
}

fn periods_per_year(input: &Code) -> Answer {
    let mut periods = UNTOUCHED_COUNT;
    let result = called!(senyolanda_periods_per_year, input.code, &mut periods);
    settled(result, vec![], &[periods])
}

pub fn families() -> Vec<Compared> {
    vec![
        Family {
            edges: || corners().into_iter().chain(edges()).collect(),
            allowed: relative(1e-9),
            ..by_yield("bond-price", 401, price, |input| vec![bond::price(input.at, &input.bond.bond())])
        }
        .compared(),
        Family {
            draw: anywhere,
            allowed: bits(),
            ..by_yield("bond-price-anywhere", 402, price, |input| vec![bond::price(input.at, &input.bond.bond())])
        }
        .compared(),
        Family {
            allowed: relative(1e-9),
            ..by_yield("bond-dv01", 403, |input| over(input, senyolanda_bond_dv01), |input| vec![bond::dv01(input.at, &input.bond.bond())])
        }
        .compared(),
        by_yield(
            "bond-macaulay-duration",
            404,
            |input| over(input, senyolanda_bond_macaulay_duration),
            |input| vec![bond::macaulay_duration(input.at, &input.bond.bond())],
        )
        .compared(),
        by_yield(
            "bond-modified-duration",
            405,
            |input| over(input, senyolanda_bond_modified_duration),
            |input| vec![bond::modified_duration(input.at, &input.bond.bond())],
        )
        .compared(),
        by_yield("bond-convexity", 406, |input| over(input, senyolanda_bond_convexity), |input| vec![bond::convexity(input.at, &input.bond.bond())])
            .compared(),
        Family {
            name: "bond-price-change",
            seed: 407,
            one_in: 1,
            edges: Vec::new,
            draw: change,
            ours: price_change,
            rust: |input| vec![bond::price_change_approximation(input.ytm, input.delta, &input.bond.bond())],
            allowed: relative(1e-9),
        }
        .compared(),
        Family { allowed: relative(1e-7), ..by_price("bond-yield", 408, ytm, |input| at_its_yield(input, |ytm, _| ytm)) }.compared(),
        Family { draw: price_anywhere, allowed: bits(), ..by_price("bond-yield-anywhere", 409, ytm, |input| at_its_yield(input, |ytm, _| ytm)) }
            .compared(),
        by_price("bond-macaulay-duration-at-price", 410, duration_at_price, |input| at_its_yield(input, bond::macaulay_duration)).compared(),
        by_price(
            "bond-modified-duration-at-price",
            411,
            |input| over(input, senyolanda_bond_modified_duration_at_price),
            |input| at_its_yield(input, bond::modified_duration),
        )
        .compared(),
        by_price(
            "bond-convexity-at-price",
            412,
            |input| over(input, senyolanda_bond_convexity_at_price),
            |input| at_its_yield(input, bond::convexity),
        )
        .compared(),
        Family {
            draw: current,
            allowed: bits(),
            ..by_price(
                "bond-current-yield",
                413,
                |input| over(input, senyolanda_bond_current_yield),
                |input| vec![bond::current_yield(input.at, &input.bond.bond())],
            )
        }
        .compared(),
        Family {
            name: "zero-coupon-price",
            seed: 414,
            one_in: 1,
            edges: zero_coupon_edges,
            draw: zero_coupon,
            ours: zero_coupon_price,
            rust: |input| vec![bond::zero_coupon_bond_price(input.ytm, input.maturity)],
            allowed: relative(1e-12),
        }
        .compared(),
        Family {
            name: "periods-per-year",
            seed: 415,
            one_in: 1,
            edges: || (0..=3).map(|code| plain(Code { code })).collect(),
            draw: frequency_code,
            ours: periods_per_year,
            rust: |input| vec![f64::from(FREQUENCIES[input.code as usize].periods_per_year())],
            allowed: bits(),
        }
        .compared(),
    ]
}
