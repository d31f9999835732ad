// exp, ln and powers beside the standard library's, which asks the machine's C library: document 01 allows 1e-12 relative.
use crate::harness::{plain, relative, Answer, Case, Compared, Family, Unanswered};
use crate::asking::asked;
use crate::library::{senyolanda_exp, senyolanda_exp_each, senyolanda_ln, senyolanda_power};
use crate::random::{around, Random, TURNS};
use crate::{called, input};
use std::f64::consts::{LN_2, SQRT_2};

/// exp's |x|, and a power's |y ln x|, go up to here.
pub const LONGEST: f64 = 700.0;
const ALLOWED: f64 = 1e-12;

input!(One { x: f64 });
input!(Many { numbers: Vec<f64> });
input!(Power { x: f64, y: f64 });

fn one(x: f64) -> Case<One> {
    plain(One { x })
}

/// The ends, where k turns from one whole number to the next, and what is no number.
fn exp_edges() -> Vec<Case<One>> {
    let turns_of_k = (-1009..=1008).flat_map(|k| around((f64::from(k) + 0.5) * LN_2));
    let ends = [-LONGEST, LONGEST].into_iter();
    TURNS.into_iter().chain(ends).chain(turns_of_k).map(one).collect()
}

fn exponent(random: &mut Random) -> f64 {
    if random.once_in(2) {
        random.between(-LONGEST, LONGEST)
    } else {
        random.signed_log_between(1e-300, LONGEST)
    }
}

fn exponents(random: &mut Random) -> Case<Many> {
    let count = random.whole(0, 40);
    let rare = [f64::NAN, f64::INFINITY, f64::NEG_INFINITY, 1000.0, -1000.0, 0.0, -0.0];
    let numbers = (0..count).map(|_| if random.once_in(16) { random.pick(&rare) } else { exponent(random) });
    plain(Many { numbers: numbers.collect() })
}

/// Powers of two, where m is halved, and the neighbours of 1, where the answer is small.
fn ln_edges() -> Vec<Case<One>> {
    let powers = (1..0x7ff).map(|exponent: u64| f64::from_bits(exponent << 52));
    TURNS.into_iter().chain(powers.flat_map(|p| [p, p * SQRT_2]).flat_map(around)).map(one).collect()
}

fn logarithm(random: &mut Random) -> Case<One> {
    one(match random.below(4) {
        0 => 1.0 + random.signed_log_between(1e-18, 0.5),
        1 => random.log_between(5e-324, f64::MIN_POSITIVE),
        _ => random.log_between(5e-324, f64::MAX),
    })
}

/// Zeros, infinities, NaN and the ends of whole exponents; other powers of what has a minus sign are listed in docs/DIFFERENCES.md.
fn power_edges() -> Vec<Case<Power>> {
    let whole = [0.0, -0.0, 1.0, -1.0, 2.0, -2.0, 3.0, -3.0, 1199.0, -1199.0, 1200.0, -1200.0];
    let other = [0.5, -0.5, 1.5, 1e-300, 1200.5, 1201.0, -1201.0, f64::INFINITY, f64::NEG_INFINITY, f64::NAN];
    let bases = TURNS.into_iter().filter(|x| x.abs() != f64::MAX);
    let all = bases
        .flat_map(|x| whole.into_iter().chain(other.into_iter().filter(move |y| x.is_sign_positive() || y.is_nan())).map(move |y| Power { x, y }));
    all.map(plain).collect()
}

/// A base whose power by y stays in the range.
fn base_for(random: &mut Random, y: f64) -> f64 {
    loop {
        let x = if random.once_in(2) { 1.0 + random.signed_log_between(1e-12, 0.9) } else { random.log_between(f64::MIN_POSITIVE, f64::MAX) };
        if (y * x.ln()).abs() <= LONGEST {
            return x;
        }
    }
}

fn whole_power(random: &mut Random) -> Case<Power> {
    let y = f64::from(random.whole(0, 2400)) - 1200.0;
    let x = base_for(random, y);
    plain(Power { x: if random.once_in(4) { -x } else { x }, y })
}

fn other_power(random: &mut Random) -> Case<Power> {
    let x = base_for(random, 0.001);
    let longest = LONGEST / x.ln().abs();
    let y = match random.below(4) {
        0 => 1.0 / 12.0,
        1 => random.between(-1.0, 1.0) * longest,
        2 => random.signed_log_between(1e-9, 1e9),
        _ => random.signed_log_between(1.0, 1e6).round(),
    };
    plain(Power { x, y: y.clamp(-longest, longest) })
}

pub fn power(input: &Power) -> Answer {
    asked(|answer| called!(senyolanda_power, input.x, input.y, answer))
}

fn powf(input: &Power) -> Vec<f64> {
    vec![input.x.powf(input.y)]
}

pub fn exp(input: &One) -> Answer {
    asked(|answer| called!(senyolanda_exp, input.x, answer))
}

fn exp_each(input: &Many) -> Answer {
    let mut numbers = input.numbers.clone();
    match called!(senyolanda_exp_each, [mut numbers]) {
        0 => Ok(numbers),
        result => Err(Unanswered::Refused(result)),
    }
}

pub fn families() -> Vec<Compared> {
    vec![
        Family {
            name: "exp",
            seed: 101,
            one_in: 1,
            edges: exp_edges,
            draw: |random| one(exponent(random)),
            ours: exp,
            rust: |input| vec![input.x.exp()],
            allowed: relative(ALLOWED),
        }
        .compared(),
        Family {
            name: "exp-of-a-list",
            seed: 102,
            one_in: 1,
            edges: || vec![plain(Many { numbers: vec![] })],
            draw: exponents,
            ours: exp_each,
            rust: |input| input.numbers.iter().map(|x| x.exp()).collect(),
            allowed: relative(ALLOWED),
        }
        .compared(),
        Family {
            name: "ln",
            seed: 103,
            one_in: 1,
            edges: ln_edges,
            draw: logarithm,
            ours: |input| asked(|answer| called!(senyolanda_ln, input.x, answer)),
            rust: |input| vec![input.x.ln()],
            allowed: relative(ALLOWED),
        }
        .compared(),
        Family {
            name: "whole-powers",
            seed: 104,
            one_in: 1,
            edges: power_edges,
            draw: whole_power,
            ours: power,
            rust: powf,
            allowed: relative(ALLOWED),
        }
        .compared(),
        Family {
            name: "other-powers",
            seed: 105,
            one_in: 1,
            edges: Vec::new,
            draw: other_power,
            ours: power,
            rust: powf,
            allowed: relative(ALLOWED),
        }
        .compared(),
    ]
}
