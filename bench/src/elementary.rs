//! exp, ln and powers, beside the C library's, which the Rust's are.
use crate::job::{one_by_one, unless_refused, Job};
use crate::library::*;
use crate::measure::{lent, scattered};

/// So many numbers from -35 on, an odd step apart.
fn points(count: usize) -> Vec<f64> {
    (0..count).map(|i| (i as f64 - 2048.0) * 0.017).collect()
}

pub fn exps(count: usize) -> Job {
    one_by_one(format!("{count} exps, one by one"), points(count), |x, place| unsafe { senyolanda_exp(*x, place) }, |x| x.exp())
}

/// The list is filled afresh for each run, since its exps take its place; the time of that is in.
pub fn exp_list(count: usize) -> Job {
    let numbers = points(count);
    let ours = lent(count, move |room| {
        room.copy_from_slice(&numbers);
        unless_refused(unsafe { senyolanda_exp_each(room.as_mut_ptr(), room.len()) }, room.len())
    });
    let beside = exps(count);
    Job { name: format!("{count} exps, as a list"), ours, ..beside }
}

pub fn lns(count: usize) -> Job {
    let numbers = points(count).iter().map(|x| 0.1 + x * x).collect();
    one_by_one(format!("{count} lns, one by one"), numbers, |x: &f64, place| unsafe { senyolanda_ln(*x, place) }, |x| x.ln())
}

fn powers(name: String, pairs: Vec<(f64, f64)>) -> Job {
    one_by_one(name, pairs, |(x, y), place| unsafe { senyolanda_power(*x, *y, place) }, |(x, y)| x.powf(*y))
}

/// What a rate grows to over years that are not whole.
pub fn broken_powers(count: usize) -> Job {
    powers(format!("{count} powers, one by one"), (0..count).map(|i| (1.0 + 1e-5 * i as f64, 0.37 + 0.01 * i as f64)).collect())
}

/// What a monthly rate grows to over a term.
pub fn whole_powers(count: usize) -> Job {
    let pair = |i: usize| (1.0 + 1e-6 * i as f64, (i % 1200) as f64);
    powers(format!("{count} powers of whole exponents, one by one"), (0..count).map(pair).collect())
}

/// The same over terms in no order.
pub fn mixed_powers(count: usize) -> Job {
    let pairs = scattered(1200).enumerate().map(|(i, term)| (1.0 + 1e-6 * i as f64, term as f64));
    powers(format!("{count} powers of whole exponents, mixed"), pairs.take(count).collect())
}
