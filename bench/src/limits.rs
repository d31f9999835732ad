//! What the machine itself takes for the bare work under some jobs, to read the table by.
use crate::library::{senyolanda_exp, ROW_PLACES};
use crate::measure::{best_times, filling, unseen, Side};
use std::time::Duration;

const BUDGET: Duration = Duration::from_millis(300);

/// Each month's balance waits for a multiplication and two subtractions on the one before, whoever works it out.
fn chain(months: usize) -> Box<dyn Side> {
    filling(0.0, move |left: &mut f64| {
        let (rate, payment) = *unseen(&(0.065 / 12.0, 1900.0));
        *left = (0..months).fold(300_000.0, |balance, _| balance - (payment - balance * rate));
    })
}

/// Exps of which each waits for the one before, as the trials of a search do.
fn exps_in_turn(count: usize) -> Box<dyn Side> {
    filling(0.0, move |last: &mut f64| {
        for _ in 0..count {
            unsafe { senyolanda_exp(-*last, last) };
        }
    })
}

/// Sums of fourteen terms by Horner's rule, eight at once, each product and each sum rounded, as exp's steps want them.
fn sums_of_fourteen(count: usize) -> Box<dyn Side> {
    let points: Vec<f64> = (0..count).map(|i| 0.3 * i as f64 / count as f64).collect();
    filling(vec![0.0; count], move |room: &mut Vec<f64>| {
        for (points, places) in unseen(&points).chunks_exact(8).zip(room.chunks_exact_mut(8)) {
            let mut sums = [1e-10; 8];
            for coefficient in 0..13 {
                for (sum, point) in sums.iter_mut().zip(points) {
                    *sum = *sum * point + f64::from(coefficient);
                }
            }
            places.copy_from_slice(&sums);
        }
    })
}

/// An archive's places, each with the same number.
fn filled(rows: usize) -> Box<dyn Side> {
    filling(vec![0.0; rows * ROW_PLACES], |places: &mut Vec<f64>| places.fill(*unseen(&1.0)))
}

pub fn print() {
    let limits = [
        ("360 months of multiply, subtract, subtract", chain(360)),
        ("64 exps, each waiting for the one before", exps_in_turn(64)),
        ("4096 sums of fourteen terms, eight at once", sums_of_fourteen(4096)),
        ("3600000 rows' places filled", filled(3_600_000)),
    ];
    for (name, mut side) in limits {
        println!("{name:43} {:15.1}", best_times(&mut [&mut side], BUDGET)[0]);
    }
}
