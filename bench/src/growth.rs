//! What our side of a job takes as its input is doubled five times.
use crate::comparing::hold_to_the_other;
use crate::curves::Asked::{AsAList, OneByOne};
use crate::job::Job;
use crate::measure::best_times;
use crate::{bonds, curves, elementary, kinds, loans, pools, spreads, swaps};
use std::time::Duration;

const BUDGET: Duration = Duration::from_millis(100);
const DOUBLINGS: u32 = 5;
/// A doubled input may take this many times as long and count as growing no faster, since times are never quite steady.
const TWICE: f64 = 2.1;

struct Growth {
    job: &'static str,
    input: &'static str,
    first: usize,
    of: fn(usize) -> Job,
}

const GROWTHS: [Growth; 19] = [
    Growth { job: "schedule", input: "rows", first: 36, of: loans::schedule },
    Growth { job: "draw, adjustable", input: "rows", first: 36, of: kinds::adjustable },
    Growth { job: "book", input: "schedules", first: 10, of: loans::book },
    Growth { job: "pool months", input: "loans", first: 2, of: |loans| pools::months(loans, 360) },
    Growth { job: "pool months", input: "months", first: 36, of: |months| pools::months(8, months) },
    Growth { job: "pool duration", input: "loans", first: 2, of: |loans| pools::duration(loans, 360) },
    Growth { job: "bond yield", input: "periods", first: 36, of: bonds::yield_to_maturity },
    Growth { job: "bond duration", input: "periods", first: 36, of: bonds::duration },
    Growth { job: "lookups, yield curve", input: "knots", first: 3, of: |knots| curves::yield_curve(OneByOne, knots) },
    Growth { job: "lookups, discount curve", input: "knots", first: 3, of: |knots| curves::discount_curve(OneByOne, knots) },
    Growth { job: "lookups, zero curve", input: "knots", first: 3, of: |knots| curves::zero_curve(OneByOne, knots) },
    Growth { job: "lookups as a list, yield curve", input: "knots", first: 3, of: |knots| curves::yield_curve(AsAList, knots) },
    Growth { job: "z_spread", input: "flows", first: 36, of: spreads::spread },
    Growth { job: "value_swap", input: "periods", first: 36, of: |periods| swaps::value(periods, 30) },
    Growth { job: "value_swap", input: "knots", first: 3, of: |knots| swaps::value(120, knots) },
    Growth { job: "Nelson-Siegel fit", input: "points", first: 3, of: curves::fit },
    Growth { job: "exps, as a list", input: "numbers", first: 256, of: elementary::exp_list },
    Growth { job: "bootstrap over 30 years", input: "knots", first: 3, of: |knots| swaps::bootstrap(30.0, knots) },
    Growth { job: "bootstrap, a knot a year", input: "knots", first: 3, of: |knots| swaps::bootstrap(knots as f64, knots) },
];

fn time_of(mut job: Job) -> f64 {
    hold_to_the_other(&mut job);
    best_times(&mut [&mut job.ours], BUDGET)[0]
}

fn line(growth: &Growth) -> String {
    let sizes: Vec<usize> = (0..=DOUBLINGS).map(|k| growth.first << k).collect();
    let times: Vec<f64> = sizes.iter().map(|&size| time_of((growth.of)(size))).collect();
    let each = (times[times.len() - 1] / times[0]).powf(1.0 / f64::from(DOUBLINGS));
    let last = times[times.len() - 1] / times[times.len() - 2];
    let judged = if each.max(last) <= TWICE { "no faster than its input" } else { "faster than its input" };
    let told: Vec<String> = times.iter().map(|time| format!("{time:.1}")).collect();
    format!(
        "{} by {} {} to {}: {}; times {each:.2} a doubling, {last:.2} the last: {judged}",
        growth.job, growth.input, sizes[0], sizes[sizes.len() - 1], told.join(" "),
    )
}

pub fn print() {
    for growth in &GROWTHS {
        println!("{}", line(growth));
    }
}
