//! The table: each job is timed, and its line says whether its target was met.
use crate::brought::Sides;
use crate::job::{Beside, Job};
use crate::measure::best_times;
use std::collections::BTreeMap;
use std::time::Duration;

const BUDGET: Duration = Duration::from_millis(900);

/// The instructions of a run, by job and side.
pub struct Instructions(BTreeMap<(String, String), f64>);

impl Instructions {
    /// From lines `JOB<tab>SIDE<tab>RUNS<tab>INSTRUCTIONS`; the last one of a side stands.
    pub fn read(text: &str) -> Instructions {
        let counted = text.lines().filter_map(|line| match line.split('\t').collect::<Vec<_>>()[..] {
            [job, side, runs, instructions] => {
                let (runs, instructions): (f64, f64) = (runs.parse().ok()?, instructions.parse().ok()?);
                Some(((job.to_string(), side.to_string()), instructions / runs))
            }
            _ => None,
        });
        Instructions(counted.collect())
    }

    /// What was counted for a row of the job, as far as it was.
    fn said(&self, job: &Job) -> String {
        let a_row = |side: &str| Some(self.0.get(&(job.name.clone(), side.to_string()))? / job.rows as f64);
        let said = |side: &str| a_row(side).map_or(String::new(), |count| format!(" {side} {count:.1}"));
        match said("ours") + &said("v3") + &said(job.beside.word()) {
            said if said.is_empty() => said,
            said => format!("a row{said}"),
        }
    }
}

/// Whether the target is met, by the ratio as it is printed: cut, not rounded.
fn judged(target: Option<f64>, ratio: f64) -> String {
    match target {
        None => String::new(),
        Some(target) if ratio >= target => format!("target {target} met"),
        Some(target) => format!("target {target} missed"),
    }
}

/// The other side's time over ours, cut to two digits.
fn ratio(other: f64, ours: f64) -> f64 {
    (other / ours * 100.0).floor() / 100.0
}

fn line(job: &mut Job, v3: &mut Sides, quantlib: &mut Sides, instructions: &Instructions) -> String {
    let (v3, quantlib) = (v3.get_mut(&job.name), quantlib.get_mut(&job.name));
    let has_v3 = v3.is_some();
    let mut sides: Vec<_> = [&mut job.ours, &mut job.other].into_iter().chain(v3).chain(quantlib).collect();
    let best = best_times(&mut sides, BUDGET);
    let (ours, other) = (best[0], best[1]);
    let (v3, quantlib) = best[2..].split_at(usize::from(has_v3));
    // the plain draw is the plain archive's, which is no measure for the other archive
    let v3_ratios = v3.iter().filter(|_| job.beside == Beside::TheRust);
    let v3_ratio: String = v3_ratios.map(|time| format!(" v3 {:7.2}", ratio(other, *time))).collect();
    let v3: String = v3.iter().map(|time| format!(" v3 {time:10.1}")).collect();
    let quantlib: String = quantlib.iter().map(|time| format!("quantlib {time:.1}")).collect();
    let plain = ratio(other, ours);
    let judged = judged(job.target, plain);
    let line = format!(
        "{:46} ours {ours:10.1}{v3} {} {other:11.1} ratio {plain:7.2}{v3_ratio} {judged:17} {:32} {quantlib}",
        job.name, job.beside.word(), instructions.said(job),
    );
    line.trim_end().to_string()
}

pub fn print(jobs: &mut [Job], v3: &mut Sides, quantlib: &mut Sides, instructions: &Instructions) {
    for job in jobs {
        println!("{}", line(job, v3, quantlib, instructions));
    }
}
