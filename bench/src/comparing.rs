//! Every answer beside the others', so that no job times a refusal or something else.
use crate::brought::Sides;
use crate::job::{Beside, Job};

/// The Rust's exp, ln and powers are the C library's.
const FROM_THE_RUST: f64 = 1e-9;
const FROM_OUR_OWN: f64 = 0.0;
/// QuantLib's searches stop elsewhere.
const FROM_QUANTLIB: f64 = 1e-6;

/// Whether two numbers differ by no more than is allowed: of 1, or of the number where that is larger.
fn alike(a: f64, b: f64, allowed: f64) -> bool {
    (a - b).abs() <= allowed * b.abs().max(1.0)
}

/// What is wrong with our answer beside another, if anything is.
fn difference(ours: &[f64], other: &[f64], allowed: f64) -> Option<String> {
    if ours.is_empty() {
        return Some("ours was refused".into());
    }
    if ours.len() != other.len() {
        return Some(format!("ours has {} numbers, the other {}", ours.len(), other.len()));
    }
    let at = (0..ours.len()).find(|&i| !alike(ours[i], other[i], allowed))?;
    Some(format!("number {at} of ours is {}, of the other {}", ours[at], other[at]))
}

/// Stops the program where the job's answer is not the other's.
fn hold_to(job: &mut Job, whose: &str, other: &[f64], allowed: f64) {
    if let Some(said) = difference(&job.ours.answer(), other, allowed) {
        crate::fail(&format!("{}, beside {whose}: {said}", job.name));
    }
}

pub fn hold_to_the_other(job: &mut Job) {
    let other = job.other.answer();
    match job.beside {
        Beside::TheRust => hold_to(job, "the Rust", &other, FROM_THE_RUST),
        Beside::Draw => hold_to(job, "the plain draw", &other, FROM_OUR_OWN),
        Beside::Undated => hold_to(job, "its numbers one by one", &other, FROM_OUR_OWN),
    }
}

/// The job of a side that another object brings.
fn job_of<'a>(jobs: &'a mut [Job], name: &str, whose: &str) -> &'a mut Job {
    let found = jobs.iter_mut().find(|job| job.name == name);
    found.unwrap_or_else(|| crate::fail(&format!("{whose} has '{name}', which is no job")))
}

fn compare_bits(jobs: &mut [Job], v3: &mut Sides) {
    for (name, side) in v3.iter_mut() {
        let (ours, theirs) = (job_of(jobs, name, "x86-64-v3").ours.answer(), side.answer());
        if !ours.iter().map(|x| x.to_bits()).eq(theirs.iter().map(|x| x.to_bits())) {
            crate::fail(&format!("{name}: the archive for x86-64-v3 gives other bits"));
        }
    }
    println!("{} answers compared with those of the archive for x86-64-v3: the same bits", v3.len());
}

fn compare_with_quantlib(jobs: &mut [Job], quantlib: &mut Sides) {
    for (name, side) in quantlib.iter_mut() {
        hold_to(job_of(jobs, name, "QuantLib"), "QuantLib", &side.answer(), FROM_QUANTLIB);
    }
    println!("{} answers compared with QuantLib's: within {FROM_QUANTLIB:e}", quantlib.len());
}

pub fn compare(jobs: &mut [Job], v3: &mut Sides, quantlib: &mut Sides) {
    jobs.iter_mut().for_each(hold_to_the_other);
    let count = |beside| jobs.iter().filter(|job| job.beside == beside).count();
    println!("{} answers compared with the Rust's: within {FROM_THE_RUST:e}", count(Beside::TheRust));
    println!("{} compared with the plain draw's rows and with what is worked out from them: the same numbers", count(Beside::Draw));
    println!("{} compared with the dated swap's numbers one by one: the same numbers", count(Beside::Undated));
    if !v3.is_empty() {
        compare_bits(jobs, v3);
    }
    if !quantlib.is_empty() {
        compare_with_quantlib(jobs, quantlib);
    }
}
