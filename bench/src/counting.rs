//! Jobs run for valgrind's callgrind, which writes what it counted since it last did before each `bench_mark`.
use crate::job::Job;
use crate::measure::{unseen, Side};

/// A job of fewer rows is counted once more, over some runs with its memory warm, and that stands.
const MANY_ROWS: usize = 10_000;
const WARM_RUNS: usize = 8;

#[no_mangle]
#[inline(never)]
pub extern "C" fn bench_mark() {
    unseen(&());
}

/// A line for each of the two marks: what ends there, and in how many runs.
fn count_runs(job: &str, name: &str, side: &mut dyn Side, runs: usize) {
    bench_mark();
    side.run(runs);
    bench_mark();
    println!("{job}\tnothing\t1\n{job}\t{name}\t{runs}");
}

fn count_job(job: &mut Job, with_the_rust: bool, runs: usize) {
    count_runs(&job.name, "ours", job.ours.as_mut(), runs);
    if with_the_rust && job.rust_is_counted {
        count_runs(&job.name, job.beside.word(), job.other.as_mut(), runs);
    }
}

pub fn count(jobs: &mut [Job], with_the_rust: bool) {
    for job in jobs {
        count_job(job, with_the_rust, 1);
        if job.rows < MANY_ROWS {
            count_job(job, with_the_rust, WARM_RUNS);
        }
    }
}
