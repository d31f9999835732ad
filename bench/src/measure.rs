//! A side does one job, the library's way or another; here are its answer and the best time of each side, taken by turns.
use std::time::{Duration, Instant};

/// A timed sample is at least so long; a job that takes less is run many times in it.
const SAMPLE: Duration = Duration::from_micros(100);
const LEAST_ROUNDS: usize = 5;

pub trait Side {
    fn run(&mut self, times: usize);
    /// What the job gives, as plain numbers to compare; none where it was refused.
    fn answer(&mut self) -> Vec<f64>;
}

/// What a job gives, as plain numbers.
pub trait Numbers {
    fn numbers(&self) -> Vec<f64>;
}

/// The thing, as if it had just been read and perhaps changed by somebody else: so no run is left out, and none is done for all.
pub fn unseen<T>(thing: &T) -> &T {
    let mut place: *const T = thing;
    unsafe {
        std::arch::asm!("/* {0} */", inout(reg) place, options(nostack, preserves_flags));
        &*place
    }
}

/// Whole numbers below a bound, always the same ones, in an order that no processor foresees.
pub fn scattered(bound: usize) -> impl Iterator<Item = usize> {
    let next = |last: &u64| {
        let x = last ^ (last << 13);
        let x = x ^ (x >> 7);
        Some(x ^ (x << 17))
    };
    std::iter::successors(Some(88_172_645_463_325_252), next).map(move |x| (x % bound as u64) as usize)
}

/// Work that fills a room, which stays warm and is not cleared between runs.
struct Filling<R, W> {
    room: R,
    work: W,
}

impl<R: Numbers, W: FnMut(&mut R)> Side for Filling<R, W> {
    fn run(&mut self, times: usize) {
        for _ in 0..times {
            (self.work)(&mut self.room);
            unseen(&self.room);
        }
    }

    fn answer(&mut self) -> Vec<f64> {
        (self.work)(&mut self.room);
        self.room.numbers()
    }
}

/// Work that gives its answer away.
struct Giving<W>(W);

impl<A: Numbers, W: FnMut() -> A> Side for Giving<W> {
    fn run(&mut self, times: usize) {
        for _ in 0..times {
            unseen(&(self.0)());
        }
    }

    fn answer(&mut self) -> Vec<f64> {
        (self.0)().numbers()
    }
}

/// A room lent to the library, and how many of its places hold the answer.
struct Lent {
    places: Vec<f64>,
    filled: usize,
}

impl Numbers for Lent {
    fn numbers(&self) -> Vec<f64> {
        self.places[..self.filled].to_vec()
    }
}

/// The library's side: work that fills lent places and says how many hold the answer.
pub fn lent(places: usize, mut work: impl FnMut(&mut [f64]) -> usize + 'static) -> Box<dyn Side> {
    let room = Lent { places: vec![0.0; places], filled: 0 };
    filling(room, move |lent: &mut Lent| lent.filled = work(&mut lent.places))
}

pub fn filling<R: Numbers + 'static>(room: R, work: impl FnMut(&mut R) + 'static) -> Box<dyn Side> {
    Box::new(Filling { room, work })
}

pub fn giving<A: Numbers + 'static>(work: impl FnMut() -> A + 'static) -> Box<dyn Side> {
    Box::new(Giving(work))
}

fn time_of(side: &mut dyn Side, runs: usize) -> Duration {
    let start = Instant::now();
    side.run(runs);
    start.elapsed()
}

fn runs_of_a_sample(side: &mut dyn Side) -> usize {
    let mut runs = 1;
    while time_of(side, runs) < SAMPLE {
        runs *= 2;
    }
    runs
}

/// Nanoseconds a run. A short job is run once more beforehand, so that it finds its memory warm after the others' turns.
fn sample(side: &mut dyn Side, runs: usize) -> f64 {
    if runs > 1 {
        side.run(1);
    }
    time_of(side, runs).as_nanos() as f64 / runs as f64
}

/// The best nanoseconds of each side. They take turns, so that what else the machine does hits all alike.
pub fn best_times(sides: &mut [&mut Box<dyn Side>], budget: Duration) -> Vec<f64> {
    let runs: Vec<usize> = sides.iter_mut().map(|side| runs_of_a_sample(side.as_mut())).collect();
    let mut best = vec![f64::INFINITY; sides.len()];
    let start = Instant::now();
    let mut rounds = 0;
    while rounds < LEAST_ROUNDS || start.elapsed() < budget {
        for ((side, runs), best) in sides.iter_mut().zip(&runs).zip(&mut best) {
            *best = best.min(sample(side.as_mut(), *runs));
        }
        rounds += 1;
    }
    best
}
