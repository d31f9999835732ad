//! Sides that another object brings, by the jobs' names: QuantLib's, and the library's own over its archive for x86-64-v3.
#![allow(dead_code)]
use crate::measure::Side;
use std::collections::BTreeMap;
use std::ffi::CStr;
use std::os::raw::c_char;

pub type Sides = BTreeMap<String, Box<dyn Side>>;

/// What such an object exports: how many jobs it has, and a job's name, runs and answer.
#[derive(Clone, Copy)]
struct Exports {
    jobs: unsafe extern "C" fn() -> usize,
    name: unsafe extern "C" fn(usize) -> *const c_char,
    run: unsafe extern "C" fn(usize, usize),
    answer: unsafe extern "C" fn(usize, *mut f64, usize) -> usize,
}

struct Brought {
    job: usize,
    by: Exports,
}

impl Side for Brought {
    fn run(&mut self, times: usize) {
        unsafe { (self.by.run)(self.job, times) }
    }

    fn answer(&mut self) -> Vec<f64> {
        let mut places = Vec::new();
        let count = unsafe { (self.by.answer)(self.job, places.as_mut_ptr(), 0) };
        places.resize(count, 0.0);
        unsafe { (self.by.answer)(self.job, places.as_mut_ptr(), count) };
        places
    }
}

fn brought(by: Exports) -> Sides {
    let named = |job| unsafe { CStr::from_ptr((by.name)(job)) }.to_string_lossy().into_owned();
    (0..unsafe { (by.jobs)() }).map(|job| (named(job), Box::new(Brought { job, by }) as Box<dyn Side>)).collect()
}

/// The sides of an object, none where it is not linked in.
macro_rules! sides {
    ($object:ident: $jobs:ident $name:ident $run:ident $answer:ident) => {
        #[cfg($object)]
        extern "C" {
            fn $jobs() -> usize;
            fn $name(job: usize) -> *const c_char;
            fn $run(job: usize, times: usize);
            fn $answer(job: usize, places: *mut f64, count: usize) -> usize;
        }

        #[cfg($object)]
        pub fn $object() -> Sides {
            brought(Exports { jobs: $jobs, name: $name, run: $run, answer: $answer })
        }

        #[cfg(not($object))]
        pub fn $object() -> Sides {
            Sides::new()
        }
    };
}

sides!(quantlib: quantlib_jobs quantlib_name quantlib_run quantlib_answer);
sides!(v3: v3_jobs v3_name v3_run v3_answer);
