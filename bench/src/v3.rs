//! The jobs over the library's archive for x86-64-v3: a shared object of its own, so that the two archives' names do not meet.
#![allow(dead_code)]
mod bonds;
mod curves;
mod elementary;
mod job;
mod jobs;
mod kinds;
#[path = "../../test/library.rs"]
mod library;
mod loans;
mod measure;
mod pools;
mod published;
mod spreads;
mod swaps;

use measure::Side;
use std::cell::RefCell;
use std::ffi::CString;
use std::os::raw::c_char;

struct Ours {
    name: CString,
    side: Box<dyn Side>,
}

thread_local! {
    static JOBS: RefCell<Vec<Ours>> = RefCell::new(
        jobs::all().into_iter().map(|job| Ours { name: CString::new(job.name).expect("a name without zeros"), side: job.ours }).collect()
    );
}

#[no_mangle]
pub extern "C" fn v3_jobs() -> usize {
    JOBS.with(|jobs| jobs.borrow().len())
}

#[no_mangle]
pub extern "C" fn v3_name(job: usize) -> *const c_char {
    JOBS.with(|jobs| jobs.borrow()[job].name.as_ptr())
}

#[no_mangle]
pub extern "C" fn v3_run(job: usize, times: usize) {
    JOBS.with(|jobs| jobs.borrow_mut()[job].side.run(times))
}

/// How many numbers the job gives; as many of them as there are places are copied.
///
/// # Safety
/// There must be `count` places.
#[no_mangle]
pub unsafe extern "C" fn v3_answer(job: usize, places: *mut f64, count: usize) -> usize {
    let answer = JOBS.with(|jobs| jobs.borrow_mut()[job].side.answer());
    std::ptr::copy_nonoverlapping(answer.as_ptr(), places, count.min(answer.len()));
    answer.len()
}
