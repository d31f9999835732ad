//! Times jobs of the library beside the Rust's published text and, where it is there, QuantLib, in one process and one thread.
mod bonds;
mod brought;
mod comparing;
mod counting;
mod curves;
mod elementary;
mod growth;
mod job;
mod jobs;
mod kinds;
#[allow(dead_code)]
#[path = "../../test/library.rs"]
mod library;
mod limits;
mod loans;
mod measure;
mod pools;
mod published;
mod spreads;
mod swaps;
mod table;

use brought::{quantlib, v3};

pub fn fail(said: &str) -> ! {
    eprintln!("bench: {said}");
    std::process::exit(1);
}

fn main() {
    let words: Vec<String> = std::env::args().skip(1).collect();
    match words.iter().map(String::as_str).collect::<Vec<_>>()[..] {
        ["compare"] => comparing::compare(&mut jobs::all(), &mut v3(), &mut quantlib()),
        ["count"] => counting::count(&mut jobs::all(), true),
        ["count-ours"] => counting::count(&mut jobs::all(), false),
        ["time", counted] => {
            let counted = std::fs::read_to_string(counted).unwrap_or_default();
            table::print(&mut jobs::all(), &mut v3(), &mut quantlib(), &table::Instructions::read(&counted));
        }
        ["limits"] => limits::print(),
        ["growth"] => growth::print(),
        _ => fail("usage: jobs compare | count | count-ours | time COUNTED | limits | growth"),
    }
}
