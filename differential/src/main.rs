// Compares the library with the Rust's published files, family by family: `compare [COUNT | --list FOLDER | --differences]`.
// Each family prints a line, `FAMILY cases N refused R worst W allowed T`; the last line is `N passed, 0 failed`.
mod asking;
mod bonds;
mod books;
mod curves;
mod differences;
mod elementary;
mod harness;
#[path = "../../test/library.rs"]
mod library;
mod listed;
mod loans;
mod pools;
mod published;
mod random;
mod rows;
mod runner;
mod spreads;
mod swaps;
mod totals;
mod years;

use harness::Compared;
use runner::{Asked, Tally};
use std::fmt::Write;
use std::process::exit;

/// Cases of a family in the quick set, and cases of a family in the list.
const QUICK: u64 = 10_000;
const LISTED: usize = 32;

fn families() -> Vec<Compared> {
    let modules = [
        elementary::families,
        loans::families,
        rows::families,
        years::families,
        totals::families,
        books::families,
        pools::families,
        bonds::families,
        curves::families,
        swaps::families,
        spreads::families,
        listed::families,
    ];
    modules.iter().flat_map(|families| families()).collect()
}

fn fail(said: &str) -> ! {
    eprintln!("differential: {said}");
    exit(1)
}

/// Passed and failed so far.
#[derive(Default)]
struct Score {
    passed: usize,
    failed: usize,
}

impl Score {
    fn count(&mut self, passed: bool) {
        if passed {
            self.passed += 1;
        } else {
            self.failed += 1;
        }
    }
}

/// Runs a family, prints its line and the smallest of its faults.
fn compared(family: &Compared, asked: &Asked, score: &mut Score) -> Tally {
    let tally = family.run(asked);
    println!("{}", family.line(&tally));
    if let Some(fault) = tally.fault() {
        println!("{} faults {}, the smallest: {fault}", family.name, tally.faults);
    }
    score.count(tally.passed());
    tally
}

/// Sees that one flipped bit of one answer would fail each family.
fn self_test(families: &[Compared], score: &mut Score) {
    let unseen: Vec<String> = families.iter().filter_map(|family| family.self_test().err().map(|why| format!("{}: {why}", family.name))).collect();
    unseen.iter().for_each(|why| println!("self-test {why}"));
    println!("self-test {} of {} families saw one flipped bit", families.len() - unseen.len(), families.len());
    score.count(unseen.is_empty());
}

/// Sees that what is listed as different still is.
fn listed_differences(score: &mut Score) {
    let all = differences::all();
    let alike: Vec<_> = all.iter().filter(|difference| !difference.differs()).collect();
    alike.iter().for_each(|difference| println!("differences {} no longer differ", difference.row()));
    println!("differences {} of {} as listed", all.len() - alike.len(), all.len());
    score.count(alike.is_empty());
}

/// Prints what differs on purpose, then the smallest case of each family that is farther from the Rust than 1e-9 relative.
fn tell_differences() {
    differences::all().iter().for_each(|difference| println!("{}", difference.row()));
    for family in families() {
        if let Some(need) = family.run(&Asked { count: QUICK, keep: 0 }).need() {
            println!("{} allowed {}: {need}", family.name, family.allowed());
        }
    }
}

/// The list of a family: a line of words for each case, worst first.
fn write_list(folder: &str, family: &Compared, tally: &Tally) {
    let mut text = format!("# {}\n", family.line(tally));
    for case in tally.list() {
        let words: Vec<String> = case.iter().map(|word| format!("{word:016x}")).collect();
        writeln!(text, "{}", words.join(" ")).unwrap();
    }
    let path = format!("{folder}/{}.txt", family.name);
    std::fs::write(&path, text).unwrap_or_else(|error| fail(&format!("{path}: {error}")));
}

fn main() {
    let arguments: Vec<String> = std::env::args().skip(1).collect();
    let words: Vec<&str> = arguments.iter().map(String::as_str).collect();
    let (count, folder) = match words[..] {
        [] => (QUICK, None),
        ["--differences"] => return tell_differences(),
        ["--list", folder] => (QUICK, Some(folder)),
        [count] => (count.parse().unwrap_or_else(|_| fail(&format!("{count} is no count of cases"))), None),
        _ => fail("usage: compare [COUNT | --list FOLDER | --differences]"),
    };
    let asked = Asked { count, keep: if folder.is_some() { LISTED } else { 0 } };
    let (families, mut score) = (families(), Score::default());
    for family in &families {
        let tally = compared(family, &asked, &mut score);
        if let Some(folder) = folder {
            write_list(folder, family, &tally);
        }
    }
    self_test(&families, &mut score);
    listed_differences(&mut score);
    println!("{} passed, {} failed", score.passed, score.failed);
    exit(i32::from(score.failed > 0));
}
