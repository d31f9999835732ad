// How an answer is asked of the library: what is lent, and that a refusal leaves it. What reads and writes records has no counterpart in the
// Rust: records are handed in as bytes made here, and a drawn row's record is taken apart here.
use crate::harness::{Answer, Unanswered};

/// What stands in lent memory before a call: far from every answer, so that no scale hides a stray write.
pub const UNTOUCHED: f64 = 1.234567890123456e300;
pub const UNTOUCHED_COUNT: u32 = 0xa5a5_a5a5;

/// What a call answered in the numbers lent to it; a refusal must leave them as they were.
pub fn settled(result: u64, lent: Vec<f64>, counts: &[u32]) -> Answer {
    let untouched = lent.iter().all(|x| x.to_bits() == UNTOUCHED.to_bits()) && counts.iter().all(|c| *c == UNTOUCHED_COUNT);
    match result {
        0 => Ok(counts.iter().map(|c| f64::from(*c)).chain(lent).collect()),
        _ if untouched => Err(Unanswered::Refused(result)),
        _ => Err(Unanswered::Broken("a refusal touched lent memory")),
    }
}

/// Asks for one number.
pub fn asked(call: impl FnOnce(&mut f64) -> u64) -> Answer {
    let mut answer = UNTOUCHED;
    let result = call(&mut answer);
    settled(result, vec![answer], &[])
}

/// Asks for an array of numbers.
pub fn asked_for<const N: usize>(call: impl FnOnce(&mut [f64; N]) -> u64) -> Answer {
    let mut answers = [UNTOUCHED; N];
    let result = call(&mut answers);
    settled(result, answers.to_vec(), &[])
}

/// Asks for a count and a number, the count first.
pub fn asked_with_count(call: impl FnOnce(&mut u32, &mut f64) -> u64) -> Answer {
    let (mut count, mut answer) = (UNTOUCHED_COUNT, UNTOUCHED);
    let result = call(&mut count, &mut answer);
    settled(result, vec![answer], &[count])
}
