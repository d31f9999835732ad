// Runs families: counts their cases, tells of the smallest fault, keeps the worst cases for the list, and can flip a bit to see that it would notice.
use crate::harness::{said, Answer, Answered, Compared, Unanswered};
use crate::random::Random;
use std::time::{Duration, Instant};

/// No tolerance is wider than this, each number beside itself, without a case that needs it.
const RELATIVE: f64 = 1e-9;
/// Every family draws at least so many cases, beside those on purpose.
const LEAST_CASES: u64 = 100;
/// A kept case has at most so many words, so that a list stays small.
const KEPT_WORDS: usize = 64;
/// The self-test looks for cases to spoil among so many drawn ones, beside those on purpose.
const SELF_TEST_CASES: usize = 4000;
const PROGRESS: Duration = Duration::from_secs(10);

fn alike(a: f64, b: f64) -> bool {
    a.to_bits() == b.to_bits() || (a.is_nan() && b.is_nan()) || (a == 0.0 && b == 0.0)
}

/// How far apart, in scales: 0 where alike, infinite where the scale or the gap is not finite.
fn apart(ours: f64, rust: f64, scale: f64) -> f64 {
    match (ours - rust).abs() / scale {
        _ if alike(ours, rust) => 0.0,
        gap if scale.is_finite() && gap.is_finite() => gap,
        _ => f64::INFINITY,
    }
}

impl Answered {
    /// How far each number lies from the Rust's, in scales; nothing where the outcomes are not of one kind.
    fn gaps(&self, ours: &Answer) -> Option<Vec<f64>> {
        match (ours, &self.expected) {
            (Err(Unanswered::Refused(a)), Err(b)) if a == b => Some(vec![]),
            (Ok(a), Ok(b)) if a.len() == b.len() => Some(a.iter().zip(b).zip(&self.scales).map(|((x, y), scale)| apart(*x, *y, *scale)).collect()),
            _ => None,
        }
    }

    /// How far the numbers lie apart, each beside itself.
    fn relative_error(&self) -> f64 {
        match (&self.ours, &self.expected) {
            (Ok(a), Ok(b)) => a.iter().zip(b).map(|(x, y)| apart(*x, *y, y.abs())).fold(0.0, f64::max),
            _ => 0.0,
        }
    }

    fn error(&self, ours: &Answer) -> f64 {
        self.gaps(ours).map_or(f64::INFINITY, |gaps| gaps.into_iter().fold(0.0, f64::max))
    }

    fn account(&self) -> String {
        let ours = self.ours.as_ref().map_or_else(Unanswered::said, |numbers| said(numbers));
        let rust = self.expected.as_ref().map_or_else(|refusal| Unanswered::Refused(*refusal).said(), |numbers| said(numbers));
        let mut told = format!("{:?}\n  ours {ours}\n  rust {rust}", self.input);
        if let (Some(gaps), Ok(a), Ok(b)) = (self.gaps(&self.ours), &self.ours, &self.expected) {
            let far = (0..gaps.len()).max_by(|i, j| gaps[*i].total_cmp(&gaps[*j])).unwrap_or(0);
            told += &format!("\n  apart {:e} at place {far}: ours {:e}, rust {:e}", gaps[far], a[far], b[far]);
        }
        told
    }

    /// How many words follow; the input; the result as the library gives it; how many numbers, and of each the Rust's bits and the distance allowed.
    fn listed(&self, at_most: f64) -> Vec<u64> {
        let mut words = vec![0];
        words.extend(self.input.words());
        match &self.expected {
            Ok(all) => {
                words.extend([0, all.len() as u64]);
                let distance = |scale: f64| if scale.is_finite() { at_most * scale } else { 0.0 };
                words.extend(all.iter().zip(&self.scales).flat_map(|(x, scale)| [x.to_bits(), distance(*scale).to_bits()]));
            }
            Err(refusal) => words.extend([*refusal, 0]),
        }
        words[0] = words.len() as u64 - 1;
        words
    }

    /// The case with one bit of our answer flipped: the lowest that makes the number that is largest beside its scale too far off.
    /// Nothing where the case has no number to spoil; bit 64 where no bit would do.
    fn flipped(mut self, at_most: f64) -> Option<(u32, Answered)> {
        let all = self.ours.clone().ok().filter(|_| self.error(&self.ours) <= at_most)?;
        let beside: Vec<f64> = all.iter().zip(&self.scales).map(|(x, scale)| (x / scale).abs()).collect();
        let place = (0..all.len()).filter(|i| beside[*i].is_normal()).max_by(|i, j| beside[*i].total_cmp(&beside[*j]))?;
        for bit in 0..64 {
            let mut spoiled = all.clone();
            spoiled[place] = f64::from_bits(all[place].to_bits() ^ 1 << bit);
            self.ours = Ok(spoiled);
            if self.error(&self.ours) > at_most {
                return Some((bit, self));
            }
        }
        Some((64, self))
    }

    /// The case with one bit of our refusal's number flipped, if it is a refused one.
    fn misnumbered(mut self) -> Option<Answered> {
        let refusal = *self.expected.as_ref().err()?;
        self.ours = Err(Unanswered::Refused(refusal ^ 1));
        Some(self)
    }
}

/// A case as the list of the Rust's answers keeps it.
struct Kept {
    error: f64,
    /// Scrambled, so that cases of one error are a fair sample of all.
    order: u64,
    words: Vec<u64>,
}

/// What a run of a family saw.
#[derive(Default)]
pub struct Tally {
    pub faults: u64,
    cases: u64,
    refused: u64,
    worst: f64,
    fault: Smallest,
    /// The smallest case that lies farther apart than `RELATIVE` beside itself, and so needs its scale.
    need: Smallest,
    kept: Vec<Kept>,
}

/// The case with the fewest words of input: their number, and its account.
#[derive(Default)]
struct Smallest(Option<(usize, String)>);

impl Smallest {
    fn see(&mut self, answered: &Answered) {
        let size = answered.input.words().len();
        if self.0.as_ref().map_or(true, |(least, _)| size < *least) {
            self.0 = Some((size, answered.account()));
        }
    }

    fn account(&self) -> Option<&str> {
        self.0.as_ref().map(|(_, account)| account.as_str())
    }
}

impl Tally {
    /// A family without a case, or with refused cases alone, has compared nothing.
    pub fn passed(&self) -> bool {
        self.faults == 0 && self.cases > self.refused
    }

    pub fn fault(&self) -> Option<&str> {
        self.fault.account()
    }

    pub fn need(&self) -> Option<&str> {
        self.need.account()
    }

    /// The kept cases, worst first.
    pub fn list(&self) -> impl Iterator<Item = &[u64]> {
        self.kept.iter().map(|kept| kept.words.as_slice())
    }

    fn keep(&mut self, kept: Kept, at_most: usize) {
        let place = self.kept.partition_point(|k| (-k.error, k.order) < (-kept.error, kept.order));
        if place < at_most {
            self.kept.insert(place, kept);
            self.kept.truncate(at_most);
        }
    }
}

/// How many cases a family is asked for, and how many of them it keeps for the list.
pub struct Asked {
    pub count: u64,
    pub keep: usize,
}

impl Compared {
    pub fn run(&self, asked: &Asked) -> Tally {
        let count = (asked.count / self.one_in).max(LEAST_CASES);
        let mut tally = Tally::default();
        let mut told = Instant::now();
        for answered in (self.answers)(count as usize) {
            self.see(&mut tally, &answered, asked.keep);
            if told.elapsed() > PROGRESS {
                eprintln!("{} {} cases, {count} to draw, worst {:.1e}", self.name, tally.cases, tally.worst);
                told = Instant::now();
            }
        }
        tally
    }

    /// Counts a case.
    fn see(&self, tally: &mut Tally, answered: &Answered, keep: usize) {
        let error = answered.error(&answered.ours);
        tally.cases += 1;
        tally.refused += u64::from(answered.expected.is_err());
        tally.worst = tally.worst.max(error);
        if error > self.at_most {
            tally.faults += 1;
            tally.fault.see(answered);
        } else if answered.relative_error() > RELATIVE {
            tally.need.see(answered);
        }
        if keep > 0 {
            let words = answered.listed(self.at_most);
            if words.len() <= KEPT_WORDS {
                let order = Random::new(tally.cases).bits();
                tally.keep(Kept { error, order, words }, keep);
            }
        }
    }

    fn is_fault(&self, answered: &Answered) -> bool {
        let mut tally = Tally::default();
        self.see(&mut tally, answered, 0);
        tally.faults == 1
    }

    pub fn line(&self, tally: &Tally) -> String {
        let worst = if tally.worst == 0.0 { "0".to_string() } else { format!("{:.1e}", tally.worst) };
        format!("{} cases {} refused {} worst {worst} allowed {}", self.name, tally.cases, tally.refused, self.allowed())
    }

    pub fn allowed(&self) -> String {
        if self.at_most == 0.0 {
            self.of.to_string()
        } else {
            format!("{:e} {}", self.at_most, self.of)
        }
    }

    /// Flips one bit of one answer, and of one refusal where the family has any; says what was not seen.
    pub fn self_test(&self) -> Result<(), String> {
        let answers = || (self.answers)(SELF_TEST_CASES);
        let (bit, flipped) = answers().find_map(|answered| answered.flipped(self.at_most)).ok_or("there was no number to spoil")?;
        if !self.is_fault(&flipped) || (self.at_most == 0.0 && bit > 0) {
            return Err(format!("a flipped bit {bit} is not seen: {}", flipped.account()));
        }
        match answers().find_map(Answered::misnumbered) {
            Some(refused) if !self.is_fault(&refused) => Err(format!("a changed refusal is not seen: {}", refused.account())),
            _ => Ok(()),
        }
    }
}
