// A family is a name, a seed, cases on purpose and cases drawn, what the library answers, what the Rust answers, and how far apart the two may lie.
// Here it becomes a source of answered cases, whatever the kind of its inputs, for the one runner of runner.rs.
use crate::random::Random;
use std::fmt::Debug;

/// A refusal as the library gives it: its number in the low 32 bits, its place in the high 32.
pub type Refusal = u64;

pub fn refusal(number: u32, place: usize) -> Refusal {
    u64::from(number) | (place as u64) << 32
}

/// Why there are no numbers.
#[derive(Clone, Debug)]
pub enum Unanswered {
    Refused(Refusal),
    /// What no caller may get, such as a refusal that touched lent memory.
    Broken(&'static str),
}

/// What the library answers.
pub type Answer = Result<Vec<f64>, Unanswered>;

/// Numbers with their bits, as a fault tells them.
pub fn said(numbers: &[f64]) -> String {
    match numbers.len() {
        0..=12 => numbers.iter().map(|x| format!("{x:?} ({:016x})", x.to_bits())).collect::<Vec<_>>().join(", "),
        many => format!("{many} numbers"),
    }
}

impl Unanswered {
    pub fn said(&self) -> String {
        match self {
            Unanswered::Refused(refusal) => format!("refused {} at {}", refusal & 0xffff_ffff, refusal >> 32),
            Unanswered::Broken(why) => (*why).to_string(),
        }
    }
}

/// An input as words of 64 bits: a float as its bits, a whole number as itself, a list as its count and its items.
pub trait Words {
    fn words(&self) -> Vec<u64>;
}

impl Words for f64 {
    fn words(&self) -> Vec<u64> {
        vec![self.to_bits()]
    }
}

impl Words for u32 {
    fn words(&self) -> Vec<u64> {
        vec![u64::from(*self)]
    }
}

impl<T: Words> Words for Vec<T> {
    fn words(&self) -> Vec<u64> {
        std::iter::once(self.len() as u64).chain(self.iter().flat_map(Words::words)).collect()
    }
}

impl<T: Words, const N: usize> Words for [T; N] {
    fn words(&self) -> Vec<u64> {
        self.iter().flat_map(Words::words).collect()
    }
}

/// Declares an input: a struct whose words are its fields' words, in their order.
#[macro_export]
macro_rules! input {
    ($(#[$note:meta])* $name:ident { $($field:ident: $kind:ty),+ $(,)? }) => {
        $(#[$note])*
        #[derive(Clone, Debug)]
        pub struct $name {
            $(pub $field: $kind,)+
        }
        impl $crate::harness::Words for $name {
            fn words(&self) -> Vec<u64> {
                let mut all = Vec::new();
                $(all.extend($crate::harness::Words::words(&self.$field));)+
                all
            }
        }
    };
}

/// An input, and the refusal where the generator meant a cause of one.
#[derive(Clone, Debug)]
pub struct Case<I> {
    pub input: I,
    pub meant: Option<Refusal>,
}

pub fn plain<I>(input: I) -> Case<I> {
    Case { input, meant: None }
}

pub fn refused<I>(input: I, number: u32, place: usize) -> Case<I> {
    Case { input, meant: Some(refusal(number, place)) }
}

impl<I> Case<I> {
    /// The same case with its input inside another.
    pub fn map<J>(self, inside: impl FnOnce(I) -> J) -> Case<J> {
        Case { input: inside(self.input), meant: self.meant }
    }
}

/// How far the library's numbers may lie from the Rust's: each at most so many times its scale.
pub struct Allowed<I> {
    pub at_most: f64,
    pub of: &'static str,
    pub scale: fn(&I, &[f64]) -> Vec<f64>,
}

/// Same bits, a NaN with a NaN, zeros of either sign: no distance at all.
pub fn bits<I>() -> Allowed<I> {
    Allowed { at_most: 0.0, of: "bits", scale: |_, rust| vec![1.0; rust.len()] }
}

pub fn relative<I>(at_most: f64) -> Allowed<I> {
    Allowed { at_most, of: "relative", scale: |_, rust| rust.iter().map(|x| x.abs()).collect() }
}

pub fn absolute<I>(at_most: f64) -> Allowed<I> {
    Allowed { at_most, of: "absolute", scale: |_, rust| vec![1.0; rust.len()] }
}

/// A part of a scale that the input and the Rust's answer give for each number.
pub fn part_of<I>(at_most: f64, of: &'static str, scale: fn(&I, &[f64]) -> Vec<f64>) -> Allowed<I> {
    Allowed { at_most, of, scale }
}

pub struct Family<I> {
    pub name: &'static str,
    pub seed: u64,
    /// One drawn case for so many that are asked for: more than 1 where a case takes long.
    pub one_in: u64,
    pub edges: fn() -> Vec<Case<I>>,
    pub draw: fn(&mut Random) -> Case<I>,
    pub ours: fn(&I) -> Answer,
    pub rust: fn(&I) -> Vec<f64>,
    pub allowed: Allowed<I>,
}

/// An input of any kind.
pub trait Input: Debug + Words {}
impl<I: Debug + Words> Input for I {}

/// A case with both answers: ours, and what is expected, the Rust's numbers or else the refusal that was meant.
pub struct Answered {
    pub input: Box<dyn Input>,
    pub ours: Answer,
    pub expected: Result<Vec<f64>, Refusal>,
    /// The scale of each number that is expected.
    pub scales: Vec<f64>,
}

/// A family whose kind of input is no longer told.
pub struct Compared {
    pub name: &'static str,
    pub one_in: u64,
    pub at_most: f64,
    pub of: &'static str,
    /// The cases on purpose, then as many drawn ones as are asked for.
    pub answers: Box<dyn Fn(usize) -> Box<dyn Iterator<Item = Answered>>>,
}

impl<I: Input + 'static> Family<I> {
    pub fn compared(self) -> Compared {
        let Family { name, seed, one_in, edges, draw, ours, rust, allowed: Allowed { at_most, of, scale } } = self;
        let answered = move |case: Case<I>| {
            let expected = case.meant.map_or_else(|| Ok(rust(&case.input)), Err);
            let scales = expected.as_ref().map_or(vec![], |numbers| scale(&case.input, numbers));
            Answered { ours: ours(&case.input), expected, scales, input: Box::new(case.input) }
        };
        let answers = move |count| {
            let mut random = Random::new(seed);
            let drawn = std::iter::repeat_with(move || draw(&mut random)).take(count);
            Box::new(edges().into_iter().chain(drawn).map(answered)) as Box<dyn Iterator<Item = Answered>>
        };
        Compared { name, one_in, at_most, of, answers: Box::new(answers) }
    }
}
