//! A job: a name, the library's side, the other, which is mostly the Rust's, and what is asked of the two.
use crate::library::Outcome;
use crate::measure::{filling, lent, unseen, Side};

/// Whose the other side is.
#[derive(Clone, Copy, PartialEq)]
pub enum Beside {
    TheRust,
    /// The library's own plain draw.
    Draw,
    /// The library's own valuation of an undated swap.
    Undated,
}

impl Beside {
    /// As the table names it.
    pub fn word(self) -> &'static str {
        match self {
            Beside::TheRust => "rust",
            Beside::Draw => "draw",
            Beside::Undated => "undated",
        }
    }
}

pub struct Job {
    pub name: String,
    /// Its rows, months of loans, knots, flows, periods or numbers: what instructions are counted for.
    pub rows: usize,
    /// The least that the other side's time over ours should be.
    pub target: Option<f64>,
    /// Whether the Rust's instructions are counted too, which takes fifty times as long as its side does.
    pub rust_is_counted: bool,
    pub ours: Box<dyn Side>,
    pub other: Box<dyn Side>,
    pub beside: Beside,
}

impl Job {
    pub fn new(name: impl Into<String>, rows: usize, ours: Box<dyn Side>, rust: Box<dyn Side>) -> Job {
        Job { name: name.into(), rows, target: None, rust_is_counted: true, ours, other: rust, beside: Beside::TheRust }
    }

    /// A job whose other side is the library's plain draw.
    pub fn beside_the_draw(name: impl Into<String>, rows: usize, ours: Box<dyn Side>, draw: Box<dyn Side>) -> Job {
        Job { beside: Beside::Draw, ..Job::new(name, rows, ours, draw) }
    }

    /// A job whose other side is the library's valuation of an undated swap.
    pub fn beside_the_undated(name: impl Into<String>, rows: usize, ours: Box<dyn Side>, undated: Box<dyn Side>) -> Job {
        Job { beside: Beside::Undated, ..Job::new(name, rows, ours, undated) }
    }

    pub fn aims_at(self, ratio: f64) -> Job {
        Job { target: Some(ratio), ..self }
    }

    pub fn of_rows(self, rows: usize) -> Job {
        Job { rows, ..self }
    }

    pub fn with_the_rust_uncounted(self) -> Job {
        Job { rust_is_counted: false, ..self }
    }
}

/// How many numbers an answer has: none where the call was refused.
pub fn unless_refused(outcome: Outcome, count: usize) -> usize {
    if outcome == 0 {
        count
    } else {
        0
    }
}

/// A job that asks for one number for each item.
pub fn one_by_one<T: Clone + 'static>(
    name: impl Into<String>,
    items: Vec<T>,
    ours: impl Fn(&T, &mut f64) -> Outcome + 'static,
    rust: impl Fn(&T) -> f64 + 'static,
) -> Job {
    let (count, same) = (items.len(), items.clone());
    let ours = lent(count, move |room| {
        let each = items.iter().zip(room.iter_mut());
        unless_refused(each.map(|(item, place)| ours(item, place)).fold(0, |all, one| all | one), count)
    });
    let rust = filling(vec![0.0; count], move |room: &mut Vec<f64>| {
        for (item, place) in unseen(&same).iter().zip(room.iter_mut()) {
            *place = rust(item);
        }
    });
    Job::new(name, count, ours, rust)
}
