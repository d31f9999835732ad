// What a whole loan comes to, beside mortgage.rs: interest, remaining balances, savings, break-even, loan to value.
use crate::asking::{asked, asked_with_count, settled, UNTOUCHED_COUNT};
use crate::harness::{bits, part_of, plain, refused, relative, Answer, Case, Compared, Family};
use crate::library::*;
use crate::loans::{drawn, over, own_edges, wild, Loan, LONGEST_OWN, LONGEST_TERM};
use crate::published::mortgage::MortgageCalculator;
use crate::random::{around, Random, TURNS};
use crate::{called, input};

input!(After { loan: Loan, months: u32 });
input!(With { loan: Loan, number: f64 });
input!(Refinancing { old: Loan, new: Loan, cost: f64, elapsed: u32 });

fn with(loan: Loan, number: f64) -> With {
    With { loan, number }
}

fn after(random: &mut Random) -> Case<After> {
    let case = drawn(random, LONGEST_OWN);
    let months = if random.once_in(16) { random.pick(&[u32::MAX, 1200, 1201]) } else { random.whole(0, case.input.term.min(LONGEST_TERM) + 2) };
    case.map(|loan| After { loan, months })
}

fn after_edges() -> Vec<Case<After>> {
    let all = own_edges().into_iter().flat_map(|loan| [0, 1, loan.term - 1, loan.term, loan.term + 1, u32::MAX].map(|months| (loan.clone(), months)));
    all.map(|(loan, months)| plain(After { loan, months })).collect()
}

/// An extra payment beside the loan's own: none, small, large, or what no line of the table names.
fn extra(random: &mut Random) -> Case<With> {
    let case = drawn(random, LONGEST_OWN);
    let payment = MortgageCalculator::monthly_payment(&case.input.terms());
    let number = match random.below(8) {
        0 => random.pick(&[0.0, -0.0, f64::NAN, f64::INFINITY, f64::NEG_INFINITY, f64::MAX]),
        1 => -payment * random.log_between(1e-3, 2.0),
        _ => payment * random.log_between(1e-3, 1e3),
    };
    case.map(|loan| with(loan, number))
}

fn savings(input: &With) -> Answer {
    let record = input.loan.record();
    asked_with_count(|months, interest| called!(senyolanda_prepayment_savings, [record], input.number, months, interest))
}

/// A cost that is covered before, at about or after the new loan's end; now and then one that is not finite.
fn refinancing(random: &mut Random) -> Case<Refinancing> {
    let (old, new) = (drawn(random, LONGEST_TERM), drawn(random, LONGEST_TERM));
    let meant = match (old.meant, new.meant) {
        (Some(old), Some(new)) => Some(if new & 0xffff_ffff < old { new | 1 << 32 } else { old }),
        (None, Some(new)) => Some(new | 1 << 32),
        (old, _) => old,
    };
    let (old, new) = (old.input, new.input);
    let saving = MortgageCalculator::monthly_payment(&old.terms()) - MortgageCalculator::monthly_payment(&new.terms());
    let cost = saving.abs() * random.log_between(0.01, 2.0 * f64::from(new.term.clamp(1, LONGEST_TERM)));
    let elapsed = if random.once_in(8) { u32::MAX } else { random.whole(0, 1200) };
    let input = Refinancing { old, new, cost, elapsed };
    match meant {
        None if random.once_in(64) => refused(Refinancing { cost: random.pick(&crate::random::NOT_FINITE), ..input }, 9, 0),
        None => or_never(input),
        _ => Case { input, meant },
    }
}

/// 13 where the Rust says that no month breaks even.
fn or_never(input: Refinancing) -> Case<Refinancing> {
    match rust_breakeven(&input) {
        Some(_) => plain(input),
        None => refused(input, 13, 0),
    }
}

/// Interest-free loans, whose payments are exact: a cost of a whole number of savings, and one unit on either side.
fn refinancing_edges() -> Vec<Case<Refinancing>> {
    let loan = |principal, term| Loan { principal, rate: 0.0, term };
    let mut all = Vec::new();
    for months in [1, 2, 3, 119, 120, 121] {
        for cost in around(f64::from(months) * 8.0) {
            all.push(or_never(Refinancing { old: loan(1920.0, 120), new: loan(960.0, 120), cost, elapsed: 7 }));
        }
    }
    for cost in [0.0, -0.0, -1.0, -f64::MAX, f64::MAX, 5e-324] {
        all.push(or_never(Refinancing { old: loan(1920.0, 120), new: loan(960.0, 1200), cost, elapsed: 0 }));
    }
    // A saving of 0, one below 0, and one of NaN.
    for old in [loan(960.0, 120), loan(900.0, 120), Loan { principal: 960.0, rate: f64::NAN, term: 120 }] {
        all.push(or_never(Refinancing { old, new: loan(960.0, 120), cost: 1.0, elapsed: 1 }));
    }
    all
}

pub fn breakeven(input: &Refinancing) -> Answer {
    let (old, new) = (input.old.record(), input.new.record());
    let mut month = UNTOUCHED_COUNT;
    let result = called!(senyolanda_refinance_breakeven, [old], [new], input.cost, input.elapsed, &mut month);
    settled(result, vec![], &[month])
}

/// The Rust's month, or none.
fn rust_breakeven(input: &Refinancing) -> Option<u32> {
    MortgageCalculator::refinance_breakeven(&input.old.terms(), &input.new.terms(), input.cost, input.elapsed)
}

pub fn families() -> Vec<Compared> {
    vec![
        Family {
            name: "total-interest",
            seed: 205,
            one_in: 1,
            edges: || own_edges().into_iter().map(plain).collect(),
            draw: |random| drawn(random, LONGEST_OWN),
            ours: |loan| over(loan, senyolanda_total_interest),
            rust: |loan| vec![MortgageCalculator::total_interest(&loan.terms())],
            allowed: relative(1e-9),
        }
        .compared(),
        Family {
            name: "remaining-balances",
            seed: 206,
            one_in: 1,
            edges: after_edges,
            draw: after,
            ours: |input| {
                let record = input.loan.record();
                asked(|balance| called!(senyolanda_remaining_balance, [record], input.months, balance))
            },
            rust: |input| vec![input.loan.mortgage().remaining_balance(input.months)],
            allowed: part_of(1e-6, "of the principal", |input, _| vec![input.loan.principal]),
        }
        .compared(),
        Family {
            name: "savings",
            seed: 207,
            one_in: 1,
            edges: || own_edges().into_iter().flat_map(|loan| [0.0, 1.0, f64::NAN].map(|extra| plain(with(loan.clone(), extra)))).collect(),
            draw: extra,
            ours: savings,
            rust: |input| {
                let (months, interest) = MortgageCalculator::prepayment_savings(&input.loan.terms(), input.number);
                vec![f64::from(months), interest]
            },
            allowed: part_of(1e-9, "of the interest without extra", |input, _| vec![0.0, MortgageCalculator::total_interest(&input.loan.terms())]),
        }
        .compared(),
        Family {
            name: "break-even",
            seed: 208,
            one_in: 1,
            edges: refinancing_edges,
            draw: refinancing,
            ours: breakeven,
            rust: |input| vec![f64::from(rust_breakeven(input).unwrap())],
            allowed: bits(),
        }
        .compared(),
        Family {
            name: "loan-to-value",
            seed: 209,
            one_in: 1,
            edges: || TURNS.map(|value| plain(with(Loan { principal: 1000.0, rate: 0.05, term: 12 }, value))).to_vec(),
            draw: |random| {
                let value = random.any();
                wild(random).map(|loan| with(loan, value))
            },
            ours: |input| {
                let record = input.loan.record();
                asked(|ratio| called!(senyolanda_ltv, [record], input.number, ratio))
            },
            rust: |input| vec![input.loan.mortgage().ltv(input.number)],
            allowed: bits(),
        }
        .compared(),
    ]
}
