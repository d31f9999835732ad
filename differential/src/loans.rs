// Loans to ask about, and their payments, beside mortgage.rs.
use crate::asking::asked;
use crate::harness::{bits, plain, refused, relative, Answer, Case, Compared, Family};
use crate::library::{senyolanda_monthly_payment, LOAN_BYTES};
use crate::published::mortgage::{MortgageCalculator, MortgageLoan, MortgageTerms, MortgageType};
use crate::random::{around, Random};
use crate::{called, input};

pub const LONGEST_TERM: u32 = 1200;
/// Rows from an own payment are compared for terms up to here.
pub const LONGEST_OWN: u32 = 480;
/// The monthly rates of document 01's payments.
const RATES: [f64; 2] = [1e-6, 0.02];
const PRINCIPALS: [f64; 2] = [0.01, 1e12];
/// The smallest rate whose twelfth is not 0, and the largest and the lowest that leave 1 + r at 1.
const SMALLEST_RATE: f64 = 3.5e-323;
const LARGEST_UNFELT: f64 = 12.0 * f64::EPSILON / 2.0;
const LOWEST_UNFELT: f64 = -12.0 * f64::EPSILON / 4.0;

input!(Loan { principal: f64, rate: f64, term: u32 });

impl Loan {
    pub fn record(&self) -> [u8; LOAN_BYTES] {
        let mut record = [1; LOAN_BYTES];
        record[1..9].copy_from_slice(&self.principal.to_le_bytes());
        record[9..17].copy_from_slice(&self.rate.to_le_bytes());
        record[17..].copy_from_slice(&self.term.to_le_bytes());
        record
    }

    pub fn terms(&self) -> MortgageTerms {
        MortgageTerms { principal: self.principal, annual_rate: self.rate, term_months: self.term, down_payment: 0.0 }
    }

    pub fn mortgage(&self) -> MortgageLoan {
        MortgageLoan {
            principal: self.principal,
            annual_rate: self.rate,
            term_months: self.term,
            mortgage_type: MortgageType::Fixed,
            origination_date: 0,
        }
    }
}

/// (1 + r)^n by repeated squaring.
fn factor(loan: &Loan) -> f64 {
    let (mut factor, mut base, mut months) = (1.0, 1.0 + loan.rate / 12.0, loan.term);
    while months > 0 {
        if months % 2 == 1 {
            factor *= base;
        }
        base *= base;
        months /= 2;
    }
    factor
}

/// Whether the factor is 1 though r is not 0: the payment is P/n here, and the Rust divides by 0.
fn rate_vanishes(loan: &Loan) -> bool {
    loan.rate / 12.0 != 0.0 && factor(loan) == 1.0
}

/// A term, its ends often.
fn term(random: &mut Random, longest: u32) -> u32 {
    match random.below(4) {
        0 => random.pick(&[1, 2, longest - 1, longest]),
        1 => random.whole(1, longest),
        _ => random.log_whole(1, longest),
    }
}

/// A rate a year whose twelfth is 0 or in document 01's range, its ends often.
fn plain_rate(random: &mut Random) -> f64 {
    match random.below(16) {
        0 => 0.0,
        1 => RATES[0] * 12.0,
        2 => RATES[1] * 12.0,
        _ => random.log_between(RATES[0] * 12.0, RATES[1] * 12.0),
    }
}

/// A loan of document 01's payments.
pub fn plain_loan(random: &mut Random, longest: u32) -> Loan {
    let principal = match random.below(16) {
        0 => 0.0,
        1 => random.pick(&PRINCIPALS),
        _ => random.log_between(PRINCIPALS[0], PRINCIPALS[1]),
    };
    Loan { principal, rate: plain_rate(random), term: term(random, longest) }
}

/// Any principal, subnormal and huge.
fn wild_principal(random: &mut Random) -> f64 {
    match random.below(4) {
        0 => random.log_between(5e-324, f64::MIN_POSITIVE),
        1 => random.amount(),
        2 => random.log_between(1e290, f64::MAX),
        _ => random.log_between(PRINCIPALS[0], PRINCIPALS[1]),
    }
}

/// Any loan that may be opened: every amount, and every rate, NaN and infinities too.
fn wild_loan(random: &mut Random) -> Loan {
    let principal = wild_principal(random);
    let rate = match random.below(5) {
        0 => random.any(),
        1 => random.signed_log_between(1e-20, 1e3),
        2 => random.pick(&[-12.0, -24.0, 1e-17, 12.0 * f64::EPSILON, 6.0 * f64::EPSILON, -6.0 * f64::EPSILON, 1.0, 12.0, 1e5]),
        3 => random.log_between(5e-324, f64::MIN_POSITIVE),
        _ => plain_rate(random),
    };
    Loan { principal, rate, term: term(random, LONGEST_TERM) }
}

/// Now and then a loan that is refused, 1 for its principal or 2 for its term.
fn or_refused(random: &mut Random, loan: Loan) -> Case<Loan> {
    match random.below(32) {
        0 => refused(Loan { principal: random.no_amount(), ..loan }, 1, 0),
        1 => refused(Loan { term: random.pick(&[0, 1201, u32::MAX]), ..loan }, 2, 0),
        _ => plain(loan),
    }
}

pub fn drawn(random: &mut Random, longest: u32) -> Case<Loan> {
    let loan = plain_loan(random, longest);
    or_refused(random, loan)
}

pub fn wild(random: &mut Random) -> Case<Loan> {
    let loan = wild_loan(random);
    or_refused(random, loan)
}

/// The corners of document 01's range, with the terms beside the ends.
fn corners(longest: u32) -> Vec<Loan> {
    let mut all = Vec::new();
    for principal in [0.0, PRINCIPALS[0], 1.0, PRINCIPALS[1]] {
        for rate in [0.0, RATES[0] * 12.0, RATES[1] * 12.0] {
            all.extend([1, 2, longest - 1, longest].map(|term| Loan { principal, rate, term }));
        }
    }
    all
}

/// Rates about those at which a factor becomes 1, on either side.
fn about_a_factor_of_one() -> Vec<Loan> {
    let rates = [5e-324, 1e-300, -1e-300, 1e-17, -1e-17, 3.0 * f64::EPSILON].into_iter();
    let ends = [SMALLEST_RATE, LARGEST_UNFELT, LOWEST_UNFELT, -24.0].into_iter().flat_map(around);
    let mut all = Vec::new();
    for rate in rates.chain(ends) {
        for principal in [0.0, 5e-324, 1000.0, f64::MAX] {
            all.extend([1, 2, 3, 1199, 1200].map(|term| Loan { principal, rate, term }));
        }
    }
    all
}

/// Rates beyond document 01's at which every step has one answer: what is no number, a month that doubles or takes all or more.
const ODD_RATES: [f64; 7] = [f64::NAN, f64::INFINITY, f64::NEG_INFINITY, 6.0, 12.0, -12.0, -24.0];

/// Loans of so many months at odd rates, but for those that vanish.
pub fn odd_loans(terms: &[u32]) -> Vec<Loan> {
    let all = ODD_RATES.into_iter().flat_map(|rate| terms.iter().map(move |term| Loan { principal: 1000.0, rate, term: *term }));
    all.filter(|loan| !rate_vanishes(loan)).collect()
}

/// The corners for what an own payment makes, and short loans at odd rates.
pub fn own_edges() -> Vec<Loan> {
    corners(LONGEST_OWN).into_iter().chain(odd_loans(&[1, 2, 3])).collect()
}

/// The least principals whose payments are not finite: f overflows, P·r·f does, the payment alone does, 1 + r rounds, a rate below -12,
/// and rates that are not finite.
fn not_finite() -> [Loan; 7] {
    [
        (0.0, 11.999999999999998, 1024),
        (1.0000000000002278, 11.999999999999995, 1024),
        (8.988465674311582e307, 11.999999999999995, 1),
        (1.1984620899082105e308, 3.996802888650563e-15, 1),
        (3.991680619069442e292, -23.999999999999996, 2),
        (0.0, f64::NAN, 1),
        (0.0, f64::INFINITY, 1),
    ]
    .map(|(principal, rate, term)| Loan { principal, rate, term })
}

fn payment_edges() -> Vec<Case<Loan>> {
    let beside = about_a_factor_of_one().into_iter().filter(|loan| !rate_vanishes(loan));
    let taken = corners(LONGEST_TERM).into_iter().chain(own_edges()).chain(beside).chain(not_finite());
    let mut all: Vec<Case<Loan>> = taken.map(plain).collect();
    let good = Loan { principal: 1000.0, rate: 0.06, term: 12 };
    all.extend([-0.01, -5e-324, f64::NAN, f64::INFINITY, f64::NEG_INFINITY].map(|principal| refused(Loan { principal, ..good }, 1, 0)));
    all.extend([0, 1201, u32::MAX].map(|term| refused(Loan { term, ..good }, 2, 0)));
    all
}

/// A loan whose rate vanishes, of either sign and any size, or is -24 over an even number of months.
fn vanishing_loan(random: &mut Random) -> Loan {
    let (principal, term) = (wild_principal(random), term(random, LONGEST_TERM));
    match random.below(8) {
        0 => Loan { principal, rate: -24.0, term: term + term % 2 },
        1..=4 => Loan { principal, rate: random.log_between(SMALLEST_RATE, LARGEST_UNFELT), term },
        _ => Loan { principal, rate: -random.log_between(SMALLEST_RATE, -LOWEST_UNFELT), term },
    }
}

/// Asks a function over one loan for one number.
pub fn over(loan: &Loan, call: unsafe extern "C" fn(*const u8, usize, &mut f64) -> u64) -> Answer {
    let record = loan.record();
    asked(|answer| called!(call, [record], answer))
}

pub fn payment(loan: &Loan) -> Answer {
    over(loan, senyolanda_monthly_payment)
}

pub fn rust_payment(loan: &Loan) -> f64 {
    MortgageCalculator::monthly_payment(&loan.terms())
}

/// P/n where the Rust's payment is not finite, as it must be at a vanishing rate; else the Rust's, which is then a fault.
fn equal_parts(loan: &Loan) -> f64 {
    match rust_payment(loan) {
        finite if finite.is_finite() => finite,
        _ => loan.principal / f64::from(loan.term),
    }
}

pub fn families() -> Vec<Compared> {
    vec![
        Family {
            name: "payments",
            seed: 201,
            one_in: 1,
            edges: payment_edges,
            draw: |random| drawn(random, LONGEST_TERM),
            ours: payment,
            rust: |loan| vec![rust_payment(loan)],
            allowed: relative(1e-8),
        }
        .compared(),
        Family {
            name: "vanishing-rates",
            seed: 213,
            one_in: 1,
            edges: || about_a_factor_of_one().into_iter().filter(rate_vanishes).map(plain).collect(),
            draw: |random| {
                let loan = vanishing_loan(random);
                or_refused(random, loan)
            },
            ours: payment,
            rust: |loan| vec![equal_parts(loan)],
            allowed: bits(),
        }
        .compared(),
    ]
}
