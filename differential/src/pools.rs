// Prepayment speeds and pools beside mortgage.rs.
use crate::asking::*;
use crate::harness::{bits, part_of, plain, refused, relative, Allowed, Answer, Case, Compared, Family};
use crate::library::*;
use crate::loans::{odd_loans, plain_loan, Loan};
use crate::published::mortgage::{monthly_smm, MbsPool, PrepaymentModel};
use crate::random::{Random, TURNS};
use crate::{called, input};

pub const CPR: u32 = 0;
pub const PSA: u32 = 1;
const HISTORY: u32 = 2;
const MOST_LOANS: usize = 64;
/// How far duration and convexity move the discount rate.
const BUMP: f64 = 0.0001;
/// The Rust reads a loan's whole schedule for each month, so a drawn pool has at most so many loans times months squared.
const MOST_WORK: u32 = 1_000_000;

input!(Speed { code: u32, number: f64, history: Vec<f64> });
input!(Month { speed: Speed, month: u32 });
input!(
    /// A pool with a discount rate.
    Pool { loans: Vec<Loan>, speed: Speed, rate: f64 }
);
input!(Flows { pool: Pool, places: u32 });

impl Speed {
    pub fn model(&self) -> PrepaymentModel {
        match self.code {
            CPR => PrepaymentModel::CPR(self.number),
            PSA => PrepaymentModel::PSA { psa_factor: self.number },
            _ => PrepaymentModel::ActualHistory(self.history.clone()),
        }
    }
}

impl Pool {
    fn records(&self) -> Vec<u8> {
        self.loans.iter().flat_map(Loan::record).collect()
    }

    pub fn pool(&self) -> MbsPool {
        MbsPool::new(self.loans.iter().map(Loan::mortgage).collect())
    }

    fn months(&self) -> u32 {
        self.loans.iter().map(|loan| loan.term).max().unwrap_or(0)
    }
}

pub fn of(code: u32, number: f64) -> Speed {
    Speed { code, number, history: vec![] }
}

/// A speed at which some of the balance is left, with a history of shares from 0 to 1.
fn speed(random: &mut Random) -> Speed {
    match random.below(3) {
        0 => of(CPR, random.between(0.0, 1.0)),
        1 => of(PSA, random.between(0.0, 16.0)),
        _ => Speed { code: HISTORY, number: random.any(), history: (0..random.log_whole(1, 400) - 1).map(|_| random.between(0.0, 1.0)).collect() },
    }
}

/// Shares of the year at the ends, and beyond, where the power is NaN; +infinity is listed in docs/DIFFERENCES.md.
fn smm_edges() -> Vec<Case<Month>> {
    let rates = TURNS.into_iter().filter(|x| *x != f64::INFINITY).chain([1e-300, 1e-17, 1e-10, 0.06, 0.2, 0.999999, 1.5, -0.5, -10.0]);
    let all = rates.flat_map(|x| [(CPR, x), (PSA, x), (PSA, x / 0.06)]).filter(|(_, x)| *x < f64::INFINITY || x.is_nan());
    all.flat_map(|(code, x)| [0, 1, 2, 29, 30, 31, 1200, u32::MAX].map(|month| plain(Month { speed: of(code, x), month }))).collect()
}

fn smm_drawn(random: &mut Random) -> Case<Month> {
    let month = if random.once_in(2) { random.whole(0, 40) } else { random.whole(0, u32::MAX) };
    let size = if random.once_in(4) { random.log_between(1e-18, 1.0) } else { random.between(0.0, 1.0) };
    let (code, number) = if random.once_in(2) { (CPR, size) } else { (PSA, size / 0.06) };
    if random.once_in(32) {
        return refused(Month { speed: of(random.pick(&[3, 4, 255, 256, u32::MAX]), number), month }, 11, 0);
    }
    plain(Month { speed: of(code, number), month })
}

fn history_drawn(random: &mut Random) -> Case<Month> {
    let history: Vec<f64> = (0..random.log_whole(1, 200) - 1).map(|_| random.any()).collect();
    let month = if random.once_in(8) { random.whole(0, u32::MAX) } else { random.whole(0, history.len() as u32 + 2) };
    plain(Month { speed: Speed { code: HISTORY, number: random.any(), history }, month })
}

pub fn smm(input: &Month) -> Answer {
    let speed = &input.speed;
    asked(|answer| called!(senyolanda_monthly_smm, speed.code, speed.number, [speed.history], input.month, answer))
}

fn rust_smm(input: &Month) -> Vec<f64> {
    vec![monthly_smm(&input.speed.model(), input.month)]
}

/// Loans of at most 480 months, as own-payment rows are compared; as many as the Rust takes well.
fn plain_pool(random: &mut Random) -> Pool {
    let longest = random.log_whole(1, 480);
    let most = (MOST_WORK / (longest * longest)).clamp(1, MOST_LOANS as u32);
    let loans = (0..random.log_whole(1, most)).map(|_| Loan { term: random.whole(1, longest), ..plain_loan(random, longest.max(2)) }).collect();
    Pool { loans, speed: speed(random), rate: random.between(-0.02, 0.24) }
}

/// A pool with one of so many causes of a refusal; the fourth is its speed.
fn spoiled(random: &mut Random, mut pool: Pool, causes: u64) -> Case<Pool> {
    let place = random.below(pool.loans.len() as u64) as usize;
    match random.below(causes) {
        0 => {
            pool.loans[place].principal = random.no_amount();
            refused(pool, 1, place)
        }
        1 => {
            pool.loans[place].term = random.pick(&[0, 1201]);
            refused(pool, 2, place)
        }
        2 => {
            pool.loans.resize(MOST_LOANS + 1, Loan { principal: 1.0, rate: 0.0, term: 1 });
            refused(pool, 7, 0)
        }
        _ => {
            pool.speed.code = random.pick(&[3, 255, u32::MAX]);
            refused(pool, 11, 0)
        }
    }
}

fn drawn(random: &mut Random) -> Case<Pool> {
    let pool = plain_pool(random);
    if random.once_in(16) {
        spoiled(random, pool, 4)
    } else {
        plain(pool)
    }
}

/// No loan, one of few months, one of 1,200 months, 64, and a loan of nothing.
fn edges() -> Vec<Case<Pool>> {
    let loan = |principal, rate, term| Loan { principal, rate, term };
    let pools = [
        vec![],
        vec![loan(1000.0, 0.06, 1)],
        vec![loan(1000.0, 0.06, 2), loan(0.0, 0.06, 7)],
        vec![loan(1000.0, 0.02, 3)],
        vec![loan(1000.0, 0.04, 3)],
        vec![loan(1000.0, 0.06, 1200)],
        (1..=MOST_LOANS as u32).map(|i| loan(f64::from(i), 0.06, 1 + i)).collect(),
    ];
    let speeds = [of(CPR, 0.0), of(CPR, 0.5), of(CPR, 1.0), of(PSA, 1.0), Speed { code: HISTORY, number: 0.0, history: vec![0.5, 0.25] }];
    let odd: Vec<Vec<Loan>> = odd_loans(&[3]).into_iter().map(|loan| vec![loan]).collect();
    let all =
        pools.iter().chain(&odd).flat_map(|loans| speeds.iter().map(move |speed| Pool { loans: loans.clone(), speed: speed.clone(), rate: 0.05 }));
    all.map(plain).collect()
}

fn roomy(case: Case<Pool>) -> Case<Flows> {
    case.map(|pool| Flows { places: POOL_MONTH_PLACES as u32 * pool.months().min(1200), pool })
}

/// Every room for a pool of four months, from none to more than is due.
fn flow_edges() -> Vec<Case<Flows>> {
    let pool = Pool { loans: vec![Loan { principal: 1000.0, rate: 0.06, term: 4 }], speed: of(PSA, 1.5), rate: 0.05 };
    let rooms = (0..=14).map(|places| {
        let input = Flows { pool: pool.clone(), places };
        if places < 12 {
            refused(input, 3, 0)
        } else {
            plain(input)
        }
    });
    edges().into_iter().map(roomy).chain(rooms).collect()
}

fn flows_drawn(random: &mut Random) -> Case<Flows> {
    let mut case = roomy(drawn(random));
    match case.meant {
        None if random.once_in(16) => refused(Flows { places: random.whole(0, case.input.places - 1), ..case.input }, 3, 0),
        _ => {
            case.input.places += random.pick(&[0, 0, 1, 2, 3, 50]);
            case
        }
    }
}

pub fn flows(input: &Flows) -> Answer {
    let (records, speed) = (input.pool.records(), &input.pool.speed);
    let mut room = vec![UNTOUCHED; input.places as usize];
    let mut months = UNTOUCHED_COUNT;
    let result = called!(senyolanda_pool_cash_flows, [records], speed.code, speed.number, [speed.history], [mut room], &mut months);
    settled(result, room, &[months])
}

fn rust_flows(input: &Flows) -> Vec<f64> {
    let months = input.pool.pool().cash_flows(&input.pool.speed.model());
    let mut all = vec![months.len() as f64];
    all.extend(months.iter().flat_map(|(principal, interest, prepayment)| [principal, interest, prepayment]));
    all.resize(1 + input.places as usize, UNTOUCHED);
    all
}

type OfPool = unsafe extern "C" fn(*const u8, usize, u32, f64, *const f64, usize, f64, &mut f64) -> u64;

fn over(pool: &Pool, call: OfPool) -> Answer {
    let (records, speed) = (pool.records(), &pool.speed);
    asked(|answer| called!(call, [records], speed.code, speed.number, [speed.history], pool.rate, answer))
}

fn totals(pool: &Pool) -> Answer {
    let records = pool.records();
    asked_for(|totals| called!(senyolanda_pool_totals, [records], totals))
}

/// Loans of any principal and rate, which totals only add and divide.
fn totals_drawn(random: &mut Random) -> Case<Pool> {
    let loans: Vec<Loan> = (0..random.log_whole(1, MOST_LOANS as u32))
        .map(|_| Loan {
            principal: if random.once_in(2) { random.amount() } else { random.log_between(0.01, 1e12) },
            rate: random.any(),
            term: random.whole(1, 1200),
        })
        .collect();
    let pool = Pool { loans, speed: of(CPR, 0.0), rate: 0.0 };
    if random.once_in(16) {
        spoiled(random, pool, 3)
    } else {
        plain(pool)
    }
}

fn of_principals() -> Allowed<Flows> {
    part_of(1e-9, "of the principals", |input, rust| {
        let balance = input.pool.pool().pool_balance;
        let mut scales = vec![balance; rust.len()];
        scales[0] = 0.0;
        scales
    })
}

/// A family of answers at a pool's discount rate.
fn at_rate(name: &'static str, seed: u64, ours: fn(&Pool) -> Answer, rust: fn(&Pool) -> Vec<f64>) -> Family<Pool> {
    Family { name, seed, one_in: 100, edges, draw: drawn, ours, rust, allowed: relative(1e-9) }
}

pub fn price(pool: &Pool) -> Answer {
    over(pool, senyolanda_pool_price)
}

pub fn families() -> Vec<Compared> {
    vec![
        Family { name: "smm", seed: 301, one_in: 1, edges: smm_edges, draw: smm_drawn, ours: smm, rust: rust_smm, allowed: relative(1e-9) }
            .compared(),
        Family { name: "smm-of-a-history", seed: 302, one_in: 1, edges: Vec::new, draw: history_drawn, ours: smm, rust: rust_smm, allowed: bits() }
            .compared(),
        Family {
            name: "pool-months",
            seed: 303,
            one_in: 100,
            edges: flow_edges,
            draw: flows_drawn,
            ours: flows,
            rust: rust_flows,
            allowed: of_principals(),
        }
        .compared(),
        at_rate("pool-price", 304, price, |pool| vec![pool.pool().price(pool.rate, &pool.speed.model())]).compared(),
        at_rate("pool-duration", 305, |pool| over(pool, senyolanda_pool_duration), |pool| vec![pool.pool().duration(pool.rate, &pool.speed.model())])
            .compared(),
        Family {
            allowed: part_of(1e-12, "of four prices' worth", |_, _| vec![4.0 / (BUMP * BUMP)]),
            ..at_rate(
                "pool-convexity",
                306,
                |pool| over(pool, senyolanda_pool_convexity),
                |pool| vec![pool.pool().convexity(pool.rate, &pool.speed.model())],
            )
        }
        .compared(),
        Family {
            name: "pool-totals",
            seed: 307,
            one_in: 1,
            edges,
            draw: totals_drawn,
            ours: totals,
            rust: |input| {
                let pool = input.pool();
                vec![pool.pool_balance, pool.wac, pool.wam]
            },
            allowed: bits(),
        }
        .compared(),
    ]
}
