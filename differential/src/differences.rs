// What differs from the Rust on purpose, each on the smallest input that shows it, with both answers as they are today.
// docs/DIFFERENCES.md has these rows; a difference on no list is a fault.
use crate::curves::{self, At, Between, Curve, Model};
use crate::harness::Answer;
use crate::loans::{self, rust_payment, Loan};
use crate::pools::{Flows as PoolFlows, Month, Pool};
use crate::published::bond;
use crate::published::mortgage::{monthly_smm, MortgageCalculator};
use crate::published::opened_swaps::opened_rate;
use crate::published::spread_analytics::{bond_cash_flows, z_spread};
use crate::published::swaps::{fixed_leg_pv, DiscountCurve};
use crate::published::yield_curve::YieldCurve;
use crate::rows::{self, InHand, WIDTH};
use crate::spreads::Flows;
use crate::swaps::{Swap, Valued};
use crate::totals::{self, Refinancing};
use crate::{bonds, elementary, pools, spreads, swaps};
use std::fmt::Debug;
use std::panic::{catch_unwind, AssertUnwindSafe};

const TABLE: &str = "document 01's table";
const STEPS: &str = "document 01's steps";
const VANISHING: &str = "document 02, K5";

pub struct Difference {
    what: &'static str,
    input: String,
    rust: String,
    ours: String,
    why: &'static str,
}

impl Difference {
    pub fn differs(&self) -> bool {
        self.rust != self.ours
    }

    /// A row of the table in docs/DIFFERENCES.md.
    pub fn row(&self) -> String {
        format!("| {} | `{}` | {} | {} | {} |", self.what, self.input, self.rust, self.ours, self.why)
    }
}

/// An answer in words, alike for both sides.
trait Told {
    fn told(&self) -> String;
}

impl Told for f64 {
    fn told(&self) -> String {
        format!("{self:?}")
    }
}

impl Told for Vec<f64> {
    fn told(&self) -> String {
        match self[..] {
            [] => "an empty list".to_string(),
            _ => self.iter().map(Told::told).collect::<Vec<_>>().join(", "),
        }
    }
}

impl<T: Told> Told for Option<T> {
    fn told(&self) -> String {
        self.as_ref().map_or("`None`".to_string(), Told::told)
    }
}

impl Told for Answer {
    fn told(&self) -> String {
        self.as_ref().map_or_else(|why| why.said(), Told::told)
    }
}

/// Asks both; a panic is the Rust's answer too.
fn differ<I: Debug, A: Told>(what: &'static str, why: &'static str, input: I, ours: impl Fn(&I) -> Answer, rust: impl Fn(&I) -> A) -> Difference {
    let answer = catch_unwind(AssertUnwindSafe(|| rust(&input).told())).unwrap_or_else(|_| "a panic".to_string());
    Difference { what, input: format!("{input:?}"), rust: answer, ours: ours(&input).told(), why }
}

fn rust_rows(loan: &Loan) -> Vec<f64> {
    MortgageCalculator::amortization_schedule(&loan.terms()).iter().flat_map(rows::numbers_of).collect()
}

fn elementary_functions() -> Vec<Difference> {
    let exp = |what, x| differ(what, STEPS, elementary::One { x }, elementary::exp, |input| input.x.exp());
    let power = |what, x, y| differ(what, STEPS, elementary::Power { x, y }, elementary::power, |input| input.x.powf(input.y));
    vec![
        exp("exp above 709", 709.0000000000001),
        exp("exp below -708", -708.0000000000001),
        power("a whole power above 1,200 in size, of a negative base", -1.0, 1201.0),
        power("an infinite power of a negative base", -1.0, f64::INFINITY),
        power("an odd power below -1,200, of -0", -0.0, -1201.0),
        power("a power that is not whole, of -infinity", f64::NEG_INFINITY, 0.5),
        power("a power whose y ln x is above 709", 2.0, 1023.5),
        power("a whole power whose reciprocal overflows", 2.0, -1024.0),
    ]
}

fn of_loans() -> Vec<Difference> {
    let loan = |principal, rate, term| Loan { principal, rate, term };
    let payment = |what, input| differ(what, TABLE, input, loans::payment, rust_payment);
    let vanishing = |what, input| differ(what, VANISHING, input, loans::payment, rust_payment);
    let rows_alone = |loan: &Loan| rows::own_rows(loan).map(|told| told[2..told.len() - 2].to_vec());
    let refinancing = |what, old, cost, elapsed| {
        differ(what, TABLE, Refinancing { old, new: loan(1.0, 0.0, 1), cost, elapsed }, totals::breakeven, |input| {
            MortgageCalculator::refinance_breakeven(&input.old.terms(), &input.new.terms(), input.cost, input.elapsed).map(f64::from)
        })
    };
    let made_up = |loan: &Loan| {
        let mut hand = InHand { counts: [loan.term, 0], amounts: [loan.rate, rust_payment(loan), loan.principal] };
        rows::draw(&mut hand, WIDTH).map(|drawn| drawn[2..].to_vec())
    };
    vec![
        payment("a principal below zero", loan(-1.0, 0.0, 1)),
        payment("a principal that is not finite", loan(f64::NAN, 0.0, 1)),
        payment("a term above 1,200", loan(1.0, 0.0, 1201)),
        payment("the payment of a term of 0", loan(1.0, 0.0, 0)),
        differ("the rows of a term of 0", TABLE, loan(1.0, 0.0, 0), rows::own_rows, rust_rows),
        differ(
            "a NaN balance in a made-up state: the first row",
            "lowering to a NaN gives the NaN; no opening gives such a state",
            loan(f64::NAN, 0.0, 2),
            made_up,
            |loan| rust_rows(loan)[..WIDTH as usize].to_vec(),
        ),
        differ(
            "a payment in its last digits",
            "(1 + r)^n by repeated squaring, the same bits on every machine",
            loan(1000.0, 0.04, 3),
            loans::payment,
            rust_payment,
        ),
        vanishing("a rate that 1 + r does not feel", loan(1.0, 3.5e-323, 1)),
        vanishing("a rate that 1 + r does not feel, of a principal of 0", loan(0.0, 3.5e-323, 1)),
        differ("the rows at such a rate", VANISHING, loan(1.0, 3.5e-323, 2), rows_alone, rust_rows),
        vanishing("a rate of -24 with an even term", loan(1.0, -24.0, 2)),
        refinancing("break-even with an old term of 0, months elapsed", loan(1.0, 0.0, 0), 1.0, 1),
        refinancing("no saving", loan(1.0, 0.0, 1), 0.0, 0),
        refinancing("a break-even after the new loan's end", loan(2.0, 0.0, 1), 2.0, 0),
        refinancing("a closing cost of NaN", loan(2.0, 0.0, 1), f64::NAN, 0),
        refinancing("an infinite closing cost", loan(2.0, 0.0, 1), f64::INFINITY, 0),
    ]
}

fn of_pools() -> Vec<Difference> {
    let one = Loan { principal: 1.0, rate: 0.0, term: 1 };
    let smm = |what, code| {
        let input = Month { speed: pools::of(code, f64::INFINITY), month: 30 };
        differ(what, STEPS, input, pools::smm, |input| monthly_smm(&input.speed.model(), input.month))
    };
    let pool = |loans: Vec<Loan>| Pool { loans, speed: pools::of(pools::CPR, 0.0), rate: 0.0 };
    let price = |what, loans| differ(what, TABLE, pool(loans), pools::price, |pool| pool.pool().price(pool.rate, &pool.speed.model()));
    vec![
        smm("an infinite CPR", pools::CPR),
        smm("an infinite PSA factor", pools::PSA),
        price("a pool with a loan of a bad principal", vec![Loan { principal: -1.0, ..one }]),
        price("a pool with a loan of a bad term", vec![Loan { term: 1201, ..one }]),
        Difference { input: "65 loans of 1 at rate 0 over 1 month".to_string(), ..price("a pool of more than 64 loans", vec![one.clone(); 65]) },
        differ(
            "a pool's months where the room is short",
            "the caller lends the room",
            PoolFlows { pool: pool(vec![one]), places: 2 },
            pools::flows,
            |input| input.pool.pool().cash_flows(&input.pool.speed.model()).iter().flat_map(|month| [month.0, month.1, month.2]).collect::<Vec<_>>(),
        ),
    ]
}

fn of_bonds() -> Vec<Difference> {
    let good = bonds::Bond { face: 1.0, coupon: 0.0, maturity: 1.0, code: 0 };
    let price =
        |what, bond: bonds::Bond, at| differ(what, TABLE, bonds::At { bond, at }, bonds::price, |input| bond::price(input.at, &input.bond.bond()));
    let at_price = |what, at, ours: fn(&bonds::At) -> Answer, rust: fn(f64, &bond::Bond) -> f64| {
        differ(what, TABLE, bonds::At { bond: good.clone(), at }, ours, move |input| {
            rust(bond::yield_to_maturity(input.at, &input.bond.bond()), &input.bond.bond())
        })
    };
    let zero = |what, ytm, maturity| {
        differ(what, TABLE, bonds::Zero { ytm, maturity }, bonds::zero_coupon_price, |input| bond::zero_coupon_bond_price(input.ytm, input.maturity))
    };
    vec![
        price("a face below zero or not finite", bonds::Bond { face: -1.0, ..good }, 1.0),
        price("a coupon that is not finite", bonds::Bond { coupon: f64::NAN, ..good }, 1.0),
        price("a yield that is not finite", good.clone(), f64::INFINITY),
        price("a maturity that is not finite", bonds::Bond { maturity: f64::NAN, ..good }, 1.0),
        price("more than 1,200 periods", bonds::Bond { maturity: 1200.5, ..good }, 1e-13),
        at_price("no yield bracket", 2.0, bonds::ytm, |ytm, _| ytm),
        at_price("a duration at a price that no yield gives", 2.0, bonds::duration_at_price, bond::macaulay_duration),
        at_price("a market price that is not finite", f64::INFINITY, bonds::ytm, |ytm, _| ytm),
        zero("a zero-coupon price of an infinite maturity", 1.0, f64::INFINITY),
        zero("a zero-coupon price at a NaN yield", f64::NAN, 1.0),
    ]
}

fn curve(times: &[f64], rates: &[f64]) -> Curve {
    Curve { times: times.to_vec(), rates: rates.to_vec() }
}

fn of_yield_curves() -> Vec<Difference> {
    let at = |times: &[f64], rates: &[f64], t| At { curve: curve(times, rates), t };
    let linear =
        |what, input| differ(what, TABLE, input, curves::linear, |input: &At| YieldCurve::new(input.curve.points()).linear_interpolate(input.t));
    let many: Vec<f64> = (0..121).map(f64::from).collect();
    vec![
        linear("a curve with no knot, linear", at(&[], &[], 1.0)),
        differ("a curve with no knot, spline", TABLE, at(&[], &[], 1.0), curves::spline, |input| {
            input.curve.yields().cubic_spline_interpolate(input.t)
        }),
        differ("a fit through no point", TABLE, curve(&[], &[]), curves::fit, curves::rust_fit),
        Difference {
            input: "121 knots at 0, 1, .., 120 with rate 0.5, at 1".to_string(),
            ..linear("more than 120 knots", at(&many, &[0.5; 121], 1.0))
        },
        linear("knots out of order", at(&[2.0, 1.0], &[0.25, 0.5], 1.0)),
        linear("two knots at one time", at(&[1.0, 1.0], &[0.25, 0.5], 1.0)),
        linear("a knot before time 0", at(&[-1.0], &[0.5], 1.0)),
        linear("a rate that is not finite", at(&[1.0], &[f64::INFINITY], 1.0)),
        linear("a time that is NaN", at(&[1.0], &[0.5], f64::NAN)),
        linear("an infinite time", at(&[1.0], &[0.5], f64::INFINITY)),
        differ("a par yield of more than 1,200 half years", TABLE, at(&[1.0], &[0.0], 600.25), curves::par_yield, |input| {
            input.curve.yields().par_yield(input.t)
        }),
        differ(
            "a model's yield at a time that is not finite",
            TABLE,
            Model { model: [0.5, 0.5, 0.0, 0.5], t: f64::INFINITY },
            curves::model_yield,
            |input| curves::model_of(input).yield_at(input.t),
        ),
    ]
}

fn of_swaps() -> Vec<Difference> {
    let good = Swap { notional: 1.0, rate: 0.0, tenor: 1.0, frequency: 1, day_count: 0 };
    let flat = curve(&[1.0], &[0.0]);
    let leg = |what, swap: Swap, curve: &Curve| {
        differ(what, TABLE, Valued { swap, curve: curve.clone(), receive_fixed: 1 }, swaps::fixed_leg, |input| {
            fixed_leg_pv(&input.swap.spec(), &swaps::discount_curve(&input.curve))
        })
    };
    let bootstrap = |what, input: Curve| {
        differ(what, TABLE, input, swaps::bootstrap, |curve: &Curve| DiscountCurve::from_par_rates(&curve.times, &curve.rates).zero_rates)
    };
    vec![
        differ("a discount curve with no knot", TABLE, At { curve: curve(&[], &[]), t: 1.0 }, swaps::curve_rate, |input| {
            opened_rate(&input.curve.times, &input.curve.rates, input.t)
        }),
        differ("lists of a discount curve that differ in length", TABLE, At { curve: curve(&[1.0], &[]), t: 1.0 }, swaps::curve_rate, |input| {
            opened_rate(&input.curve.times, &input.curve.rates, input.t)
        }),
        bootstrap("lists of a bootstrap that differ in length", curve(&[1.0], &[])),
        bootstrap("a bootstrap of no knot", curve(&[], &[])),
        bootstrap("a bootstrap's tenor of 0", curve(&[0.0], &[0.5])),
        bootstrap("a bootstrap's tenor above 100", curve(&[100.00000000000001], &[0.5])),
        bootstrap("a par rate that is not finite", curve(&[1.0], &[f64::INFINITY])),
        leg("a notional below zero or not finite", Swap { notional: -1.0, ..good }, &flat),
        leg("a swap's tenor that is not finite", Swap { tenor: f64::NAN, ..good }, &flat),
        leg("a swap of more than 1,200 periods", Swap { tenor: 1200.5, ..good }, &flat),
        leg("a swap's frequency of 0", Swap { frequency: 0, ..good }, &flat),
        leg("a swap's frequency above 365", Swap { frequency: 366, ..good }, &flat),
        leg("a swap's rate that is not finite", Swap { rate: f64::NAN, ..good }, &flat),
    ]
}

fn of_spreads() -> Vec<Difference> {
    let flat = curve(&[1.0], &[0.0]);
    let flows = |times: &[f64], amounts: &[f64], at| Flows { times: times.to_vec(), amounts: amounts.to_vec(), curve: flat.clone(), at };
    let pv = |what, input| differ(what, TABLE, input, spreads::pv, |input: &Flows| input.pv(input.at));
    let spread = |what, why, input| {
        differ(what, why, input, spreads::spread, |input: &Flows| z_spread(&input.flows(), &spreads::zero_curve(&input.curve), input.at))
    };
    let bond = |what, bond| {
        differ(what, TABLE, bond, spreads::bond_flows, |bond: &spreads::Bond| {
            let flows = bond_cash_flows(bond.face, bond.coupon, bond.tenor, bond.frequency);
            flows.last().map(|last| vec![flows.len() as f64, last.time, last.amount])
        })
    };
    let good = spreads::Bond { face: 1.0, coupon: 0.0, tenor: 1.0, frequency: 1, times: 1, amounts: 1 };
    vec![
        differ("a rate curve with no knot", TABLE, At { curve: curve(&[], &[]), t: 1.0 }, spreads::zero_rate, |input| {
            spreads::zero_curve(&input.curve).rate_at(input.t)
        }),
        differ(
            "a forward rate to where exp gives 0",
            "exp below -708 gives 0, and a discount factor of 0 gives the rate 0",
            Between { curve: curve(&[1.0], &[709.0]), t1: 0.0, t2: 1.0 },
            spreads::forward_rate,
            |input| spreads::zero_curve(&input.curve).forward_rate(input.t1, input.t2),
        ),
        differ("knots of a rate curve out of order", TABLE, At { curve: curve(&[2.0, 1.0], &[0.25, 0.5]), t: 2.0 }, spreads::zero_rate, |input| {
            spreads::zero_curve(&input.curve).rate_at(input.t)
        }),
        pv("a flow's time that is not finite", flows(&[f64::INFINITY], &[1.0], 0.0)),
        pv("a flow's amount that is not finite", flows(&[1.0], &[f64::NAN], 0.0)),
        Difference {
            input: "1,201 flows of 1 at time 1, rate 0, spread 0".to_string(),
            ..pv("more than 1,200 flows", flows(&[1.0; 1201], &[1.0; 1201], 0.0))
        },
        spread("a market price that is not finite, for a spread", TABLE, flows(&[1.0], &[1.0], f64::NAN)),
        spread("no sign change: the end, marked by the 0 before it", "the caller must know", flows(&[1.0], &[1.0], 0.0)),
        bond("bond cash flows of a face below zero or not finite", spreads::Bond { face: -1.0, ..good }),
        bond("bond cash flows where a room is short", spreads::Bond { amounts: 0, ..good }),
        bond("bond cash flows of more than 1,200 periods", spreads::Bond { tenor: 1200.5, ..good }),
        bond("bond cash flows of a coupon that is not finite", spreads::Bond { coupon: f64::NAN, ..good }),
    ]
}

/// An input built to miss a tolerance of document 01: in its range, and yet farther apart.
fn of_tolerances() -> Vec<Difference> {
    let zigzag = curve(
        &[1.5, 1.625, 3.1875, 3.3125, 4.125, 4.15625, 6.25, 6.5, 8.1875, 8.21875],
        &[0.0502, 1.0483, 0.0273, 0.8515, 0.01, 0.6877, 0.019, 0.5667, 0.0075, 0.4646],
    );
    vec![differ(
        "zero rates farther apart than 1e-9: the last one",
        "each swing of the par rates enlarges the last bits of the one before some fifteenfold",
        zigzag,
        |curve| swaps::bootstrap(curve).map(|zeros| zeros[9..].to_vec()),
        |curve| DiscountCurve::from_par_rates(&curve.times, &curve.rates).zero_rates[9],
    )]
}

pub fn all() -> Vec<Difference> {
    let quiet = std::panic::take_hook();
    std::panic::set_hook(Box::new(|_| {}));
    let groups = [elementary_functions, of_loans, of_pools, of_bonds, of_yield_curves, of_swaps, of_spreads, of_tolerances];
    let all = groups.iter().flat_map(|group| group()).collect();
    std::panic::set_hook(quiet);
    all
}
