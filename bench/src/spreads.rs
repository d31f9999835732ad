//! Spreads over a curve of thirty knots: what flows are worth, and the spread that a price implies.
use crate::curves::{curve, Curve, YEARS};
use crate::job::{one_by_one, Job};
use crate::library::*;
use crate::measure::unseen;
use crate::published::spread_analytics::{pv_cash_flows, z_spread, CashFlow, ZeroRateCurve};

const POINTS: f64 = 85.0;
const KNOTS: usize = 30;

/// The coupons of a bond that pays each half year, with 100 at the end, as two lists.
struct Flows {
    times: Vec<f64>,
    amounts: Vec<f64>,
}

fn flows(count: usize) -> Flows {
    let times = (1..=count).map(|k| 0.5 * k as f64).collect();
    let amounts = (1..=count).map(|k| if k == count { 102.5 } else { 2.5 }).collect();
    Flows { times, amounts }
}

impl Flows {
    fn dated(&self) -> Vec<CashFlow> {
        self.times.iter().zip(&self.amounts).map(|(&time, &amount)| CashFlow { time, amount }).collect()
    }
}

/// One number of flows over the curve.
fn number(
    what: &str,
    count: usize,
    at: f64,
    ours: impl Fn(&Flows, &Curve, f64, &mut f64) -> Outcome + 'static,
    rust: impl Fn(&[CashFlow], &ZeroRateCurve, f64) -> f64 + 'static,
) -> Job {
    let (flows, curve) = (flows(count), curve(YEARS, KNOTS));
    let (theirs, zeros) = (flows.dated(), curve.zero_rates());
    one_by_one(
        format!("{what} of {count} flows"),
        vec![at],
        move |at, place| ours(&flows, &curve, *at, place),
        move |at| rust(unseen::<Vec<_>>(&theirs), unseen(&zeros), *at),
    )
    .of_rows(count)
}

pub fn pv(count: usize) -> Job {
    let ours = |flows: &Flows, curve: &Curve, points: f64, pv: &mut f64| unsafe {
        senyolanda_pv_cash_flows(
            flows.times.as_ptr(), flows.times.len(), flows.amounts.as_ptr(), flows.amounts.len(),
            curve.times.as_ptr(), curve.times.len(), curve.rates.as_ptr(), curve.rates.len(), points, pv,
        )
    };
    number("pv", count, POINTS, ours, pv_cash_flows)
}

/// The market price is what the flows are worth at a spread, so that there is one to find.
pub fn spread(count: usize) -> Job {
    let market = pv_cash_flows(&flows(count).dated(), &curve(YEARS, KNOTS).zero_rates(), POINTS);
    let ours = |flows: &Flows, curve: &Curve, market: f64, points: &mut f64| unsafe {
        senyolanda_z_spread(
            flows.times.as_ptr(), flows.times.len(), flows.amounts.as_ptr(), flows.amounts.len(),
            curve.times.as_ptr(), curve.times.len(), curve.rates.as_ptr(), curve.rates.len(), market, points, &mut 0,
        )
    };
    number("z_spread", count, market, ours, z_spread)
}
