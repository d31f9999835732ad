//! The Rust's published files, compiled as they are from where the folder of the build points to, and their answers as plain numbers.
#![allow(dead_code)]
#[path = "../../build/bench/published/bond.rs"]
pub mod bond;
#[path = "../../build/bench/published/mortgage.rs"]
pub mod mortgage;
#[path = "../../build/bench/published/spread_analytics.rs"]
pub mod spread_analytics;
#[path = "../../build/bench/published/swaps.rs"]
pub mod swaps;
#[path = "../../build/bench/published/yield_curve.rs"]
pub mod yield_curve;

use crate::measure::Numbers;

impl Numbers for f64 {
    fn numbers(&self) -> Vec<f64> {
        vec![*self]
    }
}

impl Numbers for mortgage::AmortizationRow {
    fn numbers(&self) -> Vec<f64> {
        vec![self.month.into(), self.payment, self.principal, self.interest, self.balance]
    }
}

/// A pool's month.
impl Numbers for (f64, f64, f64) {
    fn numbers(&self) -> Vec<f64> {
        vec![self.0, self.1, self.2]
    }
}

impl<A: Numbers> Numbers for Vec<A> {
    fn numbers(&self) -> Vec<f64> {
        self.iter().flat_map(Numbers::numbers).collect()
    }
}

impl Numbers for swaps::DiscountCurve {
    fn numbers(&self) -> Vec<f64> {
        self.zero_rates.clone()
    }
}

impl Numbers for swaps::SwapValuation {
    fn numbers(&self) -> Vec<f64> {
        vec![self.npv, self.fixed_pv, self.floating_pv, self.par_rate, self.dv01, self.duration]
    }
}

impl Numbers for yield_curve::NelsonSiegel {
    fn numbers(&self) -> Vec<f64> {
        vec![self.beta0, self.beta1, self.beta2, self.lambda]
    }
}
