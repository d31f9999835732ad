// The Rust's published files, unchanged, and copies of two of them with a public way to a private function written under the published text.
// `differential/run` puts both where these lines look for them.

#[allow(dead_code)]
#[path = "../../build/differential/published/bond.rs"]
pub mod bond;

#[allow(dead_code)]
#[path = "../../build/differential/published/mortgage.rs"]
pub mod mortgage;

#[allow(dead_code)]
#[path = "../../build/differential/published/yield_curve.rs"]
pub mod yield_curve;

#[allow(dead_code)]
#[path = "../../build/differential/published/swaps.rs"]
pub mod swaps;

#[allow(dead_code)]
#[path = "../../build/differential/published/spread_analytics.rs"]
pub mod spread_analytics;

#[allow(dead_code)]
#[path = "../../build/differential/opened/swaps.rs"]
pub mod opened_swaps;

#[allow(dead_code)]
#[path = "../../build/differential/opened/spread_analytics.rs"]
pub mod opened_spread_analytics;
