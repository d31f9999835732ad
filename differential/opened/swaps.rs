/// The private interpolation of a discount curve, for whoever compares with it.
pub fn opened_rate(tenors: &[f64], zero_rates: &[f64], t: f64) -> f64 {
    DiscountCurve { tenors: tenors.to_vec(), zero_rates: zero_rates.to_vec() }.interpolate_rate(t)
}
