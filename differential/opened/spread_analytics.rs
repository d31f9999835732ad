/// The private duration and convexity of cash flows, for whoever compares with them.
pub fn opened_duration_convexity(times: &[f64], amounts: &[f64], tenors: &[f64], rates: &[f64], points: f64) -> (f64, f64) {
    let flows: Vec<CashFlow> = times.iter().zip(amounts).map(|(time, amount)| CashFlow { time: *time, amount: *amount }).collect();
    duration_convexity(&flows, &ZeroRateCurve { tenors: tenors.to_vec(), rates: rates.to_vec() }, points)
}
