//! The library's functions for Rust programs, as include/senyolanda.h declares them; test/header.py holds them to it.

/// 0 where a call was accepted, else a refusal.
pub type Outcome = u64;

pub const LOAN_BYTES: usize = 21;
pub const BOND_BYTES: usize = 26;
pub const ROW_BYTES: usize = 37;
pub const SWAP_BYTES: usize = 30;
pub const DATED_SWAP_BYTES: usize = 38;
pub const DATE_NUMBERS: usize = 3;
pub const LISTING_BYTES: usize = 96000;
pub const ROW_PLACES: usize = 5;
pub const YEAR_PLACES: usize = 4;
pub const POOL_MONTH_PLACES: usize = 3;
pub const LOAN_COUNTS: usize = 2;
pub const LOAN_AMOUNTS: usize = 3;
pub const MOST_BOOK_LOANS: usize = 256;
pub const MOST_KNOTS: usize = 120;

type Number<'a> = &'a mut f64;
type Count<'a> = &'a mut u32;
type Counts<'a> = &'a mut [u32; LOAN_COUNTS];
type Amounts<'a> = &'a mut [f64; LOAN_AMOUNTS];
type Date<'a> = &'a mut [u32; DATE_NUMBERS];
type CountsToRead<'a> = &'a [u32; LOAN_COUNTS];
type AmountsToRead<'a> = &'a [f64; LOAN_AMOUNTS];

/// Declares exported functions: a list in brackets crosses as its pointer and its count, room as `[mut room: f64]` likewise.
macro_rules! exported {
    ($($name:ident($($parameters:tt)*);)+) => {
        $(exported!(@ $name () $($parameters)*);)+
    };
    (@ $name:ident ($($done:tt)*)) => {
        extern "C" {
            pub fn $name($($done)*) -> Outcome;
        }
    };
    (@ $name:ident ($($done:tt)*) [mut $room:ident: $item:ty] $(, $($rest:tt)*)?) => {
        exported!(@ $name ($($done)* $room: *mut $item, _: usize,) $($($rest)*)?);
    };
    (@ $name:ident ($($done:tt)*) [$list:ident: $item:ty] $(, $($rest:tt)*)?) => {
        exported!(@ $name ($($done)* $list: *const $item, _: usize,) $($($rest)*)?);
    };
    (@ $name:ident ($($done:tt)*) $parameter:ident: $kind:ty $(, $($rest:tt)*)?) => {
        exported!(@ $name ($($done)* $parameter: $kind,) $($($rest)*)?);
    };
}

exported! {
    senyolanda_exp(x: f64, answer: Number);
    senyolanda_exp_each([mut numbers: f64]);
    senyolanda_ln(x: f64, answer: Number);
    senyolanda_power(x: f64, y: f64, answer: Number);

    senyolanda_monthly_payment([record: u8], payment: Number);
    senyolanda_open([record: u8], counts: Counts, amounts: Amounts);
    senyolanda_open_with_payment([record: u8], given: f64, counts: Counts, amounts: Amounts);
    senyolanda_draw(counts: Counts, amounts: Amounts, [mut room: f64], written: Count, owed: Count);
    senyolanda_draw_with_years(counts: Counts, amounts: Amounts, [mut room: f64], [mut years: f64], written: Count, owed: Count);
    senyolanda_look_up_year(counts: CountsToRead, amounts: AmountsToRead, [years: f64], year: u32, line: &mut [f64; YEAR_PLACES]);
    senyolanda_next_row(counts: Counts, amounts: Amounts, record: &mut [u8; ROW_BYTES], written: Count, owed: Count);
    senyolanda_draw_book([records: u8], [mut answers: u32], [mut room: f64], finished: Count, cut: Count, waiting: Count);
    senyolanda_total_interest([record: u8], interest: Number);
    senyolanda_remaining_balance([record: u8], months: u32, balance: Number);
    senyolanda_ltv([record: u8], value: f64, ratio: Number);
    senyolanda_prepayment_savings([record: u8], extra: f64, months: Count, interest: Number);
    senyolanda_refinance_breakeven([old_record: u8], [new_record: u8], cost: f64, elapsed: u32, month: Count);
    senyolanda_listing([record: u8], text: &mut [u8; LISTING_BYTES], size: Count);

    senyolanda_monthly_smm(speed: u32, number: f64, [history: f64], month: u32, smm: Number);
    senyolanda_pool_cash_flows([records: u8], speed: u32, number: f64, [history: f64], [mut room: f64], months: Count);
    senyolanda_pool_price([records: u8], speed: u32, number: f64, [history: f64], rate: f64, price: Number);
    senyolanda_pool_duration([records: u8], speed: u32, number: f64, [history: f64], rate: f64, duration: Number);
    senyolanda_pool_convexity([records: u8], speed: u32, number: f64, [history: f64], rate: f64, convexity: Number);
    senyolanda_pool_totals([records: u8], totals: &mut [f64; 3]);

    senyolanda_bond_price([record: u8], ytm: f64, price: Number);
    senyolanda_bond_dv01([record: u8], ytm: f64, dv01: Number);
    senyolanda_bond_current_yield([record: u8], market: f64, current: Number);
    senyolanda_bond_yield_to_maturity([record: u8], market: f64, ytm: Number);
    senyolanda_bond_macaulay_duration([record: u8], ytm: f64, duration: Number);
    senyolanda_bond_modified_duration([record: u8], ytm: f64, duration: Number);
    senyolanda_bond_convexity([record: u8], ytm: f64, convexity: Number);
    senyolanda_bond_price_change([record: u8], ytm: f64, delta: f64, change: Number);
    senyolanda_bond_macaulay_duration_at_price([record: u8], market: f64, duration: Number);
    senyolanda_bond_modified_duration_at_price([record: u8], market: f64, duration: Number);
    senyolanda_bond_convexity_at_price([record: u8], market: f64, convexity: Number);
    senyolanda_zero_coupon_bond_price(ytm: f64, maturity: f64, price: Number);
    senyolanda_periods_per_year(frequency: u32, periods: Count);

    senyolanda_linear_interpolate([times: f64], [rates: f64], t: f64, rate: Number);
    senyolanda_linear_interpolate_each([times: f64], [rates: f64], [mut asked: f64]);
    senyolanda_cubic_spline_interpolate([times: f64], [rates: f64], t: f64, rate: Number);
    senyolanda_yield_curve_discount_factor([times: f64], [rates: f64], t: f64, factor: Number);
    senyolanda_yield_curve_discount_factor_each([times: f64], [rates: f64], [mut asked: f64]);
    senyolanda_yield_curve_forward_rate([times: f64], [rates: f64], t1: f64, t2: f64, rate: Number);
    senyolanda_par_yield([times: f64], [rates: f64], t: f64, par: Number);
    senyolanda_nelson_siegel_fit([times: f64], [rates: f64], model: &mut [f64; 4]);
    senyolanda_nelson_siegel_yield(model: &[f64; 4], t: f64, rate: Number);
    senyolanda_nelson_siegel_forward_rate(model: &[f64; 4], t: f64, rate: Number);
    senyolanda_nelson_siegel_instantaneous_forward(model: &[f64; 4], rate: Number);
    senyolanda_nelson_siegel_metrics(model: &[f64; 4], metrics: &mut [f64; 3]);

    senyolanda_day_count_fraction(day_count: u32, days: u32, fraction: Number);
    senyolanda_bootstrap([tenors: f64], [par_rates: f64], zero_rates: &mut [f64; MOST_KNOTS]);
    senyolanda_discount_curve_rate([tenors: f64], [zeros: f64], t: f64, rate: Number);
    senyolanda_discount_curve_rate_each([tenors: f64], [zeros: f64], [mut asked: f64]);
    senyolanda_discount_curve_factor([tenors: f64], [zeros: f64], t: f64, factor: Number);
    senyolanda_discount_curve_factor_each([tenors: f64], [zeros: f64], [mut asked: f64]);
    senyolanda_fixed_leg_pv([record: u8], [tenors: f64], [zeros: f64], pv: Number);
    senyolanda_floating_leg_pv([record: u8], [tenors: f64], [zeros: f64], pv: Number);
    senyolanda_swap_npv([record: u8], [tenors: f64], [zeros: f64], receive_fixed: u32, npv: Number);
    senyolanda_par_swap_rate([record: u8], [tenors: f64], [zeros: f64], rate: Number);
    senyolanda_swap_dv01([record: u8], [tenors: f64], [zeros: f64], receive_fixed: u32, dv01: Number);
    senyolanda_swap_duration([record: u8], [tenors: f64], [zeros: f64], duration: Number);
    senyolanda_value_swap([record: u8], [tenors: f64], [zeros: f64], receive_fixed: u32, valuation: &mut [f64; 6]);

    senyolanda_zero_curve_rate([tenors: f64], [rates: f64], t: f64, rate: Number);
    senyolanda_zero_curve_rate_each([tenors: f64], [rates: f64], [mut asked: f64]);
    senyolanda_swap_curve_rate([tenors: f64], [rates: f64], tenor: f64, rate: Number);
    senyolanda_swap_curve_rate_each([tenors: f64], [rates: f64], [mut asked: f64]);
    senyolanda_zero_curve_discount_factor([tenors: f64], [rates: f64], t: f64, factor: Number);
    senyolanda_zero_curve_discount_factor_each([tenors: f64], [rates: f64], [mut asked: f64]);
    senyolanda_zero_curve_forward_rate([tenors: f64], [rates: f64], t1: f64, t2: f64, rate: Number);
    senyolanda_bond_cash_flows(face: f64, coupon: f64, tenor: f64, frequency: u32, [mut times: f64], [mut amounts: f64], flows: Count);
    senyolanda_pv_cash_flows([times: f64], [amounts: f64], [tenors: f64], [rates: f64], points: f64, pv: Number);
    senyolanda_z_spread([times: f64], [amounts: f64], [tenors: f64], [rates: f64], market: f64, points: Number, found: Count);
    senyolanda_duration_convexity([times: f64], [amounts: f64], [tenors: f64], [rates: f64], points: f64, sensitivity: &mut [f64; 2]);
    senyolanda_dated_pv([flows: f64], [tenors: f64], [rates: f64], points: f64, pv: Number);
    senyolanda_dated_z_spread([flows: f64], [tenors: f64], [rates: f64], market: f64, points: Number, found: Count);
    senyolanda_dated_duration_convexity([flows: f64], [tenors: f64], [rates: f64], points: f64, sensitivity: &mut [f64; 2]);
    senyolanda_points_to_decimal(points: f64, rate: Number);
}

/// The kinds of loans.
#[allow(dead_code)]
pub mod kinds {
    use super::*;

    exported! {
        senyolanda_open_interest_only([record: u8], months: u32, counts: Counts, amounts: Amounts);
        senyolanda_open_interest_only_with_payment([record: u8], months: u32, given: f64, counts: Counts, amounts: Amounts);
        senyolanda_draw_interest_only(months: u32, counts: Counts, amounts: Amounts, [mut room: f64], written: Count, owed: Count);
        senyolanda_draw_interest_only_with_years(months: u32, counts: Counts, amounts: Amounts, [mut room: f64], [mut years: f64], written: Count, owed: Count);
        senyolanda_next_interest_only_row(months: u32, counts: Counts, amounts: Amounts, record: &mut [u8; ROW_BYTES], written: Count, owed: Count);

        senyolanda_open_balloon([record: u8], month: u32, counts: Counts, amounts: Amounts);
        senyolanda_open_balloon_with_payment([record: u8], month: u32, given: f64, counts: Counts, amounts: Amounts);
        senyolanda_draw_balloon(month: u32, counts: Counts, amounts: Amounts, [mut room: f64], written: Count, owed: Count);
        senyolanda_draw_balloon_with_years(month: u32, counts: Counts, amounts: Amounts, [mut room: f64], [mut years: f64], written: Count, owed: Count);
        senyolanda_next_balloon_row(month: u32, counts: Counts, amounts: Amounts, record: &mut [u8; ROW_BYTES], written: Count, owed: Count);
        senyolanda_look_up_balloon_year(month: u32, counts: CountsToRead, amounts: AmountsToRead, [years: f64], year: u32, line: &mut [f64; YEAR_PLACES]);

        senyolanda_open_adjustable([record: u8], initial: f64, cap: f64, lifetime: f64, [index: f64], counts: Counts, amounts: Amounts);
        senyolanda_draw_adjustable(initial: f64, cap: f64, lifetime: f64, [index: f64], counts: Counts, amounts: Amounts, [mut room: f64], written: Count, owed: Count);
        senyolanda_draw_adjustable_with_years(initial: f64, cap: f64, lifetime: f64, [index: f64], counts: Counts, amounts: Amounts, [mut room: f64], [mut years: f64], written: Count, owed: Count);
        senyolanda_next_adjustable_row(initial: f64, cap: f64, lifetime: f64, [index: f64], counts: Counts, amounts: Amounts, record: &mut [u8; ROW_BYTES], written: Count, owed: Count);
    }
}

/// Dates and dated swaps.
#[allow(dead_code)]
pub mod dates {
    use super::*;

    exported! {
        senyolanda_day_number(year: u32, month: u32, day: u32, number: Count);
        senyolanda_date_of_number(number: u32, date: Date);
        senyolanda_months_later(year: u32, month: u32, day: u32, months: u32, date: Date);
        senyolanda_actual_days(first_year: u32, first_month: u32, first_day: u32, second_year: u32, second_month: u32, second_day: u32, days: Count);
        senyolanda_days_30_360(first_year: u32, first_month: u32, first_day: u32, second_year: u32, second_month: u32, second_day: u32, days: Count);
        senyolanda_dated_fraction(day_count: u32, first_year: u32, first_month: u32, first_day: u32, second_year: u32, second_month: u32, second_day: u32, fraction: Number);

        senyolanda_dated_fixed_leg_pv([record: u8], [tenors: f64], [zeros: f64], pv: Number);
        senyolanda_dated_floating_leg_pv([record: u8], [tenors: f64], [zeros: f64], pv: Number);
        senyolanda_dated_swap_npv([record: u8], [tenors: f64], [zeros: f64], receive_fixed: u32, npv: Number);
        senyolanda_dated_par_swap_rate([record: u8], [tenors: f64], [zeros: f64], rate: Number);
        senyolanda_dated_swap_dv01([record: u8], [tenors: f64], [zeros: f64], receive_fixed: u32, dv01: Number);
        senyolanda_dated_swap_duration([record: u8], [tenors: f64], [zeros: f64], duration: Number);
        senyolanda_value_dated_swap([record: u8], [tenors: f64], [zeros: f64], receive_fixed: u32, valuation: &mut [f64; 6]);
    }
}

/// The readers and writers of records.
#[allow(dead_code)]
pub mod records {
    use super::*;

    exported! {
        senyolanda_read_loan([record: u8], principal: Number, rate: Number, term: Count);
        senyolanda_write_loan(principal: f64, rate: f64, term: u32, record: &mut [u8; LOAN_BYTES]);
        senyolanda_read_bond([record: u8], face: Number, coupon: Number, maturity: Number, frequency: Count);
        senyolanda_write_bond(face: f64, coupon: f64, maturity: f64, frequency: u32, record: &mut [u8; BOND_BYTES]);
        senyolanda_read_row([record: u8], month: Count, payment: Number, principal: Number, interest: Number, balance: Number);
        senyolanda_write_row(month: u32, payment: f64, principal: f64, interest: f64, balance: f64, record: &mut [u8; ROW_BYTES]);
        senyolanda_read_swap([record: u8], notional: Number, rate: Number, tenor: Number, frequency: Count, day_count: Count);
        senyolanda_write_swap(notional: f64, rate: f64, tenor: f64, frequency: u32, day_count: u32, record: &mut [u8; SWAP_BYTES]);
        senyolanda_read_dated_swap([record: u8], notional: Number, rate: Number, tenor: Number, frequency: Count, first: Date, second: Date, day_count: Count);
        senyolanda_write_dated_swap(notional: f64, rate: f64, tenor: f64, frequency: u32, first_year: u32, first_month: u32, first_day: u32, second_year: u32, second_month: u32, second_day: u32, day_count: u32, record: &mut [u8; DATED_SWAP_BYTES]);
    }
}

/// Calls an exported function, with lists in brackets as it is declared.
#[macro_export]
macro_rules! called {
    (@ $function:ident ($($done:expr,)*)) => {
        unsafe { $function($($done),*) }
    };
    (@ $function:ident ($($done:expr,)*) [mut $room:expr] $(, $($rest:tt)*)?) => {
        $crate::called!(@ $function ($($done,)* $room.as_mut_ptr(), $room.len(),) $($($rest)*)?)
    };
    (@ $function:ident ($($done:expr,)*) [$list:expr] $(, $($rest:tt)*)?) => {
        $crate::called!(@ $function ($($done,)* $list.as_ptr(), $list.len(),) $($($rest)*)?)
    };
    (@ $function:ident ($($done:expr,)*) $argument:expr $(, $($rest:tt)*)?) => {
        $crate::called!(@ $function ($($done,)* $argument,) $($($rest)*)?)
    };
    ($function:ident, $($arguments:tt)*) => {
        $crate::called!(@ $function () $($arguments)*)
    };
}
