//! Measures: lots of 50,000 yen face, yen, prices and accrued amounts in thousandths of a yen per
//! 100 yen face.

use crate::book::{ISSUES, QUOTES};
use crate::questions::{days_in_range, lots_in_range, quote_in_range, rate_in_range};

/// The most lots of a call and of a fail entry, and the most a net may be to either side.
pub const MOST_LOTS: u32 = 20_000_000;
/// A unit is at most 5 billion yen, so 100,000 lots.
pub const UNIT_LOTS: u32 = 100_000;
/// The highest price, in thousandths of a yen per 100 yen face.
pub const MOST_PRICE: u32 = 200_000;
/// The highest accrued amount, in the same measure; price and accrued together are at most 200,000.
pub const MOST_ACCRUED: u32 = 10_000;
/// The most days of one roll.
pub const MOST_DAYS: u32 = 12;
/// The highest rate, in hundredths of a percent a year.
pub const MOST_RATE: u32 = 10_000;
/// Hundredths of a percent in the whole, times the days of a year.
const RATE_YEAR: u128 = 3_650_000;

/// A roll's quotes with the same price and the same accrued amount for every issue.
pub fn same_quotes(price: u32, accrued: u32) -> [u32; QUOTES] {
    let mut quotes = [price; QUOTES];
    quotes[ISSUES..].fill(accrued);
    quotes
}

/// The value of lots at a price and an accrued amount: (refusal number, yen), yen 0 on a refusal.
pub fn value(lots: u32, price: u32, accrued: u32) -> (u32, u64) {
    yen_answer(asked_value(lots, price, accrued))
}

/// The charge on that value for days at a rate: (refusal number, yen), yen 0 on a refusal.
pub fn charge(lots: u32, price: u32, days: u32, rate: u32, accrued: u32) -> (u32, u64) {
    yen_answer(asked_charge(lots, price, days, rate, accrued))
}

/// Value, with question 7 on lots and 11 on price and accrued.
fn asked_value(lots: u32, price: u32, accrued: u32) -> Result<u128, u32> {
    lots_in_range(lots)?;
    quote_in_range(price, accrued)?;
    Ok(value_of(lots, price, accrued))
}

/// Charge, with question 7 on lots and 11 on the other numbers.
fn asked_charge(lots: u32, price: u32, days: u32, rate: u32, accrued: u32) -> Result<u128, u32> {
    lots_in_range(lots)?;
    quote_in_range(price, accrued)?;
    days_in_range(days)?;
    rate_in_range(rate)?;
    Ok(charge_of(lots, price, days, rate, accrued))
}

/// Lots × price / 2 rounded down plus lots × accrued / 2 rounded down.
fn value_of(lots: u32, price: u32, accrued: u32) -> u128 {
    let half = |number: u32| u128::from(lots) * u128::from(number) / 2;
    half(price) + half(accrued)
}

/// Value × rate × days / 3,650,000, rounded down.
fn charge_of(lots: u32, price: u32, days: u32, rate: u32, accrued: u32) -> u128 {
    value_of(lots, price, accrued) * u128::from(rate) * u128::from(days) / RATE_YEAR
}

/// The answer as plain numbers; an accepted value is at most 2,000,000,000,000 yen.
fn yen_answer(asked: Result<u128, u32>) -> (u32, u64) {
    match asked {
        Ok(yen) => (0, yen as u64),
        Err(number) => (number, 0),
    }
}
