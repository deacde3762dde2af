//! Value and charge of lots, as the desk's host program fetches them.

use crate::{raw, Refusal};

/// The value of lots at a price and an accrued amount, in yen. Refused by 7 and 11.
pub fn value(lots: u32, price: u32, accrued: u32) -> Result<u64, Refusal> {
    let (number, yen) = raw::value(lots, price, accrued);
    Refusal::check(number).map(|()| yen)
}

/// The charge on that value for days at a rate, in yen. Refused by 7 and 11.
pub fn charge(lots: u32, price: u32, days: u32, rate: u32, accrued: u32) -> Result<u64, Refusal> {
    let (number, yen) = raw::charge(lots, price, days, rate, accrued);
    Refusal::check(number).map(|()| yen)
}

#[cfg(test)]
mod tests {
    use super::{charge, value};
    use crate::Refusal;

    #[test]
    fn yen_or_why_there_are_none() {
        assert_eq!(value(1, 99_999, 0), Ok(49_999));
        assert_eq!(charge(1, 99_999, 12, 10_000, 0), Ok(1_643));
        assert_eq!(value(0, 99_999, 0), Err(Refusal::Lots));
        assert_eq!(charge(1, 99_999, 13, 10_000, 0), Err(Refusal::Terms));
    }
}
