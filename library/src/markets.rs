//! Every small market, each once: all nets of a few accounts that sum to 0, and how many of them have how
//! many fail entries.

use crate::declarations::{day_market_fails, day_markets};
use crate::Refusal;

/// The most accounts of a market.
pub const MOST_ACCOUNTS: u32 = 5;
/// The most lots of a net to either side.
pub const MOST_NET: u32 = 4;
/// The places that the output of [`list`] has at the least.
pub const PLACES: usize = 19_755;
/// Markets are counted by 0 to 4 fail entries.
pub const COUNTS: usize = 5;

/// Writes all nets of so many accounts, each within ±most, that sum to 0, one market after the other in
/// rising order, the first account compared first; gives the number of markets. A refusal (1, 7) writes
/// nothing, and places after the last market are as they came.
pub fn list(accounts: u32, most: u32, output: &mut [i32]) -> Result<usize, Refusal> {
    let mut count = 0;
    // SAFETY: the library writes the output within the length given beside it, and the count.
    let number =
        unsafe { day_markets(accounts, most, output.as_mut_ptr(), output.len(), &mut count) };
    Refusal::check(number).map(|()| count as usize)
}

/// The same markets, each a list of its accounts' nets. Refused by 7.
pub fn all(accounts: u32, most: u32) -> Result<Vec<Vec<i32>>, Refusal> {
    let mut output = vec![0; PLACES];
    let count = list(accounts, most, &mut output)?;
    let length = accounts as usize;
    Ok((0..count).map(|at| output[at * length..(at + 1) * length].to_vec()).collect())
}

/// How many of the markets in which each account owes at least its delivered lots have 0, 1, 2, 3, 4 fail
/// entries after cutoff. Refused by 7, also where there are not so many delivered lots as accounts.
pub fn fails(accounts: u32, most: u32, delivered: &[u32]) -> Result<[u32; COUNTS], Refusal> {
    let mut counts = [0; COUNTS];
    // SAFETY: the library reads the delivered lots within the length given beside them, and writes the
    // counts, which overlap them nowhere.
    let number = unsafe {
        day_market_fails(accounts, most, delivered.as_ptr(), delivered.len(), &mut counts)
    };
    Refusal::check(number).map(|()| counts)
}

#[cfg(test)]
mod tests {
    use super::{all, fails, list, PLACES};
    use crate::Refusal;

    #[test]
    fn markets_rise_and_each_comes_once() {
        assert_eq!(all(2, 1), Ok(vec![vec![-1, 1], vec![0, 0], vec![1, -1]]));
        let markets = all(4, 1).unwrap();
        assert_eq!(markets.len(), 19);
        assert!(markets.windows(2).all(|pair| pair[0] < pair[1]));
        assert_eq!(all(5, 4).unwrap().len() * 5, PLACES);
        assert_eq!(all(0, 4), Ok(vec![vec![]]));
    }

    #[test]
    fn places_after_the_last_are_as_they_came() {
        let mut output = vec![9; PLACES + 1];
        assert_eq!(list(2, 1, &mut output), Ok(3));
        assert_eq!(output[..6], [-1, 1, 0, 0, 1, -1]);
        assert!(output[6..].iter().all(|&place| place == 9));
        assert_eq!(list(6, 1, &mut output), Err(Refusal::Lots));
        assert_eq!(list(2, 5, &mut output), Err(Refusal::Lots));
        assert_eq!(list(6, 5, &mut output[..PLACES - 1]), Err(Refusal::Output));
        assert_eq!(output[..6], [-1, 1, 0, 0, 1, -1]);
    }

    #[test]
    fn markets_are_counted_by_their_fail_entries() {
        assert_eq!(fails(4, 1, &[0; 4]), Ok([1, 12, 6, 0, 0]));
        assert_eq!(fails(5, 4, &[1, 0, 2, 0, 0]), Ok([10, 69, 164, 121, 27]));
        assert_eq!(fails(3, 2, &[3, 0, 0]), Ok([0; 5]));
        assert_eq!(fails(0, 4, &[]), Ok([1, 0, 0, 0, 0]));
        assert_eq!(fails(3, 2, &[0; 2]), Err(Refusal::Lots));
        assert_eq!(fails(6, 2, &[0; 6]), Err(Refusal::Lots));
        assert_eq!(fails(3, 5, &[0; 3]), Err(Refusal::Lots));
    }
}
