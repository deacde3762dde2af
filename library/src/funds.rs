//! Obligated funds for a default: base contributions, and each participant's share of the funds.
//! Amounts are in 100 million yen; a factor is in tenths.

use crate::declarations::{day_bases, day_funds, day_shares};
use crate::Refusal;

/// The most participants, and the places of an answer.
pub const PARTICIPANTS: usize = 64;
/// The most of an average, of the factor in tenths and of the funds.
pub const MOST_AMOUNT: u64 = 1_000_000;

/// What is answered by participant number from 0; 0 at the places beyond the participants.
pub type Amounts = [u64; PARTICIPANTS];

/// Writes the base contributions of averages, for a factor in tenths. A refusal (24) writes nothing.
pub fn bases(averages: &[u64], tenths: u64, output: &mut Amounts) -> Result<(), Refusal> {
    // SAFETY: the library reads the averages within the length given beside them, and writes the 64
    // places of the output, which, lent as `&mut`, overlaps them nowhere.
    let number = unsafe { day_bases(averages.as_ptr(), averages.len(), tenths, output) };
    Refusal::check(number)
}

/// Writes the shares of the funds among participants with these bases, which may be of any size. A
/// refusal (24, 25) writes nothing.
pub fn shares(
    averages: &[u64],
    bases: &[u64],
    funds: u64,
    output: &mut Amounts,
) -> Result<(), Refusal> {
    // SAFETY: the library reads averages and bases, each within the length given beside it, and writes
    // the 64 places of the output, which, lent as `&mut`, overlaps none of them.
    let number = unsafe {
        day_shares(averages.as_ptr(), averages.len(), bases.as_ptr(), bases.len(), funds, output)
    };
    Refusal::check(number)
}

/// Writes the shares of the funds among participants with the bases of their averages. A refusal (24, 25)
/// writes nothing.
pub fn funds(
    averages: &[u64],
    tenths: u64,
    funds: u64,
    output: &mut Amounts,
) -> Result<(), Refusal> {
    // SAFETY: the library reads the averages within the length given beside them, and writes the 64
    // places of the output, which, lent as `&mut`, overlaps them nowhere.
    let number = unsafe { day_funds(averages.as_ptr(), averages.len(), tenths, funds, output) };
    Refusal::check(number)
}

#[cfg(test)]
mod tests {
    use super::{bases, funds, shares, PARTICIPANTS};
    use crate::Refusal;

    #[test]
    fn larger_averages_come_first() {
        let averages = [20, 60, 10, 60, 0];
        let mut output = [7; PARTICIPANTS];
        assert_eq!(bases(&averages, 25, &mut output), Ok(()));
        assert_eq!(output[..6], [50, 150, 50, 150, 0, 0]);
        assert_eq!(funds(&averages, 25, 110, &mut output), Ok(()));
        assert_eq!(output[..6], [10, 50, 0, 50, 0, 0]);
        assert_eq!(shares(&averages, &[70, 30, 10, 200, 5], 150, &mut output), Ok(()));
        assert_eq!(output[..6], [50, 30, 10, 55, 5, 0]);
        assert!(output[6..].iter().all(|&place| place == 0));
    }

    #[test]
    fn a_refusal_writes_nothing() {
        let mut output = [7; PARTICIPANTS];
        assert_eq!(bases(&[0; PARTICIPANTS + 1], 25, &mut output), Err(Refusal::Participants));
        assert_eq!(shares(&[1, 2], &[3], 1, &mut output), Err(Refusal::Participants));
        assert_eq!(shares(&[1, 2], &[3, 4], 8, &mut output), Err(Refusal::Bases));
        assert_eq!(funds(&[1], 1, 51, &mut output), Err(Refusal::Bases));
        assert_eq!(funds(&[1], 1, 1_000_001, &mut output), Err(Refusal::Participants));
        assert_eq!(output, [7; PARTICIPANTS]);
    }
}
