//! A fail inside a trust account: each trade report's share of it.

use crate::declarations::day_trust;
use crate::Refusal;

/// The most reports, and the places that the output has at the least.
pub const REPORTS: usize = 256;
/// Sub-accounts 0 to 31.
pub const SUB_ACCOUNTS: u32 = 32;

/// One issue's trade reports of the day, in columns with a place for each. Columns of any length may
/// be lent; where one has another length than `sub_accounts` they are refused by 21.
#[derive(Clone, Copy, Debug, PartialEq, Eq)]
pub struct Reports<'a> {
    /// The sub-account of each, 0 to 31.
    pub sub_accounts: &'a [u32],
    /// The counterparty of each, 0 to 63.
    pub counterparties: &'a [u32],
    /// Received where above 0, delivered where below.
    pub lots: &'a [i32],
    /// 0 where the report has no earlier fail.
    pub earlier: &'a [u8],
}

/// Writes each report's share of the fail to the place of its number. Places beyond the reports keep
/// their content, and on a refusal (1, 5, 7, 21, 22, 23) all do.
pub fn shares(
    reports: &Reports,
    draw: &[u32],
    fail: u32,
    failing: u32,
    output: &mut [u32],
) -> Result<(), Refusal> {
    // SAFETY: the library reads the columns and the draw, and writes the output, each within the
    // length given beside it; the output, lent as `&mut`, overlaps none of them.
    let number = unsafe {
        day_trust(
            reports.sub_accounts.as_ptr(),
            reports.sub_accounts.len(),
            reports.counterparties.as_ptr(),
            reports.counterparties.len(),
            reports.lots.as_ptr(),
            reports.lots.len(),
            reports.earlier.as_ptr(),
            reports.earlier.len(),
            draw.as_ptr(),
            draw.len(),
            fail,
            failing,
            output.as_mut_ptr(),
            output.len(),
        )
    };
    Refusal::check(number)
}

#[cfg(test)]
mod tests {
    use super::{shares, Reports, REPORTS};
    use crate::Refusal;

    #[test]
    fn those_facing_the_failing_account_come_first() {
        let reports = Reports {
            sub_accounts: &[0, 0, 1],
            counterparties: &[9, 4, 4],
            lots: &[50, -20, 30],
            earlier: &[0, 0, 0],
        };
        let mut output = [7; REPORTS];
        assert_eq!(shares(&reports, &[0, 1, 2], 40, 4, &mut output), Ok(()));
        assert_eq!(output[..4], [10, 0, 30, 7]);
        assert_eq!(shares(&reports, &[0, 1, 1], 40, 4, &mut output), Err(Refusal::Draw));
        assert_eq!(shares(&reports, &[0, 1, 2], 81, 4, &mut output), Err(Refusal::Eligible));
        assert_eq!(
            shares(&Reports { earlier: &[], ..reports }, &[0, 1, 2], 40, 4, &mut output),
            Err(Refusal::Draw)
        );
        assert_eq!(output[..4], [10, 0, 30, 7]);
    }
}
