//! An instruction: a call with its numbers, and the fields in which the library takes it.

/// An instruction as the library gives and takes it: kind 1 to 7, 13 or 14, then its numbers, 0
/// where there is none.
pub type Fields = [u32; 5];

/// A call with its numbers; a roll's sixteen prices and sixteen accrued amounts stand beside
/// it.
#[derive(Clone, Copy, Debug, PartialEq, Eq)]
pub enum Instruction {
    /// From's net falls and to's rises; in Taking.
    Trade {
        /// The issue.
        issue: u32,
        /// The account that is to deliver.
        from: u32,
        /// The account that is to receive.
        to: u32,
        /// The lots.
        lots: u32,
    },
    /// Units are handed over in order; in Settling.
    Deliver {
        /// The issue.
        issue: u32,
        /// The account that delivers.
        account: u32,
        /// The lots.
        lots: u32,
    },
    /// The account's fails are met, oldest first; in any phase.
    Resolve {
        /// The issue.
        issue: u32,
        /// The account that delivers.
        account: u32,
        /// The lots.
        lots: u32,
    },
    /// Fails to the account and from it cancel; in any phase.
    PairOff {
        /// The issue.
        issue: u32,
        /// The account that steps out.
        account: u32,
    },
    /// Taking becomes Settling.
    Close,
    /// What has not come is failed; Settling becomes Cut.
    Cutoff,
    /// Fails are charged; Cut becomes the next day's Taking.
    Roll {
        /// The days that are charged.
        days: u32,
        /// The rate, in hundredths of a percent a year.
        rate: u32,
    },
    /// The issue takes even lots only, or any lots again; in any phase.
    Mark {
        /// The issue.
        issue: u32,
        /// 0 where any lots are taken again.
        mark: u32,
    },
    /// From a day on full units are dealt in turn; in any phase.
    Turn {
        /// The first such day.
        day: u32,
    },
}

impl Instruction {
    /// The fields of an instruction.
    pub fn fields(&self) -> Fields {
        match *self {
            Instruction::Trade { issue, from, to, lots } => [1, issue, from, to, lots],
            Instruction::Deliver { issue, account, lots } => [2, issue, account, lots, 0],
            Instruction::Resolve { issue, account, lots } => [3, issue, account, lots, 0],
            Instruction::PairOff { issue, account } => [4, issue, account, 0, 0],
            Instruction::Close => [5, 0, 0, 0, 0],
            Instruction::Cutoff => [6, 0, 0, 0, 0],
            Instruction::Roll { days, rate } => [7, days, rate, 0, 0],
            Instruction::Mark { issue, mark } => [13, issue, mark, 0, 0],
            Instruction::Turn { day } => [14, day, 0, 0, 0],
        }
    }

    /// The instruction of fields; none where the kind is not 1 to 7, 13 or 14.
    #[inline]
    pub fn of_fields([kind, a, b, c, d]: Fields) -> Option<Instruction> {
        Some(match kind {
            1 => Instruction::Trade { issue: a, from: b, to: c, lots: d },
            2 => Instruction::Deliver { issue: a, account: b, lots: c },
            3 => Instruction::Resolve { issue: a, account: b, lots: c },
            4 => Instruction::PairOff { issue: a, account: b },
            5 => Instruction::Close,
            6 => Instruction::Cutoff,
            7 => Instruction::Roll { days: a, rate: b },
            13 => Instruction::Mark { issue: a, mark: b },
            14 => Instruction::Turn { day: a },
            _ => return None,
        })
    }

    /// The call's name, as `dayrun` prints it.
    pub fn name(&self) -> &'static str {
        match self {
            Instruction::Trade { .. } => "trade",
            Instruction::Deliver { .. } => "deliver",
            Instruction::Resolve { .. } => "resolve",
            Instruction::PairOff { .. } => "pair-off",
            Instruction::Close => "close",
            Instruction::Cutoff => "cutoff",
            Instruction::Roll { .. } => "roll",
            Instruction::Mark { .. } => "mark",
            Instruction::Turn { .. } => "turn",
        }
    }
}

#[cfg(test)]
mod tests {
    use super::Instruction;

    #[test]
    fn fields_there_and_back() {
        for fields in [
            [1, 2, 3, 4, 5],
            [2, 3, 4, 5, 0],
            [3, 4, 5, 6, 0],
            [4, 5, 6, 0, 0],
            [7, 1, 2, 0, 0],
            [13, 15, 1, 0, 0],
            [14, 65_535, 0, 0, 0],
        ] {
            assert_eq!(Instruction::of_fields(fields).map(|found| found.fields()), Some(fields));
        }
        assert_eq!(Instruction::of_fields([5, 0, 0, 0, 0]), Some(Instruction::Close));
        assert_eq!(Instruction::of_fields([6, 0, 0, 0, 0]), Some(Instruction::Cutoff));
        for kind in [0, 8, 9, 12, 15, 16, 29, u32::MAX] {
            assert_eq!(Instruction::of_fields([kind, 0, 0, 0, 0]), None);
        }
    }
}
