//! The refusals: the number of each, what it says, and what to do about it.

use std::error::Error;
use std::fmt;

/// Why a call, a question, the reader or the writer refused; the numbers are the paper's. As an error it
/// says what to do.
#[derive(Clone, Copy, Debug, PartialEq, Eq, PartialOrd, Ord)]
#[non_exhaustive]
pub enum Refusal {
    /// 1: the lent output has fewer than 4,096 words (deliver, commit, cutoff, resolve, a run) or 33
    /// (writer), or 256 places (trust), or a run has no place for an answer.
    Output,
    /// 2: the book is not sound: it was changed by something other than the calls.
    Book,
    /// 3: the call belongs to another phase of the day.
    Phase,
    /// 4: the issue is above 15.
    Issue,
    /// 5: an account is above 63.
    Account,
    /// 6: from and to are the same account.
    SameAccount,
    /// 7: lots are not 1 to 20,000,000, or a report's are not within ±20,000,000 (trust), or there are
    /// too many accounts, too large a net or another number of delivered lots (markets).
    Lots,
    /// 8: a net would pass 20,000,000 lots to one side.
    Net,
    /// 9: the account does not owe that many lots, today (deliver) or in the ledger (resolve).
    Owed,
    /// 10: the ledger would have more than 2,048 entries.
    Room,
    /// 11: days are not 1 to 12, the rate is above 10,000, prices and accrued amounts are not sixteen
    /// each, or an issue's are not 1 to 200,000 and 0 to 10,000, together at most 200,000.
    Terms,
    /// 12: the day is 65,535, the last one.
    LastDay,
    /// 13: the tape ends before the instruction does.
    TapeEnds,
    /// 14: a word's kind or its unused bits are wrong.
    Word,
    /// 15: a number does not fit its bits.
    Bits,
    /// 16: the issue has no such unit (status), or it is handed already (ask, commit).
    Unit,
    /// 17: the ticket's account, lots, day or count is not what asking now gives (commit).
    Ticket,
    /// 18: eight lifts stand for the issue (commit).
    Lifts,
    /// 19: the issue is marked and the lots are odd (trade, deliver, resolve).
    OddLots,
    /// 20: the issue has a net or an entry, so its mark cannot be set (mark).
    InUse,
    /// 21: the list is not each report number just once, or a column of reports has another length
    /// (trust).
    Draw,
    /// 22: there are more than 256 reports, or a sub-account is above 31 (trust).
    Reports,
    /// 23: the fail is larger than the eligible lots (trust).
    Eligible,
    /// 24: there are more than 64 participants, averages and bases are not of one number, or an
    /// average, the factor in tenths or the funds are above 1,000,000 (funds).
    Participants,
    /// 25: the funds are above all bases together (funds).
    Bases,
    /// 26: the day is not after today, or full units are dealt in turn already (turn).
    ChangeOver,
    /// 27: the caller has not the right: the account is not its own, or the call is the operator's.
    Right,
    /// A number that this version of the crate does not know: the library is a later one.
    Other(u32),
}

impl Refusal {
    /// All refusals of the rules, by their numbers, 1 the first.
    pub const ALL: [Refusal; 27] = [
        Refusal::Output,
        Refusal::Book,
        Refusal::Phase,
        Refusal::Issue,
        Refusal::Account,
        Refusal::SameAccount,
        Refusal::Lots,
        Refusal::Net,
        Refusal::Owed,
        Refusal::Room,
        Refusal::Terms,
        Refusal::LastDay,
        Refusal::TapeEnds,
        Refusal::Word,
        Refusal::Bits,
        Refusal::Unit,
        Refusal::Ticket,
        Refusal::Lifts,
        Refusal::OddLots,
        Refusal::InUse,
        Refusal::Draw,
        Refusal::Reports,
        Refusal::Eligible,
        Refusal::Participants,
        Refusal::Bases,
        Refusal::ChangeOver,
        Refusal::Right,
    ];

    /// The refusal of a number; none for 0, which is done.
    pub fn of(number: u32) -> Option<Refusal> {
        let at = (number as usize).checked_sub(1)?;
        Some(Refusal::ALL.get(at).copied().unwrap_or(Refusal::Other(number)))
    }

    /// Done where the number is 0, otherwise its refusal.
    #[inline]
    pub fn check(number: u32) -> Result<(), Refusal> {
        Refusal::of(number).map_or(Ok(()), Err)
    }

    /// Its number.
    pub fn number(self) -> u32 {
        match self {
            Refusal::Other(number) => number,
            known => (1..).zip(Refusal::ALL).find(|(_, one)| *one == known).map_or(0, |(at, _)| at),
        }
    }

    /// What it says, in a few words.
    pub fn meaning(self) -> &'static str {
        match self {
            Refusal::Output => "the output has too few words",
            Refusal::Book => "the book is not sound",
            Refusal::Phase => "this is not the call's phase",
            Refusal::Issue => "the issue is above 15",
            Refusal::Account => "an account is above 63",
            Refusal::SameAccount => "from and to are the same account",
            Refusal::Lots => "lots are not 1 to 20,000,000",
            Refusal::Net => "a net would pass 20,000,000 lots to one side",
            Refusal::Owed => "the account does not owe that many lots",
            Refusal::Room => "the ledger would have more than 2,048 entries",
            Refusal::Terms => {
                "days are not 1 to 12, the rate is above 10,000, a price is not 1 to 200,000, an \
                 accrued amount is above 10,000, or both together are above 200,000"
            }
            Refusal::LastDay => "the day is 65,535, the last one",
            Refusal::TapeEnds => "the tape ends before the instruction does",
            Refusal::Word => "a word's kind or its unused bits are wrong",
            Refusal::Bits => "a number does not fit its bits",
            Refusal::Unit => "there is no such unit, or for a lift it is handed already",
            Refusal::Ticket => "the ticket is not what asking now gives",
            Refusal::Lifts => "eight lifts stand for the issue",
            Refusal::OddLots => "lots are odd in a marked issue",
            Refusal::InUse => "the issue has a net or an entry",
            Refusal::Draw => "the list is not each report number just once",
            Refusal::Reports => "there are more than 256 reports, or a sub-account is above 31",
            Refusal::Eligible => "the fail is larger than the eligible lots",
            Refusal::Participants => {
                "there are more than 64 participants, or an average, the factor in tenths or the \
                 funds are above 1,000,000"
            }
            Refusal::Bases => "the funds are above all bases together",
            Refusal::ChangeOver => "the day is not after today, or the new order is in force",
            Refusal::Right => "the caller has not the right",
            Refusal::Other(_) => "this version does not know the number",
        }
    }

    /// What to do about it.
    pub fn what_to_do(self) -> &'static str {
        match self {
            Refusal::Output => "Lend a larger output",
            Refusal::Book => {
                "Do not go on with it: run the day's tape again from the start, and make the lifts \
                 again, which stand on no tape"
            }
            Refusal::Phase => {
                "Wait for the phase, or make the call that leads to it: close, cutoff, roll"
            }
            Refusal::Issue => "Give an issue from 0 to 15",
            Refusal::Account => {
                "Give accounts from 0 to 63; on a simulated desk 64 settlement accounts from 0 to 15"
            }
            Refusal::SameAccount => "A trade has two accounts: correct one",
            Refusal::Lots => "Give 1 to 20,000,000 lots; split a larger quantity",
            Refusal::Net => "Trade fewer lots, or trade the other way first",
            Refusal::Owed => "Deliver or resolve at most what it still owes",
            Refusal::Room => "Resolve or pair off fails first, then make the cutoff again",
            Refusal::Terms => {
                "Correct the number that is out of range. Give 0 where nothing is accrued"
            }
            Refusal::LastDay => "The book has come to its last day: begin a new one",
            Refusal::TapeEnds => "The tape was cut: write it again to its end",
            Refusal::Word => "The word at this index is wrong: correct it",
            Refusal::Bits => "Give a number that fits",
            Refusal::Unit => {
                "Give the number of a unit that there is, for a lift one that still waits; the unit \
                 question tells account and lots of each"
            }
            Refusal::Ticket => {
                "Ask again, look whether it is still the unit that is meant, and commit with the new \
                 ticket"
            }
            Refusal::Lifts => {
                "No unit of the issue can be lifted any more today; deliver, or wait for the roll, \
                 which clears the lifts"
            }
            Refusal::OddLots => {
                "The issue trades in multiples of 100,000 yen face, two lots: give even lots"
            }
            Refusal::InUse => "Set the mark, or take it away, while the issue has neither",
            Refusal::Draw => {
                "Draw again: every report number from 0 on, none twice and none left out"
            }
            Refusal::Reports => "Give at most 256 reports, of sub-accounts from 0 to 31",
            Refusal::Eligible => {
                "The reports cannot bear so large a fail: see that none is missing, that receipts are \
                 above 0, and that earlier fails are marked rightly"
            }
            Refusal::Participants => {
                "Give amounts in 100 million yen, at most 64 participants, and columns of one length"
            }
            Refusal::Bases => {
                "The participants cannot be obliged to so much: lower the funds, or raise the factor"
            }
            Refusal::ChangeOver => {
                "Name a day after today. Once full units are dealt in turn, no other day can be \
                 named: the order stays"
            }
            Refusal::Right => {
                "The account belongs to another participant or to none, or the call is the \
                 operator's: have the operator make it, or correct the owners"
            }
            Refusal::Other(_) => "Build the program with the crate of the library's version",
        }
    }

    /// Its number and what it says, in a line.
    pub fn said(self) -> String {
        format!("refused by {}: {}", self.number(), self.meaning())
    }
}

impl fmt::Display for Refusal {
    /// Its number, what it says, and what to do.
    fn fmt(&self, text: &mut fmt::Formatter) -> fmt::Result {
        write!(text, "{}. {}", self.said(), self.what_to_do())
    }
}

impl Error for Refusal {}

#[cfg(test)]
mod tests {
    use super::Refusal;

    #[test]
    fn numbers_are_those_of_the_papers_in_order() {
        let numbers: Vec<u32> = Refusal::ALL.into_iter().map(Refusal::number).collect();
        assert_eq!(numbers, (1..=27).collect::<Vec<u32>>());
        assert_eq!(Refusal::of(9), Some(Refusal::Owed));
        assert_eq!(Refusal::of(23), Some(Refusal::Eligible));
        assert_eq!(Refusal::of(25), Some(Refusal::Bases));
        assert_eq!(Refusal::of(26), Some(Refusal::ChangeOver));
        assert_eq!(Refusal::of(27), Some(Refusal::Right));
        assert_eq!((Refusal::of(0), Refusal::check(0)), (None, Ok(())));
        for number in [28, u32::MAX] {
            assert_eq!(Refusal::check(number), Err(Refusal::Other(number)));
            assert_eq!(Refusal::Other(number).number(), number);
        }
    }

    #[test]
    fn as_an_error_each_says_what_the_document_says_to_do() {
        let document = include_str!("../../docs/REFUSALS.md");
        for refusal in Refusal::ALL {
            let row = format!("| {} | ", refusal.number());
            let row = document.lines().find(|line| line.starts_with(&row)).expect("a row");
            assert!(row.contains(refusal.what_to_do()), "{refusal}");
        }
        let error: &dyn std::error::Error = &Refusal::Owed;
        assert_eq!(
            error.to_string(),
            "refused by 9: the account does not owe that many lots. Deliver or resolve at most what \
             it still owes"
        );
    }

    #[test]
    fn each_meaning_is_its_own() {
        for one in Refusal::ALL {
            let same = Refusal::ALL.into_iter().filter(|other| other.meaning() == one.meaning());
            assert_eq!(same.count(), 1, "{one}");
        }
    }

    #[test]
    fn sixteen_fits_status_too() {
        let said = "refused by 16: there is no such unit, or for a lift it is handed already";
        assert_eq!(Refusal::Unit.said(), said);
    }

    #[test]
    fn the_header_says_the_same() {
        let header = include_str!("../../host/settlement_day.h");
        let texts: Vec<&str> = header.lines().filter(|line| line.contains("return \"")).collect();
        let own = [Refusal::Terms, Refusal::Reports, Refusal::Participants];
        for refusal in Refusal::ALL.into_iter().filter(|refusal| !own.contains(refusal)) {
            let text = format!("return \"{}\";", refusal.meaning());
            assert!(texts.iter().any(|line| line.ends_with(&text)), "{text}");
        }
    }
}
