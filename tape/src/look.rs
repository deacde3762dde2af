//! What a caller sees of an account: the tape is run up to a word, and the account is read entry by
//! entry, as a participant with its owners or as the operator.

use crate::fault::{words_of, Fault, Faults, Word};
use crate::input::Day;
use crate::jam::{number, range};
use crate::json::{self, Name};
use crate::known::Known;
use crate::measure::{Grouped, Lots};
use crate::names::Names;
use crate::standing::{run, When};
use settlement_day::access::{self, Account, NOBODY, PARTICIPANTS};
use settlement_day::{Caller, Entry, Refusal, ACCOUNTS};

/// What a line of the owners may be.
const LINES: &str = "write `owns PARTICIPANT ACCOUNT` or `owns PARTICIPANT FIRST-LAST`";

/// Reads the owners of the accounts from their text, by these names; an account that does not stand there
/// is nobody's.
pub fn owners_of(text: &str, names: &Names) -> Result<[u8; ACCOUNTS], Faults> {
    let mut owners = [NOBODY; ACCOUNTS];
    let text = text.strip_prefix('\u{feff}').unwrap_or(text);
    let mut faults = Faults::default();
    for (at, line) in (1..).zip(text.lines()) {
        let words: Vec<Word> = words_of(line, at).collect();
        if let Some((name, arguments)) = words.split_first() {
            own(&mut owners, name, arguments, names)
                .err()
                .into_iter()
                .for_each(|fault| faults.push(fault));
        }
    }
    if faults.is_empty() {
        Ok(owners)
    } else {
        Err(faults)
    }
}

/// Takes a line; each account stands once.
fn own(
    owners: &mut [u8; ACCOUNTS],
    name: &Word,
    arguments: &[Word],
    names: &Names,
) -> Result<(), Fault> {
    let ("owns", [participant, accounts]) = (name.text, arguments) else {
        return Err(name.fault(format!("the line is another one: {LINES}")));
    };
    let owner = number("a participant", participant, PARTICIPANTS - 1)?;
    let (first, last) = range(accounts, names)?;
    for account in first..=last {
        let place = &mut owners[account as usize];
        if *place != NOBODY {
            let account = names.account(account);
            let what = format!("account {account} has an owner already: name it once");
            return Err(accounts.fault(what));
        }
        *place = owner as u8;
    }
    Ok(())
}

/// Who reads which account, and when: before the instruction that begins at a word, or at the end.
#[derive(Clone, Copy, Debug, PartialEq, Eq)]
pub struct Question {
    pub caller: Caller,
    pub issue: u32,
    pub account: u32,
    pub at: Option<usize>,
}

/// What is seen, and where the tape stood.
#[derive(Clone, Debug, PartialEq, Eq)]
pub struct Seen {
    question: Question,
    day: u16,
    phase: &'static str,
    word: usize,
    /// The moment in words.
    moment: String,
    known: Known,
    /// Net and charge, and all entries, or the refusal.
    answer: Result<(Account, Vec<Entry>), Refusal>,
}

/// Runs a tape on a fresh book and reads the account; an error is that no instruction begins at the word.
pub fn read(day: &Day, question: &Question) -> Result<Seen, String> {
    let stood = run(day, question.at.map_or(When::End, When::Before))?;
    let book = &stood.book;
    let Question { ref caller, issue, account, .. } = *question;
    let mut entries = Vec::new();
    let answer = loop {
        match access::read(caller, book, issue, account, entries.len() as u32) {
            Ok(Account { entry: Some(entry), .. }) => entries.push(entry),
            Ok(last) => break Ok((last, entries)),
            Err(refusal) => break Err(refusal),
        }
    };
    let (phase, word, moment) = (stood.phase(), stood.word, stood.moment());
    let (day, known) = (book.day, stood.known);
    Ok(Seen { question: *question, day, phase, word, moment, known, answer })
}

impl Seen {
    /// Was it refused?
    pub fn refused(&self) -> bool {
        self.answer.is_err()
    }

    /// For people: a line for the account, and one for each entry.
    pub fn text(&self) -> String {
        let Seen { question: Question { issue, account, .. }, day, phase, ref moment, .. } = *self;
        let known = &self.known;
        let head = format!("{moment}, day {}, {phase}", known.day(day));
        let (seen, entries) = match &self.answer {
            Ok(answer) => answer,
            Err(refusal) => return format!("{head}: {}\n", refusal.said()),
        };
        let charge = Grouped(seen.charge.into());
        let net = net_of(seen.net);
        let (issue, account) = (known.issue(issue), known.account(account));
        let mut text =
            format!("{head}: account {account} in issue {issue}: {net}, charge {charge} yen\n");
        for (k, entry) in entries.iter().enumerate() {
            let Entry { from, to, lots, day, .. } = *entry;
            let (lots, day) = (Lots(lots.into()), known.day(day));
            let (from, to) = (known.account(from), known.account(to));
            text.push_str(&format!("entry {k}: {from} fails {lots} to {to}, since day {day}\n"));
        }
        text
    }

    /// The same as an object of JSON.
    pub fn json(&self) -> String {
        let Seen { question: Question { caller, issue, account, .. }, day, phase, word, .. } =
            *self;
        json::fact_by(&self.known, "account", |object| {
            object.day(day).field("phase", Name(phase));
            object.field("word", word).field("caller", caller.number);
            object.issue(issue).account("account", account);
            match &self.answer {
                Err(refusal) => {
                    object.field("refusal", refusal.number());
                }
                Ok((seen, entries)) => {
                    object.field("refusal", 0_u32).field("net", seen.net);
                    object.field("charge", seen.charge).objects(
                        "entries",
                        entries,
                        |one, entry| {
                            one.account("from", entry.from).account("to", entry.to);
                            one.field("lots", entry.lots).day(entry.day);
                        },
                    );
                }
            }
        })
    }
}

/// A net for people.
fn net_of(net: i32) -> String {
    let lots = Lots(net.unsigned_abs().into());
    match net {
        0 => "no net".to_string(),
        1.. => format!("{lots} due to it"),
        _ => format!("it owes {lots}"),
    }
}

#[cfg(test)]
mod tests {
    use super::*;
    use crate::input::Taken;

    const OWNERS: &str = "# two agents\nowns 0 5\nowns 1 2-3\n";

    fn seen(caller: u32, account: u32) -> Seen {
        let day = "trade 0 4 1 230000\ntrade 0 5 2 250000\ntrade 0 5 3 150000\nclose\n\
                   deliver 0 5 345000\ndeliver 0 4 200000\ncutoff\n";
        let day = Day::of("day.txt", day.as_bytes().to_vec(), Taken::Apart).unwrap();
        let owners = owners_of(OWNERS, &Names::default()).unwrap();
        let caller = Caller { number: caller, owners };
        read(&day, &Question { caller, issue: 0, account, at: None }).unwrap()
    }

    #[test]
    fn an_own_account_is_told_with_its_entries() {
        let text = seen(0, 5).text();
        let head = "at the end of the tape, day 0, Cut: account 5 in issue 0: it owes 400,000 lots";
        assert!(text.starts_with(head), "{text}");
        assert!(text.contains("entry 1: 5 fails 30,000 lots to 1, since day 0\n"), "{text}");
        assert_eq!(text.lines().count(), 3);
        let json = seen(1, 2).json();
        let entry = "\"entries\":[{\"from\":4,\"to\":2,\"lots\":5000,\"day\":0}]";
        assert!(json.contains(entry), "{json}");
    }

    #[test]
    fn anothers_account_is_refused() {
        assert!(seen(0, 2).refused() && seen(1, 5).refused() && seen(17, 4).refused());
        assert!(!seen(16, 4).refused());
        assert!(seen(0, 2).text().contains("refused by 27"));
        assert!(seen(0, 2).json().contains("\"refusal\":27"));
    }

    #[test]
    fn wrong_owners_are_told_with_their_place() {
        let owners = "owns 16 1\nown 0 1\nowns 0 64\nowns 0 1\nowns 1 0-2\n";
        let faults = owners_of(owners, &Names::default()).unwrap_err();
        let places: Vec<(usize, usize)> =
            faults.first.iter().map(|fault| (fault.line, fault.column)).collect();
        assert_eq!(places, [(1, 6), (2, 1), (3, 8), (5, 8)]);
    }

    #[test]
    fn owners_can_stand_by_the_names_of_accounts() {
        let names = Names::parse("account 5 Nomura\naccount 7 JP-Bank\n").unwrap();
        let owners = owners_of("owns 0 Nomura\nowns 1 2-3\nowns 2 JP-Bank\n", &names).unwrap();
        assert_eq!((owners[5], owners[2], owners[3], owners[7], owners[4]), (0, 1, 1, 2, NOBODY));
        let faults = owners_of("owns 0 Nomra\nowns 0 5\nowns 1 Nomura\n", &names).unwrap_err();
        let told: Vec<String> = faults.first.iter().map(ToString::to_string).collect();
        let unknown = "there is no account \"Nomra\": the names file has Nomura, JP-Bank";
        assert_eq!(told[0], format!("line 1, column 8: {unknown}"));
        assert_eq!(told[1], "line 3, column 8: account Nomura has an owner already: name it once");
    }
}
