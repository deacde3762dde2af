//! Would smaller units loosen a jam? Unit sizes are tried on a simulated desk, from the nets of a
//! tape's book at its end and a text with settlement accounts and inventories.

use crate::fault::{words_of, Fault, Faults, Word};
use crate::json::{self, Name};
use crate::known::Dated;
use crate::measure::{Grouped, Lots};
use crate::names::{Kind, Names};
use crate::standing::Stood;
use crate::telling::page::markup::{page_of, shares, Look, UNIT_SIZES};
use crate::text::digits_of;
use settlement_day::simulation::{simulate, Desk, Simulated, MOST_SIZE, SETTLEMENT_ACCOUNTS};
use settlement_day::{Refusal, ACCOUNTS, ISSUES};

/// The sizes that are tried where none are named.
pub const SIZES: [u32; 9] = [100_000, 50_000, 20_000, 10_000, 5_000, 2_000, 1_000, 100, 1];

/// The most lots of an issue in a settlement account.
const MOST_LOTS: u32 = 20_000_000;

/// What a line of a desk's text may be.
const LINES: &str = "write `settles ACCOUNT SETTLEMENT`, `settles FIRST-LAST SETTLEMENT` or \
                     `holds SETTLEMENT ISSUE LOTS`";

/// A desk as a text has it: which accounts and inventories are named, and by which names.
struct Named<'a> {
    settles: [Option<u32>; ACCOUNTS],
    holds: [Option<u32>; ISSUES * SETTLEMENT_ACCOUNTS],
    names: &'a Names,
}

/// Reads a desk from its text: settlement accounts of the netting accounts, and inventories, 0 where
/// none is named. Every account with a net in the book needs a settlement account.
pub fn desk_of(text: &str, stood: &Stood) -> Result<Desk, Faults> {
    let (book, names) = (&stood.book, &stood.known.names);
    let (settles, holds) = ([None; ACCOUNTS], [None; ISSUES * SETTLEMENT_ACCOUNTS]);
    let mut named = Named { settles, holds, names };
    let text = text.strip_prefix('\u{feff}').unwrap_or(text);
    let mut faults = Faults::default();
    let mut last = 1;
    for (number, line) in (1..).zip(text.lines()) {
        last = number;
        let words: Vec<Word> = words_of(line, number).collect();
        if let Some((name, arguments)) = words.split_first() {
            named.take(name, arguments).err().into_iter().for_each(|fault| faults.push(fault));
        }
    }
    for account in 0..ACCOUNTS as u32 {
        let net = (0..ISSUES as u32).find(|&issue| book.net(issue, account) != 0);
        if let (Some(issue), None) = (net, named.settles[account as usize]) {
            let (issue, account) = (names.issue(issue), names.account(account));
            let what = format!(
                "account {account} has a net in issue {issue} and no settlement account: write \
                 `settles {account} SETTLEMENT`"
            );
            faults.push(Fault { line: last, column: 1, what });
        }
    }
    if faults.is_empty() {
        return Ok(named.desk());
    }
    Err(faults)
}

impl Named<'_> {
    /// Takes a line.
    fn take(&mut self, name: &Word, arguments: &[Word]) -> Result<(), Fault> {
        match (name.text, arguments) {
            ("settles", [accounts, settlement]) => self.settles(accounts, settlement),
            ("holds", [settlement, issue, lots]) => self.holds(settlement, issue, lots),
            ("settles" | "holds", _) => {
                let what = format!("{} has other words than these: {LINES}", name.text);
                Err(name.fault(what))
            }
            (other, _) => Err(name.fault(format!("there is no line {other:?}: {LINES}"))),
        }
    }

    /// Accounts that share a settlement account; each is named once.
    fn settles(&mut self, accounts: &Word, settlement: &Word) -> Result<(), Fault> {
        let (first, last) = range(accounts, self.names)?;
        let settlement =
            number("a settlement account", settlement, SETTLEMENT_ACCOUNTS as u32 - 1)?;
        for account in first..=last {
            if self.settles[account as usize].replace(settlement).is_some() {
                let account = self.names.account(account);
                let what =
                    format!("account {account} has a settlement account already: name it once");
                return Err(accounts.fault(what));
            }
        }
        Ok(())
    }

    /// What a settlement account holds of an issue; each is named once.
    fn holds(&mut self, settlement: &Word, issue: &Word, lots: &Word) -> Result<(), Fault> {
        let account = number("a settlement account", settlement, SETTLEMENT_ACCOUNTS as u32 - 1)?;
        let of = match named(Kind::Issue, issue, self.names)? {
            Some(of) => of,
            None => number("an issue", issue, ISSUES as u32 - 1)?,
        };
        let lots = number("lots", lots, MOST_LOTS)?;
        let place = of as usize * SETTLEMENT_ACCOUNTS + account as usize;
        if self.holds[place].replace(lots).is_some() {
            let of = self.names.issue(of);
            let what = format!(
                "settlement account {account} has lots of issue {of} already: name them once"
            );
            return Err(settlement.fault(what));
        }
        Ok(())
    }

    /// The desk, 0 for all that is not named.
    fn desk(&self) -> Desk {
        Desk {
            settles: self.settles.map(Option::unwrap_or_default),
            inventories: self.holds.map(Option::unwrap_or_default),
        }
    }
}

/// The number of a word that is a name of the kind; none where it must be a number.
fn named(kind: Kind, word: &Word, names: &Names) -> Result<Option<u32>, Fault> {
    names.named(kind, word.text).map_err(|what| word.fault(what))
}

/// The accounts of a word: one, by its name or its number, or a first and a last with `-` between.
pub(crate) fn range(word: &Word, names: &Names) -> Result<(u32, u32), Fault> {
    let most = ACCOUNTS as u32 - 1;
    if let Some(account) = named(Kind::Account, word, names)? {
        return Ok((account, account));
    }
    let Some((first, last)) = word.text.split_once('-') else {
        let account = number("an account", word, most)?;
        return Ok((account, account));
    };
    let part = |text| number("an account", &Word { text, ..*word }, most);
    let (first, last) = (part(first)?, part(last)?);
    if first > last {
        return Err(word.fault(format!("{first}-{last} has no account: write the lower one first")));
    }
    Ok((first, last))
}

/// A number from 0 to a limit.
pub(crate) fn number(what: &str, word: &Word, most: u32) -> Result<u32, Fault> {
    let number = digits_of(word.text).and_then(|digits| digits.parse().ok());
    number.filter(|&number: &u32| number <= most).ok_or_else(|| {
        let most = Grouped(most.into());
        word.fault(format!("{what} is a number from 0 to {most}, not {:?}", word.text))
    })
}

/// The sizes of an option: numbers with a comma between, each 1 to 100,000.
pub fn sizes_of(list: &str) -> Result<Vec<u32>, String> {
    let size = |word: &str| {
        let size = word.trim().replace('_', "").parse().ok();
        size.filter(|size| (1..=MOST_SIZE).contains(size)).ok_or_else(|| {
            format!("--sizes needs numbers from 1 to 100000 with a comma between, not {word:?}")
        })
    };
    list.split(',').map(size).collect()
}

/// What came of each size, on which book.
pub struct Tried {
    day: Dated,
    phase: &'static str,
    /// Did reading end by a refusal, and at which word?
    ended: Option<usize>,
    /// The lots owed at the opening.
    owed: u64,
    rows: Vec<(u32, Simulated)>,
}

/// Tries sizes on the nets of a book as the tape has brought it to its end.
pub fn try_sizes(stood: &Stood, desk: &Desk, sizes: &[u32]) -> Result<Tried, Refusal> {
    let book = &stood.book;
    let mut rows = Vec::new();
    for &size in sizes {
        rows.push((size, simulate(book, desk, size)?));
    }
    let owed = book.nets.iter().map(|&net| u64::from(net.min(0).unsigned_abs())).sum();
    let (day, ended) = (stood.known.day(book.day), stood.ended().then_some(stood.word));
    Ok(Tried { day, phase: stood.phase(), ended, owed, rows })
}

impl Tried {
    /// Where the tape stood, and what is owed.
    fn head(&self) -> String {
        let Tried { day, phase, ended, owed, .. } = self;
        let at = match ended {
            Some(word) => format!("where reading ends, at word {word}"),
            None => "at the end of the tape".to_string(),
        };
        format!("{at}, day {day}, {phase}: {} owed, nothing delivered yet", Lots(*owed))
    }

    /// A table for people.
    pub fn text(&self) -> String {
        let mut text = format!("{}\n", self.head());
        let line = |cells: [String; 4]| {
            let [size, rounds, deliveries, owed] = cells;
            format!("{size:>10}  {rounds:>14}  {deliveries:>14}  {owed:>16}\n")
        };
        text.push_str(&line(
            ["unit size", "rounds", "deliveries", "lots still owed"].map(String::from),
        ));
        for (size, tried) in &self.rows {
            let numbers = [u64::from(*size), tried.rounds, tried.deliveries, tried.owed_in_all()];
            text.push_str(&line(numbers.map(|number| Grouped(number.into()).to_string())));
        }
        text
    }

    /// An object of JSON for each size, a line each.
    pub fn json(&self) -> String {
        let Tried { day: Dated { number: day, date }, phase, ended, owed, ref rows, .. } = *self;
        let line = |(size, tried): &(u32, Simulated)| {
            json::fact("jam", |object| {
                object.dated(day, date).field("phase", Name(phase));
                object.field("ended", ended).field("owed", owed).field("size", *size);
                object.field("rounds", tried.rounds).field("deliveries", tried.deliveries);
                object.field("stillOwed", tried.owed_in_all());
                object.field("stillOwedByIssue", &tried.owed[..]);
            })
        };
        rows.iter().map(line).collect()
    }

    /// A page with a bar for each size: what was delivered, and what is still owed.
    pub fn html(&self) -> String {
        let rows: Vec<Vec<String>> = self.rows.iter().map(|row| self.row(row)).collect();
        let head = format!("{}.", self.head());
        page_of(TITLE, &[LEAD, &head], &[DELIVERED, OWED], &UNIT_SIZES, &rows, false)
    }

    /// A size's row of the page.
    fn row(&self, (size, tried): &(u32, Simulated)) -> Vec<String> {
        let left = tried.owed_in_all();
        let numbers = [u64::from(*size), tried.rounds, tried.deliveries, left];
        let cells = numbers.map(|number| Grouped(number.into()).to_string());
        let came = match self.owed {
            0 => "nothing owed".to_string(),
            all => shares(all, &[(DELIVERED, all.saturating_sub(left)), (OWED, left)]),
        };
        [&cells[..], &[came]].concat()
    }
}

/// The title of the page, and what it has before its table.
const TITLE: &str = "Unit sizes on a simulated desk";
const LEAD: &str =
    "Each account delivers in turn what its settlement account holds, until a round goes by \
    without a delivery, which is counted too. What is still owed then is jammed at that size.";
/// How lots look that were delivered, and those that are still owed.
const DELIVERED: Look =
    Look { class: "handed", word: "delivered", meaning: "lots that were delivered in the rounds" };
const OWED: Look =
    Look { class: "open", word: "still owed", meaning: "lots that are jammed at that size" };

#[cfg(test)]
mod tests {
    use super::*;
    use crate::input::{Day, Taken};
    use crate::standing::{run, When};

    /// Account 0 owes 100,000 lots, of which 1 is due 60,000 and 2 is due 40,000; by these names.
    fn ring_by(names: &str) -> Stood {
        let mut day = Day::by(Names::parse(names).unwrap());
        let text = b"trade 0 0 1 60000\ntrade 0 0 2 40000\n".to_vec();
        day.add("ring.txt", text, Taken::Apart).unwrap();
        let stood = run(&day, When::End).unwrap();
        assert!(!stood.ended());
        stood
    }

    fn ring() -> Stood {
        ring_by("")
    }

    const HALF: &str = "# all three share one account\nsettles 0-2 0\nholds 0 0 50,000\n";

    fn tried(sizes: &[u32]) -> Tried {
        let stood = ring();
        try_sizes(&stood, &desk_of(HALF, &stood).unwrap(), sizes).unwrap()
    }

    #[test]
    fn a_ring_that_jams_is_told_as_a_table() {
        let text = tried(&[100_000, 10_000]).text();
        let lines: Vec<Vec<&str>> =
            text.lines().skip(2).map(|line| line.split_whitespace().collect()).collect();
        assert_eq!(lines, [["100,000", "2", "1", "50,000"], ["10,000", "3", "2", "0"]]);
        assert!(
            text.starts_with("at the end of the tape, day 0, Taking: 100,000 lots owed"),
            "{text}"
        );
    }

    #[test]
    fn the_same_as_json_and_as_a_page() {
        let json = tried(&[100_000]).json();
        assert!(
            json.contains("\"size\":100000,\"rounds\":2,\"deliveries\":1,\"stillOwed\":50000,"),
            "{json}"
        );
        assert!(json.contains("\"stillOwedByIssue\":[50000,0,0,"), "{json}");
        let page = tried(&[100_000, 10_000]).html();
        for part in [
            "<table class=\"sizes\">",
            "<td>50,000</td><td><b class=\"badge handed\">delivered</b> 50.0&nbsp;% <b class=\"badge open\">still \
             owed</b> 50.0&nbsp;% <span class=\"bar\"",
            "<td>0</td><td><b class=\"badge handed\">delivered</b> 100.0&nbsp;% <span class=\"bar\"",
            "<i class=\"open\" style=\"left:50.00%;width:50.00%\"></i>",
            "@media (prefers-color-scheme: dark)",
        ] {
            assert!(page.contains(part), "{part}\n{page}");
        }
    }

    #[test]
    fn a_wrong_line_is_told_with_its_place() {
        let faults =
            desk_of("settles 0-2 16\nhold 0 0 5\nholds 0 16 5\nsettles 3\n", &ring()).unwrap_err();
        let places: Vec<(usize, usize)> =
            faults.first.iter().map(|fault| (fault.line, fault.column)).collect();
        assert_eq!(places, [(1, 13), (2, 1), (3, 9), (4, 1), (4, 1), (4, 1), (4, 1)]);
        assert!(faults.first[0].what.contains("from 0 to 15"), "{}", faults.first[0].what);
        assert!(
            faults.first[4].what.contains("account 0 has a net in issue 0"),
            "{}",
            faults.first[4].what
        );
        let twice = desk_of("settles 0-2 1\nsettles 2 0\n", &ring()).unwrap_err();
        assert!(twice.first[0].what.contains("already"), "{}", twice.first[0].what);
        assert!(desk_of("settles 2-0 1\n", &ring()).unwrap_err().first[0]
            .what
            .contains("lower one first"));
    }

    #[test]
    fn names_and_dates_stand_in_a_desk_and_in_what_is_told() {
        let stood = ring_by("date 2026-11-17\nissue 0 JGB-350\naccount 0 Nomura\naccount 2 SMBC\n");
        let desk = "settles Nomura 0\nsettles 1 0\nsettles SMBC 0\nholds 0 JGB-350 50,000\n";
        let desk = desk_of(desk, &stood).unwrap();
        assert_eq!(desk, desk_of(HALF, &stood).unwrap());
        let tried = try_sizes(&stood, &desk, &[10_000]).unwrap();
        assert!(tried.text().starts_with("at the end of the tape, day 0 (2026-11-17), Taking"));
        assert!(tried.html().contains("day 0 (2026-11-17), Taking"));
        let json = tried.json();
        assert!(json.contains("\"day\":0,\"date\":\"2026-11-17\",\"phase\""), "{json}");
        let faults = desk_of("settles 1 0\nsettles SNBC 1\nholds 0 JGB 5\n", &stood).unwrap_err();
        let told: Vec<String> = faults.first.iter().map(ToString::to_string).collect();
        let expected = [
            "line 2, column 9: there is no account \"SNBC\": the names file has Nomura, SMBC",
            "line 3, column 9: there is no issue \"JGB\": the names file has JGB-350",
            "line 3, column 1: account Nomura has a net in issue JGB-350 and no settlement account: \
             write `settles Nomura SETTLEMENT`",
        ];
        assert_eq!(told[..3], expected);
    }

    #[test]
    fn sizes_are_a_list() {
        assert_eq!(sizes_of("100000,1"), Ok(vec![100_000, 1]));
        for wrong in ["0", "100001", "", "1,,2", "x"] {
            assert!(sizes_of(wrong).is_err(), "{wrong}");
        }
    }
}
