//! Fails statements over a tape's span: for each account asked, what it had to deliver in an issue, what
//! came of it, and what it resolved.

use crate::batch::{Batch, Made};
use crate::input::Day;
use crate::json;
use crate::known::Known;
use crate::measure::{counted, Face, Grouped};
use crate::progress::Meter;
use crate::telling::page::markup::{escaped, page_of, shares, Look, STATEMENT};
use settlement_day::statement::{statement, Statement, MOST_INSTRUCTIONS};
use settlement_day::{Book, Instruction, Phase, Refusal};
use std::collections::BTreeSet;

/// Why a span ends where it does.
#[derive(Clone, Copy, Debug, PartialEq, Eq)]
enum End {
    /// The tape does.
    Tape,
    /// The reader refuses the words from here on.
    Refused(usize, Refusal),
    /// It has as many instructions as a span can, and more words stand from here on.
    Full(usize),
}

/// What was run: how many instructions, how many of them refused, why no more, and the book then.
#[derive(Clone, Copy, Debug, PartialEq, Eq)]
struct Span {
    instructions: usize,
    refused: usize,
    end: End,
    day: u16,
    settling: bool,
}

/// A statement and whose it is.
#[derive(Clone, Copy, Debug, PartialEq, Eq)]
struct Row {
    issue: u32,
    account: u32,
    statement: Statement,
}

/// The statements that were asked for.
#[derive(Clone, Debug, PartialEq, Eq)]
pub struct Told {
    span: Span,
    /// The word at which the span ends, with its line where that stands in a text.
    ends: String,
    /// The names, and the dates of the span's days.
    known: Known,
    /// Is it one account's?
    one: bool,
    rows: Vec<Row>,
}

impl Told {
    /// The statement of an account in an issue.
    pub fn one(day: &Day, issue: u32, account: u32) -> Result<Told, String> {
        let Ran { span, ends, known, words, .. } = run(day)?;
        let statement = statement(&words, issue, account).map_err(|refusal| refusal.said())?;
        let rows = vec![Row { issue, account, statement }];
        Ok(Told { span, ends, known, one: true, rows })
    }

    /// The statements of all issues and accounts that have a number in them.
    pub fn all(day: &Day) -> Result<Told, String> {
        let Ran { span, ends, known, words, named } = run(day)?;
        let mut rows = Vec::new();
        let mut meter = Meter::of_things("statement", named.len());
        for (at, (issue, account)) in named.into_iter().enumerate() {
            meter.at(at);
            let statement = statement(&words, issue, account).map_err(|refusal| refusal.said())?;
            if statement != Statement::default() {
                rows.push(Row { issue, account, statement });
            }
        }
        Ok(Told { span, ends, known, one: false, rows })
    }

    /// For people: a list of one account's numbers, or a table.
    pub fn text(&self) -> String {
        match self.rows.as_slice() {
            [row] if self.one => self.list(row),
            rows => self.table(rows),
        }
    }

    /// One account's numbers.
    fn list(&self, row: &Row) -> String {
        let Row { issue, account, statement } = row;
        let (issue, account) = (self.known.issue(*issue), self.known.account(*account));
        let Statement { due, delivered, failed, resolved, failed_over_due: (over, under) } =
            statement;
        let lots = [
            ("due to deliver at closes", due),
            ("delivered by cutoffs", delivered),
            ("failed", failed),
            ("resolved", resolved),
        ];
        let lots: String =
            lots.iter().map(|(name, lots)| format!("  {name:<26}{}\n", Face(**lots))).collect();
        let (over, under) = (Grouped((*over).into()), Grouped((*under).into()));
        format!(
            "account {account}, issue {issue}: {}\n{lots}  {:<26}{over} / {under}\n",
            self.head(),
            "failed over due"
        )
    }

    /// A table of all rows; issues and accounts have the room that the longest of them needs.
    fn table(&self, rows: &[Row]) -> String {
        let rows = rows.iter().map(|row| row.cells(&self.known));
        let cells: Vec<[String; 7]> =
            std::iter::once(HEADS.map(String::from)).chain(rows).collect();
        let room = |at: usize| cells.iter().map(|row| row[at].chars().count()).max().unwrap_or(0);
        let (of_issue, of_account) = (room(0), room(1));
        let line = |cells: &[String; 7]| {
            let [issue, account, due, delivered, failed, resolved, ratio] = cells;
            format!(
                "{issue:>of_issue$}  {account:>of_account$}  {due:>13}  {delivered:>13}  \
                 {failed:>13}  {resolved:>13}  {ratio}\n"
            )
        };
        let table: String = cells.iter().map(line).collect();
        format!("{}\n{table}", self.head())
    }

    /// Of which span they are.
    fn head(&self) -> String {
        let Span { instructions, refused, end, day, settling } = self.span;
        let refused = match refused {
            0 => String::new(),
            refused => format!(", {} refused", Grouped(refused as i128)),
        };
        let end = match end {
            End::Tape => String::new(),
            End::Refused(_, refusal) => {
                format!("; reading ends at {}, refused by {}", self.ends, refusal.number())
            }
            End::Full(_) => format!("; the words from {} on are behind the span", self.ends),
        };
        let open = if settling {
            let day = self.known.day(day);
            format!("; day {day} is still settling: of it only resolves are counted")
        } else {
            String::new()
        };
        format!("lots over {}{refused}{end}{open}", counted(instructions, "instruction"))
    }

    /// What is to be said where they are not of the whole tape.
    pub fn cut(&self) -> Option<String> {
        (self.span.end != End::Tape).then(|| self.head())
    }

    /// Does reading end before the tape does?
    pub fn is_unread(&self) -> bool {
        matches!(self.span.end, End::Refused(..))
    }

    /// The numbers of the span: instructions, those refused, the word at which reading ended early, the
    /// first word behind a full span, and the day still settling; none where there is no such.
    pub fn span(&self) -> [Option<u64>; 5] {
        let Span { instructions, refused, end, day, settling } = self.span;
        let (ended, behind) = match end {
            End::Tape => (None, None),
            End::Refused(word, _) => (Some(word as u64), None),
            End::Full(word) => (None, Some(word as u64)),
        };
        let settling = settling.then_some(u64::from(day));
        [Some(instructions as u64), Some(refused as u64), ended, behind, settling]
    }

    /// Issue and account of each row, and its lots due, delivered, failed and resolved.
    pub fn rows(&self) -> impl Iterator<Item = (u32, u32, [u64; 4])> + '_ {
        self.rows.iter().map(|row| {
            let Statement { due, delivered, failed, resolved, .. } = row.statement;
            (row.issue, row.account, [due, delivered, failed, resolved])
        })
    }

    /// An object of JSON for each row, a line each.
    pub fn json(&self) -> String {
        let [instructions, refused, ended, behind, settling] = self.span();
        let line = |row: &Row| {
            let Row { issue, account, statement } = *row;
            let Statement { due, delivered, failed, resolved, failed_over_due: (over, under) } =
                statement;
            json::fact_by(&self.known, "statement", |object| {
                object.issue(issue).account("account", account);
                object.field("due", due).field("delivered", delivered).field("failed", failed);
                object.field("resolved", resolved).field("failedOverDue", &[over, under][..]);
                object.field("instructions", instructions).field("refused", refused);
                object.field("ended", ended).field("behind", behind).field("settling", settling);
            })
        };
        self.rows.iter().map(line).collect()
    }

    /// A page with a row and a bar for each account: what it delivered of what was due.
    pub fn html(&self) -> String {
        let rows: Vec<Vec<String>> = self.rows.iter().map(|row| row.html(&self.known)).collect();
        let (head, named) = (format!("{}.", self.head()), !self.known.names.is_empty());
        let (lead, looks) = ([LEAD, &head], [DELIVERED, FAILED]);
        page_of("Fails statement", &lead, &looks, &STATEMENT, &rows, named)
    }
}

impl Row {
    /// The cells of a table.
    fn cells(&self, known: &Known) -> [String; 7] {
        let Statement { due, delivered, failed, resolved, failed_over_due: (over, under) } =
            self.statement;
        let of = |number: u64| Grouped(number.into()).to_string();
        [
            known.issue(self.issue).to_string(),
            known.account(self.account).to_string(),
            of(due),
            of(delivered),
            of(failed),
            of(resolved),
            format!("{} / {}", of(over), of(under)),
        ]
    }

    /// The row of a page.
    fn html(&self, known: &Known) -> Vec<String> {
        let Statement { due, delivered, failed, .. } = self.statement;
        let came = match due {
            0 => "nothing due".to_string(),
            due => shares(due, &[(DELIVERED, delivered), (FAILED, failed)]),
        };
        self.cells(known).iter().map(|cell| escaped(cell)).chain([came]).collect()
    }
}

/// A span that is run: the word at which it ends, with its line where that stands in a text; the names, and the
/// dates of its days; its words, which are all that the library is given; and which accounts sold or resolved in
/// which issues: no other has a number in its statement.
struct Ran {
    span: Span,
    ends: String,
    known: Known,
    words: Vec<u32>,
    named: BTreeSet<(u32, u32)>,
}

/// Runs a span. The words behind it are not read.
fn run(day: &Day) -> Result<Ran, String> {
    let (mut book, mut batch) = (Book::fresh(), Batch::default());
    let (mut known, mut words) = (Known::of(&day.names), Vec::new());
    let mut named = BTreeSet::new();
    let (mut instructions, mut refused) = (0, 0);
    let mut reading = day.reading();
    let end = loop {
        if !reading.more()? {
            break End::Tape;
        }
        if instructions == MOST_INSTRUCTIONS {
            break End::Full(reading.word());
        }
        let mut left = MOST_INSTRUCTIONS - instructions;
        let is_left = |_: &Instruction, _| left.checked_sub(1).map(|less| left = less).is_none();
        let used = match batch.make(&mut book, reading.words(), is_left) {
            Ok(used) => used,
            Err(refusal) => break End::Refused(reading.word(), refusal),
        };
        instructions += batch.len();
        while let Some(Made { instruction, refusal, .. }) = batch.next() {
            match instruction {
                Instruction::Trade { issue, from: account, .. }
                | Instruction::Resolve { issue, account, .. } => {
                    named.insert((issue, account));
                }
                _ => {}
            }
            match refusal {
                None => known.done(&instruction),
                Some(_) => refused += 1,
            }
        }
        words.extend(&reading.words()[..used]);
        reading.pass(used);
    };
    let ends = match end {
        End::Tape => String::new(),
        End::Refused(word, _) | End::Full(word) => day.named(word, reading.stands()),
    };
    if let End::Refused(..) = end {
        words.extend(reading.words());
    }
    let settling = book.phase == Phase::SETTLING;
    let span = Span { instructions, refused, end, day: book.day, settling };
    Ok(Ran { span, ends, known, words, named })
}

const HEADS: [&str; 7] =
    ["issue", "account", "due", "delivered", "failed", "resolved", "failed over due"];

/// What the page has before its table.
const LEAD: &str = "Lots that an account was due to deliver at closes, those that it delivered by the \
    cutoffs, those that it failed, and those that it resolved since. Due is delivered and failed together.";
/// How lots look that came by the cutoff, and those that did not.
const DELIVERED: Look =
    Look { class: "handed", word: "delivered", meaning: "lots that came by the cutoff" };
const FAILED: Look =
    Look { class: "failed", word: "failed", meaning: "lots that had not come at the cutoff" };

#[cfg(test)]
mod tests {
    use super::*;
    use crate::input::Taken;
    use crate::names::Names;

    const TWO_DAYS: &str = "trade 0 4 1 100\ntrade 0 5 2 50\nclose\ndeliver 0 4 60\ndeliver 0 5 60\n\
        cutoff\nresolve 0 4 15\nroll 1 300 100000 accrued 0\ntrade 0 4 2 30\nclose\nresolve 0 4 5\n";

    fn day(text: &str) -> Day {
        Day::of("day.txt", text.as_bytes().to_vec(), Taken::Apart).unwrap()
    }

    fn told(text: &str) -> Told {
        Told::all(&day(text)).unwrap()
    }

    #[test]
    fn one_account_is_told_as_a_list() {
        let tape = day(TWO_DAYS);
        let text = Told::one(&tape, 0, 4).unwrap().text();
        let expected = "\
account 4, issue 0: lots over 11 instructions, 1 refused; day 1 is still settling: of it only resolves \
are counted
  due to deliver at closes  100 lots (5,000,000 yen face)
  delivered by cutoffs      60 lots (3,000,000 yen face)
  failed                    40 lots (2,000,000 yen face)
  resolved                  20 lots (1,000,000 yen face)
  failed over due           40 / 100
";
        assert_eq!(text, expected);
        assert_eq!(Told::one(&tape, 16, 0), Err(Refusal::Issue.said()));
    }

    #[test]
    fn all_that_have_a_number_are_a_table() {
        let text = told(TWO_DAYS).text();
        let rows: Vec<Vec<&str>> =
            text.lines().skip(2).map(|line| line.split_whitespace().collect()).collect();
        let four = ["0", "4", "100", "60", "40", "20", "40", "/", "100"];
        let five = ["0", "5", "50", "0", "50", "0", "50", "/", "50"];
        assert_eq!(rows, [four, five]);
        assert!(told("close\n").rows.is_empty());
    }

    #[test]
    fn the_same_as_json_and_as_a_page() {
        let json = told(TWO_DAYS).json();
        let first =
            "{\"schema\":1,\"fact\":\"statement\",\"issue\":0,\"account\":4,\"due\":100,\
                     \"delivered\":60,\"failed\":40,\"resolved\":20,\"failedOverDue\":[40,100],\"instructions\":11,\
                     \"refused\":1,\"ended\":null,\"behind\":null,\"settling\":1}";
        assert_eq!(json.lines().next(), Some(first));
        assert_eq!(json.lines().count(), 2);
        let page = told(TWO_DAYS).html();
        for part in [
            "<table class=\"statement\">",
            "<td>40 / 100</td><td><b class=\"badge handed\">delivered</b> 60.0&nbsp;% <b class=\"badge failed\">\
             failed</b> 40.0&nbsp;% <span class=\"bar\" aria-hidden=\"true\"><i class=\"handed\" \
             style=\"left:0.00%;width:60.00%\"></i><i class=\"failed\" style=\"left:60.00%;width:40.00%\"></i>",
            "<p>lots over 11 instructions, 1 refused; day 1 is still settling: of it only resolves are counted.</p>",
            "@media (prefers-color-scheme: dark)",
        ] {
            assert!(page.contains(part), "{part}\n{page}");
        }
    }

    #[test]
    fn names_and_dates_stand_where_the_numbers_stood() {
        let names = "date 2026-11-17\nissue 0 JGB-350\naccount 4 A&B\n";
        let mut named = Day::by(Names::parse(names).unwrap());
        named.add("day.txt", TWO_DAYS.as_bytes().to_vec(), Taken::Apart).unwrap();
        let one = Told::one(&named, 0, 4).unwrap().text();
        let head = "account A&B, issue JGB-350: lots over 11 instructions, 1 refused; day 1 \
                    (2026-11-18) is still settling";
        assert!(one.starts_with(head), "{one}");
        let all = Told::all(&named).unwrap();
        let text = all.text();
        let lines: Vec<&str> = text.lines().skip(1).collect();
        let heads =
            "  issue  account            due      delivered         failed       resolved  \
                     failed over due";
        assert_eq!(lines[0], heads);
        assert!(lines[1].starts_with("JGB-350      A&B            100             60 "), "{text}");
        assert!(lines[2].starts_with("JGB-350        5             50              0 "), "{text}");
        let json = all.json();
        let first =
            "\"issue\":0,\"issue_name\":\"JGB-350\",\"account\":4,\"account_name\":\"A&B\",";
        assert!(json.lines().next().is_some_and(|line| line.contains(first)), "{json}");
        assert!(json.contains("\"issue_name\":\"JGB-350\",\"account\":5,\"due\":50,"), "{json}");
        assert!(all.html().contains("<tr><td>JGB-350</td><td>A&amp;B</td><td>100</td>"));
    }

    #[test]
    fn where_the_span_ends_is_told() {
        let cut = told("trade 0 1 2 5\nclose\nword 0\ncutoff\n");
        assert_eq!(cut.span.end, End::Refused(3, Refusal::Word));
        assert!(cut.text().contains("; reading ends at word 3, line 3, refused by 14"));
        let full = told(&"pair-off 0 1\n".repeat(4_096));
        assert_eq!((full.span.end, full.span.instructions), (End::Tape, 4_096));
        let over = told(&"pair-off 0 1\n".repeat(4_097));
        assert_eq!((over.span.end, over.span.instructions), (End::Full(4_096), 4_096));
        assert!(over
            .text()
            .contains("; the words from word 4096, line 4097 on are behind the span"));
    }
}
