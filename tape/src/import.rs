//! The text form of a day, made of CSV files: trades, deliveries, and the quotes of its roll.
//!
//! What the book refuses whatever stands in it, such as 0 lots, is told here with its place in the
//! file; what it refuses by its own numbers `tape check` tells of the text.

use crate::block::put;
use crate::csv::{self, Column, Take};
use crate::fault::{Fault, Faults, Word};
use crate::input;
use crate::lines::Lines;
use crate::measure::Grouped;
use crate::names::Names;
use crate::output::Untold;
use crate::source::Source;
use crate::telling::text::listed;
use crate::text::{line_of, taken, Field, ACCOUNT, ACCRUED, FROM, ISSUE, LOTS, PRICE, TO};
use settlement_day::{Instruction, ISSUES};
use std::io::{self, Write};

/// The columns of the files.
const TRADES: [Column; 4] = [must(ISSUE), must(FROM), must(TO), must(LOTS)];
const DELIVERIES: [Column; 3] = [must(ISSUE), must(ACCOUNT), must(LOTS)];
const QUOTES: [Column; 3] =
    [must(ISSUE), must(PRICE), Column { name: ACCRUED.name, lacking: Some("0") }];

/// The bytes that the workbook of a spreadsheet begins with.
const WORKBOOK: &[u8] = b"PK\x03\x04";

/// A column that a file must have.
const fn must(field: Field) -> Column {
    Column { name: field.name, lacking: None }
}

/// A file that is text.
#[derive(Debug)]
pub struct File {
    source: Source,
}

impl File {
    /// The file of a source, or why that is no text.
    pub fn of(mut source: Source) -> Result<File, String> {
        if source.first().starts_with(WORKBOOK) {
            let name = source.name();
            return Err(format!(
                "{name}: this is a workbook and not CSV: save it as CSV in UTF-8, with commas"
            ));
        }
        input::wants_text(&mut source)?;
        Lines::looked_at(&source).look()?;
        Ok(File { source })
    }

    /// Its rows, read by these columns; answers how many lines it has.
    fn read<const N: usize>(
        &self,
        columns: &[Column; N],
        take: &mut Take<N>,
    ) -> Result<usize, Untold> {
        csv::read(&self.source, columns, take)?.map_err(|faults| self.wrong(&faults))
    }

    /// What is wrong with it, a line each.
    fn wrong(&self, faults: &Faults) -> Untold {
        Untold::Unread(input::errors(self.source.name(), faults))
    }

    /// Its name in a comment, which is one line.
    fn shown(&self) -> String {
        self.source.name().replace(char::is_control, "?")
    }
}

/// The roll of a day: its quotes, for how many days and at which rate.
#[derive(Debug)]
pub struct Roll {
    pub quotes: File,
    pub days: u32,
    pub rate: u32,
}

/// The quote of an issue, and the line that has it.
#[derive(Clone, Copy, Default)]
struct Quote {
    price: u32,
    accrued: u32,
    line: usize,
}

/// The files of a day.
#[derive(Debug, Default)]
pub struct Files {
    pub trades: Option<File>,
    pub deliveries: Option<File>,
    pub roll: Option<Roll>,
    /// The names that may stand for issues and accounts.
    pub names: Names,
}

impl Files {
    /// All that is wrong with the files, which are read to their ends.
    pub fn judge(&self) -> Result<(), String> {
        let mut errors = Vec::new();
        let nowhere = &mut io::sink();
        for told in [self.first(nowhere), self.second(nowhere), self.third(nowhere)] {
            if let Err(Untold::Unread(error)) = told {
                errors.push(error);
            }
        }
        if errors.is_empty() {
            return Ok(());
        }
        Err(errors.join("\n"))
    }

    /// Tells the text form of the day, of files with which nothing is wrong: the trades; the close and the
    /// deliveries, where there are deliveries or quotes; the cutoff and the roll, where there are quotes.
    pub fn tell(&self, out: &mut dyn Write) -> Result<(), Untold> {
        out.write_all(self.made_of().as_bytes())?;
        self.first(out)?;
        self.second(out)?;
        self.third(out)
    }

    /// The trades.
    fn first(&self, out: &mut dyn Write) -> Result<(), Untold> {
        self.trades.as_ref().map_or(Ok(()), |file| self.trades_of(file, out))
    }

    /// The close and the deliveries.
    fn second(&self, out: &mut dyn Write) -> Result<(), Untold> {
        if self.deliveries.is_some() || self.roll.is_some() {
            out.write_all(line(&Instruction::Close, &[]).as_bytes())?;
        }
        self.deliveries.as_ref().map_or(Ok(()), |file| self.deliveries_of(file, out))
    }

    /// The cutoff and the roll.
    fn third(&self, out: &mut dyn Write) -> Result<(), Untold> {
        let Some(roll) = &self.roll else { return Ok(()) };
        out.write_all(line(&Instruction::Cutoff, &[]).as_bytes())?;
        self.roll_of(roll, out)
    }

    /// The first line: a comment with the files.
    fn made_of(&self) -> String {
        let quotes = self.roll.as_ref().map(|roll| &roll.quotes);
        let files = [("trades", &self.trades), ("deliveries", &self.deliveries)];
        let files = files.map(|(what, file)| (what, file.as_ref()));
        let files = files.into_iter().chain([("quotes", quotes)]);
        let named: Vec<String> =
            files.filter_map(|(what, file)| Some(format!("{what} of {}", file?.shown()))).collect();
        format!("# made by `tape import`: {}\n", named.join(", "))
    }

    /// The trades of a file, a line each.
    fn trades_of(&self, file: &File, out: &mut dyn Write) -> Result<(), Untold> {
        let mut line = Vec::new();
        let read = file.read(&TRADES, &mut |[issue, from, to, lots]| {
            let found = all([
                self.taken(ISSUE, &issue),
                self.taken(FROM, &from),
                self.taken(TO, &to),
                self.taken(LOTS, &lots),
            ]);
            let trade = match found {
                Ok(found) => found,
                Err(wrong) => return Ok(wrong),
            };
            let [_, seller, buyer, _] = trade;
            if seller == buyer {
                let what = "from and to are the same account: a trade has two, correct one";
                return Ok(vec![to.fault(what.to_string())]);
            }
            write_line(out, "trade", trade, &mut line)?;
            Ok(Vec::new())
        });
        read.map(|_| ())
    }

    /// The deliveries of a file, a line each.
    fn deliveries_of(&self, file: &File, out: &mut dyn Write) -> Result<(), Untold> {
        let mut line = Vec::new();
        let read = file.read(&DELIVERIES, &mut |[issue, account, lots]| {
            let found = all([
                self.taken(ISSUE, &issue),
                self.taken(ACCOUNT, &account),
                self.taken(LOTS, &lots),
            ]);
            match found {
                Ok(delivery) => write_line(out, "deliver", delivery, &mut line)?,
                Err(wrong) => return Ok(wrong),
            }
            Ok(Vec::new())
        });
        read.map(|_| ())
    }

    /// The line of a roll.
    fn roll_of(&self, roll: &Roll, out: &mut dyn Write) -> Result<(), Untold> {
        let Roll { ref quotes, days, rate } = *roll;
        let numbers = self.quotes_of(quotes)?;
        Ok(out.write_all(line(&Instruction::Roll { days, rate }, &numbers).as_bytes())?)
    }

    /// The prices of all issues, then their accrued amounts.
    fn quotes_of(&self, file: &File) -> Result<Vec<u32>, Untold> {
        let mut quotes: [Option<Quote>; ISSUES] = [None; ISSUES];
        let lines = file.read(&QUOTES, &mut |[issue, price, accrued]| {
            let found = all([
                self.taken(ISSUE, &issue),
                self.taken(PRICE, &price),
                self.taken(ACCRUED, &accrued),
            ]);
            let [number, price, interest] = match found {
                Ok(found) => found,
                Err(wrong) => return Ok(wrong),
            };
            let most = *PRICE.range().end();
            if price + interest > most {
                let (found, most) = (Grouped((price + interest).into()), Grouped(most.into()));
                let what =
                    format!("price and accrued are together {found}: they are at most {most}");
                return Ok(vec![accrued.fault(what)]);
            }
            let quote = Quote { price, accrued: interest, line: issue.line };
            if let Some(first) = quotes[number as usize].replace(quote) {
                let line = first.line;
                let issue_told = self.names.issue(number);
                let what = format!("issue {issue_told} has a quote in line {line}: leave one out");
                return Ok(vec![issue.fault(what)]);
            }
            Ok(Vec::new())
        })?;
        let lacking = (0..).zip(&quotes).filter(|(_, quote)| quote.is_none());
        let lacking: Vec<u32> = lacking.map(|(issue, _)| issue).collect();
        if !lacking.is_empty() {
            return Err(file.wrong(&self.no_quotes(lines, &lacking).into()));
        }
        let quotes = quotes.map(Option::unwrap_or_default);
        let prices = quotes.iter().map(|quote| quote.price);
        Ok(prices.chain(quotes.iter().map(|quote| quote.accrued)).collect())
    }

    /// The number that a cell has in the column of a field, or that of the name that stands there.
    fn taken(&self, field: Field, word: &Word) -> Result<u32, Fault> {
        taken(&self.names, field, word)
    }

    /// What is said of issues without a quote, at the last line of the file.
    fn no_quotes(&self, line: usize, issues: &[u32]) -> Fault {
        let told: Vec<_> = issues.iter().map(|issue| self.names.issue(*issue)).collect();
        let (names, has) = match told.as_slice() {
            [issue] => (format!("issue {issue}"), "has"),
            issues => (format!("issues {}", listed(issues)), "have"),
        };
        let what = format!(
            "{names} {has} no quote: a roll needs the price of all sixteen issues, and none is \
             invented"
        );
        Fault { line, column: 1, what }
    }
}

/// The line of an instruction, with its end.
fn line(instruction: &Instruction, quotes: &[u32]) -> String {
    let mut line = line_of(instruction, quotes);
    line.push('\n');
    line
}

/// Writes the line of an instruction that is its name and numbers. The room in which it is put together is lent:
/// to take some for each of many lines is slow.
fn write_line<const N: usize>(
    out: &mut dyn Write,
    name: &str,
    numbers: [u32; N],
    line: &mut Vec<u8>,
) -> io::Result<()> {
    line.clear();
    put!(line, name)?;
    for number in numbers {
        put!(line, " ", u64::from(number))?;
    }
    put!(line, "\n")?;
    out.write_all(line)
}

/// All numbers of a row, or all that is wrong with them.
fn all<const N: usize>(read: [Result<u32, Fault>; N]) -> Result<[u32; N], Vec<Fault>> {
    let (mut numbers, mut faults) = ([0; N], Vec::new());
    for (number, read) in numbers.iter_mut().zip(read) {
        match read {
            Ok(found) => *number = found,
            Err(fault) => faults.push(fault),
        }
    }
    if faults.is_empty() {
        return Ok(numbers);
    }
    Err(faults)
}

#[cfg(test)]
mod tests {
    use super::*;

    fn file(name: &str, text: &str) -> Option<File> {
        Some(File::of(Source::held(name, text.as_bytes().to_vec())).unwrap())
    }

    impl Files {
        /// The text form of the day, or all that is wrong with the files.
        fn day(&self) -> Result<String, String> {
            self.judge()?;
            let mut told = Vec::new();
            self.tell(&mut told).unwrap();
            Ok(String::from_utf8(told).unwrap())
        }
    }

    fn trades(text: &str) -> Result<String, String> {
        Files { trades: file("t.csv", text), ..Files::default() }.day()
    }

    fn quotes(text: &str) -> Result<String, String> {
        let quotes = file("q.csv", text).unwrap();
        Files { roll: Some(Roll { quotes, days: 3, rate: 250 }), ..Files::default() }.day()
    }

    /// Quotes of these issues, at 100 yen.
    fn at_100(issues: impl IntoIterator<Item = u32>) -> String {
        let rows = issues.into_iter().map(|issue| format!("{issue},100000\n"));
        format!("issue,price\n{}", rows.collect::<String>())
    }

    #[test]
    fn a_day_has_as_much_as_its_files() {
        let trades = file("t.csv", "lots,to,from,issue\n\"1,000\",2,1,0\n5,1,63,15\n");
        let deliveries = file("d.csv", "issue,account,lots\n0,1,7\n");
        let quotes = file("q\n.csv", &at_100((0..16).rev())).unwrap();
        let roll = Some(Roll { quotes, days: 1, rate: 300 });
        let lines = "trade 0 1 2 1000\ntrade 15 63 1 5\n";
        let files = Files { trades, ..Files::default() };
        let day = format!("# made by `tape import`: trades of t.csv\n{lines}");
        assert_eq!(files.day(), Ok(day));
        let files = Files { deliveries, ..files };
        let made = "# made by `tape import`: trades of t.csv, deliveries of d.csv";
        assert_eq!(files.day(), Ok(format!("{made}\n{lines}close\ndeliver 0 1 7\n")));
        let files = Files { roll, ..files };
        let end = "cutoff\nroll 1 300 100000 accrued 0\n";
        let day = format!("{made}, quotes of q?.csv\n{lines}close\ndeliver 0 1 7\n{end}");
        assert_eq!(files.day(), Ok(day));
        let files = Files { trades: None, deliveries: None, ..files };
        let day = format!("# made by `tape import`: quotes of q?.csv\nclose\n{end}");
        assert_eq!(files.day(), Ok(day));
    }

    #[test]
    fn quotes_may_stand_in_any_order_and_have_accrued_amounts() {
        let rows = (0..16).rev().map(|issue| format!("{issue},\"100,{issue:03}\",{}\n", issue * 2));
        let day = quotes(&format!("issue,price,accrued\n{}", rows.collect::<String>())).unwrap();
        let prices = (0..16).map(|issue| format!(" {}", 100_000 + issue)).collect::<String>();
        let accrued = (0..16).map(|issue| format!(" {}", issue * 2)).collect::<String>();
        assert!(day.ends_with(&format!("cutoff\nroll 3 250{prices} accrued{accrued}\n")), "{day}");
    }

    #[test]
    fn what_the_book_refuses_in_any_case_is_told() {
        for (row, told) in [
            ("16,1,2,3", "t.csv:2:1: issue \"16\" is too large: write a number from 0 to 15"),
            ("0,64,2,3", "t.csv:2:3: from \"64\" is too large: write a number from 0 to 63"),
            ("0,1,x,3", "t.csv:2:5: to \"x\" is not a number: write digits alone"),
            ("0,1,2,0", "t.csv:2:7: lots \"0\" is too small: write a number from 1 to 20,000,000"),
            (
                "0,1,2,\"20,000,001\"",
                "t.csv:2:7: lots \"20,000,001\" is too large: write a number from 1 to 20,000,000",
            ),
            ("0,1,2,", "t.csv:2:7: lots \"\" is not a number"),
            ("0,7,7,3", "t.csv:2:5: from and to are the same account"),
        ] {
            let error = trades(&format!("issue,from,to,lots\n{row}\n")).unwrap_err();
            assert!(error.starts_with(told) && error.lines().count() == 1, "{row}: {error}");
        }
        let error = trades("issue,from,to,lots\n16,64,x,0\n").unwrap_err();
        assert_eq!(error.lines().count(), 4, "{error}");
        let error = trades("issue,from,to,lots\n0,1,2,300000000\n").unwrap_err();
        assert!(error.contains("lots \"300000000\" is too large"), "{error}");
    }

    #[test]
    fn no_quote_is_invented() {
        let told = |text: &str| quotes(text).unwrap_err();
        assert_eq!(
            told(&at_100(0..15)),
            "q.csv:16:1: issue 15 has no quote: a roll needs the price of all sixteen issues, and \
             none is invented"
        );
        let four = told(&at_100(3..15));
        assert!(four.starts_with("q.csv:13:1: issues 0, 1, 2 and 15 have no quote"), "{four}");
        let twice = told(&format!("{}7,99\n", at_100(0..16)));
        assert_eq!(twice, "q.csv:18:1: issue 7 has a quote in line 9: leave one out");
        let price = |price: &str, accrued: &str| {
            let rows = (0..16).map(|issue| format!("{issue},{price},{accrued}\n"));
            let error = told(&format!("issue,price,accrued\n{}", rows.collect::<String>()));
            error.lines().next().unwrap().to_string()
        };
        assert_eq!(
            price("0", "0"),
            "q.csv:2:3: price \"0\" is too small: write a number from 1 to 200,000"
        );
        assert_eq!(
            price("1", "10001"),
            "q.csv:2:5: accrued \"10001\" is too large: write a number from 0 to 10,000"
        );
        assert_eq!(
            price("190001", "10000"),
            "q.csv:2:10: price and accrued are together 200,001: they are at most 200,000"
        );
        assert!(price("1", "").contains("q.csv:2:5: accrued \"\" is not a number"));
    }

    #[test]
    fn what_is_no_text_is_told() {
        let error = |bytes: &[u8]| File::of(Source::held("t.csv", bytes.to_vec())).unwrap_err();
        assert!(error(b"PK\x03\x04\x14\x00").contains("t.csv: this is a workbook and not CSV"));
        let shift_jis = error(b"issue,note\n0,\x96\xf1\x92\xe8\n");
        assert!(shift_jis.contains("not in UTF-8, by line 2: save it as UTF-8"), "{shift_jis}");
        assert!(error(&[0, 0, 0, 0x50]).contains("these are the words of a tape and not text"));
    }
}
