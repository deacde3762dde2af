//! What a tape did, as CSV: the records that the book wrote, the ledger, the charges, statements.

use crate::check;
use crate::csv::{write_row, Value};
use crate::facts::{Fact, Terms, Told};
use crate::input::Day;
use crate::ledger::Step;
use crate::output::Untold;
use crate::telling::json::name;
use crate::{statement, story};
use std::io::{self, BufWriter, Write};

/// A table.
#[derive(Clone, Copy, Debug, PartialEq, Eq)]
pub enum Table {
    /// Every handover, fail and resolve, and every step of a pair-off.
    Records,
    /// The entries of the ledger at the end.
    Ledger,
    /// Every charge of every roll.
    Charges,
    /// The fails statements of all issues and accounts.
    Statements,
}

impl Table {
    /// The names of its columns.
    pub fn columns(self) -> &'static [&'static str] {
        match self {
            Table::Records => &[
                "day",
                "file",
                "line",
                "word",
                "call",
                "record",
                "issue",
                "from",
                "to",
                "lots",
                "first",
                "last",
                "units",
                "account",
                "fromSince",
                "toSince",
            ],
            Table::Ledger => &["issue", "from", "to", "lots", "since"],
            Table::Charges => &[
                "day", "file", "line", "word", "issue", "from", "to", "lots", "price", "accrued",
                "value", "days", "rate", "yen",
            ],
            Table::Statements => &[
                "issue",
                "account",
                "due",
                "delivered",
                "failed",
                "resolved",
                "instructions",
                "refused",
                "ended",
                "behind",
                "settling",
            ],
        }
    }
}

/// Where a table is not of the whole tape: what is said of it, and whether the rest cannot be read.
#[derive(Clone, Debug, PartialEq, Eq)]
pub struct Cut {
    pub what: String,
    pub unread: bool,
}

/// Runs a day and writes records, ledger or charges.
pub fn run(day: &Day, table: Table, out: &mut dyn Write) -> Result<Option<Cut>, Untold> {
    let mut export = Export::begun(day, table, out)?;
    story::tell(day, &mut |told| export.fact(told))?;
    export.out.flush()?;
    Ok(export.cut)
}

/// Writes the statements of a day, which has run already.
pub fn statements(
    day: &Day,
    told: &statement::Told,
    out: &mut dyn Write,
) -> Result<Option<Cut>, Untold> {
    let mut export = Export::begun(day, Table::Statements, out)?;
    for (issue, account, lots) in told.rows() {
        let mut values = vec![export.issue_of(issue), export.account_of(account)];
        values.extend(lots.map(number));
        values.extend(told.span().map(optional));
        write_row(&mut export.out, &values)?;
    }
    export.out.flush()?;
    Ok(told.cut().map(|what| Cut { what, unread: told.is_unread() }))
}

/// A table that is being written.
struct Export<'a> {
    day: &'a Day,
    table: Table,
    out: BufWriter<&'a mut dyn Write>,
    /// The name of the call at work.
    call: &'static str,
    cut: Option<Cut>,
}

/// A record, or a step of a pair-off.
#[derive(Clone, Copy, Default)]
struct Record {
    issue: u32,
    /// None where the house hands over.
    from: Option<u32>,
    to: u32,
    lots: u32,
    /// The first and the last of its units, and how many they are.
    units: Option<[u32; 3]>,
    /// Of a step the account that steps out, and since when the two fails are.
    stepped: Option<(u32, [u16; 2])>,
}

impl<'a> Export<'a> {
    /// A table with its header.
    fn begun(day: &'a Day, table: Table, out: &'a mut dyn Write) -> io::Result<Export<'a>> {
        let mut out = BufWriter::with_capacity(1 << 16, out);
        let names: Vec<Value> = table.columns().iter().map(|name| Value::Text(name)).collect();
        write_row(&mut out, &names)?;
        Ok(Export { day, table, out, call: "", cut: None })
    }

    /// Writes the row of a fact, if the table has one.
    fn fact(&mut self, told: &Told) -> io::Result<()> {
        match (self.table, told.fact) {
            (_, Fact::Instruction { instruction, .. }) => self.call = instruction.name(),
            (_, Fact::ReadingEnds { .. }) => {
                self.cut = Some(Cut { what: check::line(told), unread: true });
            }
            (Table::Records, _) => return self.records(told),
            (Table::Ledger, Fact::Entry { .. }) => return self.entry(told.fact),
            (Table::Charges, Fact::Charge { .. }) => return self.charge(told),
            _ => {}
        }
        Ok(())
    }

    /// The records of a fact: of units handed over one each.
    fn records(&mut self, told: &Told) -> io::Result<()> {
        let record = match *told.fact {
            Fact::Handed { issue, first, last, account: to, lots, .. } => {
                return (first..=last).try_for_each(|unit| {
                    let units = Some([unit, unit, 1]);
                    self.record(told, Record { issue, to, lots, units, ..Record::default() })
                });
            }
            Fact::Partly { issue, unit, account: to, lots, .. } => {
                let units = Some([unit, unit, 1]);
                Record { issue, to, lots, units, ..Record::default() }
            }
            Fact::Fails { issue, from, to, lots, first, last, units } => {
                let (from, units) = (Some(from), Some([first, last, units]));
                Record { issue, from, to, lots, units, ..Record::default() }
            }
            Fact::Resolved { issue, from, to, lots } => {
                Record { issue, from: Some(from), to, lots, ..Record::default() }
            }
            Fact::Met { issue, account, step } => {
                let Step { from, from_since, to, to_since, lots } = step;
                let stepped = Some((account, [from_since, to_since]));
                Record { issue, from: Some(from), to, lots, stepped, ..Record::default() }
            }
            _ => return Ok(()),
        };
        self.record(told, record)
    }

    /// The row of a record.
    fn record(&mut self, told: &Told, record: Record) -> io::Result<()> {
        let Record { issue, from, to, lots, units, stepped } = record;
        let [day, file, line, word] = self.place(told);
        let (call, name) = (Value::Text(self.call), Value::Text(name(told.fact)));
        let (issue, lots) = (self.issue_of(issue), number(lots));
        let from = from.map_or(Value::None, |from| self.account_of(from));
        let to = self.account_of(to);
        let [first, last, units] = units.map_or([Value::None; 3], |units| units.map(number));
        let [account, from_since, to_since] = match stepped {
            None => [Value::None; 3],
            Some((account, [from, to])) => [self.account_of(account), number(from), number(to)],
        };
        let values = [
            day, file, line, word, call, name, issue, from, to, lots, first, last, units, account,
            from_since, to_since,
        ];
        write_row(&mut self.out, &values)
    }

    /// The row of an entry.
    fn entry(&mut self, fact: &Fact) -> io::Result<()> {
        let Fact::Entry { issue, from, to, lots, since } = *fact else { return Ok(()) };
        let (issue, from, to) = (self.issue_of(issue), self.account_of(from), self.account_of(to));
        write_row(&mut self.out, &[issue, from, to, number(lots), number(since)])
    }

    /// The row of a charge.
    fn charge(&mut self, told: &Told) -> io::Result<()> {
        let Fact::Charge { terms, from, to, lots, value, yen } = *told.fact else { return Ok(()) };
        let Terms { issue, price, accrued, days, rate } = terms;
        let [day, file, line, word] = self.place(told);
        let (issue, from, to) = (self.issue_of(issue), self.account_of(from), self.account_of(to));
        let [lots, price, accrued, days, rate] = [lots, price, accrued, days, rate].map(number);
        let (value, yen) = (number(value), number(yen));
        let values =
            [day, file, line, word, issue, from, to, lots, price, accrued, value, days, rate, yen];
        write_row(&mut self.out, &values)
    }

    /// The day of a fact, and where its instruction stands: file, line, word.
    fn place<'b>(&self, told: &Told<'b>) -> [Value<'b>; 4] {
        let stands = self.day.shown(told.stands);
        let file = stands.file.map_or(Value::None, Value::Text);
        let [line, word] = [stands.line, told.word].map(|it| optional(it.map(|it| it as u64)));
        [number(told.day), file, line, word]
    }

    /// An issue as it is written: its name where it has one, otherwise its number.
    fn issue_of(&self, issue: u32) -> Value<'a> {
        self.day.names.issue_name(issue).map_or(number(issue), Value::Text)
    }

    /// An account as it is written: its name where it has one, otherwise its number.
    fn account_of(&self, account: u32) -> Value<'a> {
        self.day.names.account_name(account).map_or(number(account), Value::Text)
    }
}

/// A number.
fn number<'a>(number: impl Into<u64>) -> Value<'a> {
    Value::Number(number.into())
}

/// A number, or nothing.
fn optional<'a>(found: Option<u64>) -> Value<'a> {
    found.map_or(Value::None, number)
}
