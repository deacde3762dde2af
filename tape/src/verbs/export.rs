//! `tape export`: what a tape did, as CSV.

use super::{day_of, say, Ended, Verb};
use crate::export::{run, statements, Table};
use crate::options::{flag, Given, Opt, HEX, NAMES, WORDS};
use crate::output::Output;
use crate::statement::Told;

const RECORDS: Opt = flag("--records");
const LEDGER: Opt = flag("--ledger");
const CHARGES: Opt = flag("--charges");
const STATEMENTS: Opt = flag("--statements");

/// The tables, each with its option.
const TABLES: [(Opt, Table); 4] = [
    (RECORDS, Table::Records),
    (LEDGER, Table::Ledger),
    (CHARGES, Table::Charges),
    (STATEMENTS, Table::Statements),
];

pub(super) const VERB: Verb = Verb {
    name: "export",
    usage: "\
tape export (--records | --ledger | --charges | --statements) [--hex | --words] [--names FILE]
            [DAY..]
        runs a tape and writes one table of it as CSV, with a header line: every handover, fail and
        resolve and every step of a pair-off; the ledger at the end; every charge of every roll; the
        fails statements of all issues and accounts, from the tape's first 4,096 instructions",
    options: &[RECORDS, LEDGER, CHARGES, STATEMENTS, HEX, WORDS, NAMES],
    act,
};

fn act(given: &Given) -> Result<Ended, String> {
    let table = table_of(given)?;
    let output = Output::of(given)?;
    let day = day_of(given, &given.names)?;
    let mut writer = output.open()?;
    let cut = match table {
        Table::Statements => {
            let told = Told::all(&day)?;
            statements(&day, &told, &mut writer)
        }
        table => run(&day, table, &mut writer),
    };
    let cut = cut.map_err(|untold| writer.untold(untold))?;
    writer.keep()?;
    let Some(cut) = cut else { return Ok(Ended::Well) };
    say(&cut.what);
    Ok(if cut.unread { Ended::Badly } else { Ended::Well })
}

/// The one table that is asked for.
fn table_of(given: &Given) -> Result<Table, String> {
    let mut asked = TABLES.iter().filter(|(option, _)| given.has(option));
    let Some((option, table)) = asked.next() else {
        return Err(format!("say which table export writes:\n{}", VERB.usage));
    };
    if let Some((other, _)) = asked.next() {
        given.not_both(option, other)?;
    }
    Ok(*table)
}
