//! A page written: head, index, legend, the days with their issues, and the book at the end.

use super::markup::{
    badge, bar, cell_of, escaped, face, framed, legend, list, name, number, range, section_of,
    table, Look,
};
use super::markup::{CHARGED, CHARGES, DAYS, FAILS, HANDED, KINDS, LATER, LEDGER, ORDER};
use super::parts::{Charge, DayPart, Delivery, Handed, IssuePart, Later, Piece, Roll, State};
use super::Page;
use crate::known::Known;
use crate::measure::{counted, Face, Lots, Price, Rate};
use crate::telling::text::days_text;
use crate::telling::Only;
use settlement_day::Entry;
use std::io::{self, Write};

/// How to read the bars of units.
const BARS: &str =
    "A bar shows where in the issue's order units stand, and how many lots they are. \
    Like units are one row.";

impl Page {
    /// Writes the page.
    pub fn write(&self, out: &mut impl Write) -> io::Result<()> {
        let title = escaped(&self.title());
        framed(out, &title, KINDS, !self.known.names.is_empty(), |out| {
            writeln!(out, "<header>\n<h1>{title}</h1>")?;
            self.lead(out)?;
            writeln!(out, "</header>")?;
            self.account(out)?;
            self.index(out)?;
            legend(out, &State::ALL.map(Look::from), BARS)?;
            for (day, part) in &self.days {
                self.day_section(out, *day, part)?;
            }
            self.closing(out)
        })
    }

    /// The title: of which account, issue and days.
    fn title(&self) -> String {
        let Only { issue, account, .. } = self.only;
        let known = &self.known;
        let days: Vec<String> = self.days.keys().map(|day| known.day(*day).to_string()).collect();
        let days = match days.as_slice() {
            [first, .., last] => format!("settlement days {first} to {last}"),
            [one] => format!("settlement day {one}"),
            [] => "settlement days".to_string(),
        };
        let of = [
            account.map(|account| format!("Account {}", known.account(account))),
            issue.map(|issue| format!("issue {}", known.issue(issue))),
            Some(days),
        ];
        let title = of.into_iter().flatten().collect::<Vec<_>>().join(", ");
        title[..1].to_uppercase() + &title[1..]
    }

    /// Of which files the page is, how much stands in them, and what is left out.
    fn lead(&self, out: &mut impl Write) -> io::Result<()> {
        let (files, refused) = (self.files.join(", "), number(self.refused as i128));
        let count = counted(self.instructions, "instruction");
        writeln!(out, "<p>{}: {count}, {refused} refused.</p>", escaped(&files))?;
        if let Some(only) = narrowed(self.only, &self.known) {
            writeln!(out, "<p><b>Only what is of {} is shown.</b></p>", escaped(&only))?;
        }
        if let Some(reading) = &self.end.reading {
            writeln!(out, "<p><b>The tape is not read to its end: {}.</b></p>", escaped(reading))?;
        }
        writeln!(
            out,
            "<p>A lot is 50,000 yen face. Days, units and accounts are numbered from 0. "
        )?;
        writeln!(out, "Prices and accrued amounts are yen per 100 yen face.</p>")
    }

    /// The days with links to their issues.
    fn index(&self, out: &mut impl Write) -> io::Result<()> {
        let days = self.days.iter();
        let rows: Vec<Vec<String>> =
            days.map(|(day, part)| index_row(*day, part, &self.known)).collect();
        writeln!(out, "<nav aria-label=\"Index\">\n<h2>Index</h2>")?;
        table(out, &DAYS, &rows)?;
        if self.end.phase.is_some() {
            writeln!(out, "<p><a href=\"#end\">At the end: ledger and charges</a></p>")?;
        }
        if self.only.account.is_none() {
            let command = "<code>tape explain --html --account N</code>";
            writeln!(out, "<p>What one account is told: {command}.</p>")?;
        }
        writeln!(out, "</nav>")
    }

    /// A day: each issue, then the roll and what was refused.
    fn day_section(&self, out: &mut impl Write, day: u16, part: &DayPart) -> io::Result<()> {
        writeln!(out, "<section class=\"day\" id=\"day-{day}\" data-day=\"{day}\">")?;
        writeln!(out, "<h2>Day {}</h2>", self.known.day(day))?;
        writeln!(out, "<p>{}</p>", escaped(&course(day, part, &self.known)))?;
        list(out, "settings", &part.settings)?;
        for (issue, of_issue) in part.issues.iter().filter(|(_, part)| part.is_shown()) {
            self.issue_section(out, day, *issue, of_issue)?;
        }
        if let Some(roll) = &part.roll {
            rolled(out, roll, &self.known)?;
        }
        if part.refusals > 0 {
            writeln!(out, "<h3>Refused: {}</h3>", number(part.refusals as i128))?;
            list(out, "refused", &part.refused)?;
            let more = part.refusals - part.refused.len();
            if more > 0 {
                let more = number(more as i128);
                writeln!(out, "<p>{more} more are not listed here: tape check lists all.</p>")?;
            }
        }
        writeln!(out, "</section>")
    }

    /// An issue on a day.
    fn issue_section(
        &self,
        out: &mut impl Write,
        day: u16,
        issue: u32,
        part: &IssuePart,
    ) -> io::Result<()> {
        let known = &self.known;
        writeln!(out, "<section id=\"day-{day}-issue-{issue}\" data-issue=\"{issue}\">")?;
        writeln!(out, "<h3>Day {}, issue {}</h3>", known.day(day), name(known.issue(issue)))?;
        if !part.blocks.is_empty() {
            order(out, part, known)?;
        }
        let deliveries = part.deliveries.iter().filter(|one| one.shown);
        let deliveries: Vec<Vec<String>> = deliveries.map(|one| delivery_row(one, known)).collect();
        if !deliveries.is_empty() {
            writeln!(out, "<h4>Who handed what, when</h4>")?;
            table(out, &HANDED, &deliveries)?;
        }
        if part.cut || !part.fails.is_empty() {
            writeln!(out, "<h4>Fails</h4>")?;
            let fails: Vec<Vec<String>> =
                part.fails.iter().map(|place| self.fail_row(*place)).collect();
            table(out, &FAILS, &fails)?;
        }
        let later: Vec<Vec<String>> =
            part.later.iter().filter(|one| one.shown).map(later_row).collect();
        if !later.is_empty() {
            writeln!(out, "<h4>Resolves and pair-offs</h4>")?;
            table(out, &LATER, &later)?;
        }
        writeln!(out, "</section>")
    }

    /// A fail and what became of it.
    fn fail_row(&self, place: usize) -> Vec<String> {
        let fail = &self.fails[place];
        let mut became = fail.became.clone().unwrap_or_default();
        became.push(match fail.left {
            0 => "nothing is left of it".to_string(),
            left => format!("{} still open at the end of the tape", Lots(left.into())),
        });
        let accounts = [fail.from, fail.to].map(|account| name(self.known.account(account)));
        let rest = [number(fail.lots), face(fail.lots), escaped(&fail.of), cell_of(&became)];
        [&accounts[..], &rest].concat()
    }

    /// Marked issues, ledger and charges at the end.
    fn closing(&self, out: &mut impl Write) -> io::Result<()> {
        let Some(phase) = self.end.phase else { return Ok(()) };
        let known = &self.known;
        let title = format!("At the end: day {}, {phase}", known.day(self.end.day));
        section_of(out, "end", &title, |out| {
            if let Some(turn) = self.end.turn {
                let turn = known.day(turn);
                writeln!(out, "<p>Full units are dealt in turn from day {turn} on.</p>")?;
            }
            if !self.end.marked.is_empty() {
                let s = if self.end.marked.len() == 1 { "" } else { "s" };
                let issues = escaped(&known.issues(&self.end.marked));
                let takes = "In multiples of 100,000 yen face, even lots only";
                writeln!(out, "<p>{takes}: issue{s} {issues}.</p>")?;
            }
            writeln!(out, "<h3>Ledger of fails</h3>")?;
            let ledger = self.end.ledger.iter().map(|entry| entry_row(entry, known));
            table(out, &LEDGER, &ledger.collect::<Vec<_>>())?;
            writeln!(out, "<h3>Charges</h3>")?;
            let row =
                |(account, yen): &(u32, i64)| vec![name(known.account(*account)), number(*yen)];
            table(out, &CHARGED, &self.end.charged.iter().map(row).collect::<Vec<_>>())
        })
    }
}

impl IssuePart {
    /// Is anything of the issue shown?
    fn is_shown(&self) -> bool {
        let deliveries = self.deliveries.iter().any(|one| one.shown);
        let later = self.later.iter().any(|one| one.shown);
        !self.blocks.is_empty() || !self.fails.is_empty() || deliveries || later
    }
}

/// To what a page is narrowed, in words.
fn narrowed(only: Only, known: &Known) -> Option<String> {
    let parts = [
        only.issue.map(|issue| format!("issue {}", known.issue(issue))),
        only.account.map(|account| format!("account {}", known.account(account))),
        only.day.map(|day| format!("day {}", known.day(day))),
    ];
    let parts: Vec<String> = parts.into_iter().flatten().collect();
    (!parts.is_empty()).then(|| parts.join(" and "))
}

/// A day's order, where a change-over day is named.
fn order_name(day: u16, turn: u32) -> &'static str {
    match turn {
        turn if turn != 0 && turn <= day.into() => "new",
        _ => "old",
    }
}

/// The row of a day in the index.
fn index_row(day: u16, part: &DayPart, known: &Known) -> Vec<String> {
    let issues = part.issues.iter().filter(|(_, part)| part.is_shown());
    let link = |(issue, _): (&u32, _)| {
        let named = name(known.issue(*issue));
        format!("<a href=\"#day-{day}-issue-{issue}\">{named}</a>")
    };
    let issues: String = issues.map(link).collect::<Vec<_>>().join(" ");
    let fails: usize = part.issues.values().map(|part| part.fails.len()).sum();
    let roll = part.roll.as_ref().map_or(String::new(), |roll| {
        format!("{} at {}", days_text(roll.days), percent_a_year(roll.rate))
    });
    vec![
        format!("<a href=\"#day-{day}\">{}</a>", known.day(day)),
        order_name(day, part.turn).to_string(),
        issues,
        number(part.trades as i128),
        number(part.refusals as i128),
        number(fails as i128),
        roll,
    ]
}

/// A rate as people write it.
fn percent_a_year(rate: u32) -> String {
    Rate(rate).to_string().replace(" percent", "&nbsp;%")
}

/// The course of a day: its order, trades, close and cutoff.
fn course(day: u16, part: &DayPart, known: &Known) -> String {
    let from = known.day(part.turn);
    let order = match part.turn {
        0 => "The old order".to_string(),
        turn if turn <= day.into() => {
            format!("The new order: full units are dealt in turn since day {from}")
        }
        _ => format!("The old order; full units are dealt in turn from day {from} on"),
    };
    let trades = counted(part.trades, "trade");
    let stands = |name: &str, when: &Option<String>| match when {
        Some(when) => format!("; {name} at {when}"),
        None => format!("; no {name} yet"),
    };
    let (close, cutoff) = (stands("close", &part.closed), stands("cutoff", &part.cut));
    format!("{order}. {trades}{close}{cutoff}.")
}

/// The units of an issue in their order, as sums, as a bar and row by row.
fn order(out: &mut impl Write, part: &IssuePart, known: &Known) -> io::Result<()> {
    let pieces = part.all_pieces();
    let units: u32 = pieces.iter().map(|piece| piece.block.count()).sum();
    let due: u64 = pieces.iter().map(|piece| piece.block.all()).sum();
    writeln!(out, "<p>{} due in {}.</p>", Face(due), counted(units as usize, "unit"))?;
    sums(out, &pieces, due)?;
    writeln!(out, "<div class=\"whole\">{}</div>", bar(part.lots, &joined(&pieces)))?;
    writeln!(out, "<h4>The order</h4>")?;
    let rows = pieces.iter().map(|piece| piece_row(piece, part.lots, known));
    table(out, &ORDER, &rows.collect::<Vec<_>>())?;
    list(out, "neighbours", &part.neighbours)?;
    let owes = |(account, lots): &(u32, u64)| {
        format!("account {} {}", name(known.account(*account)), Lots(*lots))
    };
    let owes: Vec<String> = part.owes.iter().map(owes).collect();
    if owes.is_empty() {
        return Ok(());
    }
    writeln!(out, "<p>To deliver at the close: {}.</p>", owes.join(", "))
}

/// The lots that were handed, failed and are open.
fn sums(out: &mut impl Write, pieces: &[Piece], due: u64) -> io::Result<()> {
    let handed: u64 = pieces.iter().map(|piece| piece.handed).sum();
    let failed: u64 = pieces.iter().map(Piece::failed).sum();
    let all =
        [(State::Handed, handed), (State::Failed, failed), (State::Open, due - handed - failed)];
    writeln!(out, "<ul class=\"sums\">")?;
    for (state, lots) in all.iter().filter(|(_, lots)| *lots > 0) {
        let percent = *lots as f64 * 100.0 / due.max(1) as f64;
        writeln!(out, "<li>{} {} ({percent:.1}&nbsp;%)</li>", badge(*state), Lots(*lots))?;
    }
    writeln!(out, "</ul>")
}

impl Piece {
    /// Its parts of a bar: state, from which lot on, how many lots.
    fn drawn(&self) -> Vec<(State, u64, u64)> {
        let before = self.block.before;
        let reach = u64::from(self.block.last + 1 - self.block.first) * u64::from(self.block.lots);
        match self.state {
            State::Partly => {
                let lacks = self.block.all() - self.handed;
                let handed = (State::Handed, before, self.handed);
                vec![handed, (State::Partly, before + self.handed, lacks)]
            }
            state => vec![(state, before, reach)],
        }
    }
}

/// The parts of a bar of all pieces; those in one state that follow each other are one.
fn joined(pieces: &[Piece]) -> Vec<(State, u64, u64)> {
    let mut parts: Vec<(State, u64, u64)> = Vec::new();
    for (state, from, lots) in pieces.iter().flat_map(Piece::drawn) {
        match parts.last_mut() {
            Some(last) if last.0 == state && last.1 + last.2 == from => last.2 += lots,
            _ => parts.push((state, from, lots)),
        }
    }
    parts
}

/// The row of units in one state.
fn piece_row(piece: &Piece, all: u64, known: &Known) -> Vec<String> {
    let block = &piece.block;
    let turn = match (block.rounds, block.receiver) {
        (Some((round, until)), Some((receiver, of))) => {
            let s = if round == until { "" } else { "s" };
            format!(", round{s} {}, receiver {receiver} of {of}", range(round, until))
        }
        (Some((round, until)), None) => {
            let s = if round == until { "" } else { "s" };
            let each = if block.accounts.len() == 1 { "" } else { "one each in " };
            format!(", {each}round{s} {}", range(round, until))
        }
        _ => String::new(),
    };
    let units = match block.step {
        1 => range(block.first, block.last),
        _ if block.first == block.last => block.first.to_string(),
        step => format!("{}, each {step}th", range(block.first, block.last)),
    };
    let lots = match block.count() {
        1 => number(block.lots),
        count => format!("{count} × {}", number(block.lots)),
    };
    let state = match piece.state {
        State::Partly => {
            let lacks = number(piece.failed());
            format!("{} {} handed, {lacks} failed", badge(piece.state), number(piece.handed))
        }
        state => badge(state),
    };
    let accounts = escaped(&known.accounts(&block.accounts));
    vec![units, format!("{accounts}{turn}"), lots, state, bar(all, &piece.drawn())]
}

/// The row of a delivery, or of the cutoff's remaining stock.
fn delivery_row(delivery: &Delivery, known: &Known) -> Vec<String> {
    let (account, lots) = match delivery.by {
        Some((account, lots)) => (name(known.account(account)), number(lots)),
        None => ("cutoff, what is in stock".to_string(), String::new()),
    };
    let handed: Vec<String> = delivery.handed.iter().map(|one| handed_text(one, known)).collect();
    let waits = delivery.waits.map_or(String::new(), |(stock, unit, account)| {
        format!("{} for unit {unit} of account {}", Lots(stock), name(known.account(account)))
    });
    let owes = delivery.still_owes.map_or(String::new(), number);
    vec![escaped(&delivery.when), account, lots, cell_of(&handed), waits, owes]
}

/// Units that a delivery handed.
fn handed_text(handed: &Handed, known: &Known) -> String {
    let Handed { first, last, lots, to, rounds, part } = handed;
    let rounds = rounds.map_or(String::new(), |(round, until)| {
        let s = if round == until { "" } else { "s" };
        format!(", round{s} {}", range(round, until))
    });
    let named = format!("unit{} {}", if first == last { "" } else { "s" }, range(*first, *last));
    let lots = Lots((*lots).into());
    let to_account = |account: u32| format!("to account {}", known.account(account));
    match to.as_slice() {
        [(account, 1)] if *part => format!("{named} {}: {lots} of it", to_account(*account)),
        [(account, 1)] => format!("{named} {}: {lots}{rounds}", to_account(*account)),
        [(account, count)] => {
            format!("{named} {}: {count} × {lots}{rounds}", to_account(*account))
        }
        to => {
            let each = |(account, count): &(u32, u32)| format!("{count} {}", to_account(*account));
            let each: Vec<String> = to.iter().map(each).collect();
            format!("{named}{rounds}, {lots} each: {}", each.join(", "))
        }
    }
}

/// The row of a resolve or a pair-off.
fn later_row(later: &Later) -> Vec<String> {
    let came = match later.came.as_slice() {
        [] => "nothing".to_string(),
        came => cell_of(came),
    };
    vec![escaped(&later.when), escaped(&later.what), came]
}

/// The roll that ends a day, and its charges.
fn rolled(out: &mut impl Write, roll: &Roll, known: &Known) -> io::Result<()> {
    let (days, rate) = (days_text(roll.days), percent_a_year(roll.rate));
    writeln!(out, "<h3>Roll: {days} at {rate}</h3>\n<p>{}.</p>", escaped(&roll.when))?;
    let row = |charge: &Charge| {
        let Charge { terms, from, to, lots, value, yen } = charge;
        let of = of_whom(known, terms.issue, *from, *to);
        let price = [terms.price, terms.accrued].map(|price| Price(price).to_string());
        [&of[..], &[number(*lots)], &price, &[number(*value), number(*yen)]].concat()
    };
    table(out, &CHARGES, &roll.charges.iter().map(row).collect::<Vec<_>>())
}

/// The row of an entry of the ledger.
fn entry_row(entry: &Entry, known: &Known) -> Vec<String> {
    let Entry { issue, from, to, lots, day } = *entry;
    let of = of_whom(known, issue.into(), from.into(), to.into());
    [&of[..], &[number(lots), face(lots), known.day(day).to_string()]].concat()
}

/// The cells of an issue and of the accounts of a fail in it.
fn of_whom(known: &Known, issue: u32, from: u32, to: u32) -> [String; 3] {
    [known.issue(issue), known.account(from), known.account(to)].map(name)
}
