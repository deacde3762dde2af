//! What was met in a run: refusal numbers by call, and named situations. One never met is a fault.

use crate::engines::Answer;
use crate::steps::Call;
use reference::book::{place, Book, Entry, ACCOUNTS, ENTRIES, ISSUES};
use reference::calls::{ask_on_sound, Ticket};
use reference::measures::{MOST_ACCRUED, MOST_DAYS, MOST_LOTS, MOST_PRICE, MOST_RATE, UNIT_LOTS};
use reference::units::{handed, order_of, units_of, Unit};
use std::cmp::Reverse;
use std::collections::BTreeMap;

/// The numbers that each call can answer, by the paper; 0 is done.
pub const NUMBERS: [(&str, &[u32]); 13] = [
    ("unit", &[0, 2, 4]),
    ("status", &[0, 2, 3, 4, 16]),
    ("trade", &[0, 2, 3, 4, 5, 6, 7, 19, 8]),
    ("close", &[0, 2, 3]),
    ("deliver", &[0, 1, 2, 3, 4, 5, 7, 19, 9]),
    ("ask", &[0, 2, 3, 4, 16]),
    ("commit", &[0, 1, 2, 3, 4, 16, 17, 18]),
    ("cutoff", &[0, 1, 2, 3, 10]),
    ("resolve", &[0, 1, 2, 4, 5, 7, 19, 9]),
    ("pair-off", &[0, 2, 4, 5]),
    ("roll", &[0, 2, 3, 11, 12]),
    ("mark", &[0, 2, 4, 20]),
    ("turn", &[0, 2, 26]),
];

/// The situations that a run of random lists must meet.
const SITUATIONS: [&str; 141] = [
    "trade: a net reaches 20,000,000",
    "trade: a net reaches -20,000,000",
    "trade: refused for from's net alone",
    "trade: refused for to's net alone",
    "trade: a net returns to 0",
    "trade: a deliverer becomes a receiver",
    "unit: found full",
    "unit: found small",
    "unit: none, just past the last",
    "unit: equals among full units",
    "unit: equals among small units of unlike nets",
    "unit: a smaller net has the larger small unit",
    "unit: of a lifted order",
    "status: handed",
    "status: waiting, the next unit with stock",
    "status: waiting, the next unit without stock",
    "status: waiting behind other units",
    "status: partly failed",
    "status: wholly failed, the next unit without stock",
    "status: wholly failed behind a partly failed unit",
    "status: of a lifted order, waiting",
    "status: of a lifted order, failed",
    "status: failed, and nothing stands in the ledger to its account",
    "deliver: all that is owed",
    "deliver: ends inside a full unit",
    "deliver: ends inside a small unit",
    "deliver: ends where a unit ends",
    "deliver: hands over nothing",
    "deliver: hands over more than 20 units",
    "deliver: a smaller later unit would be covered",
    "deliver: hands over among equal full units",
    "deliver: hands over among equal small units",
    "deliver: hands over a lifted unit before one that stood before it",
    "deliver: with eight lifts standing",
    "ask: the next unit",
    "ask: the last unit, not the next",
    "ask: of a lifted order",
    "ask: with eight lifts standing",
    "ask: no unit, all are handed",
    "ask: a handed unit",
    "ask: no such unit",
    "commit: hands over the unit",
    "commit: hands over nothing",
    "commit: to its own place",
    "commit: a full unit past one of another account",
    "commit: a small unit past a full one",
    "commit: a unit that was passed by a lifted one before",
    "commit: the first lift",
    "commit: the eighth lift",
    "commit: a place above that of the lift before",
    "commit: a handed unit",
    "commit: no such unit",
    "commit: refused for the account alone",
    "commit: refused for the lots alone",
    "commit: refused for the day alone",
    "commit: refused for the count alone",
    "commit: a ticket with account above 63 or lots of none",
    "commit: eight lifts, and the ticket is stale",
    "cutoff: nothing failed",
    "cutoff: nothing delivered",
    "cutoff: stock goes to a full unit",
    "cutoff: stock goes to a small unit",
    "cutoff: stock goes to a full unit with more of its account after it",
    "cutoff: full units of one account lie apart",
    "cutoff: stock goes to a full unit, and full ones of its account lie apart",
    "cutoff: a deliverer fails several receivers",
    "cutoff: several deliverers fail a receiver",
    "cutoff: full units and small unit of one account failed by one deliverer",
    "cutoff: more than one issue fails",
    "cutoff: the ledger is full to 2,048",
    "cutoff: 2,049 entries are refused",
    "resolve: part of an entry",
    "resolve: one entry whole",
    "resolve: several entries",
    "resolve: entries of others lie between",
    "resolve: all that the account owes",
    "resolve: on a full ledger",
    "pair-off: entries in alone",
    "pair-off: entries out alone",
    "pair-off: P and Q are the same",
    "pair-off: an entry P to Q is appended",
    "pair-off: entry in and entry out are equal",
    "pair-off: steps are a + b - 1, above 2",
    "pair-off: on a full ledger",
    "roll: entries of several days",
    "roll: price 1 charges 0 yen",
    "roll: highest price, rate and days",
    "roll: highest price and accrued amount together",
    "roll: price and accrued amount round apart",
    "roll: day becomes 65,535",
    "roll: lots were delivered",
    "roll: lifts and counts are cleared",
    "roll: marks stay",
    "mark: set",
    "mark: set where it is set",
    "mark: taken away",
    "mark: in Taking",
    "mark: in Settling",
    "mark: in Cut",
    "mark: beside nets and entries of other issues",
    "mark: a number above 1 is stored as 1",
    "mark: refused for a net alone",
    "mark: refused for an entry alone",
    "mark: taking it away is refused",
    "trade: even lots in a marked issue",
    "trade: odd lots where another issue is marked",
    "trade: odd lots in a marked issue that a net would not take",
    "deliver: even lots in a marked issue, inside a unit",
    "deliver: odd lots in a marked issue, more than is owed",
    "commit: hands over a unit of a marked issue",
    "cutoff: a marked issue fails after stock goes to a unit",
    "cutoff: marked and other issues fail, odd lots among them",
    "resolve: part of an entry of a marked issue",
    "resolve: odd lots in a marked issue, more than is owed",
    "pair-off: steps in a marked issue",
    "turn: accepted, no day named before",
    "turn: replaced by an earlier day",
    "turn: replaced by a later day",
    "turn: the same day once more",
    "turn: tomorrow",
    "turn: a day that never comes",
    "turn: in Taking",
    "turn: in Settling",
    "turn: in Cut",
    "turn: refused for a day not after today alone",
    "turn: refused for the order in force alone",
    "turn: refused for both",
    "turn: with lifts standing",
    "roll: brings the change-over day",
    "roll: brings the change-over day, with fails, charges and marks",
    "roll: the change-over day is still to come",
    "unit: full, in a later round",
    "unit: small, behind units dealt in turn",
    "status: of dealt units that lie apart, waiting",
    "status: of dealt units that lie apart, failed",
    "deliver: hands over units of two rounds",
    "deliver: of a lifted order dealt in turn",
    "ask: of dealt units that lie apart",
    "commit: a dealt unit past units of its own round",
    "cutoff: dealt units of one account lie apart",
    "cutoff: dealt units lie apart in a lifted order",
];

/// How often each number and situation was met.
#[derive(Clone, Debug, Default)]
pub struct Coverage {
    met: BTreeMap<String, u64>,
}

/// One call as it was made: the book before and after it, and its answer.
pub struct Made<'a> {
    pub before: &'a Book,
    pub after: &'a Book,
    pub call: &'a Call,
    pub answer: Answer,
}

impl Coverage {
    /// Notes the numbers and situations of a call.
    pub fn note(&mut self, made: &Made) {
        if *made.call == Call::Sound {
            return;
        }
        self.meet(&number_name(made.call.name(), made.answer.number), true);
        match *made.call {
            Call::Trade { issue, from, to, lots } => self.trade(made, [issue, from, to, lots]),
            Call::Unit { issue, k } => self.unit(made, issue, k),
            Call::Status { issue, k } => self.status(made, issue, k),
            Call::Deliver { issue, account, .. } => self.deliver(made, issue, account),
            Call::Cutoff { .. } => self.cutoff(made),
            Call::Resolve { issue, account, .. } => self.resolve(made, issue, account),
            Call::PairOff { issue, account } => self.pair_off(made, issue, account),
            Call::Roll { days, rate, ref quotes } => self.roll(made, days, rate, quotes),
            Call::Ask { issue, unit } => self.ask(made, issue, unit),
            Call::Commit { ref ticket, .. } => self.commit(made, ticket),
            Call::Mark { issue, mark } => self.mark(made, issue, mark),
            Call::Turn { day } => self.turn(made, day),
            Call::Close | Call::Sound => {}
        }
        if made.before.deals_in_turn() && made.answer.number == 0 {
            self.dealt_in_turn(made);
        }
        match made.answer.number {
            0 => self.marked_issues(made),
            19 => self.odd_lots(made),
            _ => {}
        }
    }

    /// Counts a name, if it was met.
    fn meet(&mut self, name: &str, met: bool) {
        if met {
            *self.met.entry(name.to_string()).or_default() += 1;
        }
    }

    /// Every name that was to be met with its count; an error names those that were never met.
    pub fn report(&self) -> Result<String, String> {
        let count = |name: &str| self.met.get(name).copied().unwrap_or(0);
        let names = expected();
        let missing: Vec<&str> =
            names.iter().filter(|name| count(name) == 0).map(String::as_str).collect();
        if missing.is_empty() {
            let lines = names.iter().map(|name| format!("{:>9}  {name}", count(name)));
            return Ok(lines.collect::<Vec<_>>().join("\n"));
        }
        Err(format!("never met, so more cases are wanted (--cases):\n  {}", missing.join("\n  ")))
    }

    /// The situations of a trade.
    fn trade(&mut self, made: &Made, [issue, from, to, lots]: [u32; 4]) {
        let most = MOST_LOTS as i32;
        let at = |book: &Book, account| book.nets[place(issue as usize, account as usize)];
        if made.answer.number == 8 {
            let from_stays = at(made.before, from) - lots as i32 >= -most;
            let to_stays = at(made.before, to) + lots as i32 <= most;
            self.meet("trade: refused for from's net alone", to_stays);
            self.meet("trade: refused for to's net alone", from_stays);
        }
        if made.answer.number == 0 {
            self.meet("trade: a net reaches 20,000,000", at(made.after, to) == most);
            self.meet("trade: a net reaches -20,000,000", at(made.after, from) == -most);
            let nets = [at(made.after, from), at(made.after, to)];
            self.meet("trade: a net returns to 0", nets.contains(&0));
            let turns = at(made.before, to) < 0 && at(made.after, to) > 0;
            self.meet("trade: a deliverer becomes a receiver", turns);
        }
    }

    /// The situations of the unit question.
    fn unit(&mut self, made: &Made, issue: u32, k: u32) {
        if made.answer.number != 0 {
            return;
        }
        let units = units_of(made.before, issue as usize);
        let unit = units.get(k as usize);
        self.meet("unit: of a lifted order", unit.is_some() && is_lifted(made.before, issue));
        self.meet("unit: found full", unit.is_some_and(|unit| unit.full));
        self.meet("unit: found small", unit.is_some_and(|unit| !unit.full));
        let past = !units.is_empty() && k as usize == units.len();
        self.meet("unit: none, just past the last", past);
        if let Some(unit) = unit {
            let others = || units.iter().filter(|other| other.account != unit.account);
            let equal_full = others().any(|other| equal_full(unit, other));
            self.meet("unit: equals among full units", equal_full);
            let small = || others().filter(|other| !unit.full && !other.full);
            let equal = small().any(|other| other.lots == unit.lots && other.net != unit.net);
            self.meet("unit: equals among small units of unlike nets", equal);
            let turned = small().any(|other| other.lots < unit.lots && other.net > unit.net);
            self.meet("unit: a smaller net has the larger small unit", turned);
        }
    }

    /// The situations of the status of a unit.
    fn status(&mut self, made: &Made, issue: u32, k: u32) {
        if made.answer.number != 0 {
            return;
        }
        let units = units_of(made.before, issue as usize);
        let (count, stock) = handed(&units, made.before.delivered_total(issue as usize));
        let (case, next) = (made.answer.others[0], k as usize == count);
        let (waits, fails) = (case == 2, case == 3 || case == 4);
        self.meet("status: handed", case == 1);
        self.meet("status: waiting, the next unit with stock", waits && next && stock > 0);
        self.meet("status: waiting, the next unit without stock", waits && next && stock == 0);
        self.meet("status: waiting behind other units", waits && !next);
        self.meet("status: partly failed", case == 3);
        let wholly = "status: wholly failed, the next unit without stock";
        self.meet(wholly, case == 4 && next);
        let behind = "status: wholly failed behind a partly failed unit";
        self.meet(behind, case == 4 && !next && stock > 0);
        let lifted = is_lifted(made.before, issue);
        self.meet("status: of a lifted order, waiting", lifted && waits);
        self.meet("status: of a lifted order, failed", lifted && fails);
        let account = units[k as usize].account;
        let to = |e: &Entry| u32::from(e.issue) == issue && u32::from(e.to) == account;
        let resolved = "status: failed, and nothing stands in the ledger to its account";
        self.meet(resolved, fails && !made.before.entries().any(|entry| to(&entry)));
    }

    /// The situations of a delivery.
    fn deliver(&mut self, made: &Made, issue: u32, account: u32) {
        if made.answer.number != 0 {
            return;
        }
        let issue = issue as usize;
        let units = units_of(made.after, issue);
        let (first, _) = handed(&units, made.before.delivered_total(issue));
        let (count, stock) = handed(&units, made.after.delivered_total(issue));
        let next = units.get(count);
        let inside = |full| stock > 0 && next.is_some_and(|unit| unit.full == full);
        let owed = made.after.owed_today(issue, account as usize);
        self.meet("deliver: all that is owed", owed == 0);
        self.meet("deliver: ends inside a full unit", inside(true));
        self.meet("deliver: ends inside a small unit", inside(false));
        self.meet("deliver: ends where a unit ends", stock == 0);
        self.meet("deliver: hands over nothing", first == count);
        self.meet("deliver: hands over more than 20 units", count - first > 20);
        let smaller = units[count..].iter().any(|unit| u64::from(unit.lots) <= stock);
        self.meet("deliver: a smaller later unit would be covered", smaller);
        let now = &units[first..count];
        let among =
            |equal: fn(&Unit, &Unit) -> bool| now.windows(2).any(|two| equal(&two[0], &two[1]));
        self.meet("deliver: hands over among equal full units", among(equal_full));
        self.meet("deliver: hands over among equal small units", among(equal_small));
        let lifted = "deliver: hands over a lifted unit before one that stood before it";
        let passed = now.windows(2).any(|two| ranks_before(&two[1], &two[0]));
        self.meet(lifted, passed && !made.after.deals_in_turn());
        let eight = made.after.lifts[issue].number == 8;
        self.meet("deliver: with eight lifts standing", eight);
    }

    /// The situations of asking for a lift.
    fn ask(&mut self, made: &Made, issue: u32, k: u32) {
        let Some((units, count)) = units_and_handed(made.before, issue) else { return };
        let (k, number) = (k as usize, made.answer.number);
        if number == 0 {
            self.meet("ask: the next unit", k == count);
            self.meet("ask: the last unit, not the next", k > count && k + 1 == units.len());
            self.meet("ask: of a lifted order", is_lifted(made.before, issue));
            let eight = made.before.lifts[issue as usize].number == 8;
            self.meet("ask: with eight lifts standing", eight);
        }
        if number == 16 {
            let all = count == units.len() && count > 0;
            self.meet("ask: no unit, all are handed", all && k == count);
            self.meet("ask: a handed unit", k < count);
            self.meet("ask: no such unit", k == units.len());
        }
    }

    /// The situations of a commit.
    fn commit(&mut self, made: &Made, ticket: &Ticket) {
        let Some((units, count)) = units_and_handed(made.before, ticket.issue) else { return };
        let k = ticket.unit as usize;
        match made.answer.number {
            0 => self.lift(made, ticket, &units, count),
            16 => {
                self.meet("commit: a handed unit", k < count);
                self.meet("commit: no such unit", k >= units.len());
            }
            17 => self.wrong_ticket(made, ticket),
            _ => {}
        }
    }

    /// The situations of a lift that was made; the units are those before it.
    fn lift(&mut self, made: &Made, ticket: &Ticket, units: &[Unit], count: usize) {
        let (k, issue) = (ticket.unit as usize, ticket.issue as usize);
        let (unit, passed) = (units[k], &units[count..k]);
        self.meet("commit: hands over the unit", made.answer.others[0] == 1);
        self.meet("commit: hands over nothing", made.answer.others[0] == 0);
        self.meet("commit: to its own place", k == count);
        let other = passed.iter().any(|one| one.full && one.account != unit.account);
        self.meet("commit: a full unit past one of another account", unit.full && other);
        self.meet("commit: a small unit past a full one", !unit.full && other);
        let again = passed.iter().any(|one| ranks_before(&unit, one));
        let again = again && !made.before.deals_in_turn();
        self.meet("commit: a unit that was passed by a lifted one before", again);
        let lifts = made.after.lifts[issue].standing();
        self.meet("commit: the first lift", lifts.len() == 1);
        self.meet("commit: the eighth lift", lifts.len() == 8);
        let rises = lifts.len() > 1 && lifts[lifts.len() - 2].new < lifts[lifts.len() - 1].new;
        self.meet("commit: a place above that of the lift before", rises);
    }

    /// The situations of a ticket that is not what asking gives.
    fn wrong_ticket(&mut self, made: &Made, ticket: &Ticket) {
        let now = ask_on_sound(made.before, ticket.issue, ticket.unit).ticket;
        let alone = |same: Ticket| same == now;
        let account = alone(Ticket { account: now.account, ..*ticket });
        self.meet("commit: refused for the account alone", account);
        self.meet(
            "commit: refused for the lots alone",
            alone(Ticket { lots: now.lots, ..*ticket }),
        );
        self.meet("commit: refused for the day alone", alone(Ticket { day: now.day, ..*ticket }));
        let count = alone(Ticket { count: now.count, ..*ticket });
        self.meet("commit: refused for the count alone", count);
        let range = ticket.account > 63 || ticket.lots == 0;
        self.meet("commit: a ticket with account above 63 or lots of none", range);
        let eight = made.before.lifts[ticket.issue as usize].number == 8;
        self.meet("commit: eight lifts, and the ticket is stale", eight);
    }

    /// The situations of a cutoff.
    fn cutoff(&mut self, made: &Made) {
        let refused = made.answer.number == 10 && room_for_one_less(made.before);
        self.meet("cutoff: 2,049 entries are refused", refused);
        if made.answer.number != 0 {
            return;
        }
        let ledger = made.after.ledger();
        let fails = &ledger[made.before.count..];
        let nothing = fails.is_empty() && made.after.nets.iter().any(|&net| net != 0);
        self.meet("cutoff: nothing failed", nothing);
        let nothing = made.before.delivered.iter().all(|&lots| lots == 0);
        self.meet("cutoff: nothing delivered", nothing);
        let full = ledger.len() == ENTRIES && !fails.is_empty();
        self.meet("cutoff: the ledger is full to 2,048", full);
        self.fails(fails);
        for issue in 0..16 {
            self.remaining_stock(made.before, issue);
            self.units_apart(made.before, issue);
        }
    }

    /// The situations of the fails of a cutoff.
    fn fails(&mut self, fails: &[Entry]) {
        let pairs = || fails.windows(2).filter(|two| two[0].issue == two[1].issue);
        let some = |same_from: bool, same_to: bool| {
            pairs().any(|two| {
                (two[0].from == two[1].from) == same_from && (two[0].to == two[1].to) == same_to
            })
        };
        self.meet("cutoff: a deliverer fails several receivers", some(true, false));
        self.meet("cutoff: several deliverers fail a receiver", some(false, true));
        let both = "cutoff: full units and small unit of one account failed by one deliverer";
        self.meet(both, some(true, true));
        let issues = fails.first().zip(fails.last());
        let unlike = issues.is_some_and(|(first, last)| first.issue != last.issue);
        self.meet("cutoff: more than one issue fails", unlike);
    }

    /// The situations of an issue's remaining stock at cutoff.
    fn remaining_stock(&mut self, book: &Book, issue: usize) {
        let total = book.delivered_total(issue);
        if total == 0 {
            return;
        }
        let units = units_of(book, issue);
        let (count, stock) = handed(&units, total);
        if stock > 0 {
            let unit = units[count];
            self.meet("cutoff: stock goes to a full unit", unit.full);
            self.meet("cutoff: stock goes to a small unit", !unit.full);
            let more =
                units.get(count + 1).is_some_and(|next| next.full && next.account == unit.account);
            self.meet(
                "cutoff: stock goes to a full unit with more of its account after it",
                unit.full && more,
            );
        }
    }

    /// The situations of full units that lie apart at cutoff.
    fn units_apart(&mut self, book: &Book, issue: usize) {
        let (dealt, lifted) = (book.deals_in_turn(), is_lifted(book, issue as u32));
        if !dealt && !lifted {
            return;
        }
        let units = units_of(book, issue);
        let (count, stock) = handed(&units, book.delivered_total(issue));
        let lacking = &units[count..];
        let apart = lie_apart(lacking);
        self.meet("cutoff: full units of one account lie apart", !dealt && apart);
        self.meet("cutoff: dealt units of one account lie apart", dealt && apart);
        self.meet("cutoff: dealt units lie apart in a lifted order", dealt && lifted && apart);
        let first = lacking.first().is_some_and(|one| {
            let own: Vec<usize> = full_places(lacking, one.account).collect();
            one.full && stock > 0 && own.windows(2).any(|two| two[0] + 1 < two[1])
        });
        self.meet(
            "cutoff: stock goes to a full unit, and full ones of its account lie apart",
            first,
        );
    }

    /// The situations of a resolve.
    fn resolve(&mut self, made: &Made, issue: u32, account: u32) {
        if made.answer.number != 0 {
            return;
        }
        let (before, after) = (made.before.ledger(), made.after.ledger());
        let records = made.answer.others[0];
        let gone = before.len() - after.len();
        self.meet("resolve: part of an entry", gone == 0);
        self.meet("resolve: one entry whole", gone == 1 && records == 1);
        self.meet("resolve: several entries", records > 1);
        let first = before.iter().position(|entry| entry.is_from(issue, account)).unwrap_or(0);
        let others = before[first..].iter().take(gone).any(|entry| !entry.is_from(issue, account));
        self.meet("resolve: entries of others lie between", others);
        let owed = made.after.owed_in_ledger(issue, account);
        self.meet("resolve: all that the account owes", owed == 0);
        self.meet("resolve: on a full ledger", before.len() == ENTRIES);
    }

    /// The situations of a pair-off.
    fn pair_off(&mut self, made: &Made, issue: u32, account: u32) {
        if made.answer.number != 0 {
            return;
        }
        let before = made.before.ledger();
        let inward: Vec<&Entry> = before.iter().filter(|e| e.is_to(issue, account)).collect();
        let outward: Vec<&Entry> = before.iter().filter(|e| e.is_from(issue, account)).collect();
        self.meet("pair-off: entries in alone", !inward.is_empty() && outward.is_empty());
        self.meet("pair-off: entries out alone", inward.is_empty() && !outward.is_empty());
        if let (Some(first), Some(second)) = (inward.first(), outward.first()) {
            self.meet("pair-off: P and Q are the same", first.from == second.to);
            self.meet("pair-off: an entry P to Q is appended", first.from != second.to);
            self.meet("pair-off: entry in and entry out are equal", first.lots == second.lots);
            let most = (inward.len() + outward.len() - 1) as u64;
            let steps = made.answer.others[0];
            self.meet("pair-off: steps are a + b - 1, above 2", steps == most && steps > 2);
            self.meet("pair-off: on a full ledger", before.len() == ENTRIES);
        }
    }

    /// The situations of a roll.
    fn roll(&mut self, made: &Made, days: u32, rate: u32, quotes: &[u32]) {
        if made.answer.number != 0 {
            return;
        }
        let ledger = made.before.ledger();
        let several = ledger.first().zip(ledger.last()).is_some_and(|(a, b)| a.day != b.day);
        self.meet("roll: entries of several days", several);
        let price = |e: &Entry| quotes[usize::from(e.issue)];
        let accrued = |e: &Entry| quotes[ISSUES + usize::from(e.issue)];
        let nothing = |e: &Entry| price(e) == 1 && accrued(e) == 0 && e.lots < 9 && rate > 0;
        self.meet("roll: price 1 charges 0 yen", ledger.iter().any(nothing));
        let together =
            |e: &Entry| accrued(e) == MOST_ACCRUED && price(e) + accrued(e) == MOST_PRICE;
        self.meet("roll: highest price and accrued amount together", ledger.iter().any(together));
        let apart = |e: &Entry| [e.lots, price(e), accrued(e)].iter().all(|number| number % 2 == 1);
        self.meet("roll: price and accrued amount round apart", ledger.iter().any(apart));
        let highest = |e: &Entry| price(e) == MOST_PRICE;
        let highest = ledger.iter().any(highest) && rate == MOST_RATE && days == MOST_DAYS;
        self.meet("roll: highest price, rate and days", highest);
        self.meet("roll: day becomes 65,535", made.after.day == u16::MAX);
        self.meet("roll: lots were delivered", made.before.delivered.iter().any(|&lots| lots > 0));
        let lifted = made.before.lifts.iter().any(|lifts| lifts.number > 0 && lifts.count > 0);
        self.meet("roll: lifts and counts are cleared", lifted);
        self.meet("roll: marks stay", made.after.marks.iter().any(|&mark| mark != 0));
        self.change_over(made);
    }

    /// The situations of a mark.
    fn mark(&mut self, made: &Made, issue: u32, mark: u32) {
        let Some(at) = usize::try_from(issue).ok().filter(|&at| at < ISSUES) else { return };
        let (before, was) = (made.before, made.before.is_marked(at));
        if made.answer.number == 20 {
            let net = before.nets_of(at).iter().any(|&net| net != 0);
            let entry = before.entries().any(|entry| u32::from(entry.issue) == issue);
            self.meet("mark: refused for a net alone", net && !entry);
            self.meet("mark: refused for an entry alone", entry && !net);
            self.meet("mark: taking it away is refused", was && mark == 0);
        }
        if made.answer.number == 0 {
            self.meet("mark: set", !was && mark == 1);
            self.meet("mark: set where it is set", was && mark == 1);
            self.meet("mark: taken away", was && mark == 0);
            self.meet(&format!("mark: in {:?}", before.phase), true);
            let others = before.count > 0 && before.nets.iter().any(|&net| net != 0);
            self.meet("mark: beside nets and entries of other issues", others);
            self.meet("mark: a number above 1 is stored as 1", mark > 1);
        }
    }

    /// The situations of a `turn`.
    fn turn(&mut self, made: &Made, day: u32) {
        let (before, today) = (made.before, u32::from(made.before.day));
        let (named, in_force) = (before.turn, before.deals_in_turn());
        if made.answer.number == 26 {
            let passed = day <= today;
            self.meet("turn: refused for a day not after today alone", passed && !in_force);
            self.meet("turn: refused for the order in force alone", in_force && !passed);
            self.meet("turn: refused for both", in_force && passed);
        }
        if made.answer.number == 0 {
            self.meet("turn: accepted, no day named before", named == 0);
            self.meet("turn: replaced by an earlier day", day < named);
            self.meet("turn: replaced by a later day", named != 0 && named < day);
            self.meet("turn: the same day once more", day == named);
            self.meet("turn: tomorrow", day == today + 1);
            self.meet("turn: a day that never comes", day > u32::from(u16::MAX));
            self.meet(&format!("turn: in {:?}", before.phase), true);
            let lifted = before.lifts.iter().any(|lifts| lifts.number > 0);
            self.meet("turn: with lifts standing", lifted);
        }
    }

    /// The situations of a roll before the change-over day and of the one that brings it.
    fn change_over(&mut self, made: &Made) {
        let (before, after) = (made.before, made.after);
        let brings = after.deals_in_turn() && !before.deals_in_turn();
        self.meet("roll: brings the change-over day", brings);
        let charged = before.charges.iter().any(|&yen| yen != 0);
        let kept = before.count > 0 && charged && before.marks.iter().any(|&mark| mark != 0);
        let all = "roll: brings the change-over day, with fails, charges and marks";
        self.meet(all, brings && kept);
        let to_come = after.turn != 0 && !after.deals_in_turn();
        self.meet("roll: the change-over day is still to come", to_come);
    }

    /// The situations of calls that are done, in an order dealt in turn.
    fn dealt_in_turn(&mut self, made: &Made) {
        let units = |issue: u32| units_of(made.before, issue as usize);
        match *made.call {
            Call::Unit { issue, k } => {
                let units = units(issue);
                let Some(unit) = units.get(k as usize) else { return };
                let later =
                    unit.full && full_places(&units[..k as usize], unit.account).count() > 0;
                self.meet("unit: full, in a later round", later);
                let behind = !unit.full && units[0].full;
                self.meet("unit: small, behind units dealt in turn", behind);
            }
            Call::Status { issue, .. } => {
                let (apart, case) = (lie_apart(&units(issue)), made.answer.others[0]);
                self.meet("status: of dealt units that lie apart, waiting", apart && case == 2);
                self.meet("status: of dealt units that lie apart, failed", apart && case > 2);
            }
            Call::Deliver { issue, .. } => {
                let order = units(issue);
                let total = |book: &Book| book.delivered_total(issue as usize);
                let (first, count) =
                    (handed(&order, total(made.before)).0, handed(&order, total(made.after)).0);
                let two = order[first..count].iter().any(|unit| {
                    unit.full && full_places(&order[first..count], unit.account).count() > 1
                });
                self.meet("deliver: hands over units of two rounds", two);
                let lifted = is_lifted(made.before, issue) && count > first;
                self.meet("deliver: of a lifted order dealt in turn", lifted);
            }
            Call::Ask { issue, .. } => {
                self.meet("ask: of dealt units that lie apart", lie_apart(&units(issue)));
            }
            Call::Commit { ref ticket, .. } => {
                let Some((order, count)) = units_and_handed(made.before, ticket.issue) else {
                    return;
                };
                let (unit, passed) =
                    (order[ticket.unit as usize], &order[count..ticket.unit as usize]);
                let same = passed.last().is_some_and(|one| one.full && one.account != unit.account);
                self.meet("commit: a dealt unit past units of its own round", unit.full && same);
            }
            _ => {}
        }
    }

    /// The situations of odd lots that a marked issue refuses, where a later question says 'no' too.
    fn odd_lots(&mut self, made: &Made) {
        let before = made.before;
        match *made.call {
            Call::Trade { issue, from, to, lots } => {
                let net = |account| before.nets[place(issue as usize, account as usize)];
                let (most, lots) = (MOST_LOTS as i32, lots as i32);
                let past = net(from) - lots < -most || net(to) + lots > most;
                self.meet("trade: odd lots in a marked issue that a net would not take", past);
            }
            Call::Deliver { issue, account, lots, .. } => {
                let owed = before.owed_today(issue as usize, account as usize);
                let more = owed < u64::from(lots);
                self.meet("deliver: odd lots in a marked issue, more than is owed", more);
            }
            Call::Resolve { issue, account, lots, .. } => {
                let more = before.owed_in_ledger(issue, account) < u64::from(lots);
                self.meet("resolve: odd lots in a marked issue, more than is owed", more);
            }
            _ => {}
        }
    }

    /// The situations of calls that are done, in marked issues and beside them.
    fn marked_issues(&mut self, made: &Made) {
        let marked = |issue: u32| made.before.is_marked(issue as usize);
        let count = made.answer.others[0];
        match *made.call {
            Call::Trade { issue, lots, .. } => {
                let other = lots % 2 == 1 && made.before.marks.iter().any(|&mark| mark != 0);
                self.meet("trade: odd lots where another issue is marked", other);
                self.meet("trade: even lots in a marked issue", marked(issue));
            }
            Call::Deliver { issue, .. } => {
                let inside = marked(issue) && count == 0;
                self.meet("deliver: even lots in a marked issue, inside a unit", inside);
            }
            Call::Commit { ref ticket, .. } => {
                let handed = marked(ticket.issue) && count == 1;
                self.meet("commit: hands over a unit of a marked issue", handed);
            }
            Call::Cutoff { .. } => self.cut_marked(made),
            Call::Resolve { issue, .. } => {
                let part = marked(issue) && made.before.count == made.after.count;
                self.meet("resolve: part of an entry of a marked issue", part);
            }
            Call::PairOff { issue, .. } => {
                self.meet("pair-off: steps in a marked issue", marked(issue) && count > 0);
            }
            _ => {}
        }
    }

    /// The situations of marked issues at a cutoff.
    fn cut_marked(&mut self, made: &Made) {
        let fails = &made.after.ledger()[made.before.count..];
        let marked = |entry: &Entry| made.before.is_marked(entry.issue.into());
        let stock = |entry: &Entry| {
            let issue = usize::from(entry.issue);
            handed(&units_of(made.before, issue), made.before.delivered_total(issue)).1 > 0
        };
        let after_stock = fails.iter().any(|entry| marked(entry) && stock(entry));
        self.meet("cutoff: a marked issue fails after stock goes to a unit", after_stock);
        let both = fails.iter().any(marked) && fails.iter().any(|fail| fail.lots % 2 == 1);
        self.meet("cutoff: marked and other issues fail, odd lots among them", both);
    }
}

/// An issue's units in their order and how many of them are handed; none where there is no such issue.
fn units_and_handed(book: &Book, issue: u32) -> Option<(Vec<Unit>, usize)> {
    let issue = usize::try_from(issue).ok().filter(|&issue| issue < ISSUES)?;
    let units = units_of(book, issue);
    let (count, _) = handed(&units, book.delivered_total(issue));
    Some((units, count))
}

/// Is the issue's order another one by its lifts?
fn is_lifted(book: &Book, issue: u32) -> bool {
    units_of(book, issue as usize) != order_of(book, issue as usize)
}

/// The places of an account's full units in an order.
fn full_places(units: &[Unit], account: u32) -> impl Iterator<Item = usize> + '_ {
    let own = move |one: &Unit| one.full && one.account == account;
    units.iter().enumerate().filter(move |(_, one)| own(one)).map(|(at, _)| at)
}

/// Have the full units of some account one of another account between them?
fn lie_apart(units: &[Unit]) -> bool {
    let full = units.iter().enumerate().filter(|(_, one)| one.full);
    let mut last = [None; ACCOUNTS];
    for (at, unit) in full {
        let before = last[unit.account as usize].replace(at);
        if before.is_some_and(|before| before + 1 < at) {
            return true;
        }
    }
    false
}

/// Stands the one unit before the other where nothing is lifted?
fn ranks_before(one: &Unit, other: &Unit) -> bool {
    let size = |unit: &Unit| if unit.full { unit.net } else { unit.lots };
    let key = |unit: &Unit| (unit.full, size(unit), Reverse(unit.account));
    key(one) > key(other)
}

/// Would the cutoff be accepted with one entry less in the ledger?
fn room_for_one_less(book: &Book) -> bool {
    let mut room = book.clone();
    room.set_ledger(&book.ledger()[1..]);
    reference::calls::cutoff_on_sound(&mut room, &mut [0; 4_096]).number == 0
}

/// The name under which a call's number is counted.
fn number_name(call: &str, number: u32) -> String {
    format!("{call}: answers {number}")
}

/// All names that a run must meet.
fn expected() -> Vec<String> {
    let numbers = NUMBERS
        .iter()
        .flat_map(|(call, numbers)| numbers.iter().map(move |&number| number_name(call, number)));
    numbers.chain(SITUATIONS.iter().map(|name| name.to_string())).collect()
}

/// Are these full units of two accounts with equal nets?
fn equal_full(one: &Unit, other: &Unit) -> bool {
    one.full && other.full && one.account != other.account && one.net == other.net
}

/// Are these small units of equal size?
fn equal_small(one: &Unit, other: &Unit) -> bool {
    !one.full && !other.full && one.lots == other.lots && one.lots < UNIT_LOTS
}
