//! Part refusals: every question of every call at its edge, and their order.
//!
//! For each call the ways of each question, 'yes' and 'no' at the edge, are put together in every
//! combination; the number is that of the first 'no', whatever comes after it. Question 19 is put
//! straight after 7, 26 straight after 3.

use crate::Failure;
use reference::book::{place, Book, Entry, Lift, Phase};
use reference::calls::Ticket;
use reference::measures::same_quotes;
use tests::books::suited;
use tests::case::Case;
use tests::report::Mismatch;
use tests::steps::Call;

/// A call with its book, before it is made.
#[derive(Clone)]
struct Asked {
    book: Book,
    out: usize,
    issue: u32,
    from: u32,
    to: u32,
    lots: u32,
    days: u32,
    rate: u32,
    quotes: Vec<u32>,
    ticket: Ticket,
    mark: u32,
    day: u32,
}

/// The numbers of the questions in the order in which they are put.
const ORDER: [u32; 21] =
    [1, 2, 3, 26, 4, 5, 6, 7, 19, 8, 9, 10, 11, 12, 13, 14, 15, 16, 17, 18, 20];

/// One way in which a question is answered: its number for 'no', or 0 for 'yes'.
type Way = (u32, fn(&mut Asked));
/// A call: its name, how it is made, and the ways of its questions, in the order they are set.
type Plan = (&'static str, fn(&Asked) -> Call, &'static [&'static [Way]]);

const OUTPUT: &[Way] = &[
    (0, |asked| asked.out = 4_096),
    (0, |asked| asked.out = 4_097),
    (1, |asked| asked.out = 4_095),
    (1, |asked| asked.out = 1),
    (1, |asked| asked.out = 0),
];
const SOUND: &[Way] = &[
    (0, |_| {}),
    (2, |asked| asked.book.charges[63] = 1),
    (2, |asked| asked.book.days[2_047] = 1),
    (2, |asked| odd_nets_in_marked(asked)),
];
const TAKING: &[Way] = &[(0, taking), (3, settling), (3, cut)];
const SETTLING: &[Way] = &[(3, taking), (0, settling), (3, cut)];
const CUT: &[Way] = &[(3, taking), (3, settling), (0, cut)];
const ANY_PHASE: &[Way] = &[(0, taking), (0, settling), (0, cut)];
const ISSUE: &[Way] = &[
    (0, |asked| asked.issue = 0),
    (0, |asked| asked.issue = 15),
    (4, |asked| asked.issue = 16),
    (4, |asked| asked.issue = 256),
    (4, |asked| asked.issue = u32::MAX),
];
const FROM: &[Way] = &[
    (0, |asked| asked.from = 1),
    (0, |asked| asked.from = 63),
    (5, |asked| asked.from = 64),
    (5, |asked| asked.from = 257),
    (5, |asked| asked.from = u32::MAX),
];
const TO: &[Way] = &[
    (0, |asked| asked.to = 0),
    (0, |asked| asked.to = 62),
    (5, |asked| asked.to = 64),
    (5, |asked| asked.to = u32::MAX),
    (6, |asked| asked.to = asked.from),
];
const LOTS: &[Way] = &[
    (0, |asked| asked.lots = 1),
    (0, |asked| asked.lots = 20_000_000),
    (7, |asked| asked.lots = 0),
    (7, |asked| asked.lots = 20_000_001),
    (7, |asked| asked.lots = u32::MAX),
    (0, |asked| in_marked(asked, 2)),
    (0, |asked| in_marked(asked, 20_000_000)),
    (7, |asked| in_marked(asked, 0)),
    (7, |asked| in_marked(asked, 20_000_001)),
    (7, |asked| in_marked(asked, u32::MAX)),
    (19, |asked| in_marked(asked, 1)),
    (19, |asked| in_marked(asked, 19_999_999)),
];
const NETS: &[Way] = &[
    (0, |asked| nets_before(asked, 0, 0)),
    (8, |asked| nets_before(asked, 1, 0)),
    (8, |asked| nets_before(asked, 0, 1)),
    (8, |asked| nets_before(asked, 1, 1)),
];
const OWED_TODAY: &[Way] = &[
    (7, |asked| asked.lots = 0),
    (7, |asked| asked.lots = 20_000_001),
    (7, |asked| asked.lots = u32::MAX),
    (0, |asked| owe_today(asked, 1_000, 400, 600)),
    (0, |asked| owe_today(asked, 1_000, 400, 1)),
    (0, |asked| owe_today(asked, 20_000_000, 0, 20_000_000)),
    (9, |asked| owe_today(asked, 1_000, 400, 601)),
    (9, |asked| owe_today(asked, 20_000_000, 1, 20_000_000)),
    (9, |asked| owe_today(asked, -1_000, 0, 1)),
    (9, |asked| owe_today(asked, 0, 0, 20_000_000)),
    (7, |asked| in_marked(asked, 0)),
    (7, |asked| in_marked(asked, 20_000_001)),
    (0, |asked| owe_today_in_marked(asked, 1_000, 400, 600)),
    (0, |asked| owe_today_in_marked(asked, 1_000, 400, 2)),
    (19, |asked| owe_today_in_marked(asked, 1_000, 400, 1)),
    (19, |asked| owe_today_in_marked(asked, 1_000, 400, 601)),
    (9, |asked| owe_today_in_marked(asked, 1_000, 400, 602)),
    (19, |asked| owe_today_in_marked(asked, 0, 0, 19_999_999)),
];
const OWED_IN_LEDGER: &[Way] = &[
    (7, |asked| asked.lots = 0),
    (7, |asked| asked.lots = 20_000_001),
    (7, |asked| asked.lots = u32::MAX),
    (0, |asked| owe_in_ledger(asked, &[7, 5], 12)),
    (0, |asked| owe_in_ledger(asked, &[7, 5], 1)),
    (0, |asked| owe_in_ledger(asked, &[20_000_000, 1], 20_000_000)),
    (9, |asked| owe_in_ledger(asked, &[7, 5], 13)),
    (9, |asked| owe_in_ledger(asked, &[19_999_999], 20_000_000)),
    (9, |asked| owe_in_ledger(asked, &[], 1)),
    (7, |asked| in_marked(asked, 0)),
    (7, |asked| in_marked(asked, 20_000_001)),
    (0, |asked| owe_in_ledger_in_marked(asked, &[8, 6], 14)),
    (0, |asked| owe_in_ledger_in_marked(asked, &[8, 6], 10)),
    (19, |asked| owe_in_ledger_in_marked(asked, &[8, 6], 9)),
    (19, |asked| owe_in_ledger_in_marked(asked, &[8, 6], 15)),
    (9, |asked| owe_in_ledger_in_marked(asked, &[8, 6], 16)),
    (19, |asked| owe_in_ledger_in_marked(asked, &[], 1)),
];
const MARK: &[Way] = &[
    (0, |asked| asked.mark = 0),
    (0, |asked| asked.mark = 1),
    (0, |asked| asked.mark = 2),
    (0, |asked| asked.mark = 256),
    (0, |asked| asked.mark = u32::MAX),
];
const MARKED_BEFORE: &[Way] =
    &[(0, |_| {}), (0, |asked| in_marked(asked, 2)), (0, |asked| asked.book.marks[9] = 255)];
const IN_USE: &[Way] = &[
    (0, |_| {}),
    (0, |asked| others_in_use(asked)),
    (20, |asked| net_before(asked, 0, 63)),
    (20, |asked| net_before(asked, 63, 62)),
    (20, |asked| entry_before(asked, &[8], &[])),
    (20, |asked| entry_before(asked, &[7, 8], &[6; 2_045])),
    (20, |asked| {
        net_before(asked, 1, 2);
        entry_before(asked, &[], &[9]);
    }),
];
const TODAY: &[Way] = &[
    (0, |asked| asked.book.day = 1),
    (0, |asked| asked.book.day = 300),
    (0, |asked| asked.book.day = 65_534),
    (0, |asked| asked.book.day = 65_535),
];
const NAMED: &[Way] = &[
    (0, |_| {}),
    (0, |asked| asked.book.turn = u32::from(asked.book.day) + 1),
    (0, |asked| asked.book.turn = u32::from(asked.book.day) + 65_536),
    (0, |asked| asked.book.turn = u32::MAX),
    (26, |asked| asked.book.turn = asked.book.day.into()),
    (26, |asked| asked.book.turn = 1),
];
const CHANGE_OVER: &[Way] = &[
    (0, |asked| asked.day = u32::from(asked.book.day) + 1),
    (0, |asked| asked.day = u32::from(asked.book.day) + 65_536),
    (0, |asked| asked.day = 65_536),
    (0, |asked| asked.day = 1 << 31),
    (0, |asked| asked.day = u32::MAX),
    (26, |asked| asked.day = asked.book.day.into()),
    (26, |asked| asked.day = u32::from(asked.book.day) - 1),
    (26, |asked| asked.day = 0),
];
const UNHANDED: &[Way] = &[
    (16, |asked| unit_asked(asked, 0)),
    (16, |asked| unit_asked(asked, 1)),
    (0, |asked| unit_asked(asked, 2)),
    (0, |asked| unit_asked(asked, 4)),
    (16, |asked| unit_asked(asked, 5)),
    (16, |asked| unit_asked(asked, u32::MAX)),
];
const NOT_TAKING: &[Way] = &[(3, taking), (0, settling), (0, cut)];
const THERE: &[Way] = &[
    (0, |asked| unit_asked(asked, 0)),
    (0, |asked| unit_asked(asked, 1)),
    (0, |asked| unit_asked(asked, 2)),
    (0, |asked| unit_asked(asked, 4)),
    (16, |asked| unit_asked(asked, 5)),
    (16, |asked| unit_asked(asked, 256)),
    (16, |asked| unit_asked(asked, u32::MAX)),
];
const TICKET: &[Way] = &[
    (0, |_| {}),
    (17, |asked| asked.ticket.account ^= 1),
    (17, |asked| asked.ticket.account += 64),
    (17, |asked| asked.ticket.lots = 0),
    (17, |asked| asked.ticket.lots += 1),
    (17, |asked| asked.ticket.day += 1),
    (17, |asked| asked.ticket.day += 65_536),
    (17, |asked| asked.ticket.count -= 1),
    (17, |asked| asked.ticket.count = u32::MAX),
];
const LIFTS: &[Way] = &[
    (0, |asked| lifts_before(asked, 0)),
    (0, |asked| lifts_before(asked, 7)),
    (18, |asked| lifts_before(asked, 8)),
];
const LIFTS_ASKED: &[Way] =
    &[(0, |asked| lifts_before(asked, 0)), (0, |asked| lifts_before(asked, 8))];
const ROOM: &[Way] = &[
    (0, |asked| entries_before(asked, 0)),
    (0, |asked| entries_before(asked, 2_046)),
    (10, |asked| entries_before(asked, 2_047)),
    (10, |asked| entries_before(asked, 2_048)),
];
const DAYS: &[Way] = &[
    (0, |asked| asked.days = 1),
    (0, |asked| asked.days = 12),
    (11, |asked| asked.days = 0),
    (11, |asked| asked.days = 13),
    (11, |asked| asked.days = u32::MAX),
];
const RATE: &[Way] = &[
    (0, |asked| asked.rate = 0),
    (0, |asked| asked.rate = 10_000),
    (11, |asked| asked.rate = 10_001),
    (11, |asked| asked.rate = u32::MAX),
];
const QUOTES: &[Way] = &[
    (0, |asked| asked.quotes = same_quotes(1, 0).to_vec()),
    (0, |asked| asked.quotes = same_quotes(200_000, 0).to_vec()),
    (0, |asked| asked.quotes = same_quotes(190_000, 10_000).to_vec()),
    (11, |asked| asked.quotes = vec![]),
    (11, |asked| asked.quotes = vec![1; 16]),
    (11, |asked| asked.quotes = vec![1; 31]),
    (11, |asked| asked.quotes = vec![1; 33]),
    (11, |asked| asked.quotes[0] = 0),
    (11, |asked| asked.quotes[15] = 0),
    (11, |asked| asked.quotes[0] = 200_001),
    (11, |asked| asked.quotes[15] = 200_001),
    (11, |asked| asked.quotes[7] = u32::MAX),
    (11, |asked| asked.quotes[16] = 10_001),
    (11, |asked| asked.quotes[31] = u32::MAX),
    (11, |asked| (asked.quotes[0], asked.quotes[16]) = (190_001, 10_000)),
    (11, |asked| (asked.quotes[15], asked.quotes[31]) = (200_000, 1)),
];
const DAY: &[Way] = &[
    (0, |asked| asked.book.day = 0),
    (0, |asked| asked.book.day = 65_534),
    (12, |asked| asked.book.day = 65_535),
];

/// The calls with their questions.
const PLANS: [Plan; 13] = [
    ("unit", |asked| Call::Unit { issue: asked.issue, k: 0 }, &[ANY_PHASE, ISSUE, SOUND]),
    ("status", status, &[NOT_TAKING, ISSUE, THERE, LIFTS_ASKED, SOUND]),
    ("trade", trade, &[TAKING, ISSUE, FROM, TO, LOTS, NETS, SOUND]),
    ("close", |_| Call::Close, &[TAKING, SOUND]),
    ("deliver", deliver, &[OUTPUT, SETTLING, ISSUE, FROM, OWED_TODAY, SOUND]),
    ("ask", ask, &[SETTLING, ISSUE, UNHANDED, LIFTS_ASKED, SOUND]),
    ("commit", commit, &[OUTPUT, SETTLING, ISSUE, UNHANDED, TICKET, LIFTS, SOUND]),
    ("cutoff", |asked| Call::Cutoff { out: asked.out }, &[OUTPUT, SETTLING, ROOM, SOUND]),
    ("resolve", resolve, &[OUTPUT, ANY_PHASE, ISSUE, FROM, OWED_IN_LEDGER, SOUND]),
    ("pair-off", pair_off, &[ANY_PHASE, ISSUE, FROM, SOUND]),
    ("roll", roll, &[CUT, DAYS, RATE, QUOTES, DAY, SOUND]),
    ("mark", mark, &[ANY_PHASE, ISSUE, MARK, MARKED_BEFORE, IN_USE, SOUND]),
    ("turn", |asked| Call::Turn { day: asked.day }, &[ANY_PHASE, TODAY, NAMED, CHANGE_OVER, SOUND]),
];

/// Makes every combination of every call; gives the answers compared.
pub fn run(_seed: u64, _cases: u64) -> Result<u64, Failure> {
    let mut compared = 0;
    for plan in &PLANS {
        compared += combine(plan, &start(), 0, 0)?;
    }
    Ok(compared)
}

/// Sets the ways of the questions from here on in every combination, and makes the call.
fn combine(plan: &Plan, asked: &Asked, at: usize, first_no: u32) -> Result<u64, Mismatch> {
    let (_, call, questions) = plan;
    let Some(ways) = questions.get(at) else {
        let mut case = Case::of(asked.book.clone());
        return case.expect(call(asked), first_no).map(|_| 1);
    };
    let mut compared = 0;
    for &(number, set) in *ways {
        let mut asked = asked.clone();
        set(&mut asked);
        compared += combine(plan, &asked, at + 1, earlier(first_no, number))?;
    }
    Ok(compared)
}

/// Of two numbers that of the question that is put first; 0 is none.
fn earlier(one: u32, other: u32) -> u32 {
    ORDER.into_iter().find(|&number| number == one || number == other).unwrap_or(0)
}

/// A fresh book and arguments in range.
fn start() -> Asked {
    Asked {
        book: Book::fresh(),
        out: 4_096,
        issue: 0,
        from: 1,
        to: 2,
        lots: 1,
        days: 1,
        rate: 300,
        quotes: same_quotes(100_000, 0).to_vec(),
        ticket: Ticket::default(),
        mark: 1,
        day: 1,
    }
}

fn taking(asked: &mut Asked) {
    asked.book.phase = Phase::Taking;
}

fn settling(asked: &mut Asked) {
    asked.book.phase = Phase::Settling;
}

fn cut(asked: &mut Asked) {
    asked.book.phase = Phase::Cut;
}

/// The trade asked.
fn trade(asked: &Asked) -> Call {
    let Asked { issue, from, to, lots, .. } = *asked;
    Call::Trade { issue, from, to, lots }
}

/// The delivery asked.
fn deliver(asked: &Asked) -> Call {
    let Asked { issue, from: account, lots, out, .. } = *asked;
    Call::Deliver { issue, account, lots, out }
}

/// The unit of which the status is asked.
fn status(asked: &Asked) -> Call {
    Call::Status { issue: asked.issue, k: asked.ticket.unit }
}

/// The lift asked for.
fn ask(asked: &Asked) -> Call {
    Call::Ask { issue: asked.issue, unit: asked.ticket.unit }
}

/// The commit asked.
fn commit(asked: &Asked) -> Call {
    Call::Commit { ticket: asked.ticket, out: asked.out }
}

/// The resolve asked.
fn resolve(asked: &Asked) -> Call {
    let Asked { issue, from: account, lots, out, .. } = *asked;
    Call::Resolve { issue, account, lots, out }
}

/// The pair-off asked.
fn pair_off(asked: &Asked) -> Call {
    Call::PairOff { issue: asked.issue, account: asked.from }
}

/// The roll asked.
fn roll(asked: &Asked) -> Call {
    let Asked { days, rate, ref quotes, .. } = *asked;
    Call::Roll { days, rate, quotes: quotes.clone() }
}

/// The mark asked.
fn mark(asked: &Asked) -> Call {
    Call::Mark { issue: asked.issue, mark: asked.mark }
}

/// The issue is marked, and these lots are asked.
fn in_marked(asked: &mut Asked, lots: u32) {
    asked.lots = lots;
    if let Some(mark) = asked.book.marks.get_mut(asked.issue as usize) {
        *mark = 1 << (asked.issue % 8);
    }
}

/// Issue 10 is marked and has odd nets.
fn odd_nets_in_marked(asked: &mut Asked) {
    asked.book.marks[10] = 1;
    asked.book.nets[place(10, 50)] = 1;
    asked.book.nets[place(10, 51)] = -1;
}

/// Where an issue and account stand, if both are in range.
fn in_book(issue: u32, account: u32) -> Option<usize> {
    (issue < 16 && account < 64).then(|| place(issue as usize, account as usize))
}

/// Nets that the trade brings to the limits, or so many lots past them (in a marked issue twice as
/// many, all nets being even); account 40 holds the rest.
fn nets_before(asked: &mut Asked, from_past: i32, to_past: i32) {
    let marked = asked.book.is_marked(asked.issue as usize);
    let step = if marked { 2 } else { 1 };
    let (from_past, to_past) = (step * from_past, step * to_past);
    let lots = suited(&asked.book, asked.issue, asked.lots.clamp(1, 20_000_000)) as i32;
    let from = in_book(asked.issue, asked.from);
    let to = in_book(asked.issue, asked.to);
    if let (Some(from), Some(to), Some(rest)) = (from, to, in_book(asked.issue, 40)) {
        if from != to {
            asked.book.nets[from] = -20_000_000 + lots - from_past;
            asked.book.nets[to] = 20_000_000 - lots + to_past;
            asked.book.nets[rest] = from_past - to_past;
        }
    }
}

/// The account owes lots today and has delivered some (in Taking none); then the lots are asked.
fn owe_today(asked: &mut Asked, owed: i32, delivered: u32, lots: u32) {
    asked.lots = lots;
    if let Some(at) = in_book(asked.issue, asked.from) {
        asked.book.nets[at] = -owed;
        asked.book.nets[place(asked.issue as usize, 40)] = owed;
        if asked.book.phase != Phase::Taking {
            asked.book.delivered[at] = delivered;
        }
    }
}

/// The same in a marked issue.
fn owe_today_in_marked(asked: &mut Asked, owed: i32, delivered: u32, lots: u32) {
    owe_today(asked, owed, delivered, lots);
    in_marked(asked, lots);
}

/// A unit of 1 1 2 (full), 1 (50,000) and 2 (30,000), of which two are handed and 20,000 lots are in
/// stock (in Taking none); the ticket is what asking gives on day 9 with a count of 5.
fn unit_asked(asked: &mut Asked, unit: u32) {
    const UNITS: [(u32, u32); 5] =
        [(1, 100_000), (1, 100_000), (2, 100_000), (1, 50_000), (2, 30_000)];
    let (account, lots) = UNITS.get(unit as usize).copied().unwrap_or((2, 30_000));
    asked.ticket = Ticket { issue: asked.issue, unit, account, lots, day: 9, count: 5 };
    asked.book.day = 9;
    if let Some(at) = in_book(asked.issue, 0) {
        asked.book.nets[at + 1] = 250_000;
        asked.book.nets[at + 2] = 130_000;
        asked.book.nets[at + 3] = -380_000;
        if asked.book.phase != Phase::Taking {
            asked.book.delivered[at + 3] = 220_000;
            asked.book.lifts[asked.issue as usize].count = 5;
        }
    }
}

/// So many lifts stand, each of the next unit to its own place (in Taking none).
fn lifts_before(asked: &mut Asked, lifts: u32) {
    if asked.issue < 16 && asked.book.phase != Phase::Taking {
        asked.book.lifts[asked.issue as usize].number = lifts;
        asked.book.lifts[asked.issue as usize].moves.fill(Lift { old: 2, new: 2 });
    }
}

/// The account has entries of these lots, among entries of another account and issue.
fn owe_in_ledger(asked: &mut Asked, entries: &[u32], lots: u32) {
    asked.lots = lots;
    if in_book(asked.issue, asked.from).is_some() {
        let (issue, from) = (asked.issue as u8, asked.from as u8);
        let entry = |issue, from, lots| Entry { issue, from, to: 40, lots, day: 0 };
        let mut ledger = vec![entry(issue, 41, 100), entry(issue ^ 1, from, 100)];
        ledger.extend(entries.iter().map(|&lots| entry(issue, from, lots)));
        ledger.push(Entry { issue, from: 40, to: from, lots: 100, day: 0 });
        asked.book.set_ledger(&ledger);
    }
}

/// The same in a marked issue; the entry of another issue has odd lots.
fn owe_in_ledger_in_marked(asked: &mut Asked, entries: &[u32], lots: u32) {
    owe_in_ledger(asked, entries, lots);
    in_marked(asked, lots);
    if asked.book.count > 1 {
        asked.book.lots[1] = 101;
    }
}

/// Other issues have nets and entries, the issue itself none.
fn others_in_use(asked: &mut Asked) {
    let mut ledger = Vec::new();
    for issue in (0..16).filter(|&issue| issue != asked.issue && issue != 9) {
        asked.book.nets[place(issue as usize, 1)] = 1;
        asked.book.nets[place(issue as usize, 2)] = -1;
        ledger.push(Entry { issue: issue as u8, from: 1, to: 2, lots: 1, day: 0 });
    }
    asked.book.set_ledger(&ledger);
}

/// The issue has a net in two accounts alone, of 2 lots.
fn net_before(asked: &mut Asked, to: u32, from: u32) {
    if let (Some(to), Some(from)) = (in_book(asked.issue, to), in_book(asked.issue, from)) {
        (asked.book.nets[to], asked.book.nets[from]) = (2, -2);
    }
}

/// The issue has an entry, of 2 lots, between entries of these other issues.
fn entry_before(asked: &mut Asked, before: &[u8], after: &[u8]) {
    if asked.issue < 16 {
        let entry = |issue| Entry { issue, from: 1, to: 2, lots: 2, day: 0 };
        let all = before.iter().copied().chain([asked.issue as u8]).chain(after.iter().copied());
        asked.book.set_ledger(&all.map(entry).collect::<Vec<_>>());
    }
}

/// So many entries stand before a cutoff that makes two.
fn entries_before(asked: &mut Asked, entries: usize) {
    asked.book.nets[place(9, 3)] = 100_001;
    asked.book.nets[place(9, 4)] = -100_001;
    let entry = Entry { issue: 0, from: 1, to: 2, lots: 1, day: 0 };
    asked.book.set_ledger(&vec![entry; entries]);
}
