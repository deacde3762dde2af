//! Part lifts: worked days with lifts by their numbers, and small markets with every lift.
//!
//! Of each small market with a set of deliveries every unit is lifted, and then again every unit; at
//! each step the edges are asked, the used ticket is put again, and the day goes on to its cutoff.
//! Then the last unit is lifted until eight lifts stand, and a ninth is refused. All markets are walked
//! in both orders.

use crate::Failure;
use reference::book::{place, Book, Phase};
use reference::calls::{ask_on_sound, Ticket};
use reference::measures::same_quotes;
use reference::units::{handed, units_of};
use tests::case::Case;
use tests::engines::Answer;
use tests::report::Mismatch;
use tests::steps::{Call, Edit};

/// The nets of the receivers: none, a small unit, full ones, both.
const SIZES: [i32; 5] = [0, 30_000, 100_000, 200_000, 230_000];
/// The accounts of the receivers; 1 and 40 deliver.
const RECEIVERS: [usize; 3] = [0, 31, 63];
/// The issue of the markets.
const ISSUE: usize = 11;
/// The words of an output.
const OUT: usize = 4_096;
/// How many lifts are tried one after another, every unit each time.
const DEPTH: usize = 2;

/// Runs the worked days and every market; gives the answers compared.
pub fn run(_seed: u64, _cases: u64) -> Result<u64, Failure> {
    let mut compared = unit_seven()? + own_places()? + apart()?;
    for market in all_markets() {
        for delivered in deliveries(&market) {
            let mut book = market.clone();
            let first = delivered.min(owed(&market, 1));
            book.delivered[place(ISSUE, 1)] = first;
            book.delivered[place(ISSUE, 40)] = delivered - first;
            compared += walk(&book, DEPTH)?;
        }
        compared += eight(&market)?;
    }
    Ok(compared)
}

/// All markets of three receivers in Settling, in both orders; each of two accounts delivers half of it.
fn all_markets() -> Vec<Book> {
    let nets = || SIZES.into_iter();
    let all = nets().flat_map(|a| nets().flat_map(move |b| nets().map(move |c| [a, b, c])));
    let both = all.flat_map(|nets| [0, 2].map(|turn| (nets, turn)));
    both.map(|(nets, turn)| {
        let mut book = Book { day: 2, turn, phase: Phase::Settling, ..Book::fresh() };
        let total: i32 = nets.iter().sum();
        for (account, net) in RECEIVERS.into_iter().zip(nets) {
            book.nets[place(ISSUE, account)] = net;
        }
        book.nets[place(ISSUE, 1)] = -(total / 2);
        book.nets[place(ISSUE, 40)] = -(total - total / 2);
        book
    })
    .collect()
}

/// Delivered totals: none, a small unit, one lot less than a full unit, inside a second, all but one.
fn deliveries(market: &Book) -> Vec<u32> {
    let total = owed(market, 1) + owed(market, 40);
    let mut lots = vec![0, 30_000, 99_999, 145_000, total.saturating_sub(1)];
    lots.retain(|&lots| lots <= total);
    lots.sort();
    lots.dedup();
    lots
}

/// What an account owes in the issue.
fn owed(book: &Book, account: usize) -> u32 {
    book.owed_today(ISSUE, account) as u32
}

/// Asks at the edges, ends the day, and lifts each unhanded unit, so many times one after another.
fn walk(book: &Book, depth: usize) -> Result<u64, Mismatch> {
    let units = units_of(book, ISSUE);
    let (count, _) = handed(&units, book.delivered_total(ISSUE));
    let mut compared = ask_edges(book, count, units.len())? + end_day(book)?;
    if depth == 0 {
        return Ok(compared);
    }
    for unit in count..units.len() {
        let mut case = Case::of(book.clone());
        let ticket = ticket_of(book, unit);
        case.expect(Call::Commit { ticket, out: OUT }, 0)?;
        let handed_now = handed(&units_of(case.book(), ISSUE), book.delivered_total(ISSUE)).0;
        let again = if unit < handed_now { 16 } else { 17 };
        case.expect(Call::Commit { ticket, out: OUT }, again)?;
        compared += case.engines.compared + walk(case.book(), depth - 1)?;
    }
    Ok(compared)
}

/// The ticket that asking for a unit gives now.
fn ticket_of(book: &Book, unit: usize) -> Ticket {
    ask_on_sound(book, ISSUE as u32, unit as u32).ticket
}

/// Asks for the last handed unit, the next, the last and one more.
fn ask_edges(book: &Book, count: usize, number: usize) -> Result<u64, Mismatch> {
    let mut case = Case::of(book.clone());
    for unit in [count.wrapping_sub(1), count, number.wrapping_sub(1), number] {
        let no = if (count..number).contains(&unit) { 0 } else { 16 };
        case.expect(Call::Ask { issue: ISSUE as u32, unit: unit as u32 }, no)?;
    }
    Ok(case.engines.compared)
}

/// The day goes on: one account delivers half of what it still owes, then the cutoff.
fn end_day(book: &Book) -> Result<u64, Mismatch> {
    let mut case = Case::of(book.clone());
    let lots = owed(book, 40).div_ceil(2);
    if lots > 0 {
        case.expect(Call::Deliver { issue: ISSUE as u32, account: 40, lots, out: OUT }, 0)?;
    }
    case.call(Call::Unit { issue: ISSUE as u32, k: 1 })?;
    case.expect(Call::Cutoff { out: OUT }, 0)?;
    Ok(case.engines.compared)
}

/// The last unit is lifted eight times; a ninth lift is refused, and the cutoff follows the order.
fn eight(market: &Book) -> Result<u64, Mismatch> {
    let Some(last) = units_of(market, ISSUE).len().checked_sub(1) else { return Ok(0) };
    let mut case = Case::of(market.clone());
    for _ in 0..8 {
        let ticket = ticket_of(case.book(), last);
        case.expect(Call::Commit { ticket, out: OUT }, 0)?;
    }
    let ticket = ticket_of(case.book(), last);
    case.expect(Call::Commit { ticket, out: OUT }, 18)?;
    let stale = Ticket { count: ticket.count - 1, ..ticket };
    case.expect(Call::Commit { ticket: stale, out: OUT }, 17)?;
    case.expect(Call::Commit { ticket, out: OUT - 1 }, 1)?;
    case.expect(Call::Cutoff { out: OUT }, 0)?;
    case.expect(Call::Roll { days: 1, rate: 300, quotes: same_quotes(99_999, 0).to_vec() }, 0)?;
    Ok(case.engines.compared)
}

/// A case after P7, in issue 0: five units are handed and 45,000 lots are in stock.
fn after_p7() -> Result<Case, Mismatch> {
    let mut case = Case::fresh();
    for (from, to, lots) in [(4, 1, 230_000), (5, 2, 250_000), (5, 3, 150_000)] {
        case.expect(Call::Trade { issue: 0, from, to, lots }, 0)?;
    }
    case.expect(Call::Close, 0)?;
    for (account, lots) in [(5, 345_000), (4, 200_000)] {
        case.expect(Call::Deliver { issue: 0, account, lots, out: OUT }, 0)?;
    }
    Ok(case)
}

/// A ticket of these six numbers.
fn ticket(numbers: [u32; 6]) -> Ticket {
    let [issue, unit, account, lots, day, count] = numbers;
    Ticket { issue, unit, account, lots, day, count }
}

/// The numbers of an answer after its own must be these.
fn told(case: &str, answer: Answer, others: &[u64]) -> Result<(), Failure> {
    if answer.others[..others.len()] == *others {
        return Ok(());
    }
    Err(Failure::Told(format!("{case}: {:?}, by the paper {others:?}", answer.others)))
}

/// Unit 7 of the settled day is lifted: account 1, 30,000 lots, count 2, handed over at once.
fn unit_seven() -> Result<u64, Failure> {
    let mut case = after_p7()?;
    let good = ticket([0, 7, 1, 30_000, 0, 2]);
    let asked = case.expect(Call::Ask { issue: 0, unit: 7 }, 0)?;
    told("ask for unit 7 after P7", asked, &[0, 7, 1, 30_000, 0, 2])?;
    case.expect(Call::Commit { ticket: good, out: OUT - 1 }, 1)?;
    let done = case.expect(Call::Commit { ticket: good, out: OUT }, 0)?;
    told("commit of unit 7 after P7", done, &[1])?;
    for (k, account, lots) in [(4, 3, 100_000), (5, 1, 30_000), (6, 2, 50_000), (7, 3, 50_000)] {
        let unit = case.expect(Call::Unit { issue: 0, k }, 0)?;
        told("a unit after the lift", unit, &[1, account, lots])?;
    }
    case.expect(Call::Commit { ticket: good, out: OUT }, 17)?;
    let asked = case.expect(Call::Ask { issue: 0, unit: 7 }, 0)?;
    told("ask for unit 7 after the lift", asked, &[0, 7, 3, 50_000, 0, 3])?;
    case.expect(Call::Ask { issue: 0, unit: 5 }, 16)?;
    case.expect(Call::Ask { issue: 0, unit: 8 }, 16)?;
    let cut = case.expect(Call::Cutoff { out: OUT }, 0)?;
    told("the cutoff after the lift", cut, &[4])?;
    case.expect(Call::Ask { issue: 0, unit: 7 }, 3)?;
    Ok(case.engines.compared)
}

/// The next unit is lifted to its own place: it stands, is counted and hands nothing over.
fn own_places() -> Result<u64, Failure> {
    let mut case = after_p7()?;
    for count in 2..10 {
        let ticket = ticket([0, 5, 2, 50_000, 0, count]);
        let done = case.expect(Call::Commit { ticket, out: OUT }, 0)?;
        told("commit of the next unit", done, &[0])?;
    }
    case.expect(Call::Commit { ticket: ticket([0, 5, 2, 50_000, 0, 10]), out: OUT }, 18)?;
    case.expect(Call::Commit { ticket: ticket([0, 5, 2, 50_000, 0, 9]), out: OUT }, 17)?;
    Ok(case.engines.compared)
}

/// Full units of account 2 lie apart and take the stock: one fail, at the place of the first.
fn apart() -> Result<u64, Failure> {
    let mut case = Case::fresh();
    for (account, lots) in [(1, 300_000), (2, 200_000), (3, -500_000)] {
        case.set(Edit::Net { issue: 0, account, lots })?;
    }
    case.expect(Call::Close, 0)?;
    let done = Call::Commit { ticket: ticket([0, 3, 2, 100_000, 0, 0]), out: OUT };
    case.expect(done, 0)?;
    case.expect(Call::Deliver { issue: 0, account: 3, lots: 50_000, out: OUT }, 0)?;
    let cut = case.expect(Call::Cutoff { out: OUT }, 0)?;
    told("a cutoff with full units apart", cut, &[3])?;
    let fails: Vec<_> = case.book().entries().map(|fail| (fail.from, fail.to, fail.lots)).collect();
    if fails != [(3, 2, 150_000), (3, 1, 300_000)] {
        return Err(Failure::Told(format!("fails of full units apart: {fails:?}")));
    }
    Ok(case.engines.compared)
}
