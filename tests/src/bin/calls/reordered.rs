//! Part reordered: lists of deliveries and their rearrangements, from the same book, with no other
//! call among them.
//!
//! Where a list is wholly accepted each rearrangement must be too, with the same records for each
//! issue, joined in the order of the calls, an equal book, and an equal ledger after the same cutoff.
//! Of a list with a refused call nothing is claimed. What was met is counted; one never met fails the
//! run.

use crate::Failure;
use reference::book::{Book, Entry, Phase, ACCOUNTS, ISSUES};
use tests::books::{random_book, random_lots, suited, Shape};
use tests::case::Case;
use tests::report::Mismatch;
use tests::rng::Rng;
use tests::steps::{steps_to, text_of, Call, Step};

/// The words of an output, as many as are asked for.
const OUT: usize = 4_096;
/// The deliveries of the longest random list.
const LONGEST: u32 = 12;
/// The random rearrangements of a list, beside the list backwards.
const SHUFFLES: usize = 3;
/// The deliveries of P6 and P7 and two more: account, lots and output.
const FOUR: [(u32, u32, usize); 4] =
    [(5, 345_000, OUT), (4, 200_000, OUT), (5, 30_000, OUT + 1), (4, 30_000, OUT)];
/// What a run must meet.
const SITUATIONS: [&str; 9] = [
    "an empty list",
    "several issues",
    "the same delivery twice",
    "outputs of unlike lengths",
    "the calls of an order hand over other units than those of the other",
    "lifts stand",
    "a marked issue",
    "full units are dealt in turn",
    "a refused call, and the books differ",
];

/// What a list of deliveries and the cutoff after it led to.
struct Outcome {
    numbers: Vec<u32>,
    /// The records of each call, and of each issue's calls, joined: the two words of each.
    by_call: Vec<Vec<[u32; 2]>>,
    by_issue: Vec<Vec<[u32; 2]>>,
    book: Book,
    ledger: Vec<Entry>,
}

impl Outcome {
    fn accepted(&self) -> bool {
        self.numbers.iter().all(|&number| number == 0)
    }

    /// What is not as in another outcome of the same deliveries.
    fn difference(&self, other: &Outcome) -> Option<&'static str> {
        let same = [
            ("its calls' numbers", other.accepted()),
            ("an issue's joined records", self.by_issue == other.by_issue),
            ("the book", self.book == other.book),
            ("the ledger after the cutoff", self.ledger == other.ledger),
        ];
        same.into_iter().find(|&(_, same)| !same).map(|(what, _)| what)
    }
}

/// How many answers were compared, and how often each situation was met.
#[derive(Default)]
struct Met {
    compared: u64,
    times: [u64; SITUATIONS.len()],
}

impl Met {
    fn note(&mut self, met: [bool; SITUATIONS.len()]) {
        self.times.iter_mut().zip(met).for_each(|(times, met)| *times += u64::from(met));
    }

    /// The counts as text, or what was never met.
    fn report(&self) -> Result<String, Failure> {
        let never = self.times.iter().position(|&times| times == 0);
        if let Some(at) = never {
            return Err(Failure::Told(format!("never met: {}", SITUATIONS[at])));
        }
        let lines = SITUATIONS.iter().zip(self.times);
        Ok(lines.map(|(what, times)| format!("  {what}: {times}\n")).collect())
    }
}

/// Runs the worked days, every order of four deliveries and the random lists; gives the answers
/// compared.
pub fn run(seed: u64, cases: u64) -> Result<u64, Failure> {
    let mut met = Met::default();
    worked_days(&mut met)?;
    for turn in [0, 1] {
        let book = p5(turn);
        let four = FOUR.map(|(account, lots, out)| Call::Deliver { issue: 0, account, lots, out });
        let orders = all_orders(&four);
        compare(&mut met, &book, &four, &orders)?;
    }
    for at in 0..cases {
        let mut rng = Rng::of_case(seed ^ 0xf11, at);
        random_orders(&mut rng, &mut met)?;
    }
    eprint!("reordered: met so often\n{}", met.report()?);
    Ok(met.compared)
}

/// P5's book between close and cutoff, on day 1, with this change-over day.
fn p5(turn: u32) -> Book {
    let mut book = Book { day: 1, phase: Phase::Settling, turn, ..Book::fresh() };
    let nets = [(1, 230_000), (2, 250_000), (3, 150_000), (4, -230_000), (5, -400_000)];
    nets.into_iter().for_each(|(account, lots)| book.nets[account] = lots);
    book
}

/// A delivery in issue 0.
fn of(account: u32, lots: u32) -> Call {
    Call::Deliver { issue: 0, account, lots, out: OUT }
}

/// P6 and P7 in both orders by their numbers, and 345,000 and 100,000 lots of account 5, which owes
/// 400,000: whichever comes first is done and the other refused.
fn worked_days(met: &mut Met) -> Result<(), Failure> {
    let book = p5(0);
    let days = [([(5, 345_000), (4, 200_000)], [3, 2]), ([(4, 200_000), (5, 345_000)], [2, 3])];
    for (list, counts) in days {
        let outcome = outcome(met, &book, &list.map(|(account, lots)| of(account, lots)))?;
        let to: Vec<u32> =
            outcome.by_issue[0].iter().map(|record| (record[0] >> 12) & 63).collect();
        let found: Vec<usize> = outcome.by_call.iter().map(Vec::len).collect();
        if to != [2, 2, 1, 1, 3] || found != counts || !outcome.accepted() {
            return Err(Failure::Told(format!("{list:?}: {found:?} records, to {to:?}")));
        }
    }
    for [first, other] in [[345_000, 100_000], [100_000, 345_000]] {
        let outcome = outcome(met, &book, &[of(5, first), of(5, other)])?;
        if outcome.numbers != [0, 9] || outcome.book.delivered[5] != first {
            return Err(Failure::Told(format!("{first} and {other}: {:?}", outcome.numbers)));
        }
    }
    Ok(())
}

/// Every order of a list.
fn all_orders(list: &[Call]) -> Vec<Vec<Call>> {
    if list.is_empty() {
        return vec![Vec::new()];
    }
    let first = |at: usize| {
        let mut rest = list.to_vec();
        let call = rest.remove(at);
        all_orders(&rest).into_iter().map(move |order| [vec![call.clone()], order].concat())
    };
    (0..list.len()).flat_map(first).collect()
}

/// Makes the deliveries and a cutoff on both engines.
fn outcome(met: &mut Met, book: &Book, list: &[Call]) -> Result<Outcome, Mismatch> {
    let mut case = Case::of(book.clone());
    let (mut numbers, mut by_call) = (Vec::new(), Vec::new());
    let mut by_issue = vec![Vec::new(); ISSUES];
    for call in list {
        let answer = case.call(call.clone())?;
        let records = case.engines.records(answer.others[0] as usize);
        if let (Call::Deliver { issue, .. }, false) = (call, records.is_empty()) {
            by_issue[*issue as usize].extend_from_slice(&records);
        }
        numbers.push(answer.number);
        by_call.push(records);
    }
    let after = case.book().clone();
    case.call(Call::Cutoff { out: OUT })?;
    met.compared += case.engines.compared;
    Ok(Outcome { numbers, by_call, by_issue, book: after, ledger: case.book().ledger() })
}

/// Compares a list with other orders of it.
fn compare(met: &mut Met, book: &Book, list: &[Call], orders: &[Vec<Call>]) -> Result<(), Failure> {
    let first = outcome(met, book, list)?;
    for order in orders {
        let other = outcome(met, book, order)?;
        note(met, book, list, &first, &other);
        if let (true, Some(what)) = (first.accepted(), first.difference(&other)) {
            let lists = format!("first:  {}\nsecond: {}", text(book, list), text(book, order));
            return Err(Failure::Told(format!("in another order {what} differs\n{lists}")));
        }
    }
    Ok(())
}

/// A list on a book as a case that can be replayed.
fn text(book: &Book, list: &[Call]) -> String {
    text_of(&[steps_to(book), list.iter().cloned().map(Step::Call).collect()].concat())
}

/// Notes what a list and another order of it met.
fn note(met: &mut Met, book: &Book, list: &[Call], first: &Outcome, other: &Outcome) {
    let fields = |call: &Call| match *call {
        Call::Deliver { issue, out, .. } => (issue, out),
        _ => (0, OUT),
    };
    let unlike = |field: fn((u32, usize)) -> usize| {
        list.windows(2).any(|two| field(fields(&two[0])) != field(fields(&two[1])))
    };
    let counts = |outcome: &Outcome| {
        let mut counts: Vec<_> = outcome.by_call.iter().map(Vec::len).collect();
        counts.sort();
        counts
    };
    let of_list = |holds: &dyn Fn(usize) -> bool| {
        first.accepted() && list.iter().any(|call| holds(fields(call).0 as usize))
    };
    met.note([
        list.is_empty(),
        first.accepted() && unlike(|(issue, _)| issue as usize),
        first.accepted() && (1..list.len()).any(|at| list[..at].contains(&list[at])),
        first.accepted() && unlike(|(_, out)| out),
        first.accepted() && counts(first) != counts(other),
        of_list(&|issue| book.lifts[issue].number > 0),
        of_list(&|issue| book.is_marked(issue)),
        of_list(&|_| book.deals_in_turn()),
        !first.accepted() && first.book != other.book,
    ]);
}

/// A random list on a random book, backwards and in random orders.
fn random_orders(rng: &mut Rng, met: &mut Met) -> Result<(), Failure> {
    let shape = Shape::few(rng);
    let book = loop {
        let book = random_book(rng, &shape);
        if book.phase == Phase::Settling {
            break book;
        }
    };
    let list = random_list(rng, &shape, &book);
    let mut orders = vec![list.iter().rev().cloned().collect::<Vec<_>>()];
    for _ in 0..SHUFFLES {
        let mut order = list.clone();
        (1..order.len()).rev().for_each(|at| order.swap(at, rng.range(0, at as u32) as usize));
        orders.push(order);
    }
    compare(met, &book, &list, &orders)
}

/// Deliveries of what is still owed, in part or in full, now and then one made before; one list in six
/// has a delivery that is refused, or that leaves another without the lots that it needs.
fn random_list(rng: &mut Rng, shape: &Shape, book: &Book) -> Vec<Call> {
    let places =
        shape.issues.iter().flat_map(|&issue| (0..ACCOUNTS as u32).map(move |a| (issue, a)));
    let owed = |&(issue, a): &(u32, u32)| book.owed_today(issue as usize, a as usize) as u32;
    let mut left: Vec<_> = places.map(|place| (place, owed(&place))).collect();
    left.retain(|&(_, lots)| lots > 0);
    let mut list: Vec<Call> = Vec::new();
    for _ in 0..rng.range(0, LONGEST) {
        if left.is_empty() {
            break;
        }
        let at = rng.range(0, left.len() as u32 - 1) as usize;
        let ((issue, account), most) = left[at];
        let part = random_lots(rng, &shape.menu).min(most);
        let lots = suited(book, issue, *rng.pick(&[part, part, most, most / 3 + 1])).min(most);
        let out = *rng.pick(&[OUT, OUT, OUT, OUT + 1, 5_000]);
        let delivery = Call::Deliver { issue, account, lots, out };
        let times = if rng.chance(1, 3) { (most / lots).min(2) } else { 1 };
        list.extend((0..times).map(|_| delivery.clone()));
        left[at].1 -= times * lots;
        left.retain(|&(_, lots)| lots > 0);
    }
    if rng.chance(1, 6) {
        spoil(rng, &mut list);
    }
    list
}

/// One delivery gets more lots than it had, or an output that is too short.
fn spoil(rng: &mut Rng, list: &mut [Call]) {
    if list.is_empty() {
        return;
    }
    let at = rng.range(0, list.len() as u32 - 1) as usize;
    if let Call::Deliver { lots, out, .. } = &mut list[at] {
        match rng.range(0, 3) {
            0 => *out = OUT - 1,
            _ => *lots += 2 * rng.range(1, 50_000),
        }
    }
}
