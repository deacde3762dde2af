//! Part damage: each condition of soundness broken alone, at its edges, and random damage.
//!
//! Of a book that is not sound, `sound` says so, and `unit` and every call are refused by 2 and
//! change nothing. Just inside an edge the book is sound and nothing is refused by 2.

use crate::Failure;
use reference::book::{place, Book, Entry, Lift, Phase, ACCOUNTS};
use reference::calls::Ticket;
use reference::measures::same_quotes;
use reference::soundness::MOST_CHARGE_A_DAY;
use tests::books::{random_book, Shape};
use tests::case::Case;
use tests::report::Mismatch;
use tests::rng::Rng;
use tests::steps::{entry_at, lift_word, set_entry, Call, Edit, Step};

/// A change of a book, and whether the book is sound after it.
type Change = (bool, fn(&mut Book));

/// The changes of the book of `edges`, one condition of soundness each, inside and outside.
const CHANGES: &[Change] = &[
    (true, |_| {}),
    // each net lies in −20,000,000..20,000,000
    (true, |book| nets(book, 19_999_999)),
    (true, |book| nets(book, 20_000_000)),
    (false, |book| nets(book, 20_000_001)),
    (false, |book| nets(book, i32::MAX)),
    (false, |book| book.nets[place(9, 0)] = i32::MIN),
    (false, |book| book.nets[place(9, 0)..place(9, 4)].fill(1 << 30)),
    // each issue's nets sum to 0
    (false, |book| book.nets[place(0, 0)] += 1),
    (false, |book| book.nets[place(15, 63)] -= 1),
    (false, |book| {
        book.nets[place(7, 63)] = 1;
        book.nets[place(8, 0)] = -1;
    }),
    // delivered lots lie in 0..−net where the net is negative
    (true, |book| book.delivered[place(3, 5)] = 0),
    (true, |book| book.delivered[place(3, 5)] = 20_000_000),
    (false, |book| book.delivered[place(3, 5)] = 20_000_001),
    (false, |book| book.delivered[place(3, 5)] = 1 << 31),
    (false, |book| book.delivered[place(3, 5)] = u32::MAX),
    // they are 0 elsewhere
    (false, |book| book.delivered[place(3, 4)] = 1),
    (false, |book| book.delivered[place(0, 0)] = 1),
    (false, |book| book.delivered[place(15, 63)] = u32::MAX),
    // they are 0 throughout in Taking
    (true, taking),
    (false, |book| {
        taking(book);
        book.delivered[place(3, 5)] = 1;
    }),
    (true, |book| book.phase = Phase::Cut),
    // numbers in range, from unlike to
    (true, |book| book.issues[1] = 15),
    (false, |book| book.issues[1] = 16),
    (false, |book| book.issues[0] = 255),
    (true, |book| book.froms[1] = 62),
    (false, |book| book.froms[1] = 64),
    (false, |book| book.froms[2] = 255),
    (true, |book| book.tos[2] = 62),
    (false, |book| book.tos[2] = 64),
    (false, |book| book.tos[0] = 255),
    (false, |book| book.tos[0] = book.froms[0]),
    (false, |book| book.froms[2] = book.tos[2]),
    // lots 1..20,000,000
    (true, |book| book.lots[1] = 1),
    (true, |book| book.lots[1] = 20_000_000),
    (false, |book| book.lots[1] = 0),
    (false, |book| book.lots[1] = 20_000_001),
    (false, |book| book.lots[2] = u32::MAX),
    // days never falling along the ledger nor above today
    (true, |book| book.days[0] = book.days[1]),
    (false, |book| book.days[0] = book.days[1] + 1),
    (true, |book| book.days[2] = book.day),
    (false, |book| book.days[2] = book.day + 1),
    (false, |book| book.days[2] = 65_535),
    (true, |book| book.days[2] = book.days[1]),
    (false, |book| book.days[2] = book.days[1] - 1),
    // the entry count is at most 2,048
    (true, |book| full(book, 2_048)),
    (false, |book| full(book, 2_049)),
    (false, |book| full(book, 4_096)),
    (false, |book| full(book, 1 << 16)),
    (false, |book| full(book, (1 << 32) + 2_048)),
    (false, |book| full(book, usize::MAX)),
    (false, |book| book.count = (1 << 32) + 3),
    // unused entries are zero
    (false, |book| book.count = 2),
    (false, |book| book.count = 0),
    (false, |book| book.count = 4),
    (false, |book| book.issues[3] = 1),
    (false, |book| book.froms[3] = 1),
    (false, |book| book.tos[3] = 1),
    (false, |book| book.lots[3] = 1),
    (false, |book| book.days[3] = 1),
    (false, |book| book.issues[2_047] = 1),
    (false, |book| book.froms[2_047] = 1),
    (false, |book| book.tos[2_047] = 1),
    (false, |book| book.lots[2_047] = 1),
    (false, |book| book.days[2_047] = 1),
    // charges sum to 0, each of size at most 134,663,013,697,536 × day
    (true, |book| book.charges = [0; 64]),
    (false, |book| book.charges[0] -= 1),
    (false, |book| book.charges[63] = 1),
    (false, |book| {
        book.charges[0] += 1;
        book.charges[1] -= 1;
    }),
    (false, |book| book.day = 299),
    (false, |book| {
        book.charges[2] = i64::MIN;
        book.charges[3] = i64::MAX;
        book.charges[4] = 1;
    }),
    (false, |book| book.charges[2] = i64::MIN),
    (true, |book| {
        fresh_day(book, 0);
        book.charges = [0; 64];
    }),
    (false, |book| {
        fresh_day(book, 0);
        book.charges = [0; 64];
        book.charges[5] = 1;
        book.charges[6] = -1;
    }),
];

/// The changes of the book of `lifted`, one condition on lifts each, inside and outside.
const LIFT_CHANGES: &[Change] = &[
    (true, |_| {}),
    // at most eight lifts stand for an issue
    (true, |book| places(book, 0, &[])),
    (true, |book| places(book, 8, &[(4, 0); 8])),
    (false, |book| places(book, 9, &[(4, 0); 8])),
    (false, |book| places(book, 256, &[(4, 0); 8])),
    (false, |book| places(book, (1 << 16) + 1, &[(4, 0); 8])),
    (false, |book| places(book, u32::MAX, &[(4, 0); 8])),
    (false, |book| book.lifts[0].number = 9),
    (false, |book| book.lifts[0].number = 1),
    (false, |book| book.lifts[15].number = 1 << 31),
    // old is below the number of units
    (true, |book| places(book, 3, &[(4, 0), (4, 1), (4, 2)])),
    (false, |book| places(book, 3, &[(4, 0), (4, 1), (5, 2)])),
    (false, |book| places(book, 3, &[(4, 0), (4, 1), (u32::MAX, 2)])),
    (false, |book| places(book, 3, &[(5, 0), (4, 1), (4, 2)])),
    (false, |book| places(book, 1, &[((1 << 16) + 4, 0)])),
    // new is at most old
    (true, |book| places(book, 2, &[(4, 0), (1, 1)])),
    (false, |book| places(book, 2, &[(4, 0), (0, 1)])),
    (true, |book| places(book, 3, &[(4, 0), (4, 1), (2, 2)])),
    (false, |book| places(book, 3, &[(4, 0), (4, 1), (1, 2)])),
    // new places never fall
    (true, |book| places(book, 4, &[(4, 0), (4, 1), (1, 1), (4, 2)])),
    (false, |book| places(book, 4, &[(4, 0), (4, 1), (0, 0), (4, 2)])),
    (false, |book| places(book, 2, &[(1, 1), (4, 0)])),
    (true, |book| {
        places(book, 8, &[(1, 1); 8]);
        (book.lifts[7].moves[0], book.lifts[7].moves[1]) = (lift(4, 0), lift(4, 1));
    }),
    (false, |book| {
        places(book, 8, &[(1, 1); 8]);
        (book.lifts[7].moves[0], book.lifts[7].moves[1]) = (lift(4, 0), lift(4, 1));
        book.lifts[7].moves[7] = lift(0, 0);
    }),
    // they are at most the units handed, of the order with all lifts
    (true, |book| places(book, 3, &[(4, 0), (4, 1), (4, 2)])),
    (false, |book| places(book, 3, &[(4, 0), (4, 1), (4, 3)])),
    (false, |book| places(book, 3, &[(4, 0), (4, 1), (4, 4)])),
    (true, |book| places(book, 2, &[(4, 0), (4, 1)])),
    (false, |book| places(book, 2, &[(4, 0), (4, 2)])),
    (true, |book| places(book, 1, &[(4, 0)])),
    (false, |book| places(book, 1, &[(4, 1)])),
    (false, |book| places(book, 1, &[(0, u32::MAX)])),
    (true, |book| book.delivered[place(7, 9)] = 70_000),
    (false, |book| book.delivered[place(7, 9)] = 69_999),
    (true, |book| {
        book.delivered[place(7, 9)] = 30_000;
        places(book, 2, &[(4, 0), (4, 1)]);
    }),
    (false, |book| {
        book.delivered[place(7, 9)] = 29_999;
        places(book, 2, &[(4, 0), (4, 1)]);
    }),
    // no lift in Taking
    (false, |book| lifts_in_taking(book, 1, 0)),
    (false, |book| lifts_in_taking(book, 8, 8)),
    (true, |book| lifts_in_taking(book, 0, 0)),
    (true, |book| book.phase = Phase::Cut),
    // the count is at most lots delivered plus lifts
    (true, |book| book.lifts[7].count = 0),
    (true, |book| book.lifts[7].count = 75_003),
    (false, |book| book.lifts[7].count = 75_004),
    (false, |book| book.lifts[7].count = u32::MAX),
    (false, |book| book.lifts[6].count = 1),
    (false, |book| book.lifts[15].count = 1 << 31),
    (false, |book| lifts_in_taking(book, 0, 1)),
    // words of unused lifts are in no condition
    (true, |book| book.lifts[7].moves[3..].fill(lift(u32::MAX, 0))),
    (true, |book| book.lifts[7].moves[3..].fill(lift(0, u32::MAX))),
    (true, |book| book.lifts[0].moves.fill(lift(1, 2))),
    (true, |book| book.lifts[15].moves.fill(lift(u32::MAX, u32::MAX))),
    (true, |book| {
        lifts_in_taking(book, 0, 0);
        book.lifts[7].moves.fill(lift(9, 10));
    }),
];

/// The changes of the book of `marked`, one condition on marked issues each, inside and outside.
const MARK_CHANGES: &[Change] = &[
    (true, |_| {}),
    // any number but 0 is a mark
    (true, |book| book.marks[3] = 0),
    (true, |book| book.marks[3] = 2),
    (true, |book| book.marks[3] = 255),
    (true, |book| book.marks[14] = 128),
    (false, |book| book.marks[15] = 128),
    (false, |book| book.marks[4] = 1),
    (false, |book| book.marks[4] = 2),
    (false, |book| book.marks[4] = 128),
    (false, |book| book.marks[4] = 254),
    // the nets of a marked issue are even
    (false, |book| odd_nets(book, 3, 1, 2)),
    (false, |book| odd_nets(book, 3, 62, 63)),
    (false, |book| odd_nets(book, 3, 63, 0)),
    (true, |book| odd_nets(book, 4, 1, 2)),
    (true, |book| odd_nets(book, 2, 62, 63)),
    (true, |book| {
        odd_nets(book, 3, 1, 2);
        odd_nets(book, 3, 1, 2);
    }),
    (false, |book| {
        odd_nets(book, 3, 62, 63);
        book.marks[3] = 64;
    }),
    (true, |book| {
        odd_nets(book, 3, 62, 63);
        book.marks[3] = 0;
    }),
    // its delivered lots are even
    (false, |book| book.delivered[place(3, 2)] = 1),
    (false, |book| book.delivered[place(3, 2)] = 40_001),
    (false, |book| book.delivered[place(3, 2)] = 129_999),
    (true, |book| book.delivered[place(3, 2)] = 129_998),
    (true, |book| book.delivered[place(3, 2)] = 130_000),
    (true, |book| book.delivered[place(4, 2)] = 2),
    (false, |book| {
        book.marks[3] = 16;
        book.delivered[place(3, 2)] = 3;
    }),
    // its entries' lots are even
    (false, |book| book.lots[1] = 7),
    (false, |book| book.lots[1] = 1),
    (false, |book| book.lots[3] = 19_999_999),
    (true, |book| book.lots[3] = 20_000_000),
    (true, |book| book.lots[0] = 8),
    (true, |book| book.lots[2] = 19_999_999),
    (false, |book| book.issues[0] = 3),
    (true, |book| book.issues[1] = 4),
    (false, |book| {
        book.marks[3] = 32;
        book.lots[1] = 9;
    }),
    (true, |book| {
        book.marks[3] = 0;
        book.lots[1] = 9;
    }),
    // each of the three alone
    (false, |book| alone(book, |book| odd_nets(book, 9, 5, 6))),
    (false, |book| {
        alone(book, |book| {
            (book.nets[place(9, 5)], book.nets[place(9, 6)]) = (2, -2);
            book.delivered[place(9, 6)] = 1;
        });
    }),
    (false, |book| {
        alone(book, |book| {
            book.set_ledger(&[Entry { issue: 9, from: 5, to: 6, lots: 1, day: 0 }]);
        });
    }),
    (true, |book| alone(book, |book| odd_nets(book, 8, 5, 6))),
    // an entry of an issue above 15 is out of range, and has no mark
    (false, |book| book.issues[2] = 16),
    (false, |book| book.issues[2] = 19),
];

/// The changes of the change-over day: it is in no condition of soundness.
const TURN_CHANGES: &[Change] = &[
    (true, |book| book.turn = 0),
    (true, |book| book.turn = 1),
    (true, |book| book.turn = 299),
    (true, |book| book.turn = 300),
    (true, |book| book.turn = 301),
    (true, |book| book.turn = 65_535),
    (true, |book| book.turn = 65_536),
    (true, |book| book.turn = 1 << 31),
    (true, |book| book.turn = u32::MAX),
];

/// Runs all damage; gives the answers compared.
pub fn run(seed: u64, cases: u64) -> Result<u64, Failure> {
    let mut compared = 0;
    let in_turn = |book: Book| Book { turn: 1, ..book };
    let books = [
        (edges(), CHANGES),
        (lifted(), LIFT_CHANGES),
        (marked(), MARK_CHANGES),
        (edges(), TURN_CHANGES),
        (lifted(), TURN_CHANGES),
        (apart(), TURN_CHANGES),
        (in_turn(edges()), CHANGES),
        (in_turn(lifted()), LIFT_CHANGES),
    ];
    for (start, changes) in books {
        for &(sound, change) in changes {
            let mut book = start.clone();
            change(&mut book);
            compared += ask_everything(&book, sound)?;
        }
    }
    compared += every_word_of_lifts()?;
    compared += every_place_of_marked_issues()?;
    compared += charge_sums()?;
    compared += every_place()?;
    for at in 0..4 * cases {
        compared += random_damage(&mut Rng::of_case(seed ^ 0x6461_6d61, at))?;
    }
    Ok(compared)
}

/// A sound book of day 300 in Settling, with every field at an edge and three entries.
fn edges() -> Book {
    let mut book = Book { day: 300, phase: Phase::Settling, ..Book::fresh() };
    nets(&mut book, 20_000_000);
    book.delivered[place(3, 5)] = 20_000_000;
    let most = MOST_CHARGE_A_DAY as i64 * 300;
    (book.charges[0], book.charges[1]) = (most, -most);
    book.set_ledger(&[
        Entry { issue: 15, from: 63, to: 0, lots: 1, day: 7 },
        Entry { issue: 0, from: 0, to: 63, lots: 20_000_000, day: 9 },
        Entry { issue: 3, from: 5, to: 4, lots: 10, day: 300 },
    ]);
    book
}

/// A sound book in Settling with three lifts in issue 7.
///
/// The units are 1 (100,000), 1 (60,000), 2 (50,000), 3 (40,000), 4 (30,000); lifted, 4 and 3 stand
/// first and are handed, with 5,000 lots in stock, so two units are handed, and without lifts none.
fn lifted() -> Book {
    let mut book = Book { day: 300, phase: Phase::Settling, ..Book::fresh() };
    for (account, net) in [(1, 160_000), (2, 50_000), (3, 40_000), (4, 30_000), (9, -280_000)] {
        book.nets[place(7, account)] = net;
    }
    book.delivered[place(7, 9)] = 75_000;
    places(&mut book, 3, &[(4, 0), (4, 1), (3, 2)]);
    book
}

/// A sound book in Settling with two lifts in issue 7 and full units of 1, 2 and 3 that lie apart: three,
/// two and two of them. The fifth stands first now, the last at the fourth place; three are handed.
fn apart() -> Book {
    let mut book = Book { day: 300, phase: Phase::Settling, ..Book::fresh() };
    for (account, net) in [(1, 330_000), (2, 250_000), (3, 200_000), (9, -780_000)] {
        book.nets[place(7, account)] = net;
    }
    book.delivered[place(7, 9)] = 350_000;
    let moves = [lift(4, 0), lift(6, 3)];
    book.lifts[7].moves[..2].copy_from_slice(&moves);
    (book.lifts[7].number, book.lifts[7].count) = (2, 5);
    book
}

/// A sound book in Settling with issue 3 marked, even numbers in it and odd ones in issue 4.
fn marked() -> Book {
    let mut book = Book { day: 300, phase: Phase::Settling, ..Book::fresh() };
    book.marks[3] = 1;
    for (issue, net, delivered) in [(3, 130_000, 40_002), (4, 130_001, 40_001)] {
        book.nets[place(issue, 1)] = net;
        book.nets[place(issue, 2)] = -net;
        book.delivered[place(issue, 2)] = delivered;
    }
    let entry = |issue, lots| Entry { issue, from: 5, to: 6, lots, day: 7 };
    book.set_ledger(&[entry(4, 7), entry(3, 8), entry(15, 1), entry(3, 2)]);
    book
}

/// One lot more and one less in two nets of an issue.
fn odd_nets(book: &mut Book, issue: usize, more: usize, less: usize) {
    book.nets[place(issue, more)] += 1;
    book.nets[place(issue, less)] -= 1;
}

/// In Settling, with issue 9 marked and this change alone.
fn alone(book: &mut Book, change: fn(&mut Book)) {
    *book = Book { phase: Phase::Settling, ..Book::fresh() };
    book.marks[9] = 1;
    change(book);
}

/// So many lifts in issue 7, the first of them these.
fn places(book: &mut Book, number: u32, moves: &[(u32, u32)]) {
    book.lifts[7].number = number;
    for (at, &(old, new)) in book.lifts[7].moves.iter_mut().zip(moves) {
        *at = lift(old, new);
    }
}

/// A lift of these places.
fn lift(old: u32, new: u32) -> Lift {
    Lift { old, new }
}

/// In Taking, nothing delivered, with so many lifts to the front and this count.
fn lifts_in_taking(book: &mut Book, number: u32, count: u32) {
    taking(book);
    places(book, number, &[(4, 0); 8]);
    book.lifts[7].count = count;
}

/// Nets of this size to both sides in an issue, with nothing delivered past them.
fn nets(book: &mut Book, lots: i32) {
    book.nets[place(3, 4)] = lots;
    book.nets[place(3, 5)] = -lots;
    book.delivered[place(3, 5)] = book.delivered[place(3, 5)].min(lots as u32);
}

/// In Taking, nothing delivered.
fn taking(book: &mut Book) {
    book.phase = Phase::Taking;
    book.delivered.fill(0);
}

/// A ledger filled to its last place, of this count.
fn full(book: &mut Book, count: usize) {
    let entry = Entry { issue: 1, from: 2, to: 3, lots: 4, day: 300 };
    (3..2_048).for_each(|at| set_entry(book, at, entry));
    book.count = count;
}

/// The day with an empty ledger.
fn fresh_day(book: &mut Book, day: u16) {
    book.day = day;
    book.set_ledger(&[]);
}

/// Puts `sound`, `unit` and every call; a book that is not sound refuses all by 2.
fn ask_everything(book: &Book, sound: bool) -> Result<u64, Mismatch> {
    let mut case = Case::of(book.clone());
    case.expect(Call::Sound, u32::from(sound))?;
    if !sound {
        for call in every_call() {
            case.expect(call, 2)?;
        }
        return Ok(case.engines.compared);
    }
    let mut compared = case.engines.compared;
    for call in every_call() {
        let mut case = Case::of(book.clone());
        case.call(call)?;
        compared += case.engines.compared;
    }
    Ok(compared)
}

/// The questions on units and every call, with arguments in range.
fn every_call() -> Vec<Call> {
    let (issue, account, lots, out) = (3, 5, 1, 4_096);
    let ticket = Ticket { issue: 7, unit: 3, account: 1, lots: 100_000, day: 300, count: 0 };
    vec![
        Call::Unit { issue, k: 0 },
        Call::Status { issue, k: 0 },
        Call::Trade { issue, from: account, to: 6, lots },
        Call::Close,
        Call::Deliver { issue, account, lots, out },
        Call::Ask { issue: 7, unit: 3 },
        Call::Commit { ticket, out },
        Call::Cutoff { out },
        Call::Resolve { issue, account, lots, out },
        Call::PairOff { issue, account },
        Call::Roll { days: 1, rate: 300, quotes: same_quotes(100_000, 0).to_vec() },
        Call::Mark { issue: 9, mark: 1 },
        Call::Turn { day: 301 },
    ]
}

/// Charges within the limit of the last day whose sum is a multiple of 2^64, or truly 0.
fn charge_sums() -> Result<u64, Mismatch> {
    let most = MOST_CHARGE_A_DAY as i64 * 65_535;
    let mut compared = 0;
    for multiple in 1..=30 {
        for sign in [1, -1] {
            let mut book = Book { day: 65_535, ..Book::fresh() };
            let mut left = i128::from(multiple) << 64;
            for yen in &mut book.charges {
                let part = left.min(most.into());
                *yen = sign * part as i64;
                left -= part;
            }
            assert_eq!(left, 0, "the charges take the whole sum");
            compared += ask_everything(&book, false)?;
        }
    }
    for split in [1, 31, 32] {
        let mut book = Book { day: 65_535, ..Book::fresh() };
        book.charges[..split].fill(most);
        book.charges[64 - split..].fill(-most);
        compared += ask_everything(&book, true)?;
        book.charges[63] -= 1;
        compared += ask_everything(&book, false)?;
    }
    Ok(compared)
}

/// One number damaged at each place of each column; `sound` is asked.
fn every_place() -> Result<u64, Mismatch> {
    let mut compared = 0;
    for (issue, account) in (0..16).flat_map(|i| (0..64).map(move |a| (i, a))) {
        let lots = edges().nets[place(issue, account)];
        compared += not_sound(&edges(), Edit::Net { issue, account, lots: lots ^ 1 })?;
        let lots = 1 + lots.min(0).unsigned_abs();
        compared += not_sound(&edges(), Edit::Delivered { issue, account, lots })?;
    }
    for account in 0..64 {
        let yen = edges().charges[account] ^ 1;
        compared += not_sound(&edges(), Edit::Charge { account, yen })?;
    }
    let mut ledger = edges();
    full(&mut ledger, 2_048);
    let good = Entry { issue: 1, from: 2, to: 3, lots: 4, day: 300 };
    for first in 3..2_048 {
        let end = first + 1;
        for entry in wrong_entries(good) {
            compared += not_sound(&ledger, Edit::Entries { first, end, entry })?;
        }
        for entry in nonzero_entries() {
            compared += not_sound(&edges(), Edit::Entries { first, end, entry })?;
        }
    }
    Ok(compared)
}

/// Each word of each issue's eight lifts damaged: their number, the count and every place.
fn every_word_of_lifts() -> Result<u64, Mismatch> {
    let mut book = Book { phase: Phase::Cut, ..Book::fresh() };
    for issue in 0..16 {
        book.nets[place(issue, 60)] = 400_001;
        book.nets[place(issue, 61)] = -400_001;
        book.delivered[place(issue, 61)] = 250_000;
        book.lifts[issue].number = 8;
        book.lifts[issue].count = 250_008;
        book.lifts[issue].moves.fill(lift(3, 2));
    }
    let mut compared = ask_everything(&book, true)?;
    for (issue, word) in (0..16).flat_map(|issue| (0..18).map(move |word| (issue, word))) {
        let wrong: &[u32] = match word {
            0 => &[9, 255, 256 + 8, u32::MAX],
            1 => &[250_009, u32::MAX],
            _ if word % 2 == 0 => &[5, 1, 0, 65_536 + 3, u32::MAX],
            3 => &[3, 4, 65_536 + 2, u32::MAX],
            _ => &[1, 3, 4, 65_536 + 2, u32::MAX],
        };
        for &number in wrong {
            compared += not_sound(&book, Edit::Lifts { issue, word, number })?;
        }
        let mut unused = book.clone();
        unused.lifts[issue].number = 0;
        (unused.lifts[issue].count, *lift_word(&mut unused, issue, word.max(2))) = (0, 77);
        compared += ask_everything(&unused, true)?;
    }
    Ok(compared)
}

/// In each issue, marked by each bit, one odd number at each place of nets, delivered lots and ledger.
fn every_place_of_marked_issues() -> Result<u64, Mismatch> {
    let mut compared = 0;
    for (issue, account) in (0..16).flat_map(|i| (0..64).map(move |a| (i, a))) {
        let mut book = Book { phase: Phase::Cut, ..Book::fresh() };
        (book.nets[place(issue, account)], book.nets[place(issue, account ^ 1)]) = (-4, 4);
        let mark = 1 << (account % 8);
        compared += odd_in_marked(&book, issue, mark, |book| {
            odd_nets(book, issue, account, account ^ 1);
        })?;
        compared += odd_in_marked(&book, issue, mark, |book| {
            book.delivered[place(issue, account)] = 3;
        })?;
    }
    let entry = |at: usize| Entry { issue: (at % 16) as u8, from: 1, to: 2, lots: 2, day: 0 };
    let mut book = Book::fresh();
    book.set_ledger(&(0..2_048).map(entry).collect::<Vec<_>>());
    for at in 0..2_048 {
        let mark = 1 << (at / 16 % 8);
        compared += odd_in_marked(&book, at % 16, mark, |book| book.lots[at] += 1)?;
    }
    Ok(compared)
}

/// A book with an odd number in an issue: sound, with every other issue marked too, and not sound with
/// the issue itself marked; without the odd number it is sound in any case.
fn odd_in_marked(
    book: &Book,
    issue: usize,
    mark: u8,
    change: impl Fn(&mut Book),
) -> Result<u64, Mismatch> {
    let mut marked = book.clone();
    marked.marks[issue] = mark;
    Case::of(marked.clone()).expect(Call::Sound, 1)?;
    change(&mut marked);
    Case::of(marked.clone()).expect(Call::Sound, 0)?;
    marked.marks = [255; 16];
    marked.marks[issue] = 0;
    Case::of(marked).expect(Call::Sound, 1)?;
    Ok(3)
}

/// Entries that differ from a sound one in one number that is out of range.
fn wrong_entries(good: Entry) -> [Entry; 7] {
    [
        Entry { issue: 16, ..good },
        Entry { from: 64, ..good },
        Entry { to: 64, ..good },
        Entry { from: good.to, ..good },
        Entry { lots: 0, ..good },
        Entry { lots: 20_000_001, ..good },
        Entry { day: 299, ..good },
    ]
}

/// Entries that are zero but for one number.
fn nonzero_entries() -> [Entry; 5] {
    let zero = Entry { issue: 0, from: 0, to: 0, lots: 0, day: 0 };
    [
        Entry { issue: 1, ..zero },
        Entry { from: 1, ..zero },
        Entry { to: 1, ..zero },
        Entry { lots: 1, ..zero },
        Entry { day: 1, ..zero },
    ]
}

/// `sound` says no of the book with this change; the first full entry may fall in days.
fn not_sound(book: &Book, edit: Edit) -> Result<u64, Mismatch> {
    let mut changed = book.clone();
    edit.apply(&mut changed);
    if changed.sound() {
        let day_of_first =
            matches!(edit, Edit::Entries { first: 3, entry, .. } if entry.day == 299);
        assert!(day_of_first, "the change {edit} leaves the book sound");
    }
    let mut case = Case::of(changed);
    case.call(Call::Sound).map(|_| 1)
}

/// A random sound book with one to three numbers changed; everything is asked of it.
fn random_damage(rng: &mut Rng) -> Result<u64, Mismatch> {
    let shape = Shape::few(rng);
    let mut book = random_book(rng, &shape);
    for _ in 0..rng.range(1, 3) {
        random_edit(rng, &book).apply(&mut book);
    }
    let sound = book.sound();
    let mut case = Case::of(book);
    case.call(Call::Sound)?;
    let calls = every_call();
    for _ in 0..if sound { 1 } else { 3 } {
        case.step(Step::Call(rng.pick(&calls).clone()))?;
    }
    Ok(case.engines.compared)
}

/// One number of the book changed to any number, or by one.
fn random_edit(rng: &mut Rng, book: &Book) -> Edit {
    let (issue, account) = (rng.range(0, 15) as usize, rng.range(0, 63) as usize);
    let at = rng.range(0, 2_047) as usize;
    match rng.range(0, 12) {
        0 => Edit::Day(rng.next_u32() as u16),
        1 => Edit::Phase(*rng.pick(&[Phase::Taking, Phase::Settling, Phase::Cut])),
        2 => Edit::Net { issue, account, lots: rng.next_u32() as i32 },
        3 => Edit::Delivered { issue, account, lots: rng.next_u32() >> rng.range(0, 31) },
        4 => Edit::Charge { account, yen: rng.next_u64() as i64 },
        5 => Edit::Count(match rng.range(0, 2) {
            0 => book.count + 1,
            1 => book.count.saturating_sub(1),
            _ => rng.next_u64() as usize,
        }),
        6..=7 => random_lift_edit(rng, book),
        8 => Edit::Mark { issue, mark: *rng.pick(&[0, 1, 2, 255]) },
        9 => random_odd_edit(rng, book),
        10 => Edit::Turn(rng.next_u32() >> rng.range(0, 31)),
        _ => Edit::Entries { first: at, end: at + 1, entry: random_entry(rng) },
    }
}

/// One word of an issue's lifts changed, mostly of an issue that has some, to a number near its range.
fn random_lift_edit(rng: &mut Rng, book: &Book) -> Edit {
    let lifted: Vec<usize> = (0..16).filter(|&issue| book.lifts[issue].number > 0).collect();
    let any = rng.range(0, 15) as usize;
    let issue = if lifted.is_empty() || rng.chance(1, 8) { any } else { *rng.pick(&lifted) };
    let word = if rng.chance(1, 3) { rng.range(0, 1) } else { rng.range(2, 17) } as usize;
    let old = *lift_word(&mut book.clone(), issue, word);
    let number = match rng.range(0, 3) {
        0 => old.wrapping_add(1),
        1 => old.wrapping_sub(1),
        2 => rng.range(0, 9),
        _ => rng.next_u32() >> rng.range(0, 31),
    };
    Edit::Lifts { issue, word, number }
}

/// One lot less delivered or in an entry, mostly of an issue that is marked.
fn random_odd_edit(rng: &mut Rng, book: &Book) -> Edit {
    let places = (0..book.delivered.len()).filter(|&at| book.delivered[at] > 0);
    let (marked, others): (Vec<usize>, Vec<usize>) =
        places.partition(|at| book.is_marked(at / ACCOUNTS));
    let places = if marked.is_empty() { others } else { marked };
    if !places.is_empty() && rng.chance(1, 2) {
        let at = *rng.pick(&places);
        let (issue, account) = (at / ACCOUNTS, at % ACCOUNTS);
        return Edit::Delivered { issue, account, lots: book.delivered[at] - 1 };
    }
    let first = rng.range(0, (book.count.clamp(1, 2_048) - 1) as u32) as usize;
    let mut entry = entry_at(book, first);
    entry.lots = entry.lots.saturating_sub(1);
    Edit::Entries { first, end: first + 1, entry }
}

/// An entry of any numbers, mostly near their ranges.
fn random_entry(rng: &mut Rng) -> Entry {
    Entry {
        issue: rng.range(0, 17) as u8,
        from: rng.range(0, 66) as u8,
        to: rng.range(0, 66) as u8,
        lots: rng.next_u32() >> rng.range(0, 31),
        day: rng.next_u32() as u16 >> rng.range(0, 15),
    }
}
