//! Soundness: each condition is broken by itself, and lists of calls keep them all.

mod common;

use common::{book_of_nets, entry, lift, output, p8_book};
use reference::book::{place, Book, Lift, Phase, LIFTS};
use reference::calls;
use reference::measures::same_quotes;
use reference::soundness::CONDITIONS;

/// The conditions that a book breaks.
fn broken(book: &Book) -> Vec<&'static str> {
    CONDITIONS.iter().filter(|(_, holds)| !holds(book)).map(|&(name, _)| name).collect()
}

/// A sound book of day 1 in Settling with nets, delivered lots, charges and two entries.
fn sound_book() -> Book {
    let mut book = Book { day: 1, phase: Phase::Settling, ..Book::fresh() };
    book.nets[place(3, 4)] = 20_000_000;
    book.nets[place(3, 5)] = -20_000_000;
    book.delivered[place(3, 5)] = 20_000_000;
    book.charges[0] = 134_663_013_697_536;
    book.charges[63] = -134_663_013_697_536;
    book.set_ledger(&[entry(15, 63, 0, 1, 0), entry(0, 0, 63, 20_000_000, 1)]);
    assert_eq!(broken(&book), [""; 0]);
    book
}

/// Damages a sound book; exactly this condition is broken.
fn breaks(condition: &str, damage: impl Fn(&mut Book)) {
    let mut book = sound_book();
    damage(&mut book);
    assert_eq!(broken(&book), [condition]);
    assert!(!book.sound());
}

#[test]
fn conditions_on_nets_and_delivered_lots() {
    breaks("nets_in_range", |book| {
        book.nets[place(3, 4)] += 1;
        book.nets[place(3, 5)] -= 1;
    });
    breaks("nets_sum_to_zero", |book| book.nets[place(3, 0)] = 1);
    breaks("nets_sum_to_zero", |book| {
        book.nets[place(3, 0)] = 1;
        book.nets[place(4, 0)] = -1;
    });
    breaks("delivered_within_owed", |book| book.delivered[place(3, 5)] += 1);
    breaks("delivered_zero_elsewhere", |book| book.delivered[place(3, 4)] = 1);
    breaks("delivered_zero_elsewhere", |book| book.delivered[place(0, 0)] = 1);
    breaks("delivered_zero_in_taking", |book| book.phase = Phase::Taking);
}

#[test]
fn conditions_on_entries() {
    breaks("entry_numbers_in_range", |book| book.issues[0] = 16);
    breaks("entry_numbers_in_range", |book| book.froms[0] = 64);
    breaks("entry_numbers_in_range", |book| book.tos[1] = 255);
    breaks("entry_accounts_differ", |book| book.tos[0] = 63);
    breaks("entry_lots_in_range", |book| book.lots[0] = 0);
    breaks("entry_lots_in_range", |book| book.lots[1] = 20_000_001);
    breaks("entry_days_never_fall", |book| {
        book.days[0] = 1;
        book.days[1] = 0;
    });
    breaks("entry_days_not_above_today", |book| book.days[1] = 2);
}

#[test]
fn conditions_on_the_count_and_unused_entries() {
    breaks("entry_count_in_range", |book| {
        book.set_ledger(&[entry(0, 0, 1, 1, 0); 2_048]);
        book.count = 2_049;
    });
    breaks("entry_count_in_range", |book| {
        book.set_ledger(&[entry(0, 0, 1, 1, 0); 2_048]);
        book.count = usize::MAX;
    });
    breaks("unused_entries_zero", |book| book.issues[2] = 1);
    breaks("unused_entries_zero", |book| book.froms[2] = 1);
    breaks("unused_entries_zero", |book| book.tos[2_047] = 1);
    breaks("unused_entries_zero", |book| book.lots[2_047] = 1);
    breaks("unused_entries_zero", |book| book.days[2] = 1);
    breaks("unused_entries_zero", |book| book.count = 1);
}

#[test]
fn conditions_on_charges() {
    breaks("charges_sum_to_zero", |book| book.charges[1] = 1);
    breaks("charges_in_range", |book| {
        book.charges[0] += 1;
        book.charges[63] -= 1;
    });
}

/// A sound book with a lift that hands a unit over and one behind it: the order is 2, then 1, then 3.
fn lifted_book() -> Book {
    let nets = [(1, 100_000), (2, 30_000), (3, 50_000), (4, -180_000)];
    let mut book = book_of_nets(Phase::Settling, &nets);
    book.delivered[place(0, 4)] = 30_000;
    assert_eq!(lift(&mut book, 2, &mut output()), 1);
    assert_eq!(lift(&mut book, 1, &mut output()), 0);
    assert_eq!(book.lifts[0].standing(), [Lift { old: 2, new: 0 }, Lift { old: 1, new: 1 }]);
    assert_eq!(broken(&book), [""; 0]);
    book
}

/// Damages the lifted book; exactly these conditions are broken.
fn breaks_lifts(conditions: &[&str], damage: impl Fn(&mut Book)) {
    let mut book = lifted_book();
    damage(&mut book);
    assert_eq!(broken(&book), conditions);
    assert_eq!(book.sound(), conditions.is_empty());
}

#[test]
fn conditions_on_lifts() {
    let places = |number, moves: &[(u32, u32)]| {
        let moves: Vec<Lift> = moves.iter().map(|&(old, new)| Lift { old, new }).collect();
        move |book: &mut Book| {
            book.lifts[0].number = number;
            book.lifts[0].moves[..moves.len()].copy_from_slice(&moves);
        }
    };
    breaks_lifts(&[], places(8, &[(2, 0); LIFTS]));
    breaks_lifts(&["at_most_eight_lifts"], places(9, &[(2, 0); LIFTS]));
    breaks_lifts(&["at_most_eight_lifts"], places(u32::MAX, &[(2, 0); LIFTS]));
    breaks_lifts(&[], places(2, &[(2, 0), (2, 1)]));
    breaks_lifts(&["lifts_old_below_units"], places(2, &[(2, 0), (3, 1)]));
    breaks_lifts(&["lifts_old_below_units"], places(2, &[(2, 0), (u32::MAX, 1)]));
    breaks_lifts(&["lifts_new_at_most_old"], places(2, &[(2, 0), (0, 1)]));
    breaks_lifts(&["lifts_new_never_falls"], places(3, &[(2, 0), (2, 1), (0, 0)]));
    breaks_lifts(&["lifts_new_at_most_handed"], places(2, &[(2, 0), (2, 2)]));
    breaks_lifts(&["lifts_new_at_most_handed"], |book| book.delivered[place(0, 4)] = 29_999);
    breaks_lifts(&["lifts_new_at_most_handed"], places(1, &[(2, 1)]));
}

#[test]
fn conditions_on_the_count_and_on_lifts_in_taking() {
    breaks_lifts(&[], |book| book.phase = Phase::Cut);
    breaks_lifts(&[], |book| book.lifts[0].count = 30_002);
    let too_large = ["count_within_delivered_and_lifts"];
    breaks_lifts(&too_large, |book| book.lifts[0].count = 30_003);
    breaks_lifts(&too_large, |book| book.lifts[0].count = u32::MAX);
    breaks_lifts(&too_large, |book| book.lifts[15].count = 1);
    let in_taking = |book: &mut Book| {
        book.phase = Phase::Taking;
        book.delivered.fill(0);
        book.lifts[0].count = 0;
        book.lifts[0].number = 1;
    };
    breaks_lifts(&["no_lift_in_taking"], in_taking);
    breaks_lifts(&[], |book| {
        in_taking(book);
        book.lifts[0].number = 0;
    });
    breaks_lifts(&too_large, |book| {
        in_taking(book);
        book.lifts[0].number = 0;
        book.lifts[0].count = 1;
    });
}

#[test]
fn unused_lifts_are_in_no_condition() {
    breaks_lifts(&[], |book| book.lifts[0].moves[2..].fill(Lift { old: u32::MAX, new: 7 }));
    breaks_lifts(&[], |book| book.lifts[15].moves.fill(Lift { old: 1, new: u32::MAX }));
}

#[test]
fn any_book_whatever_is_asked_without_fault() {
    for (net, yen) in [(i32::MIN, i64::MIN), (i32::MAX, i64::MAX)] {
        let mut book = Book { day: u16::MAX, count: usize::MAX, ..Book::fresh() };
        book.nets.fill(net);
        book.delivered.fill(u32::MAX);
        book.marks.fill(u8::MAX);
        book.turn = u32::MAX;
        book.charges.fill(yen);
        for lifts in &mut book.lifts {
            (lifts.number, lifts.count) = (u32::MAX, u32::MAX);
            lifts.moves.fill(Lift { old: u32::MAX, new: u32::MAX });
        }
        book.issues.fill(u8::MAX);
        book.lots.fill(u32::MAX);
        book.days.fill(u16::MAX);
        assert!(broken(&book).len() > 5);
        assert!(!book.sound());
    }
}

/// A sound book with issue 3 marked and issue 4 not: even numbers in the one, odd ones in the other.
fn marked_book() -> Book {
    let mut book = Book { day: 1, phase: Phase::Settling, ..Book::fresh() };
    book.marks[3] = 1;
    for (issue, net, delivered) in [(3, 130_000, 40_002), (4, 130_001, 40_001)] {
        book.nets[place(issue, 1)] = net;
        book.nets[place(issue, 2)] = -net;
        book.delivered[place(issue, 2)] = delivered;
    }
    book.set_ledger(&[entry(4, 1, 2, 7, 0), entry(3, 1, 2, 8, 0), entry(3, 5, 6, 2, 1)]);
    assert_eq!(broken(&book), [""; 0]);
    book
}

/// Damages the book with a marked issue; exactly these conditions are broken.
fn breaks_marks(conditions: &[&str], damage: impl Fn(&mut Book)) {
    let mut book = marked_book();
    damage(&mut book);
    assert_eq!(broken(&book), conditions);
    assert_eq!(book.sound(), conditions.is_empty());
}

#[test]
fn conditions_on_marked_issues() {
    let odd_nets = |issue| {
        move |book: &mut Book| {
            book.nets[place(issue, 1)] += 1;
            book.nets[place(issue, 2)] -= 1;
        }
    };
    breaks_marks(&["marked_nets_even"], odd_nets(3));
    breaks_marks(&["marked_nets_even"], |book| {
        book.nets[place(3, 62)] = 1;
        book.nets[place(3, 63)] = -1;
    });
    breaks_marks(&["marked_delivered_even"], |book| book.delivered[place(3, 2)] += 1);
    breaks_marks(&["marked_delivered_even"], |book| book.delivered[place(3, 2)] = 1);
    breaks_marks(&["marked_entries_even"], |book| book.lots[1] += 1);
    breaks_marks(&["marked_entries_even"], |book| book.lots[2] = 1);
    breaks_marks(&["marked_entries_even"], |book| book.issues[0] = 3);
    let all = ["marked_nets_even", "marked_delivered_even", "marked_entries_even"];
    breaks_marks(&all, |book| book.marks[4] = 1);
    breaks_marks(&all, |book| book.marks[4] = 128);
    breaks_marks(&[], odd_nets(4));
    breaks_marks(&[], |book| book.delivered[place(4, 2)] += 1);
    breaks_marks(&[], |book| book.lots[0] += 1);
    breaks_marks(&[], |book| book.issues[1] = 4);
}

#[test]
fn any_mark_but_0_is_asked_as_one() {
    for mark in 0..=255 {
        let odd = if mark == 0 { &[][..] } else { &["marked_entries_even"] };
        breaks_marks(&[], |book| book.marks[3] = mark);
        breaks_marks(&[], |book| book.marks[15] = mark);
        breaks_marks(odd, |book| {
            book.marks[3] = mark;
            book.lots[1] += 1;
        });
    }
    breaks_marks(&["entry_numbers_in_range"], |book| {
        book.marks = [255; 16];
        book.nets[place(4, 1)] += 1;
        book.nets[place(4, 2)] -= 1;
        book.delivered[place(4, 2)] += 1;
        book.issues[0] = 16;
    });
}

/// A random number below a limit (xorshift).
fn below(state: &mut u64, limit: u32) -> u32 {
    *state ^= *state << 13;
    *state ^= *state >> 7;
    *state ^= *state << 17;
    ((*state >> 32) % u64::from(limit)) as u32
}

/// Makes one random call on few issues and accounts; gives its refusal number.
fn random_call(state: &mut u64, book: &mut Book, out: &mut [u32]) -> u32 {
    let (issue, from, to) = (below(state, 2), below(state, 6), below(state, 6));
    let lots = [1, 50, 30_000, 30_001, 100_000, 250_000, 20_000_000][below(state, 7) as usize];
    match below(state, 50) {
        0 => calls::close(book).number,
        1 => calls::cutoff(book, out).number,
        2 => {
            calls::roll(book, 1 + below(state, 12), below(state, 10_001), &same_quotes(100_000, 0))
                .number
        }
        3 => calls::pair_off(book, issue, from).number,
        4 if below(state, 30) == 0 => calls::turn(book, below(state, 40)).number,
        4 => calls::mark(book, below(state, 4), below(state, 2)).number,
        5..=7 => calls::resolve(book, issue, from, lots, out).number,
        8..=23 => calls::deliver(book, issue, from, lots, out).number,
        24..=33 => {
            let asked = calls::ask(book, issue, below(state, 8));
            calls::commit(book, &asked.ticket, out).number
        }
        _ => calls::trade(book, issue, from, to, lots).number,
    }
}

#[test]
fn lists_of_calls_keep_the_book_sound() {
    let mut state = 0x9e37_79b9_7f4a_7c15;
    let mut book = p8_book(0);
    assert_eq!(calls::mark(&mut book, 1, 1).number, 0);
    let mut out = output();
    let mut most_lifts = 0;
    let mut met = [0; 27];
    for _ in 0..20_000 {
        let before = book.clone();
        let number = random_call(&mut state, &mut book, &mut out);
        assert_ne!(number, 2);
        assert!(number == 0 || book == before);
        assert_eq!(broken(&book), [""; 0]);
        most_lifts = most_lifts.max(book.lifts[0].number);
        met[number as usize] += 1;
    }
    assert!(book.day > 20);
    assert_eq!(most_lifts, 8);
    assert!(met[19] > 50 && met[20] > 50 && met[26] > 3, "{met:?}");
    assert!(book.deals_in_turn());
}
