//! Full units dealt in turn: worked days by their numbers, the change-over day, question 26, and what
//! stays as it was.

mod common;

use common::{
    book_of_ledger, book_of_nets, entry, lift, output, output_of, record, ticket, BEFORE,
};
use reference::book::{place, Book, Lifts, Phase};
use reference::calls::{self, Answer, AskAnswer, Status};
use reference::measures::same_quotes;
use reference::run::run;
use reference::tape::{self, Instruction, FAIL, HANDOVER, RESOLVED};
use reference::units::{dealt, units, units_of, Unit};

/// Done, with this count of records.
fn done(count: u32) -> Answer {
    Answer { number: 0, count }
}

/// Refused by this number.
fn refused(number: u32) -> Answer {
    Answer { number, count: 0 }
}

/// The accounts and lots of units, in order.
fn told(units: &[Unit]) -> Vec<(u32, u32)> {
    units.iter().map(|unit| (unit.account, unit.lots)).collect()
}

/// The accounts of the units of issue 0, in the order of the day.
fn accounts(book: &Book) -> Vec<u32> {
    units_of(book, 0).iter().map(|unit| unit.account).collect()
}

/// Nets by account.
fn nets(list: &[(usize, i32)]) -> [i32; 64] {
    let mut nets = [0; 64];
    list.iter().for_each(|&(account, net)| nets[account] = net);
    nets
}

/// The trades of P5 in issue 0.
fn trade_p5(book: &mut Book) {
    for (from, to, lots) in [(4, 1, 230_000), (5, 2, 250_000), (5, 3, 150_000)] {
        assert_eq!(calls::trade(book, 0, from, to, lots), done(0));
    }
}

/// The rest of a day on which nothing is traded or delivered any more.
fn end_day(book: &mut Book) {
    if book.phase == Phase::Taking {
        assert_eq!(calls::close(book), done(0));
    }
    if book.phase == Phase::Settling {
        assert_eq!(calls::cutoff(book, &mut output()).number, 0);
    }
    assert_eq!(calls::roll(book, 1, 300, &same_quotes(100_000, 0)), done(0));
}

/// P5's market on day 1, the first day of the new order, between close and cutoff.
fn p5_in_turn() -> Book {
    let mut book = Book::fresh();
    assert_eq!(calls::turn(&mut book, 1), done(0));
    end_day(&mut book);
    trade_p5(&mut book);
    assert_eq!(calls::close(&mut book), done(0));
    book
}

#[test]
fn p5_in_the_new_order() {
    let book = p5_in_turn();
    let full = [2, 1, 3, 2, 1].map(|account| (account, 100_000));
    let small = [(2, 50_000), (3, 50_000), (1, 30_000)];
    assert_eq!(told(&units_of(&book, 0)), [&full[..], &small].concat());
    for (k, (account, lots)) in (0..).zip(full.into_iter().chain(small)) {
        let unit = calls::unit(&book, 0, k);
        assert_eq!((unit.found, unit.account, unit.lots), (true, account, lots));
    }
    assert!(!calls::unit(&book, 0, 8).found);
    assert_eq!(calls::unit(&book, 16, 0).number, 4);
}

#[test]
fn p6_to_p9_in_the_new_order() {
    let mut book = p5_in_turn();
    let handover = |to| record(HANDOVER, 0, 0, to, 100_000);
    let mut out = output();
    assert_eq!(calls::deliver(&mut book, 0, 5, 345_000, &mut out), done(3));
    assert_eq!(out, output_of(&[2, 1, 3].map(handover)));
    let mut out = output();
    assert_eq!(calls::deliver(&mut book, 0, 4, 200_000, &mut out), done(2));
    assert_eq!(out, output_of(&[2, 1].map(handover)));
    let mut out = output();
    assert_eq!(calls::cutoff(&mut book, &mut out), done(5));
    let fails = [(4, 2, 5_000), (4, 3, 25_000), (5, 3, 25_000), (5, 1, 30_000)];
    let mut records = vec![record(HANDOVER, 0, 0, 2, 45_000)];
    records.extend(fails.map(|(from, to, lots)| record(FAIL, 0, from, to, lots)));
    assert_eq!(out, output_of(&records));
    end_day(&mut book);
    assert_eq!(&book.charges[1..6], &[123_287, 20_547, 205_478, -123_286, -226_026]);
}

#[test]
fn the_day_before_and_the_day_of_the_change() {
    let mut book = Book::fresh();
    assert_eq!(calls::turn(&mut book, 2), done(0));
    for (day, order) in [(0, [2, 2, 1, 1, 3]), (1, [2, 2, 1, 1, 3]), (2, [2, 1, 3, 2, 1])] {
        assert_eq!((book.day, book.deals_in_turn()), (day, day == 2));
        trade_p5(&mut book);
        assert_eq!(accounts(&book), [&order[..], &[2, 3, 1]].concat());
        calls::close(&mut book);
        let mut out = output();
        assert_eq!(calls::deliver(&mut book, 0, 5, 300_000, &mut out), done(3));
        let handed = [order[0], order[1], order[2]];
        assert_eq!(out, output_of(&handed.map(|to| record(HANDOVER, 0, 0, to, 100_000))));
        end_day(&mut book);
    }
    assert!(book.deals_in_turn(), "and so it stays");
}

#[test]
fn a_cutoff_gathers_full_units_that_lie_apart() {
    let mut book = p5_in_turn();
    let mut out = output();
    assert_eq!(calls::deliver(&mut book, 0, 5, 150_000, &mut out), done(1));
    let mut out = output();
    assert_eq!(calls::cutoff(&mut book, &mut out), done(8));
    let fails = [
        (4, 1, 150_000),
        (4, 3, 80_000),
        (5, 3, 20_000),
        (5, 2, 100_000),
        (5, 2, 50_000),
        (5, 3, 50_000),
        (5, 1, 30_000),
    ];
    let mut records = vec![record(HANDOVER, 0, 0, 1, 50_000)];
    records.extend(fails.map(|(from, to, lots)| record(FAIL, 0, from, to, lots)));
    assert_eq!(out, output_of(&records));
    let entries = fails.map(|(from, to, lots)| entry(0, from as u8, to as u8, lots, 1));
    assert_eq!(book.ledger(), entries);
}

#[test]
fn one_stretch_at_the_place_of_the_first_and_none_delivered() {
    let mut book = p5_in_turn();
    let mut out = output();
    assert_eq!(calls::cutoff(&mut book, &mut out), done(7));
    let fails = [
        (4, 2, 200_000),
        (4, 1, 30_000),
        (5, 1, 170_000),
        (5, 3, 100_000),
        (5, 2, 50_000),
        (5, 3, 50_000),
        (5, 1, 30_000),
    ];
    assert_eq!(book.ledger(), fails.map(|(from, to, lots)| entry(0, from, to, lots, 1)));
}

#[test]
fn a_lift_among_dealt_units() {
    let mut book = p5_in_turn();
    let mut out = output();
    let last_full = ticket([0, 4, 1, 100_000, 1, 0]);
    assert_eq!(calls::ask(&book, 0, 4), AskAnswer { number: 0, ticket: last_full });
    assert_eq!(calls::commit(&mut book, &last_full, &mut out), done(0));
    assert_eq!(accounts(&book), [1, 2, 1, 3, 2, 2, 3, 1]);
    assert_eq!(calls::deliver(&mut book, 0, 5, 100_000, &mut out), done(1));
    assert_eq!(out, output_of(&[record(HANDOVER, 0, 0, 1, 100_000)]));
    assert_eq!(lift(&mut book, 4, &mut out), 0);
    assert_eq!(accounts(&book), [1, 2, 2, 1, 3, 2, 3, 1]);
    assert!(book.sound());
    assert_eq!(calls::cutoff(&mut book, &mut out), done(7));
    let fails = [
        (4, 2, 200_000),
        (4, 1, 30_000),
        (5, 1, 70_000),
        (5, 3, 100_000),
        (5, 2, 50_000),
        (5, 3, 50_000),
        (5, 1, 30_000),
    ];
    assert_eq!(book.ledger(), fails.map(|(from, to, lots)| entry(0, from, to, lots, 1)));
}

#[test]
fn a_small_unit_lifted_past_dealt_ones_is_handed_at_once() {
    let mut book = p5_in_turn();
    let mut out = output();
    assert_eq!(calls::deliver(&mut book, 0, 5, 345_000, &mut out), done(3));
    assert_eq!(lift(&mut book, 7, &mut out), 1);
    assert_eq!(accounts(&book), [2, 1, 3, 1, 2, 1, 2, 3]);
    assert_eq!(calls::deliver(&mut book, 0, 4, 85_000, &mut out), done(1));
    assert_eq!(out[..2], record(HANDOVER, 0, 0, 2, 100_000).words());
}

#[test]
fn the_status_of_dealt_units() {
    let mut book = p5_in_turn();
    calls::deliver(&mut book, 0, 5, 345_000, &mut output());
    let status = |book: &Book, k| calls::status(book, 0, k).status;
    assert_eq!(status(&book, 2), Some(Status::Handed));
    assert_eq!(status(&book, 3), Some(Status::Waiting(55_000)));
    assert_eq!(status(&book, 4), Some(Status::Waiting(155_000)));
    calls::cutoff(&mut book, &mut output());
    assert_eq!(status(&book, 3), Some(Status::PartlyFailed(55_000)));
    assert_eq!(status(&book, 4), Some(Status::WhollyFailed));
    assert_eq!(calls::status(&book, 0, 8).number, 16);
}

#[test]
fn receivers_with_fewer_units_drop_out() {
    let nets =
        nets(&[(1, 500_000), (2, 100_000), (3, 300_000), (4, 250_000), (5, 99_999), (9, -1)]);
    let rounds = [&[1, 3, 4, 2][..], &[1, 3, 4], &[1, 3], &[1], &[1]].concat();
    let full = rounds.into_iter().map(|account| (account, 100_000));
    let small = [(5, 99_999), (4, 50_000)];
    assert_eq!(told(&dealt(&nets)), full.chain(small).collect::<Vec<_>>());
}

#[test]
fn equal_nets_go_by_lower_account_in_every_round() {
    let nets = nets(&[(7, 200_000), (3, 200_000), (6, 299_999), (5, 200_000), (0, 100_000)]);
    let rounds = [&[6, 3, 5, 7, 0][..], &[6, 3, 5, 7]].concat();
    let full = rounds.into_iter().map(|account| (account, 100_000));
    assert_eq!(told(&dealt(&nets)), full.chain([(6, 99_999)]).collect::<Vec<_>>());
}

#[test]
fn receivers_of_as_many_units_go_by_net() {
    let nets = nets(&[(1, 210_000), (2, 220_000), (3, 230_000)]);
    let full = [3, 2, 1, 3, 2, 1].map(|account| (account, 100_000));
    let small = [(3, 30_000), (2, 20_000), (1, 10_000)];
    assert_eq!(told(&dealt(&nets)), [&full[..], &small].concat());
}

#[test]
fn one_receiver_and_none() {
    assert_eq!(dealt(&[0; 64]), []);
    for list in [&[(63, 20_000_000)][..], &[(0, 99_999)], &[(5, 100_000), (6, 99_999)]] {
        assert_eq!(dealt(&nets(list)), units(&nets(list)));
    }
}

#[test]
fn both_orders_have_the_same_lots_at_every_place() {
    let list = [(1, 730_000), (2, 250_000), (3, 250_000), (4, 99_999), (8, 100_001), (9, 400_000)];
    let lots = |units: Vec<Unit>| units.iter().map(|unit| unit.lots).collect::<Vec<_>>();
    assert_eq!(lots(dealt(&nets(&list))), lots(units(&nets(&list))));
}

#[test]
fn the_call_sets_the_day_alone_in_any_phase() {
    for phase in [Phase::Taking, Phase::Settling, Phase::Cut] {
        let before = book_of_nets(phase, &[(1, 230_000), (2, -230_000)]);
        for day in [1, 2, 65_535, 65_536, u32::MAX] {
            let mut book = before.clone();
            assert_eq!(calls::turn(&mut book, day), done(0));
            assert_eq!(book, Book { turn: day, ..before.clone() });
            assert!(book.sound() && !book.deals_in_turn());
        }
    }
}

#[test]
fn before_the_day_a_later_turn_replaces_it() {
    let mut book = Book::fresh();
    for day in [5, 9, 3, 65_536, 1, 2] {
        assert_eq!(calls::turn(&mut book, day), done(0));
        assert_eq!(book.turn, day);
    }
    end_day(&mut book);
    assert_eq!(calls::turn(&mut book, 3), done(0), "on the day before it is still not in force");
    end_day(&mut book);
    assert!(!book.deals_in_turn());
    assert_eq!(calls::turn(&mut book, 4), done(0));
    end_day(&mut book);
    assert!(!book.deals_in_turn());
    end_day(&mut book);
    assert!(book.deals_in_turn());
}

#[test]
fn refused_by_26_for_a_day_not_after_today() {
    for (today, days) in [(0, &[0][..]), (7, &[0, 1, 6, 7]), (65_535, &[0, 65_534, 65_535])] {
        for named in [0, 65_536] {
            let before = Book { day: today, turn: named, ..Book::fresh() };
            for &day in days {
                let mut book = before.clone();
                assert_eq!(calls::turn(&mut book, day), refused(26));
                assert_eq!(book, before);
            }
            let mut book = before.clone();
            assert_eq!(calls::turn(&mut book, u32::from(today) + 1), done(0));
        }
    }
}

#[test]
fn refused_by_26_once_the_new_order_is_in_force() {
    for phase in [Phase::Taking, Phase::Settling, Phase::Cut] {
        for named in [1, 6, 7] {
            let before = Book { day: 7, turn: named, phase, ..Book::fresh() };
            for day in [0, 6, 7, 8, 9, 65_535, 65_536, u32::MAX] {
                let mut book = before.clone();
                assert_eq!(calls::turn(&mut book, day), refused(26));
                assert_eq!(book, before);
            }
        }
        let mut book = Book { day: 7, turn: 8, phase, ..Book::fresh() };
        assert_eq!(calls::turn(&mut book, 9), done(0));
    }
}

#[test]
fn question_2_is_put_before_26() {
    for (day, turn) in [(3, 0), (9, 0), (9, 5)] {
        let mut book = Book { day: 5, turn, ..Book::fresh() };
        book.charges[63] = 1;
        let before = book.clone();
        assert_eq!(calls::turn(&mut book, day), refused(2));
        assert_eq!(book, before);
    }
}

#[test]
fn any_number_in_the_field_keeps_a_book_sound() {
    let mut book = p5_in_turn();
    calls::deliver(&mut book, 0, 5, 345_000, &mut output());
    lift(&mut book, 4, &mut output());
    lift(&mut book, 6, &mut output());
    for turn in [0, 1, 2, 65_535, 65_536, u32::MAX] {
        assert!(Book { turn, ..book.clone() }.sound(), "{turn}");
    }
}

#[test]
fn fails_charges_and_marks_stay_under_the_call_and_the_roll_that_brings_the_day() {
    let entries = [entry(0, 1, 2, 30, 0), entry(3, 2, 3, 20, 1), entry(0, 2, 1, 5, 1)];
    let mut plain = Book { day: 1, phase: Phase::Cut, ..book_of_ledger(&[]) };
    plain.set_ledger(&entries);
    plain.marks[3] = 1;
    (plain.charges[1], plain.charges[2]) = (-77, 77);
    assert!(plain.sound());
    let mut book = plain.clone();
    assert_eq!(calls::turn(&mut book, 2), done(0));
    assert_eq!(book, Book { turn: 2, ..plain.clone() });
    for book in [&mut plain, &mut book] {
        assert_eq!(calls::roll(book, 1, 300, &same_quotes(100_000, 0)), done(0));
        assert_eq!(book.ledger(), entries);
    }
    assert!(book.deals_in_turn() && !plain.deals_in_turn());
    assert_eq!(book, Book { turn: 2, ..plain });
    assert_eq!((book.marks[3], book.lifts), (1, [Lifts::default(); 16]));
}

#[test]
fn fails_of_the_old_order_are_resolved_and_paired_off_in_the_new_one() {
    let mut book = Book::fresh();
    trade_p5(&mut book);
    assert_eq!(calls::turn(&mut book, 1), done(0));
    calls::close(&mut book);
    calls::deliver(&mut book, 0, 5, 150_000, &mut output());
    end_day(&mut book);
    let old = [
        (4, 2, 50_000),
        (4, 1, 180_000),
        (5, 1, 20_000),
        (5, 3, 100_000),
        (5, 2, 50_000),
        (5, 3, 50_000),
        (5, 1, 30_000),
    ];
    assert!(book.deals_in_turn());
    assert_eq!(book.ledger(), old.map(|(from, to, lots)| entry(0, from, to, lots, 0)));
    let mut out = output();
    assert_eq!(calls::resolve(&mut book, 0, 4, 60_000, &mut out), done(2));
    let met = [record(RESOLVED, 0, 4, 2, 50_000), record(RESOLVED, 0, 4, 1, 10_000)];
    assert_eq!(out, output_of(&met));
    let paired = calls::pair_off(&mut book, 0, 5);
    assert_eq!((paired.number, paired.steps, paired.lots), (0, 0, 0));
}

#[test]
fn every_issue_has_the_order_of_the_day() {
    let mut book = Book { day: 4, turn: 4, ..Book::fresh() };
    for issue in [0, 7, 15] {
        for (account, net) in [(1, 200_000), (2, 300_000), (3, -500_000)] {
            book.nets[place(issue, account)] = net;
        }
    }
    for issue in 0..16 {
        let order: Vec<u32> = units_of(&book, issue).iter().map(|unit| unit.account).collect();
        let filled = [0, 7, 15].contains(&issue);
        assert_eq!(order, if filled { vec![2, 1, 2, 1, 2] } else { vec![] });
    }
}

#[test]
fn the_word_of_kind_14() {
    for day in [0, 1, 0x5a5a, 65_535] {
        let word = 0xe000_0000 | day;
        let read = tape::read(&[word, 0xffff_ffff]);
        assert_eq!(read, Ok((Instruction::Turn { day }, 1)));
        let mut out = [BEFORE; 33];
        assert_eq!(tape::write(&Instruction::Turn { day }, &[], &mut out), done(1));
        assert_eq!((out[0], &out[1..]), (word, &[BEFORE; 32][..]));
        for bit in 16..28 {
            assert_eq!(tape::read(&[word | 1 << bit]), Err(14), "bit {bit}");
        }
    }
    assert_eq!(tape::read(&[0xf000_0001]), Err(14));
}

#[test]
fn a_day_that_the_tape_cannot_carry_is_the_writers_15() {
    for (day, words, number) in [(65_536, 33, 15), (u32::MAX, 33, 15), (65_536, 32, 1), (1, 32, 1)]
    {
        let mut out = vec![BEFORE; words];
        assert_eq!(tape::write(&Instruction::Turn { day }, &[], &mut out), refused(number));
        assert_eq!(out, vec![BEFORE; words]);
    }
}

#[test]
fn the_program_runs_turn() {
    let mut words = vec![0xe000_0000, 0xe000_0005, 0xe000_0001, 0x5000_0000, 0x6000_0000];
    words.push(0x7000_0000 | 1 << 24 | 300 << 10);
    words.extend([0x9000_0001; 16]);
    words.extend([0x9000_0000; 16]);
    words.extend([0xe000_0002, 0xe001_0000]);
    let tape: Vec<u8> = words.iter().flat_map(|word: &u32| word.to_le_bytes()).collect();
    let lines = [
        "0 turn 26 0",
        "1 turn 0 0",
        "2 turn 0 0",
        "3 close 0 0",
        "4 cutoff 0 0",
        "5 roll 0 0",
        "38 turn 26 0",
        "39 tape 14 0",
    ];
    assert_eq!(run(&tape).lines().collect::<Vec<_>>(), lines);
}
