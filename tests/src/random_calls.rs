//! Random calls that suit a book, with arguments in range mostly.

use crate::books::{random_lots, suited, two_of, Shape};
use crate::rng::Rng;
use crate::steps::Call;
use reference::book::{place, Book, Phase, ACCOUNTS, ISSUES, QUOTES};
use reference::measures::{MOST_ACCRUED, MOST_DAYS, MOST_LOTS, MOST_PRICE, MOST_RATE};
use reference::questions::issue_is_empty;
use reference::units::{handed, units_of};

/// A call that suits the phase mostly, with arguments in range mostly.
pub fn random_call(rng: &mut Rng, shape: &Shape, book: &Book) -> Call {
    let phase = if rng.chance(1, 20) {
        *rng.pick(&[Phase::Taking, Phase::Settling, Phase::Cut])
    } else {
        book.phase
    };
    let call = match (phase, rng.range(0, 99)) {
        (_, 0..=3) => random_unit(rng, shape, book),
        (_, 4..=5) => random_status(rng, shape, book),
        (_, 6..=12) => random_resolve(rng, shape, book),
        (_, 13..=17) => {
            Call::PairOff { issue: *rng.pick(&shape.issues), account: *rng.pick(&shape.accounts) }
        }
        (_, 18..=20) => random_mark(rng, shape, book),
        (_, 21) => random_turn(rng, book),
        (Phase::Taking, 22..=91) => random_trade(rng, shape, book),
        (Phase::Taking, _) => Call::Close,
        (Phase::Settling, 22..=87) if !rng.chance(1, 6) || !deliverers(shape, book).is_empty() => {
            random_delivery(rng, shape, book)
        }
        (Phase::Settling, _) => Call::Cutoff { out: random_output(rng) },
        (Phase::Cut, 22..=60) => random_roll(rng),
        (Phase::Cut, 61..=80) => random_resolve(rng, shape, book),
        (Phase::Cut, _) => {
            Call::PairOff { issue: *rng.pick(&shape.issues), account: *rng.pick(&shape.accounts) }
        }
    };
    if rng.chance(1, 14) {
        out_of_range(rng, call)
    } else {
        call
    }
}

/// A trade; now and then of the lots that bring a net to its limit or one past it.
fn random_trade(rng: &mut Rng, shape: &Shape, book: &Book) -> Call {
    let issue = *rng.pick(&shape.issues);
    let (from, to) = two_of(rng, &shape.accounts);
    let net = |account: u32| book.nets[place(issue as usize, account as usize)];
    let room_below = (MOST_LOTS as i32 + net(from)) as u32;
    let room_above = (MOST_LOTS as i32 - net(to)) as u32;
    let extremes = shape.menu.len() > 2;
    let lots = match rng.range(if extremes { 0 } else { 4 }, 39) {
        0 => room_below,
        1 => room_above,
        2 => room_below + 1,
        3 => room_above + 1,
        4..=6 => net(to).unsigned_abs(),
        7 => net(from).unsigned_abs(),
        8 => MOST_LOTS,
        9..=15 => to_equal(rng, shape, book, issue, to),
        _ => random_lots(rng, &shape.menu),
    };
    Call::Trade { issue, from, to, lots: mostly_suited(rng, book, issue, lots) }
}

/// Lots that the issue takes; now and then odd ones in a marked issue too.
fn mostly_suited(rng: &mut Rng, book: &Book, issue: u32, lots: u32) -> u32 {
    if rng.chance(1, 8) {
        lots
    } else {
        suited(book, issue, lots)
    }
}

/// The lots that make an account's net, or its small unit, equal to that of another receiver.
fn to_equal(rng: &mut Rng, shape: &Shape, book: &Book, issue: u32, to: u32) -> u32 {
    let net = |account: u32| book.nets[place(issue as usize, account as usize)];
    let wanted = net(*rng.pick(&shape.accounts));
    let units = 100_000 * rng.range(0, 2) as i32;
    (wanted - net(to) + units).rem_euclid(MOST_LOTS as i32) as u32
}

/// A delivery: all that is owed, up to the end of a unit, a part, or one lot too many.
fn random_delivery(rng: &mut Rng, shape: &Shape, book: &Book) -> Call {
    let any = (*rng.pick(&shape.issues), *rng.pick(&shape.accounts));
    let deliverers = deliverers(shape, book);
    let (issue, account) = if deliverers.is_empty() { any } else { *rng.pick(&deliverers) };
    let owed = book.owed_today(issue as usize, account as usize) as u32;
    let lots = match rng.range(0, 11) {
        0..=1 => owed,
        2 => owed / 2,
        3 => owed + 1,
        4 => 1,
        5..=7 => to_unit_end(book, issue as usize).min(owed),
        _ => random_lots(rng, &shape.menu).min(owed),
    };
    let lots = mostly_suited(rng, book, issue, lots);
    Call::Deliver { issue, account, lots, out: random_output(rng) }
}

/// Issue and account of all that still owe lots today.
fn deliverers(shape: &Shape, book: &Book) -> Vec<(u32, u32)> {
    let places =
        shape.issues.iter().flat_map(|&issue| (0..ACCOUNTS as u32).map(move |a| (issue, a)));
    places.filter(|&(issue, a)| book.owed_today(issue as usize, a as usize) > 0).collect()
}

/// The lots that the next unit lacks beside the stock, 1 where there is no unit.
fn to_unit_end(book: &Book, issue: usize) -> u32 {
    let units = units_of(book, issue);
    let (count, stock) = handed(&units, book.delivered_total(issue));
    units.get(count).map_or(1, |unit| unit.lots - stock as u32)
}

/// A resolve: of the first entry, of all that is owed, of a part, or of one lot too many.
fn random_resolve(rng: &mut Rng, shape: &Shape, book: &Book) -> Call {
    let (mut issue, mut account) = (*rng.pick(&shape.issues), *rng.pick(&shape.accounts));
    if book.count > 0 && rng.chance(9, 10) {
        let at = rng.range(0, book.count as u32 - 1) as usize;
        (issue, account) = (book.issues[at].into(), book.froms[at].into());
    }
    let owed = book.owed_in_ledger(issue, account);
    let first = book.entries().find(|entry| entry.is_from(issue, account));
    let first = first.map_or(1, |entry| entry.lots);
    let lots = match rng.range(0, 9) {
        0..=2 => first,
        3 => first + 1,
        4 => first / 2,
        5 => owed.min(MOST_LOTS.into()) as u32,
        6 => owed.min(MOST_LOTS.into()) as u32 + 1,
        _ => random_lots(rng, &shape.menu).min(owed.min(MOST_LOTS.into()) as u32),
    };
    let lots = mostly_suited(rng, book, issue, lots);
    Call::Resolve { issue, account, lots, out: random_output(rng) }
}

/// A mark, mostly of an issue that has neither net nor entry, if there is one, and mostly set.
fn random_mark(rng: &mut Rng, shape: &Shape, book: &Book) -> Call {
    let empty = |issue: &u32| issue_is_empty(book, *issue as usize).is_ok();
    let empty: Vec<u32> = shape.issues.iter().copied().filter(empty).collect();
    let any = *rng.pick(&shape.issues);
    let issue = match rng.range(0, 9) {
        0 => rng.range(0, 15),
        1..=8 if !empty.is_empty() => *rng.pick(&empty),
        _ => any,
    };
    let mark = match rng.range(0, 11) {
        0..=7 => 1,
        8..=10 => 0,
        _ => *rng.pick(&[2, 255, 256, 1 << 31, u32::MAX]),
    };
    Call::Mark { issue, mark }
}

/// A change-over day near today, so that it comes; now and then one that does not, or is refused.
fn random_turn(rng: &mut Rng, book: &Book) -> Call {
    let today = u32::from(book.day);
    let day = match rng.range(0, 11) {
        0..=4 => today + 1,
        5..=6 => today + 2,
        7 => today + 3,
        8 => today,
        9 => today.saturating_sub(1),
        10 => rng.next_u32() >> rng.range(0, 31),
        _ => *rng.pick(&[0, 65_535, 65_536, u32::MAX]),
    };
    Call::Turn { day }
}

/// The unit question, mostly of a unit that there is.
fn random_unit(rng: &mut Rng, shape: &Shape, book: &Book) -> Call {
    let issue = *rng.pick(&shape.issues);
    let units = units_of(book, issue as usize).len() as u32;
    let k = match rng.range(0, 5) {
        0 => units,
        1 => units + rng.range(1, 3),
        2 => rng.next_u32(),
        _ => rng.range(0, units.saturating_sub(1)),
    };
    Call::Unit { issue, k }
}

/// The status of a unit: any, the last handed, the next, one behind it, or one that there is not.
fn random_status(rng: &mut Rng, shape: &Shape, book: &Book) -> Call {
    let issue = *rng.pick(&shape.issues);
    let units = units_of(book, issue as usize);
    let (count, _) = handed(&units, book.delivered_total(issue as usize));
    let (next, number) = (count as u32, units.len() as u32);
    let k = match rng.range(0, 9) {
        0 => number,
        1 => rng.next_u32() >> rng.range(0, 31),
        2..=3 => next.saturating_sub(1),
        4..=6 => next,
        7 => next + 1,
        _ => rng.range(0, number.saturating_sub(1)),
    };
    Call::Status { issue, k }
}

/// A roll with prices and accrued amounts at their limits, or any.
fn random_roll(rng: &mut Rng) -> Call {
    let highest = rng.chance(1, 4);
    let days = if highest { MOST_DAYS } else { rng.range(1, MOST_DAYS) };
    let rate = match rng.range(0, 5) {
        0 => 0,
        _ if highest => MOST_RATE,
        _ => rng.range(0, MOST_RATE),
    };
    let mut quotes = vec![0; QUOTES];
    for issue in 0..ISSUES {
        let price = match rng.range(0, 5) {
            0 => 1,
            1 => MOST_PRICE,
            2 => 2 * rng.range(1, 50_000) + 1,
            3 => MOST_PRICE - MOST_ACCRUED,
            _ => rng.range(1, MOST_PRICE),
        };
        let most = MOST_ACCRUED.min(MOST_PRICE - price);
        let accrued = match rng.range(0, 3) {
            0 => 0,
            1 => most,
            2 => rng.range(0, most) | u32::from(most > 0),
            _ => rng.range(0, most),
        };
        (quotes[issue], quotes[ISSUES + issue]) = (price, accrued.min(most));
    }
    Call::Roll { days, rate, quotes }
}

/// The length of an output: at the limit mostly.
pub fn random_output(rng: &mut Rng) -> usize {
    match rng.range(0, 39) {
        0 => 0,
        1 => 1,
        2 => 4_095,
        3 => 4_097,
        4 => 5_000,
        _ => 4_096,
    }
}

/// The call with one argument out of range, at its edge or far from it.
fn out_of_range(rng: &mut Rng, call: Call) -> Call {
    let place = *rng.pick(&[16, 17, 63, 64, 65, 255, 256, 65_536, u32::MAX]);
    let wrong = *rng.pick(&[0, MOST_LOTS + 1, 1 << 28, 1 << 31, u32::MAX]);
    let which = rng.range(0, 2);
    match (call, which) {
        (Call::Unit { k, .. }, _) => Call::Unit { issue: place, k },
        (Call::Status { k, .. }, _) => Call::Status { issue: place, k },
        (Call::Trade { from, to, lots, .. }, 0) => Call::Trade { issue: place, from, to, lots },
        (Call::Trade { issue, from, lots, .. }, 1) => {
            let to = *rng.pick(&[place, from]);
            Call::Trade { issue, from, to, lots }
        }
        (Call::Trade { issue, from, to, .. }, _) => Call::Trade { issue, from, to, lots: wrong },
        (Call::Deliver { account, lots, out, .. }, 0) => {
            Call::Deliver { issue: place, account, lots, out }
        }
        (Call::Deliver { issue, lots, out, .. }, 1) => {
            Call::Deliver { issue, account: place, lots, out }
        }
        (Call::Deliver { issue, account, out, .. }, _) => {
            Call::Deliver { issue, account, lots: wrong, out }
        }
        (Call::Resolve { account, lots, out, .. }, 0) => {
            Call::Resolve { issue: place, account, lots, out }
        }
        (Call::Resolve { issue, lots, out, .. }, 1) => {
            Call::Resolve { issue, account: place, lots, out }
        }
        (Call::Resolve { issue, account, out, .. }, _) => {
            Call::Resolve { issue, account, lots: wrong, out }
        }
        (Call::PairOff { account, .. }, 0) => Call::PairOff { issue: place, account },
        (Call::PairOff { issue, .. }, _) => Call::PairOff { issue, account: place },
        (Call::Mark { mark, .. }, _) => Call::Mark { issue: place, mark },
        (Call::Turn { .. }, _) => Call::Turn { day: *rng.pick(&[0, 65_536, 1 << 31, u32::MAX]) },
        (Call::Roll { days, rate, quotes }, _) => wrong_roll(rng, days, rate, quotes),
        (call, _) => call,
    }
}

/// A roll with days, rate, the number of quotes, a price, an accrued amount or the sum of both out of
/// range.
fn wrong_roll(rng: &mut Rng, days: u32, rate: u32, mut quotes: Vec<u32>) -> Call {
    let issue = rng.range(0, 15) as usize;
    match rng.range(0, 6) {
        0 => return Call::Roll { days: *rng.pick(&[0, 13, 16, u32::MAX]), rate, quotes },
        1 => return Call::Roll { days, rate: *rng.pick(&[10_001, 16_384, u32::MAX]), quotes },
        2 => quotes.resize(*rng.pick(&[0, 1, 16, 17, 31, 33]), 10_000),
        3 => quotes[ISSUES + issue] = *rng.pick(&[MOST_ACCRUED + 1, 65_536, u32::MAX]),
        4 => {
            quotes[ISSUES + issue] = rng.range(1, MOST_ACCRUED);
            quotes[issue] = MOST_PRICE + 1 - quotes[ISSUES + issue];
        }
        _ => quotes[issue] = *rng.pick(&[0, MOST_PRICE + 1, u32::MAX]),
    }
    Call::Roll { days, rate, quotes }
}
