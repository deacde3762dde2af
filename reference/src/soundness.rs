//! Soundness: each condition of a sound book by itself, on any book whatever.

use crate::book::{Book, Lift, Phase, ACCOUNTS, ENTRIES, ISSUES, LIFTS};
use crate::measures::MOST_LOTS;
use crate::units::{handed, units, units_of};

/// The most one day can add to the size of an account's charge, in yen.
pub const MOST_CHARGE_A_DAY: i128 = 134_663_013_697_536;

/// A condition of soundness.
pub type Condition = fn(&Book) -> bool;

/// Every condition of soundness with its name; a book is sound when all hold.
pub const CONDITIONS: [(&str, Condition); 24] = [
    ("nets_in_range", nets_in_range),
    ("nets_sum_to_zero", nets_sum_to_zero),
    ("delivered_within_owed", delivered_within_owed),
    ("delivered_zero_elsewhere", delivered_zero_elsewhere),
    ("delivered_zero_in_taking", delivered_zero_in_taking),
    ("entry_numbers_in_range", entry_numbers_in_range),
    ("entry_accounts_differ", entry_accounts_differ),
    ("entry_lots_in_range", entry_lots_in_range),
    ("entry_days_never_fall", entry_days_never_fall),
    ("entry_days_not_above_today", entry_days_not_above_today),
    ("entry_count_in_range", entry_count_in_range),
    ("unused_entries_zero", unused_entries_zero),
    ("charges_sum_to_zero", charges_sum_to_zero),
    ("charges_in_range", charges_in_range),
    ("at_most_eight_lifts", at_most_eight_lifts),
    ("lifts_new_at_most_old", lifts_new_at_most_old),
    ("lifts_old_below_units", lifts_old_below_units),
    ("lifts_new_never_falls", lifts_new_never_falls),
    ("lifts_new_at_most_handed", lifts_new_at_most_handed),
    ("no_lift_in_taking", no_lift_in_taking),
    ("count_within_delivered_and_lifts", count_within_delivered_and_lifts),
    ("marked_nets_even", marked_nets_even),
    ("marked_delivered_even", marked_delivered_even),
    ("marked_entries_even", marked_entries_even),
];

impl Book {
    /// Is the book sound?
    pub fn sound(&self) -> bool {
        CONDITIONS.iter().all(|(_, holds)| holds(self))
    }
}

/// Each net lies in −20,000,000..20,000,000.
pub fn nets_in_range(book: &Book) -> bool {
    book.nets.iter().all(|net| net.unsigned_abs() <= MOST_LOTS)
}

/// Each issue's nets sum to 0.
pub fn nets_sum_to_zero(book: &Book) -> bool {
    (0..ISSUES)
        .all(|issue| book.nets_of(issue).iter().map(|&net| i128::from(net)).sum::<i128>() == 0)
}

/// Delivered lots lie in 0..−net where the net is negative.
pub fn delivered_within_owed(book: &Book) -> bool {
    nets_and_delivered(book).all(|(net, lots)| net >= 0 || lots <= -net)
}

/// Delivered lots are 0 where the net is not negative.
pub fn delivered_zero_elsewhere(book: &Book) -> bool {
    nets_and_delivered(book).all(|(net, lots)| net < 0 || lots == 0)
}

/// Delivered lots are 0 throughout in Taking.
pub fn delivered_zero_in_taking(book: &Book) -> bool {
    book.phase != Phase::Taking || book.delivered.iter().all(|&lots| lots == 0)
}

/// Issues and accounts of the entries are in range.
pub fn entry_numbers_in_range(book: &Book) -> bool {
    book.entries().all(|entry| {
        usize::from(entry.issue) < ISSUES
            && usize::from(entry.from) < ACCOUNTS
            && usize::from(entry.to) < ACCOUNTS
    })
}

/// Entries have from unlike to.
pub fn entry_accounts_differ(book: &Book) -> bool {
    book.entries().all(|entry| entry.from != entry.to)
}

/// Entries have lots 1..20,000,000.
pub fn entry_lots_in_range(book: &Book) -> bool {
    book.entries().all(|entry| (1..=MOST_LOTS).contains(&entry.lots))
}

/// Days never fall along the ledger.
pub fn entry_days_never_fall(book: &Book) -> bool {
    book.entries().zip(book.entries().skip(1)).all(|(entry, next)| entry.day <= next.day)
}

/// No entry's day is above today.
pub fn entry_days_not_above_today(book: &Book) -> bool {
    book.entries().all(|entry| entry.day <= book.day)
}

/// The entry count is at most 2,048.
pub fn entry_count_in_range(book: &Book) -> bool {
    book.count <= ENTRIES
}

/// Unused entries are zero.
pub fn unused_entries_zero(book: &Book) -> bool {
    (book.count.min(ENTRIES)..ENTRIES).all(|at| {
        book.issues[at] == 0
            && book.froms[at] == 0
            && book.tos[at] == 0
            && book.lots[at] == 0
            && book.days[at] == 0
    })
}

/// Charges sum to 0.
pub fn charges_sum_to_zero(book: &Book) -> bool {
    book.charges.iter().map(|&yen| i128::from(yen)).sum::<i128>() == 0
}

/// Each charge is of size at most 134,663,013,697,536 × day.
pub fn charges_in_range(book: &Book) -> bool {
    let most = MOST_CHARGE_A_DAY * i128::from(book.day);
    book.charges.iter().all(|&yen| i128::from(yen).abs() <= most)
}

/// At most eight lifts stand for an issue.
pub fn at_most_eight_lifts(book: &Book) -> bool {
    book.lifts.iter().all(|lifts| lifts.number as usize <= LIFTS)
}

/// No lift's new place is above its old one.
pub fn lifts_new_at_most_old(book: &Book) -> bool {
    lifted_issues(book).all(|(_, lifts)| lifts.iter().all(|lift| lift.new <= lift.old))
}

/// Each lift's old place is below the number of the issue's units.
pub fn lifts_old_below_units(book: &Book) -> bool {
    lifted_issues(book).all(|(issue, lifts)| {
        let number = units(book.nets_of(issue)).len();
        lifts.iter().all(|lift| (lift.old as usize) < number)
    })
}

/// An issue's new places never fall.
pub fn lifts_new_never_falls(book: &Book) -> bool {
    lifted_issues(book).all(|(_, lifts)| lifts.windows(2).all(|two| two[0].new <= two[1].new))
}

/// No new place is above the number of units handed, of the order with all lifts.
pub fn lifts_new_at_most_handed(book: &Book) -> bool {
    lifted_issues(book).all(|(issue, lifts)| {
        let (count, _) = handed(&units_of(book, issue), book.delivered_total(issue));
        lifts.iter().all(|lift| lift.new as usize <= count)
    })
}

/// No lift stands in Taking.
pub fn no_lift_in_taking(book: &Book) -> bool {
    book.phase != Phase::Taking || book.lifts.iter().all(|lifts| lifts.number == 0)
}

/// An issue's count is at most the lots delivered in it plus its lifts.
pub fn count_within_delivered_and_lifts(book: &Book) -> bool {
    book.lifts.iter().enumerate().all(|(issue, lifts)| {
        u64::from(lifts.count) <= book.delivered_total(issue) + u64::from(lifts.number)
    })
}

/// The nets of a marked issue are even.
pub fn marked_nets_even(book: &Book) -> bool {
    marked_issues(book).all(|issue| book.nets_of(issue).iter().all(|net| net % 2 == 0))
}

/// The lots delivered in a marked issue are even, account by account.
pub fn marked_delivered_even(book: &Book) -> bool {
    marked_issues(book).all(|issue| book.delivered_of(issue).iter().all(|lots| lots % 2 == 0))
}

/// The entries of a marked issue have even lots.
pub fn marked_entries_even(book: &Book) -> bool {
    book.entries().all(|entry| !book.is_marked(entry.issue.into()) || entry.lots % 2 == 0)
}

/// The marked issues.
fn marked_issues(book: &Book) -> impl Iterator<Item = usize> + '_ {
    (0..ISSUES).filter(|&issue| book.is_marked(issue))
}

/// The issues with lifts that stand, each with them.
fn lifted_issues(book: &Book) -> impl Iterator<Item = (usize, &[Lift])> + '_ {
    let issues = book.lifts.iter().map(|lifts| lifts.standing()).enumerate();
    issues.filter(|(_, lifts)| !lifts.is_empty())
}

/// Each net with the lots delivered beside it.
fn nets_and_delivered(book: &Book) -> impl Iterator<Item = (i128, i128)> + '_ {
    let nets = book.nets.iter().map(|&net| i128::from(net));
    nets.zip(book.delivered.iter().map(|&lots| i128::from(lots)))
}
