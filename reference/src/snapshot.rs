//! A book as words of a fixed number, by the table of docs/SNAPSHOT.md: a version, two words of checksum,
//! then the numbers of the book, each at its place.

use crate::book::{Book, Entry, Lift, Lifts, Phase, ACCOUNTS, ENTRIES, ISSUES, LIFTS};

/// The number of the format.
pub const VERSION: u32 = 0x536e_4031;
/// Where the checksum stands, low half first, and where what it is of begins.
const CHECKSUM: usize = 1;
const BODY: usize = 3;
/// Where the four numbers of the state stand: day, phase, number of entries, change-over day.
const STATE: usize = BODY;
const MARKS: usize = STATE + 4;
const NETS: usize = MARKS + ISSUES;
const DELIVERED: usize = NETS + ISSUES * ACCOUNTS;
const LIFT_WORDS: usize = 2 + 2 * LIFTS;
const LIFTED: usize = DELIVERED + ISSUES * ACCOUNTS;
const CHARGES: usize = LIFTED + ISSUES * LIFT_WORDS;
/// Where issue, from, to and day of each entry stand, in one word.
const HEADS: usize = CHARGES + 2 * ACCOUNTS;
const LOTS: usize = HEADS + ENTRIES;
/// The words of a snapshot.
pub const WORDS: usize = LOTS + ENTRIES;

/// Why words are no book, or a book is not saved.
pub const LENGTH: u32 = 1;
pub const OTHER_VERSION: u32 = 2;
pub const WRONG_SUM: u32 = 3;
pub const NO_FIT: u32 = 4;
pub const NOT_SOUND: u32 = 5;

/// The first word, twice the second, three times the third, and so on, with nothing reduced.
pub fn weighted(words: &[u32]) -> u64 {
    (1..).zip(words).map(|(weight, &word): (u64, &u32)| weight * u64::from(word)).sum()
}

/// The two halves of a number of 64 bits, low first.
pub(crate) fn halves(number: u64) -> [u32; 2] {
    [number as u32, (number >> 32) as u32]
}

/// The words of a sound book; another is refused by 5.
pub fn save(book: &Book) -> Result<Vec<u32>, u32> {
    if !book.sound() {
        return Err(NOT_SOUND);
    }
    let phase = match book.phase {
        Phase::Taking => 0,
        Phase::Settling => 1,
        Phase::Cut => 2,
    };
    let mut words = vec![VERSION, 0, 0, book.day.into(), phase, book.count as u32, book.turn];
    words.extend(book.marks.map(u32::from));
    words.extend(book.nets.map(|net| net as u32));
    words.extend(book.delivered);
    for Lifts { number, count, moves } in book.lifts {
        words.extend([number, count]);
        words.extend(moves.iter().flat_map(|lift| [lift.old, lift.new]));
    }
    words.extend(book.charges.iter().flat_map(|&yen| halves(yen as u64)));
    words.extend((0..ENTRIES).map(|at| {
        let (issue, from) = (u32::from(book.issues[at]), u32::from(book.froms[at]));
        let (to, day) = (u32::from(book.tos[at]), u32::from(book.days[at]));
        issue << 28 | from << 22 | to << 16 | day
    }));
    words.extend(book.lots);
    let sum = weighted(&words[BODY..]);
    words[CHECKSUM..BODY].copy_from_slice(&halves(sum));
    Ok(words)
}

/// The book of words, or the number of the first question that is answered 'no'.
pub fn open(words: &[u32]) -> Result<Book, u32> {
    if words.len() != WORDS {
        return Err(LENGTH);
    }
    if words[0] != VERSION {
        return Err(OTHER_VERSION);
    }
    if words[CHECKSUM..BODY] != halves(weighted(&words[BODY..])) {
        return Err(WRONG_SUM);
    }
    let book = book_of(words).ok_or(NO_FIT)?;
    book.sound().then_some(book).ok_or(NOT_SOUND)
}

/// The book of so many words; none where the day, the phase or a mark does not fit.
fn book_of(words: &[u32]) -> Option<Book> {
    let mut book = Book::fresh();
    book.day = u16::try_from(words[STATE]).ok()?;
    book.phase = match words[STATE + 1] {
        0 => Phase::Taking,
        1 => Phase::Settling,
        2 => Phase::Cut,
        _ => return None,
    };
    book.turn = words[STATE + 3];
    for (mark, &word) in book.marks.iter_mut().zip(&words[MARKS..]) {
        *mark = u8::try_from(word).ok()?;
    }
    book.nets.iter_mut().zip(&words[NETS..]).for_each(|(net, &word)| *net = word as i32);
    book.delivered.copy_from_slice(&words[DELIVERED..LIFTED]);
    for (lifts, words) in book.lifts.iter_mut().zip(words[LIFTED..].chunks_exact(LIFT_WORDS)) {
        (lifts.number, lifts.count) = (words[0], words[1]);
        for (lift, place) in lifts.moves.iter_mut().zip(words[2..].chunks_exact(2)) {
            *lift = Lift { old: place[0], new: place[1] };
        }
    }
    for (yen, word) in book.charges.iter_mut().zip(words[CHARGES..].chunks_exact(2)) {
        *yen = (u64::from(word[1]) << 32 | u64::from(word[0])) as i64;
    }
    let entry = |(&head, &lots): (&u32, &u32)| Entry {
        issue: (head >> 28) as u8,
        from: (head >> 22 & 63) as u8,
        to: (head >> 16 & 63) as u8,
        lots,
        day: head as u16,
    };
    let entries: Vec<Entry> = words[HEADS..LOTS].iter().zip(&words[LOTS..]).map(entry).collect();
    book.set_ledger(&entries);
    book.count = words[STATE + 2] as usize;
    Some(book)
}

#[cfg(test)]
mod tests {
    use super::*;
    use crate::calls;

    /// A book with a mark, nets, a lift, fails and charges.
    fn book() -> Book {
        let (mut book, mut output) = (Book::fresh(), vec![0; 4_096]);
        let quotes: Vec<u32> = [[100_000; 16], [0; 16]].concat();
        assert_eq!(calls::mark(&mut book, 15, 1).number, 0);
        assert_eq!(calls::turn(&mut book, 65_535).number, 0);
        assert_eq!(calls::trade(&mut book, 0, 63, 1, 230_001).number, 0);
        assert_eq!(calls::close(&mut book).number, 0);
        assert_eq!(calls::cutoff(&mut book, &mut output).number, 0);
        assert_eq!(calls::roll(&mut book, 1, 300, &quotes).number, 0);
        assert_eq!(calls::trade(&mut book, 15, 0, 63, 150_000).number, 0);
        assert_eq!(calls::close(&mut book).number, 0);
        assert_eq!(calls::deliver(&mut book, 15, 0, 50_000, &mut output).number, 0);
        let ticket = calls::ask(&book, 15, 1).ticket;
        assert_eq!(calls::commit(&mut book, &ticket, &mut output).number, 0);
        book
    }

    #[test]
    fn the_table_has_these_places() {
        assert_eq!([MARKS, NETS, DELIVERED, LIFTED, CHARGES], [7, 23, 1_047, 2_071, 2_359]);
        assert_eq!([HEADS, LOTS, WORDS], [2_487, 4_535, 6_583]);
        let words = save(&book()).unwrap();
        assert_eq!(words[..8], [VERSION, words[1], words[2], 1, 1, 2, 65_535, 0]);
        assert_eq!((words[22], words[NETS + 15 * 64]), (1, 0xffff_ffff - 149_999));
        assert_eq!(words[HEADS..HEADS + 3], [63 << 22 | 1 << 16, 63 << 22 | 1 << 16, 0]);
        assert_eq!(words[LOTS..LOTS + 3], [200_000, 30_001, 0]);
        assert_eq!(words[LIFTED + 15 * 18..][..4], [1, 2, 1, 0]);
    }

    #[test]
    fn a_saved_book_is_opened_again() {
        for book in [Book::fresh(), book()] {
            assert_eq!(open(&save(&book).unwrap()), Ok(book));
        }
        let damaged = Book { count: 1, ..Book::fresh() };
        assert_eq!(save(&damaged), Err(NOT_SOUND));
    }

    #[test]
    fn each_question_has_its_number() {
        let words = save(&book()).unwrap();
        let mut long = words.clone();
        long.push(0);
        for other in [&words[1..], &[], &long] {
            assert_eq!(open(other), Err(LENGTH));
        }
        let with = |at: usize, word: u32| {
            let mut words = words.clone();
            words[at] = word;
            if at >= BODY {
                let sum = weighted(&words[BODY..]);
                words[CHECKSUM..BODY].copy_from_slice(&halves(sum));
            }
            open(&words)
        };
        assert_eq!(with(0, VERSION + 1), Err(OTHER_VERSION));
        assert_eq!(with(1, words[1] ^ 1), Err(WRONG_SUM));
        assert_eq!(with(2, words[2] ^ 1), Err(WRONG_SUM));
        assert_eq!([with(3, 65_536), with(4, 3), with(7, 256)].map(Result::err), [Some(NO_FIT); 3]);
        assert_eq!([with(3, 0), with(5, 3), with(NETS, 1)].map(Result::err), [Some(NOT_SOUND); 3]);
        assert_eq!(with(6, u32::MAX).map(|book| book.turn), Ok(u32::MAX));
    }

    #[test]
    fn every_changed_word_and_every_exchange_is_seen() {
        let words = save(&book()).unwrap();
        for at in 0..WORDS {
            for bit in [0, 31] {
                let mut changed = words.clone();
                changed[at] ^= 1 << bit;
                assert!(open(&changed).is_err(), "word {at}, bit {bit}");
            }
        }
        for (one, other) in [(0, 1), (1, 2), (1, 3), (2, 6), (3, 22), (6, LOTS), (HEADS, LOTS)] {
            let mut changed = words.clone();
            changed.swap(one, other);
            assert!(changed == words || open(&changed).is_err(), "words {one} and {other}");
        }
    }
}
