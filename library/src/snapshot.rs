//! A book as words of a fixed number, and the book of words.

use crate::raw::{self, State};
use crate::Book;

/// The words of a snapshot.
pub const WORDS: usize = 6_583;

/// What opening gives, as the library's function gives it.
#[repr(C)]
#[derive(Clone, Copy, Debug, PartialEq, Eq)]
pub struct Opened {
    /// The reason, 0 where it is opened.
    pub reason: u32,
    /// The state, that of a fresh book where it is not.
    pub state: State,
}

/// The words of a sound book; another is refused by 5.
pub fn save(book: &Book) -> Result<Vec<u32>, u32> {
    let mut words = vec![0; WORDS];
    match raw::save(&book.columns(), &mut words) {
        0 => Ok(words),
        reason => Err(reason),
    }
}

/// The book of words, or the reason: 1 length, 2 version, 3 checksum, 4 a number that does not fit its
/// field, 5 not sound.
pub fn open(words: &[u32]) -> Result<Book, u32> {
    let mut book = Book::fresh();
    match raw::open(words, &mut book.columns_mut()) {
        0 => Ok(book),
        reason => Err(reason),
    }
}

#[cfg(test)]
mod tests {
    use super::*;
    use crate::calls;

    #[test]
    fn a_saved_book_is_opened_and_no_other_is() {
        let mut book = Book::fresh();
        assert!(calls::trade(&mut book, 3, 8, 1, 150_000).is_ok());
        let words = save(&book).unwrap();
        assert_eq!((open(&words), words.len()), (Ok(book.clone()), WORDS));
        for (at, word, reason) in [(0, 1, 2), (1, 1, 3), (4, 9, 3)] {
            let mut changed = words.clone();
            changed[at] = word;
            assert_eq!(open(&changed), Err(reason));
        }
        assert_eq!(open(&words[1..]), Err(1));
        book.nets[0] = 1;
        assert_eq!(save(&book), Err(5));
    }
}
