//! How long a call takes: copies of a book are made, then the call is made on each, timed together.

use reference::book::Book;
use std::hint::black_box;
use std::time::Instant;
use tests::convert::library_book;
use tests::engines::{by_library, by_reference, by_reference_on_sound, Answer};
use tests::steps::Call;

/// The copies of a book in one round.
const COPIES: usize = 32;

/// The heads of the tables' columns: who makes a call, and in which form.
pub const COLUMNS: &str = "library | second engine | second engine, on sound";

/// How a call is made on a book of an engine.
type Make<B> = fn(&mut B, &Call, &mut [u32]) -> Answer;

/// Nanoseconds of one call by the library, the second engine, and the second engine on a book known
/// to be sound; none where there is no such form.
pub fn times(book: &Book, call: &Call, rounds: usize) -> [Option<f64>; 3] {
    let on_sound = || time(book, by_reference_on_sound, call, rounds);
    [
        Some(library_time(book, call, rounds)),
        Some(reference_time(book, call, rounds)),
        (*call != Call::Sound).then(on_sound),
    ]
}

/// Nanoseconds of one call by the library.
pub fn library_time(book: &Book, call: &Call, rounds: usize) -> f64 {
    time(&library_book(book), by_library, call, rounds)
}

/// Nanoseconds of one call by the second engine.
pub fn reference_time(book: &Book, call: &Call, rounds: usize) -> f64 {
    time(book, by_reference, call, rounds)
}

/// Nanoseconds of one call: the middle of the rounds.
fn time<B: Clone>(book: &B, make: Make<B>, call: &Call, rounds: usize) -> f64 {
    let mut output = vec![0; 4_096];
    let mut copies: Vec<B> = vec![book.clone(); COPIES];
    let mut measured: Vec<f64> = (0..rounds + 1)
        .map(|_| {
            copies.iter_mut().for_each(|copy| copy.clone_from(book));
            let start = Instant::now();
            for copy in &mut copies {
                black_box(make(copy, call, &mut output));
            }
            start.elapsed().as_nanos() as f64 / COPIES as f64
        })
        .skip(1)
        .collect();
    measured.sort_by(f64::total_cmp);
    measured[measured.len() / 2]
}

/// Times as the last columns of a table's line.
pub fn columns(times: [Option<f64>; 3]) -> String {
    let text = |time: Option<f64>| time.map_or("–".to_string(), |time| format!("{time:.0}"));
    times.map(text).join(" | ")
}
