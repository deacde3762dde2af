//! `callers`: every request with every kind of caller, by the library and by the second engine.
//!
//! Random requests on random books, each by the operator, by participants and by callers that are neither,
//! with owners of every kind: answers, books and outputs of both engines compared, and a refusal leaves
//! all as it came. Then pairs of random books alike to a caller that is not the operator: every request is
//! put to both, a whole list one after another, and what the caller is told must be the same.

use reference::access::{Caller, OPERATOR};
use reference::book::Book;
use std::collections::BTreeSet;
use std::process::ExitCode;
use tests::alike::{alike, is_alike, own_accounts, random_caller};
use tests::books::{random_book, Shape};
use tests::convert::{library_book, same_numbers};
use tests::engines::{pattern, Answer};
use tests::options::Options;
use tests::random_lifts::Tickets;
use tests::report::progress;
use tests::requests::{library_answer, random_request, reference_answer, told, Request};
use tests::rng::Rng;

const DEFAULT_CASES: u64 = 20_000;
/// The requests of a case.
const REQUESTS: u32 = 12;
/// The numbers that a request can be answered, by the papers; 0 is done. 10 and 12 need a book drawn for
/// them and are met by other programs.
const NUMBERS: [u32; 17] = [0, 1, 3, 4, 5, 6, 7, 8, 9, 11, 16, 17, 18, 19, 20, 26, 27];
/// Callers that are put to every request beside a random one.
const KINDS: [u32; 5] = [OPERATOR, 0, 1, 15, 17];

/// A request put to both engines on copies of a book; the answer and the book after it.
fn compare(book: &Book, caller: &Caller, request: &Request) -> Result<(Answer, Book), String> {
    let (mut one, mut other) = (book.clone(), library_book(book));
    let came = pattern(request.output());
    let (mut out, mut out2) = (came.clone(), came.clone());
    let answer = reference_answer(&mut one, caller, request, &mut out);
    let answer2 = library_answer(&mut other, caller, request, &mut out2);
    let differ = |what: &str| {
        let number = caller.number;
        Err(format!(
            "{what} of {request:?} by {number}: {answer:?}, and by the library {answer2:?}"
        ))
    };
    if answer != answer2 {
        return differ("the answer");
    }
    if !same_numbers(&one, &other) {
        return differ("the book");
    }
    if out != out2 {
        return differ("the output");
    }
    if answer.number != 0 && (one != *book || out != came) {
        return differ("what a refusal leaves");
    }
    Ok((answer, one))
}

/// Requests on one book, each by every kind of caller; the numbers met.
fn kinds(rng: &mut Rng, met: &mut BTreeSet<u32>) -> Result<u64, String> {
    let shape = Shape::few(rng);
    let mut book = random_book(rng, &shape);
    let mut tickets = Tickets::default();
    let mut put = 0;
    for _ in 0..REQUESTS {
        let drawn = random_caller(rng, &shape.accounts);
        let request = random_request(rng, &shape, &book, &mut tickets, &own_accounts(&drawn));
        for number in KINDS.into_iter().chain([drawn.number]) {
            let caller = Caller { number, ..drawn };
            let (answer, _) = compare(&book, &caller, &request)?;
            met.insert(answer.number);
            put += 1;
        }
        let (_, next) = compare(&book, &Caller { number: OPERATOR, ..drawn }, &request)?;
        book = next;
    }
    Ok(put)
}

/// A pair of books alike to a caller, and a list of its requests on both; how many, and whether the books
/// differ.
fn pair(rng: &mut Rng, met: &mut BTreeSet<u32>) -> Result<(u64, bool), String> {
    let shape = Shape::few(rng);
    let mut one = random_book(rng, &shape);
    let caller = random_caller(rng, &shape.accounts);
    let mut other = alike(rng, &one, &shape, &caller);
    let differ = one != other;
    let accounts = own_accounts(&caller);
    let mut tickets = Tickets::default();
    for at in 0..REQUESTS {
        if !is_alike(&one, &other, &caller) {
            return Err(format!("books no longer alike to {} before request {at}", caller.number));
        }
        let request = random_request(rng, &shape, &one, &mut tickets, &accounts);
        let (answer, next) = compare(&one, &caller, &request)?;
        let (answer2, next2) = compare(&other, &caller, &request)?;
        let (heard, heard2) = (told(&caller, &request, answer), told(&caller, &request, answer2));
        if heard != heard2 {
            let number = caller.number;
            return Err(format!("{request:?} tells {number} {heard:?} or {heard2:?}"));
        }
        met.insert(answer.number);
        (one, other) = (next, next2);
    }
    Ok((u64::from(REQUESTS), differ))
}

/// Runs the cases that the command line asks for; the last line.
fn run(options: &Options) -> Result<String, String> {
    let (mut met, mut put, mut pairs) = (BTreeSet::new(), 0, 0);
    let told = |at: u64, error: String| format!("{error}\nseed {} case {at}", options.seed);
    for at in 0..options.cases {
        let mut rng = Rng::of_case(options.seed, at);
        put += kinds(&mut rng, &mut met).map_err(|error| told(at, error))?;
        let (requests, differ) = pair(&mut rng, &mut met).map_err(|error| told(at, error))?;
        put += 2 * requests;
        pairs += u64::from(differ);
        progress(at + 1, options.cases);
    }
    let missed = NUMBERS.into_iter().find(|number| !met.contains(number));
    if let Some(number) = missed.filter(|_| options.cases >= DEFAULT_CASES) {
        return Err(format!("never met: answer {number}"));
    }
    Ok(format!("callers: {put} requests agree, {pairs} pairs of different books told alike"))
}

fn main() -> ExitCode {
    match Options::of_command_line(DEFAULT_CASES, &[]).and_then(|options| run(&options)) {
        Ok(line) => {
            println!("{line}");
            ExitCode::SUCCESS
        }
        Err(error) => {
            eprintln!("callers: {error}");
            ExitCode::FAILURE
        }
    }
}
