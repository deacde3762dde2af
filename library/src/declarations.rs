//! The library's functions, declared in this one place, by the crate that they are proved in.
//!
//! A column, the quotes, the words and an output are a pointer and a length, in this order.
//! `host/settlement_day.h` has the same declarations for C.

use crate::journal::Journalled;
use crate::raw::{Ran, Seen, State, Turned};
use crate::snapshot::Opened;
use crate::{Caller, Entry};

// desk
extern "C" {
    pub fn day_value(lots: u32, price: u32, accrued: u32, yen: *mut u64) -> u32;
    pub fn day_charge(
        lots: u32,
        price: u32,
        days: u32,
        rate: u32,
        accrued: u32,
        yen: *mut u64,
    ) -> u32;

    pub fn day_read(
        words: *const u32,
        words_length: usize,
        instruction: *mut [u32; 5],
        count: *mut usize,
    ) -> u32;

    pub fn day_quotes(words: *const u32, words_length: usize, quotes: *mut [u32; 32]);

    pub fn day_write(
        kind: u32,
        a: u32,
        b: u32,
        c: u32,
        d: u32,
        quotes: *const u32,
        quotes_length: usize,
        out: *mut u32,
        out_length: usize,
        count: *mut usize,
    ) -> u32;
}

// entries
extern "C" {
    pub fn entry_meet(entries: *mut Entry, length: usize, at: usize, lots: u32) -> u32;
}

// funds
extern "C" {
    pub fn day_bases(
        averages: *const u64,
        averages_length: usize,
        tenths: u64,
        bases: *mut [u64; 64],
    ) -> u32;
    pub fn day_shares(
        averages: *const u64,
        averages_length: usize,
        bases: *const u64,
        bases_length: usize,
        funds: u64,
        shares: *mut [u64; 64],
    ) -> u32;
    pub fn day_funds(
        averages: *const u64,
        averages_length: usize,
        tenths: u64,
        funds: u64,
        shares: *mut [u64; 64],
    ) -> u32;
}

// journal
extern "C" {
    pub fn day_journal_call(
        number: u32,
        kind: u32,
        a: u32,
        b: u32,
        c: u32,
        d: u32,
        quotes: *const u32,
        quotes_length: usize,
        out: *mut u32,
        out_length: usize,
    ) -> u32;

    pub fn day_journal_commit(
        number: u32,
        ticket: *const [u32; 6],
        out: *mut u32,
        out_length: usize,
    ) -> u32;

    pub fn day_journal_read(number: u32, words: *const u32, words_length: usize) -> Journalled;
}

// listing
extern "C" {
    pub fn day_markets(
        accounts: u32,
        most: u32,
        out: *mut i32,
        out_length: usize,
        count: *mut u32,
    ) -> u32;
    pub fn day_market_fails(
        accounts: u32,
        most: u32,
        delivered: *const u32,
        delivered_length: usize,
        counts: *mut [u32; 5],
    ) -> u32;
}

/// Declares a function on a book: what stands before the columns, of each column its pointer and its
/// length, what stands behind them. The columns are `const` where it reads them alone.
macro_rules! on_book {
    ($($function:tt)*) => { columns! { declare! { $($function)* } } };
}

macro_rules! declare {
    (
        {
            $access:tt fn $function:ident(
                $($before:ident: $taken:ty),*; $($behind:ident: $given:ty),*
            ) -> $answer:ty
        }
        $($(#[$has:meta])* $column:ident: $place:ty, $places:ident;)*
    ) => {
        extern "C" {
            pub fn $function(
                $($before: $taken,)*
                $($column: *$access $place, _: usize,)*
                $($behind: $given,)*
            ) -> $answer;
        }
    };
}

// batch
on_book! {
    mut fn day_run(
        words: *const u32, words_length: usize, state: State;
        answers: *mut u64, answers_length: usize, out: *mut u32, out_length: usize
    ) -> Ran
}

// host
on_book! { const fn day_sound(state: State;) -> u32 }
on_book! { const fn day_unit(state: State; issue: u32, k: u32, answer: *mut [u32; 3]) -> u32 }
on_book! { const fn day_status(state: State; issue: u32, k: u32, answer: *mut [u32; 2]) -> u32 }
on_book! { const fn day_ask(state: State; issue: u32, unit: u32, ticket: *mut [u32; 6]) -> u32 }
on_book! {
    const fn day_simulate(
        state: State;
        settles: *const u32, settles_length: usize,
        inventories: *const u32, inventories_length: usize,
        size: u32, deliveries: *mut u64, rounds: *mut u64, owed: *mut [u32; 16]
    ) -> u32
}
on_book! {
    mut fn day_call(
        kind: u32, a: u32, b: u32, c: u32, d: u32,
        quotes: *const u32, quotes_length: usize, state: State;
        out: *mut u32, out_length: usize
    ) -> Turned
}
on_book! {
    mut fn day_commit(
        ticket: *const [u32; 6], state: State;
        out: *mut u32, out_length: usize, count: *mut usize
    ) -> u32
}

// callers
on_book! {
    const fn day_unit_as(
        caller: Caller, state: State; issue: u32, k: u32, answer: *mut [u32; 3]
    ) -> u32
}
on_book! {
    const fn day_status_as(
        caller: Caller, state: State; issue: u32, k: u32, answer: *mut [u32; 2]
    ) -> u32
}
on_book! {
    const fn day_ask_as(
        caller: Caller, state: State; issue: u32, unit: u32, ticket: *mut [u32; 6]
    ) -> u32
}
on_book! {
    const fn day_simulate_as(
        caller: Caller, state: State;
        settles: *const u32, settles_length: usize,
        inventories: *const u32, inventories_length: usize,
        size: u32, deliveries: *mut u64, rounds: *mut u64, owed: *mut [u32; 16]
    ) -> u32
}
on_book! {
    mut fn day_call_as(
        caller: Caller, kind: u32, a: u32, b: u32, c: u32, d: u32,
        quotes: *const u32, quotes_length: usize, state: State;
        out: *mut u32, out_length: usize
    ) -> Turned
}
on_book! {
    mut fn day_commit_as(
        caller: Caller, ticket: *const [u32; 6], state: State;
        out: *mut u32, out_length: usize, count: *mut usize
    ) -> u32
}
on_book! {
    const fn day_look(caller: Caller, state: State; issue: u32, account: u32, k: u32) -> Seen
}

// snapshot
on_book! { const fn day_save(state: State; out: *mut u32, out_length: usize) -> u32 }
on_book! { mut fn day_open(words: *const u32, words_length: usize;) -> Opened }

// statement
extern "C" {
    pub fn day_statement(
        words: *const u32,
        words_length: usize,
        issue: u32,
        account: u32,
        numbers: *mut [u64; 6],
    ) -> u32;
}

// trust
extern "C" {
    pub fn day_trust(
        sub_accounts: *const u32,
        sub_accounts_length: usize,
        counterparties: *const u32,
        counterparties_length: usize,
        lots: *const i32,
        lots_length: usize,
        earlier: *const u8,
        earlier_length: usize,
        draw: *const u32,
        draw_length: usize,
        fail: u32,
        failing: u32,
        out: *mut u32,
        out_length: usize,
    ) -> u32;
}

// the package itself, in C
extern "C" {
    pub fn day_version() -> u32;
}
