//! The second engine of the settlement-day book: 16 issues, 64 netting accounts, one tape of words.
//!
//! Test runs put the same calls to it and to the desk's library and compare the answers.
#![forbid(unsafe_code)]

pub mod access;
pub mod book;
pub mod calls;
pub mod funds;
pub mod journal;
pub mod markets;
pub mod measures;
pub mod questions;
pub mod run;
pub mod simulation;
pub mod snapshot;
pub mod soundness;
pub mod statement;
pub mod tape;
pub mod trust;
pub mod units;
