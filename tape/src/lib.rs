//! Tapes for people: a text form of the words, what the book refuses, what a tape does day by day, why a
//! unit has not come, what differs between two tapes, whether smaller units would loosen a jam, what a
//! participant sees of an account, every small market, an account's fails statement, and CSV in and out.

pub mod account;
pub mod batch;
pub mod block;
pub mod bytes;
pub mod check;
pub mod csv;
pub mod dealt;
pub mod diff;
pub mod export;
pub mod facts;
pub mod fault;
pub mod import;
pub mod input;
mod interrupt;
pub mod jam;
pub mod json;
pub mod kind;
pub mod known;
pub mod ledger;
pub mod lines;
pub mod look;
pub mod markets;
pub mod measure;
pub mod names;
pub mod options;
pub mod output;
mod progress;
pub mod reading;
pub mod run;
pub mod source;
pub mod standing;
pub mod statement;
pub mod status;
pub mod story;
pub mod telling;
pub mod text;
pub mod units;
pub mod verbs;
pub mod whole;
pub mod why;
