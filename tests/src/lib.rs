//! What the test programs share: random numbers, options, reports, steps and both engines; a reader of JSON
//! and its schema.

pub mod alike;
pub mod books;
pub mod case;
pub mod convert;
pub mod desks;
pub mod engines;
pub mod json;
pub mod options;
pub mod programs;
pub mod random_calls;
pub mod random_lifts;
pub mod random_tapes;
pub mod report;
pub mod requests;
pub mod rng;
pub mod schema;
pub mod scripts;
pub mod shown;
pub mod shrink;
pub mod situations;
pub mod steps;
