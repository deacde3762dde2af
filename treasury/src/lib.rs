//! The table of a default for a treasurer: each participant's average, base contribution and share of
//! the funds, from a small text or CSV file. Amounts are in 100 million yen.

pub mod file;
pub mod options;
pub mod table;
