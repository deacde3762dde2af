//! `tape`: writes, reads, checks, runs and explains tapes of the settlement-day book.

use std::env;
use std::ffi::OsString;
use std::process::ExitCode;
use tape::verbs::{self, Ended};

fn main() -> ExitCode {
    let words: Vec<OsString> = env::args_os().skip(1).collect();
    match verbs::obey(words) {
        Ok(Ended::Well) => ExitCode::SUCCESS,
        Ok(Ended::Badly) => ExitCode::from(1),
        Err(error) => {
            verbs::say(&error);
            ExitCode::from(2)
        }
    }
}
