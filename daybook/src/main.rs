//! `daybook`: the desk's console.

use daybook::{arguments, verbs};
use std::env;
use std::process::ExitCode;

fn main() -> ExitCode {
    let words = env::args_os().skip(1).collect();
    match arguments::read(words).and_then(verbs::obey) {
        Ok(status) => ExitCode::from(status),
        Err(error) => {
            verbs::say(&error);
            ExitCode::from(verbs::WRONG)
        }
    }
}
