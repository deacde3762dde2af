//! `reference_dayrun`: runs the tape on standard input and prints as `dayrun` does.

use std::io::{self, Read, Write};
use std::process::ExitCode;

fn main() -> ExitCode {
    match run_standard_input() {
        Ok(()) => ExitCode::SUCCESS,
        Err(error) => {
            eprintln!("reference_dayrun: {error}");
            ExitCode::FAILURE
        }
    }
}

/// Reads the whole tape, then prints all lines at once.
fn run_standard_input() -> io::Result<()> {
    let mut tape = Vec::new();
    io::stdin().lock().read_to_end(&mut tape)?;
    let mut output = io::stdout().lock();
    output.write_all(reference::run::run(&tape).as_bytes())?;
    output.flush()
}
