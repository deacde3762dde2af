//! `bench`: run times of the library and the program beside the second engine, as Markdown.
//!
//! Parts: calls, lifts, orders, growth, simulation, programs, counts and scan; `--part NAME` runs one of them.
//! Counts, and scan among them, are instructions of the machine, by callgrind, which do not depend on what
//! else it does; they are made only where they are asked for.
//! `--part one --one 'MARKET LIFTS ORDER CALL'` makes one of the calls of both orders, to be counted,
//! and `--part one-scan --one BOOK` one of the scans.
//! `--cases N` is the number of rounds of which the middle one is shown. `--program PATH` and `--reference PATH` name the
//! programs.

mod calls;
mod growth;
mod lifts;
mod orders;
mod programs;
mod scan;
mod simulation;
mod tapes;
mod timing;

use std::process::ExitCode;
use tests::options::Options;

/// The rounds of the default run.
const DEFAULT_ROUNDS: u64 = 41;

fn main() -> ExitCode {
    let own = ["--part", "--one", "--program", "--reference"];
    match Options::of_command_line(DEFAULT_ROUNDS, &own).and_then(run) {
        Ok(()) => ExitCode::SUCCESS,
        Err(error) => {
            eprintln!("bench: {error}");
            ExitCode::FAILURE
        }
    }
}

/// Runs one part or all of them; each prints its tables.
fn run(options: Options) -> Result<(), String> {
    let rounds = options.cases.max(1) as usize;
    match options.own_or("--part", "all") {
        "all" => {
            calls::run(rounds);
            lifts::run(rounds);
            orders::run(rounds);
            growth::run(rounds);
            simulation::run();
            programs::run(&options)
        }
        "calls" => {
            calls::run(rounds);
            Ok(())
        }
        "lifts" => {
            lifts::run(rounds);
            Ok(())
        }
        "orders" => {
            orders::run(rounds);
            Ok(())
        }
        "growth" => {
            growth::run(rounds);
            Ok(())
        }
        "simulation" => {
            simulation::run();
            Ok(())
        }
        "programs" => programs::run(&options),
        "counts" => {
            programs::counts(&options)?;
            orders::counts()?;
            scan::counts()
        }
        "scan" => scan::counts(),
        "one" => orders::one(options.own_or("--one", "")),
        "one-scan" => scan::one(options.own_or("--one", "")),
        other => {
            let parts = "calls, lifts, orders, growth, simulation, programs, counts and scan";
            Err(format!("there is no part {other:?}: there are {parts}"))
        }
    }
}
