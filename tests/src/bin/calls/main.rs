//! `calls`: the library's calls beside those of the second engine, on the same cases.
//!
//! Every answer, the whole book and every word of the output are compared. Parts: lists, refusals,
//! damage, lent, units, status, markets, lifts, marks, turn, reordered and tape; `--part NAME` runs one of
//! them.
//! `--replay CASE` runs one case, as a mismatch prints it; CASE may also be a file that holds it.

mod damage;
mod lent;
mod lifts;
mod lists;
mod markets;
mod marks;
mod refusals;
mod reordered;
mod status;
mod tape;
mod turn;
mod units;

use std::fs;
use std::process::ExitCode;
use std::time::Instant;
use tests::case::Case;
use tests::options::Options;
use tests::report::{save_case, Mismatch};
use tests::steps;

/// The random lists of the default run; the other parts go by this number.
const DEFAULT_CASES: u64 = 1_500;
/// A part: its name, and what runs it with seed and cases and gives the calls compared.
type Part = (&'static str, fn(u64, u64) -> Result<u64, Failure>);
/// All parts, in the order in which they run.
const PARTS: [Part; 12] = [
    ("refusals", refusals::run),
    ("damage", damage::run),
    ("lent", lent::run),
    ("tape", tape::run),
    ("units", units::run),
    ("status", status::run),
    ("markets", markets::run),
    ("lifts", lifts::run),
    ("marks", marks::run),
    ("turn", turn::run),
    ("reordered", reordered::run),
    ("lists", lists::run),
];

/// Why a part failed.
pub enum Failure {
    Mismatch(Mismatch),
    /// An answer is not the paper's, or something that was to be met was not.
    Told(String),
}

impl From<Mismatch> for Failure {
    fn from(mismatch: Mismatch) -> Failure {
        Failure::Mismatch(mismatch)
    }
}

fn main() -> ExitCode {
    match Options::of_command_line(DEFAULT_CASES, &["--part"]).and_then(run) {
        Ok(line) => {
            println!("calls: {line}");
            ExitCode::SUCCESS
        }
        Err(error) => {
            eprintln!("calls: {error}");
            ExitCode::FAILURE
        }
    }
}

/// Runs a replayed case, one part or all of them; gives the last line.
fn run(options: Options) -> Result<String, String> {
    if let Some(words) = &options.replay {
        return replay(&words.join(" "));
    }
    let chosen = options.own_or("--part", "all");
    let parts: Vec<&Part> =
        PARTS.iter().filter(|(name, _)| chosen == "all" || chosen == *name).collect();
    if parts.is_empty() {
        let names: Vec<&str> = PARTS.iter().map(|(name, _)| *name).collect();
        return Err(format!("there is no part {chosen:?}: there are {}", names.join(", ")));
    }
    let mut compared = 0;
    for (name, part) in parts {
        compared += run_part(name, *part, &options)?;
    }
    Ok(format!("{compared} answers agree (seed {}, {} lists)", options.seed, options.cases))
}

/// Runs one part and tells its answers and time.
fn run_part(
    name: &str,
    part: fn(u64, u64) -> Result<u64, Failure>,
    options: &Options,
) -> Result<u64, String> {
    let start = Instant::now();
    let compared = part(options.seed, options.cases).map_err(|failure| match failure {
        Failure::Told(what) => format!("part {name}, seed {}\n{what}", options.seed),
        Failure::Mismatch(mismatch) => {
            let saved = save_case("calls", options.seed, &mismatch.case);
            format!("part {name}, seed {}\n{mismatch}\n  {saved}", options.seed)
        }
    })?;
    eprintln!("{name}: {compared} answers agree, {:.1} s", start.elapsed().as_secs_f64());
    Ok(compared)
}

/// Runs one case and shows every answer.
fn replay(text: &str) -> Result<String, String> {
    let text = match fs::read_to_string(text) {
        Ok(file) => file,
        Err(_) => text.to_string(),
    };
    if text.trim_start().starts_with("read") || text.trim_start().starts_with("write") {
        return tape::replay(text.trim());
    }
    let steps = steps::parse(&text)?;
    let mut case = Case::fresh();
    for step in steps {
        let line = step.to_string();
        let answer = case.step(step).map_err(|mismatch| mismatch.to_string())?;
        if !line.starts_with("set") {
            println!("{line}: number {}, then {:?}", answer.number, answer.others);
        }
    }
    Ok("the case agrees".to_string())
}
