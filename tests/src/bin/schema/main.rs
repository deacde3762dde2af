//! `schema`: every object that a command prints as JSON, beside docs/settlement-day.schema.json.
//!
//! Each object begins with the version and is as just one alternative of the schema says; every alternative,
//! every field, every name of an enum and every type of the schema is met. The lines that docs/JSON.md shows
//! are what its commands print. `--programs DIR` names the folder of the programs.

mod commands;
mod pairs;
mod place;

use place::Place;
use std::fs;
use std::process::ExitCode;
use tests::options::Options;
use tests::schema::{Parts, Schema};
use tests::shown::{shown, Shown};

/// Where the programs are otherwise.
const PROGRAMS: &str = "build/release";
/// The schema, and the page for those who read the objects.
const SCHEMA: &str = "docs/settlement-day.schema.json";
const DOCUMENT: &str = "docs/JSON.md";
/// The most faults that are told.
const MOST_TOLD: usize = 12;

fn main() -> ExitCode {
    match Options::of_command_line(1, &["--programs"]).and_then(|options| run(&options)) {
        Ok(told) => {
            println!("schema: {told}");
            ExitCode::SUCCESS
        }
        Err(error) => {
            eprintln!("schema: {error}");
            ExitCode::FAILURE
        }
    }
}

/// Looks at all objects and at the document; gives the last line.
fn run(options: &Options) -> Result<String, String> {
    let programs = options.own_or("--programs", PROGRAMS);
    let schema = Schema::read(&read(SCHEMA)?).map_err(|error| format!("{SCHEMA}: {error}"))?;
    let (mut met, mut objects, mut wrong) = (Parts::new(), 0, Vec::new());
    let commands = commands::run(&Place::make("commands", programs)?, &mut |command, printed| {
        for line in printed.lines() {
            objects += 1;
            match schema.check_line(line) {
                Ok(parts) => met.extend(parts),
                Err(what) => wrong.push(format!("{command}\n    {line}\n    {what}")),
            }
        }
    })?;
    let parts = schema.parts();
    let never = parts.difference(&met);
    wrong.extend(never.map(|part| format!("{SCHEMA}: nothing that is printed meets {part}")));
    let examples = shown(&read(DOCUMENT)?);
    wrong.extend(compare(&Place::make("document", programs)?, &examples)?);
    if !wrong.is_empty() {
        let first: Vec<String> = wrong.iter().take(MOST_TOLD).cloned().collect();
        return Err(format!("{} faults\n  {}", wrong.len(), first.join("\n  ")));
    }
    let lines: usize = examples.iter().map(|example| example.lines.len()).sum();
    let parts = met.len();
    Ok(format!(
        "{objects} objects of {commands} commands are as the schema says, and meet its {parts} parts; \
         {lines} examples are printed"
    ))
}

/// The text of a file of the repository.
fn read(file: &str) -> Result<String, String> {
    fs::read_to_string(file).map_err(|error| format!("{file}: {error}"))
}

/// Runs the commands that the document shows, one after the other: the lines below each are printed, in their
/// order.
fn compare(place: &Place, examples: &[Shown]) -> Result<Vec<String>, String> {
    let mut wrong = Vec::new();
    for Shown { command, lines } in examples {
        let printed = place.run(command)?;
        let mut printed = printed.lines();
        for line in lines {
            if !printed.any(|one| one == line) {
                wrong.push(format!(
                    "{DOCUMENT}: {command} does not print, in this order\n    {line}"
                ));
                break;
            }
        }
    }
    if examples.is_empty() {
        wrong.push(format!("{DOCUMENT} shows no command"));
    }
    Ok(wrong)
}
