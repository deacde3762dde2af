//! `treasury`: prints the table of a default.

use std::io::{self, Read, Write};
use std::process::ExitCode;
use std::{env, fs};
use treasury::file::participants;
use treasury::options::{completion, Options};
use treasury::table::Provision;

const USAGE: &str = "\
treasury --factor F [--funds N] [--json] [FILE]   bases of averages and factor, and shares of the funds
treasury [--funds N] [--json] [FILE]              the same where the file gives the bases
treasury --help, treasury --version
FILE has a line for each participant: NAME,AVERAGE or NAME,AVERAGE,BASE, by commas, semicolons or blanks;
what stands behind # is left out, and so is a first line that names the columns. A file that is not
named, or named `-`, is standard input. Amounts are in 100 million yen; the factor has one decimal at
most. Without --funds the table has no shares. --json prints one object.
Status: 0 done; 1 refused, with the number of the refusal; 2 the words of the command or the file are
wrong; 3 the table could not be written.";

/// How the command ended.
enum Ended {
    Told(String),
    Refused(String, Option<String>),
}

fn main() -> ExitCode {
    let words: Vec<String> = env::args().skip(1).collect();
    let ended = match words.iter().map(String::as_str).find(|word| word.starts_with('-')) {
        Some("--help" | "-h") => Ok(Ended::Told(format!("{USAGE}\n"))),
        Some("--version" | "-V") => {
            Ok(Ended::Told(format!("treasury {}\n", env!("CARGO_PKG_VERSION"))))
        }
        Some("--completion") => Ok(Ended::Told(completion())),
        _ => obey(words),
    };
    match ended {
        Ok(Ended::Told(text)) => written(&text, ExitCode::SUCCESS),
        Ok(Ended::Refused(line, json)) => {
            eprintln!("treasury: {line}");
            written(&json.unwrap_or_default(), ExitCode::from(1))
        }
        Err(error) => {
            eprintln!("treasury: {error}");
            ExitCode::from(2)
        }
    }
}

/// Writes the text; the status, or 3 where it could not be written.
fn written(text: &str, status: ExitCode) -> ExitCode {
    let mut output = io::stdout().lock();
    match output.write_all(text.as_bytes()).and_then(|()| output.flush()) {
        Ok(()) => status,
        Err(error) => {
            eprintln!("treasury: the table could not be written: {error}");
            ExitCode::from(3)
        }
    }
}

/// Reads the file and makes the table.
fn obey(words: Vec<String>) -> Result<Ended, String> {
    let options = Options::parse(words)?;
    let file = options.file.as_deref().unwrap_or("-");
    let name = if file == "-" { "standard input" } else { file };
    let text = read(file).map_err(|error| format!("{name} could not be read: {error}"))?;
    let participants = participants(&text).map_err(|fault| fault.in_file(name))?;
    let given = participants.first().is_some_and(|one| one.base.is_some());
    if given && options.tenths.is_some() {
        return Err(format!("{name} gives the bases; leave out --factor, or the bases"));
    }
    if !given && options.tenths.is_none() {
        return Err(format!(
            "{name} gives no bases; say the factor with --factor, for example 5.1"
        ));
    }
    let provision = Provision { participants, tenths: options.tenths, funds: options.funds };
    Ok(match provision.table() {
        Ok(table) if options.json => Ended::Told(table.json()),
        Ok(table) => Ended::Told(table.text()),
        Err(refused) => Ended::Refused(refused.text(name), options.json.then(|| refused.json())),
    })
}

/// The text of a file, or of standard input.
fn read(file: &str) -> io::Result<String> {
    if file != "-" {
        return fs::read_to_string(file);
    }
    let mut text = String::new();
    io::stdin().read_to_string(&mut text)?;
    Ok(text)
}
