//! The verbs of the tool, each in a file of its own: its line of help, its options, and what it does.
//! To add one: write its file, with a `VERB`, and name it in `VERBS`.

mod check;
mod diff;
mod explain;
mod export;
mod import;
mod jam;
mod look;
mod markets;
mod naming;
mod read;
mod run;
mod statement;
mod why;
mod write;

use crate::input::{Day, Taken};
use crate::names::Names;
use crate::options::{Given, Opt, FORCE, HEX, OUT, WORDS};
use crate::output::{Output, Untold, Writer};
use crate::progress;
use crate::source::{name_of, Source, BLOCK};
use naming::names_of;
use std::ffi::{OsStr, OsString};
use std::io::{self, BufWriter, Write};

/// A verb: its name, its lines of help, the options that it takes beside those of the output, and what
/// it does.
struct Verb {
    name: &'static str,
    usage: &'static str,
    options: &'static [Opt],
    act: fn(&Given) -> Result<Ended, String>,
}

/// The verbs, in the order in which help tells them.
const VERBS: &[&Verb] = &[
    &write::VERB,
    &read::VERB,
    &check::VERB,
    &run::VERB,
    &explain::VERB,
    &why::VERB,
    &diff::VERB,
    &jam::VERB,
    &look::VERB,
    &markets::VERB,
    &statement::VERB,
    &import::VERB,
    &export::VERB,
];

/// What help says of all verbs.
const OF_ALL: &str = "\
tape --help, tape --version
Every verb takes -o FILE: what it tells goes to this file, otherwise to standard output. A file that
exists is left as it is, unless --force says that it is replaced; it is put in its place when it is
whole. A file that is not named, or named `-`, is standard input or output. After `--` every word is
a name; --day=1 is --day 1.
DAY is a tape in text form or as words, which are told apart: a tape's first byte is 00 or 01, and a
text is UTF-8 without control characters. Several days are run one after the other as one tape.
With --hex the words are hexadecimal numbers in text; with --words the input is words, damaged ones
too. With --names FILE names stand for issues and accounts, in and out, and days have dates: FILE is
a text with lines `issue NUMBER NAME`, `account NUMBER NAME` and `date YYYY-MM-DD`, of day 0; --day
takes a date then. docs/TAPE.md explains the text form and names.
Status: 0 done; 1 the book refuses something (check, why, look, markets), the tapes differ (diff),
or the tape was not read to its end (run, export) or its lines are not whole (run); 2 the words of
the command, a file or a text are wrong.";

/// What is said where standard input would be read twice.
const STANDARD_ONCE: &str = "standard input is one file: name `-` once";

/// How a command ended: what it was asked was found wrong, or not.
#[derive(Clone, Copy, Debug, PartialEq, Eq)]
pub enum Ended {
    Well,
    Badly,
}

/// Does what the words of a command say.
pub fn obey(words: Vec<OsString>) -> Result<Ended, String> {
    if let Some(text) = told(&words) {
        return put(&Given::default(), text.as_bytes());
    }
    let mut words = words.into_iter();
    let Some(name) = words.next() else {
        return Err(format!("say what to do:\n{}", help()));
    };
    let Some(verb) = VERBS.iter().find(|verb| name == verb.name) else {
        let name = name.to_string_lossy();
        return Err(format!("there is no `tape {name}`; use\n{}", help()));
    };
    let given = Given::read(verb.name, &[verb.options, &[OUT, FORCE]].concat(), words);
    (verb.act)(&given.map_err(|error| format!("{error}\n{}", verb.usage))?)
}

/// What is told where the words ask for help or the version.
fn told(words: &[OsString]) -> Option<String> {
    let options = words.iter().take_while(|word| *word != "--");
    let has = |wanted: &[&str]| options.clone().any(|word| wanted.iter().any(|one| word == one));
    if has(&["--help", "-h"]) || words == ["help"] {
        return Some(help() + "\n");
    }
    if words == ["--completion"] {
        return Some(completion());
    }
    has(&["--version", "-V"]).then(|| format!("tape {}\n", env!("CARGO_PKG_VERSION")))
}

/// The words that a shell completes, for scripts/completion.sh: a line for each verb with its options, and
/// one of the options without a verb. Behind `=` stands what the value of an option is.
fn completion() -> String {
    let line = |verb: &&Verb| {
        let options = [verb.options, &[OUT, FORCE]].concat();
        let words: Vec<String> = options.iter().map(Opt::completed).collect();
        format!("{} {}\n", verb.name, words.join(" "))
    };
    let lines: String = VERBS.iter().map(line).collect();
    lines + "--help --version\n"
}

/// All help.
fn help() -> String {
    let usages: Vec<&str> = VERBS.iter().map(|verb| verb.usage).collect();
    format!("{}\n{OF_ALL}", usages.join("\n"))
}

/// Says something on standard error, each of its lines by itself.
pub fn say(text: &str) {
    progress::spoken();
    // Where standard error fails, nothing is left to say it to.
    let _ = writeln!(io::stderr(), "tape: {}", text.replace('\n', "\ntape: "));
}

/// The one file that a command names, or standard input.
fn one_file(given: &Given) -> Result<&OsStr, String> {
    match given.names.as_slice() {
        [] => Ok(OsStr::new("-")),
        [one] => Ok(one),
        _ => Err("name one file: what is told goes to another by -o FILE".to_string()),
    }
}

/// All bytes of a small file or of standard input.
fn get(file: &OsStr) -> Result<Vec<u8>, String> {
    Source::open(file)?.all()
}

/// How a command takes its input.
fn taken(given: &Given) -> Result<Taken, String> {
    given.not_both(&HEX, &WORDS)?;
    Ok(match (given.has(&HEX), given.has(&WORDS)) {
        (true, _) => Taken::Hex,
        (_, true) => Taken::Words,
        _ => Taken::Apart,
    })
}

/// Standard input is at most one of the files.
fn standard_once<'a>(files: impl Iterator<Item = &'a OsStr>) -> Result<(), String> {
    if files.filter(|file| *file == "-").count() > 1 {
        return Err(STANDARD_ONCE.to_string());
    }
    Ok(())
}

/// The day that these files are, one after the other, by the names that the command gives.
fn day_of(given: &Given, files: &[OsString]) -> Result<Day, String> {
    day_by(given, files, names_of(given)?)
}

/// The day that these files are, one after the other, by these names; all that is wrong with them is
/// told.
fn day_by(given: &Given, files: &[OsString], names: Names) -> Result<Day, String> {
    let taken = taken(given)?;
    let standard = [OsString::from("-")];
    let files = if files.is_empty() { &standard } else { files };
    standard_once(files.iter().map(OsString::as_os_str))?;
    let (mut day, mut errors) = (Day::by(names), Vec::new());
    for file in files {
        let added = Source::open(file).and_then(|source| day.put(source, taken));
        errors.extend(added.err());
    }
    if !errors.is_empty() {
        return Err(errors.join("\n"));
    }
    day.notes.iter().for_each(|note| say(note));
    Ok(day)
}

/// Writes all bytes to the output that a command asks for.
fn put(given: &Given, bytes: &[u8]) -> Result<Ended, String> {
    put_by(given, |out| Ok(out.write_all(bytes)?))
}

/// Writes what `tell` tells to the output that a command asks for.
fn put_by(
    given: &Given,
    tell: impl FnOnce(&mut BufWriter<&mut Writer>) -> Result<(), Untold>,
) -> Result<Ended, String> {
    let mut writer = Output::of(given)?.open()?;
    let mut out = BufWriter::with_capacity(BLOCK, &mut writer);
    let told = tell(&mut out).and_then(|()| Ok(out.flush()?));
    // What is not written yet is not wanted where an error ends it.
    drop(out.into_parts());
    told.map_err(|untold| writer.untold(untold))?;
    writer.keep()?;
    Ok(Ended::Well)
}

#[cfg(test)]
mod tests {
    use super::*;

    #[test]
    fn help_names_every_verb_and_its_options() {
        for verb in VERBS {
            assert!(verb.usage.starts_with(&format!("tape {} ", verb.name)), "{}", verb.usage);
            for option in verb.options {
                assert!(verb.usage.contains(option.name), "{}: {}", verb.name, option.name);
            }
            assert!(verb.usage.lines().all(|line| line.len() <= 100), "{}", verb.usage);
        }
        assert!(OF_ALL.contains(OUT.name) && OF_ALL.contains(FORCE.name));
        assert!(help().lines().all(|line| line.len() <= 100));
    }

    #[test]
    fn a_shell_completes_every_verb_and_its_options() {
        let completion = completion();
        for verb in VERBS {
            let line = completion.lines().find(|line| line.split(' ').next() == Some(verb.name));
            let words: Vec<&str> =
                line.into_iter().flat_map(|line| line.split([' ', '='])).collect();
            for option in verb.options.iter().chain([&OUT, &FORCE]) {
                assert!(words.contains(&option.name), "{}: {}", verb.name, option.name);
            }
        }
        assert!(completion.starts_with("write --hex --names=file -o=file --force\n"));
    }

    #[test]
    fn the_manual_names_every_verb_and_its_options() {
        let manual = include_str!("../../../docs/man/tape.1").replace("\\-", "-");
        for verb in VERBS {
            assert!(manual.contains(&format!("\n.B tape {}\n", verb.name)), "{}", verb.name);
            for option in verb.options.iter().chain([&OUT, &FORCE]) {
                assert!(manual.contains(option.name), "{}: {}", verb.name, option.name);
            }
        }
    }
}
