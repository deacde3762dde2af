//! The words of the command.

use std::ffi::{OsStr, OsString};
use std::path::PathBuf;

pub const USAGE: &str = "\
daybook new DIR                    makes a folder with a fresh book
daybook [--json] [--batch] DIR     opens it: a line in, an answer out; `help` lists the lines
daybook check DIR                  looks whether every file is whole and belongs to the others
daybook compact DIR                a new snapshot and an empty journal; the old ones stay beside
daybook cut [--yes] DIR            leaves out a damaged end of the journal, which is kept beside
daybook tape DIR                   the tape of all calls, with a comment where a lift stood
daybook explain [--json] DIR       what the calls did, day by day
daybook --help, daybook --version
A folder whose name is a verb's is written ./new. Input and output that are no terminal: one answer a
line, with --json one object a line. --batch syncs once for the lines that came together, and answers
them then.
Status: 0 done; 1 a line was wrong or refused, or what `check` looked at is wrong; 2 the words of the
command are wrong, or the folder cannot be opened; 3 the disk failed: not all was done.
docs/DESK.md is for a person at the desk.";

/// What is to be done.
#[derive(Clone, Debug, PartialEq, Eq)]
pub enum Verb {
    Help,
    Version,
    Completion,
    New(PathBuf),
    Open { folder: PathBuf, json: bool, batch: bool },
    Check(PathBuf),
    Compact(PathBuf),
    Cut { folder: PathBuf, yes: bool },
    Tape(PathBuf),
    Explain { folder: PathBuf, json: bool },
}

/// The verbs, with the options that each takes; the first is to open.
const VERBS: [(&str, &[&str]); 7] = [
    ("", &["--json", "--batch"]),
    ("new", &[]),
    ("check", &[]),
    ("compact", &[]),
    ("cut", &["--yes"]),
    ("tape", &[]),
    ("explain", &["--json"]),
];

/// The words that a shell completes, for scripts/completion.sh: a line for each verb with its options, and
/// one of the options without a verb.
pub fn completion() -> String {
    let (_, alone) = VERBS[0];
    let line = |&(verb, takes): &(&str, &[&str])| [&[verb][..], takes].concat().join(" ") + "\n";
    let verbs: String = VERBS[1..].iter().map(line).collect();
    format!("{verbs}{} --help --version\n", alone.join(" "))
}

/// Reads the words of the command.
pub fn read(words: Vec<OsString>) -> Result<Verb, String> {
    if words == ["--completion"] {
        return Ok(Verb::Completion);
    }
    let before = words.iter().take_while(|word| *word != "--");
    for word in before.filter_map(|word| word.to_str()) {
        match word {
            "--help" | "-h" => return Ok(Verb::Help),
            "--version" | "-V" => return Ok(Verb::Version),
            _ => {}
        }
    }
    let (options, mut names) = parted(words);
    let found = names.first().and_then(|first| verb_of(first));
    let (verb, takes) = found.unwrap_or(VERBS[0]);
    if found.is_some() {
        names.remove(0);
    }
    let shown = if verb.is_empty() { "daybook DIR".to_string() } else { format!("daybook {verb}") };
    if let Some(wrong) = options.iter().find(|option| !takes.contains(&option.as_str())) {
        return Err(format!("`{shown}` has no option {wrong}; use\n{USAGE}"));
    }
    match names.as_slice() {
        [folder] => Ok(verb_on(verb, folder.into(), &options)),
        [] if verb.is_empty() => Err(format!("say what to do:\n{USAGE}")),
        [] => Err(format!("{shown} needs a folder; use\n{USAGE}")),
        _ => Err(format!("name one folder; use\n{USAGE}")),
    }
}

/// The options and the names of a command; behind `--` every word is a name.
fn parted(words: Vec<OsString>) -> (Vec<String>, Vec<OsString>) {
    let (mut options, mut names) = (Vec::new(), Vec::new());
    let mut words = words.into_iter();
    while let Some(word) = words.next() {
        match word.to_str() {
            Some("--") => names.extend(words.by_ref()),
            Some(option) if option.starts_with('-') => options.push(option.to_string()),
            _ => names.push(word),
        }
    }
    (options, names)
}

/// What a verb does to a folder, with options that it takes.
fn verb_on(verb: &str, folder: PathBuf, options: &[String]) -> Verb {
    let has = |option: &str| options.iter().any(|given| given == option);
    match verb {
        "new" => Verb::New(folder),
        "check" => Verb::Check(folder),
        "compact" => Verb::Compact(folder),
        "cut" => Verb::Cut { folder, yes: has("--yes") },
        "tape" => Verb::Tape(folder),
        "explain" => Verb::Explain { folder, json: has("--json") },
        _ => Verb::Open { folder, json: has("--json"), batch: has("--batch") },
    }
}

/// The verb of a word, if it is one.
fn verb_of(word: &OsStr) -> Option<(&'static str, &'static [&'static str])> {
    VERBS[1..].iter().copied().find(|(name, _)| word == *name)
}

#[cfg(test)]
mod tests {
    use super::*;

    fn of(line: &str) -> Result<Verb, String> {
        read(line.split_whitespace().map(OsString::from).collect())
    }

    #[test]
    fn words_are_read() {
        let folder = PathBuf::from("desk");
        assert_eq!(of("new desk"), Ok(Verb::New(folder.clone())));
        let open = |json, batch| Ok(Verb::Open { folder: folder.clone(), json, batch });
        assert_eq!([of("desk"), of("--json desk")], [open(false, false), open(true, false)]);
        assert_eq!(of("desk --batch --json"), open(true, true));
        let new = PathBuf::from("./new");
        assert_eq!(of("./new"), Ok(Verb::Open { folder: new, json: false, batch: false }));
        assert_eq!(of("cut --yes desk"), Ok(Verb::Cut { folder: folder.clone(), yes: true }));
        assert_eq!(of("explain desk --json"), Ok(Verb::Explain { folder, json: true }));
        assert_eq!([of("--help"), of("-V")], [Ok(Verb::Help), Ok(Verb::Version)]);
        assert_eq!(of("--completion"), Ok(Verb::Completion));
    }

    #[test]
    fn every_verb_and_option_is_told_completed_and_in_the_manual() {
        let manual = include_str!("../../docs/man/daybook.1").replace("\\-", "-");
        for (verb, takes) in VERBS {
            let line = USAGE.lines().find(|line| match verb {
                "" => line.starts_with("daybook ["),
                verb => line.starts_with(&format!("daybook {verb} ")),
            });
            let line = line.unwrap_or_else(|| panic!("no line of {verb:?}"));
            assert!(manual.contains(verb), "{verb}");
            for option in takes {
                assert!(line.contains(option) && manual.contains(option), "{verb} {option}");
            }
        }
        let verbs = "new\ncheck\ncompact\ncut --yes\ntape\nexplain --json\n";
        assert_eq!(completion(), format!("{verbs}--json --batch --help --version\n"));
        assert!(manual.contains("\n.B --completion\n"));
    }

    #[test]
    fn wrong_words_are_told() {
        for (line, told) in [
            ("", "say what to do:"),
            ("new", "daybook new needs a folder"),
            ("a b", "name one folder"),
            ("tape --json a", "`daybook tape` has no option --json"),
            ("--yes a", "`daybook DIR` has no option --yes"),
            ("--completion a", "`daybook DIR` has no option --completion"),
        ] {
            let error = of(line).unwrap_err();
            assert!(error.starts_with(told), "{line}: {error}");
        }
        assert!(USAGE.lines().all(|line| line.len() <= 102));
    }
}
