//! The words of a command: options, by what the verb takes, and names.

use std::ffi::{OsStr, OsString};
use std::fmt::Display;
use std::ops::RangeInclusive;
use std::os::unix::ffi::OsStrExt;
use std::str::FromStr;

/// An option: its name, and what its value is, if it takes one.
#[derive(Clone, Copy, Debug, PartialEq, Eq)]
pub struct Opt {
    pub name: &'static str,
    pub value: Option<&'static str>,
}

impl Opt {
    /// The option as a shell completes it: its name, and behind `=` whether its value is a file.
    pub fn completed(&self) -> String {
        match self.value {
            None => self.name.to_string(),
            Some("a file" | "a path") => format!("{}=file", self.name),
            Some(_) => format!("{}=value", self.name),
        }
    }
}

/// An option without a value.
pub const fn flag(name: &'static str) -> Opt {
    Opt { name, value: None }
}

/// An option with a value.
pub const fn valued(name: &'static str, value: &'static str) -> Opt {
    Opt { name, value: Some(value) }
}

/// The words are hexadecimal numbers in text.
pub const HEX: Opt = flag("--hex");
/// The input is words, whatever its bytes are.
pub const WORDS: Opt = flag("--words");
/// The file that is written.
pub const OUT: Opt = valued("-o", "a file");
/// A file that exists is replaced.
pub const FORCE: Opt = flag("--force");
/// Told as JSON.
pub const JSON: Opt = flag("--json");
/// The file that gives names to issues and accounts and a date to day 0.
pub const NAMES: Opt = valued("--names", "a file");

/// What the words of a command give: options with their values, and names.
#[derive(Clone, Debug, Default, PartialEq, Eq)]
pub struct Given {
    options: Vec<(Opt, OsString)>,
    pub names: Vec<OsString>,
}

impl Given {
    /// Reads the words after a verb, which takes these options. `--name=value` is `--name value`, and
    /// after `--` every word is a name.
    pub fn read(
        verb: &str,
        takes: &[Opt],
        words: impl IntoIterator<Item = OsString>,
    ) -> Result<Given, String> {
        let mut given = Given::default();
        let mut words = words.into_iter();
        while let Some(word) = words.next() {
            if word == "--" {
                given.names.extend(words);
                break;
            }
            if !word.as_bytes().starts_with(b"-") || word == "-" {
                given.names.push(word);
                continue;
            }
            let (name, value) = split(&word);
            let option = takes.iter().find(|option| name == option.name).ok_or_else(|| {
                let name = name.to_string_lossy();
                format!("`tape {verb}` has no option {name}{}", listed(takes))
            })?;
            given.put(*option, value, &mut words)?;
        }
        Ok(given)
    }

    /// Puts an option, with the value after `=` or the next word.
    fn put(
        &mut self,
        option: Opt,
        value: Option<&OsStr>,
        words: &mut impl Iterator<Item = OsString>,
    ) -> Result<(), String> {
        let name = option.name;
        if self.has(&option) {
            return Err(format!("{name} stands twice: leave one out"));
        }
        let value = match (option.value, value) {
            (None, Some(_)) => return Err(format!("{name} takes no value: write {name} alone")),
            (None, None) => OsString::new(),
            (Some(_), Some(value)) => value.to_os_string(),
            (Some(what), None) => words.next().ok_or_else(|| format!("{name} needs {what}"))?,
        };
        self.options.push((option, value));
        Ok(())
    }

    /// Is the option given?
    pub fn has(&self, option: &Opt) -> bool {
        self.value(option).is_some()
    }

    /// The value of an option, if it is given.
    pub fn value(&self, option: &Opt) -> Option<&OsStr> {
        let found = self.options.iter().find(|(given, _)| given == option);
        found.map(|(_, value)| value.as_os_str())
    }

    /// The number of an option, if it is given; it must be in the range.
    pub fn number<T: FromStr + PartialOrd + Display>(
        &self,
        option: &Opt,
        range: RangeInclusive<T>,
    ) -> Result<Option<T>, String> {
        self.value(option).map(|value| number(option.name, value, range)).transpose()
    }

    /// At most one of two options is given.
    pub fn not_both(&self, one: &Opt, other: &Opt) -> Result<(), String> {
        if self.has(one) && self.has(other) {
            let (one, other) = (one.name, other.name);
            return Err(format!("{one} and {other} contradict each other: leave one out"));
        }
        Ok(())
    }
}

/// A number in a range, by the name of what it is.
pub fn number<T: FromStr + PartialOrd + Display>(
    name: &str,
    word: &OsStr,
    range: RangeInclusive<T>,
) -> Result<T, String> {
    let found = word.to_str().and_then(|word| word.parse().ok());
    found.filter(|found| range.contains(found)).ok_or_else(|| {
        let (least, most) = (range.start(), range.end());
        format!("{name} needs a number from {least} to {most}, not {:?}", word.to_string_lossy())
    })
}

/// The name of an option, and the value after `=` if there is one.
fn split(word: &OsStr) -> (&OsStr, Option<&OsStr>) {
    let bytes = word.as_bytes();
    let at = bytes.iter().position(|byte| *byte == b'=').filter(|_| bytes.starts_with(b"--"));
    match at {
        Some(at) => (OsStr::from_bytes(&bytes[..at]), Some(OsStr::from_bytes(&bytes[at + 1..]))),
        None => (word, None),
    }
}

/// The options that there are.
fn listed(takes: &[Opt]) -> String {
    let names: Vec<&str> = takes.iter().map(|option| option.name).collect();
    if names.is_empty() {
        String::new()
    } else {
        format!(": it takes {}", names.join(", "))
    }
}

#[cfg(test)]
mod tests {
    use super::*;

    const DAY: Opt = valued("--day", "a number");
    const TAKES: [Opt; 3] = [HEX, OUT, DAY];

    fn given(words: &[&str]) -> Result<Given, String> {
        Given::read("explain", &TAKES, words.iter().map(OsString::from))
    }

    #[test]
    fn options_names_and_what_stands_after_two_dashes() {
        let read = given(&["a", "--day=1", "--hex", "-o", "x", "-", "--", "--day", "-b"]).unwrap();
        assert_eq!(read.names, ["a", "-", "--day", "-b"]);
        assert_eq!(read.number(&DAY, 0..=9), Ok(Some(1)));
        assert!(read.has(&HEX) && read.value(&OUT) == Some(OsStr::new("x")));
        assert_eq!(given(&["--day", "1"]).unwrap().number(&DAY, 0..=9), Ok(Some(1)));
        assert_eq!(given(&[]).unwrap().number(&DAY, 0..=9), Ok(None));
        let bytes = OsStr::from_bytes(b"--day=\xff").to_os_string();
        let read = Given::read("explain", &TAKES, [bytes]).unwrap();
        assert_eq!(read.value(&DAY), Some(OsStr::from_bytes(b"\xff")));
    }

    #[test]
    fn wrong_words_are_told_with_what_to_do() {
        for (words, told) in [
            (&["--days"][..], "`tape explain` has no option --days: it takes --hex, -o, --day"),
            (&["-ox"], "`tape explain` has no option -ox"),
            (&["--day"], "--day needs a number"),
            (&["--hex=1"], "--hex takes no value: write --hex alone"),
            (&["--day=1", "--day", "2"], "--day stands twice: leave one out"),
        ] {
            let error = given(words).unwrap_err();
            assert!(error.starts_with(told), "{error}");
        }
        for word in ["10", "-1", "x", "", "--hex"] {
            let error = given(&["--day", word]).unwrap().number(&DAY, 0..=9).unwrap_err();
            assert_eq!(error, format!("--day needs a number from 0 to 9, not {word:?}"));
        }
        let both = given(&["--hex", "--day=1"]).unwrap().not_both(&HEX, &DAY).unwrap_err();
        assert_eq!(both, "--hex and --day contradict each other: leave one out");
    }
}
