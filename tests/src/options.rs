//! The options of the test programs: `--seed S`, `--cases N`, those of a program's own, and
//! `--replay` with one case.

use std::collections::BTreeMap;
use std::str::FromStr;

/// The options of a test program.
#[derive(Clone, Debug, PartialEq, Eq)]
pub struct Options {
    pub seed: u64,
    pub cases: u64,
    /// The program's own options that were given, by name.
    pub own: BTreeMap<String, String>,
    /// The words after `--replay`, which is the last option.
    pub replay: Option<Vec<String>>,
}

impl Options {
    /// The options of the command line, seed 1 and the program's number of cases where not given.
    ///
    /// `own` are the names of the program's own options; each takes one word.
    pub fn of_command_line(cases: u64, own: &[&str]) -> Result<Options, String> {
        Options::parse(std::env::args().skip(1), cases, own)
    }

    /// Reads the options from a list of words.
    pub fn parse(
        words: impl IntoIterator<Item = String>,
        cases: u64,
        own: &[&str],
    ) -> Result<Options, String> {
        let mut words = words.into_iter();
        let mut options = Options { seed: 1, cases, own: BTreeMap::new(), replay: None };
        while let Some(word) = words.next() {
            match word.as_str() {
                "--seed" => options.seed = number("--seed", words.next())?,
                "--cases" => options.cases = number("--cases", words.next())?,
                "--replay" => options.replay = Some(split(words.by_ref())),
                name if own.contains(&name) => {
                    let value = words.next().ok_or_else(|| format!("{name} needs a word"))?;
                    options.own.insert(word, value);
                }
                _ => return Err(unknown(&word, own)),
            }
        }
        Ok(options)
    }

    /// The word of one of the program's own options, or this one.
    pub fn own_or<'a>(&'a self, name: &str, otherwise: &'a str) -> &'a str {
        self.own.get(name).map_or(otherwise, String::as_str)
    }
}

/// The words of a case, which may come as one word in quotes.
fn split(words: impl Iterator<Item = String>) -> Vec<String> {
    words.flat_map(|word| word.split_whitespace().map(String::from).collect::<Vec<_>>()).collect()
}

/// Names the options that there are.
fn unknown(word: &str, own: &[&str]) -> String {
    let own: String = own.iter().map(|name| format!("{name} WORD, ")).collect();
    format!("unknown option {word:?}: there are --seed S, --cases N, {own}and --replay CASE")
}

/// Reads the number that belongs to a name.
pub fn number<T: FromStr>(name: &str, word: Option<String>) -> Result<T, String> {
    let word = word.ok_or_else(|| format!("{name} needs a number"))?;
    word.parse().map_err(|_| format!("{name} needs a number in range, not {word:?}"))
}

#[cfg(test)]
mod tests {
    use super::Options;
    use std::collections::BTreeMap;

    fn parse(line: &str) -> Result<Options, String> {
        Options::parse(line.split_whitespace().map(String::from), 10, &["--part"])
    }

    fn options(seed: u64, cases: u64) -> Options {
        Options { seed, cases, own: BTreeMap::new(), replay: None }
    }

    #[test]
    fn options_are_read() {
        assert_eq!(parse(""), Ok(options(1, 10)));
        assert_eq!(parse("--cases 5 --seed 9"), Ok(options(9, 5)));
        let replay = Some(vec!["value".to_string(), "1".to_string(), "2".to_string()]);
        assert_eq!(parse("--seed 9 --replay value 1 2"), Ok(Options { replay, ..options(9, 10) }));
        let quoted = ["--replay".to_string(), "value 1 2".to_string()];
        assert_eq!(Options::parse(quoted, 1, &[]).unwrap().replay.unwrap().len(), 3);
        assert_eq!(parse("--part lists").unwrap().own_or("--part", "all"), "lists");
        assert_eq!(parse("").unwrap().own_or("--part", "all"), "all");
    }

    #[test]
    fn wrong_options_are_named() {
        for line in ["--seed", "--seed x", "--cases -1", "--case 3", "7", "--part"] {
            assert!(parse(line).is_err(), "{line}");
        }
    }
}
