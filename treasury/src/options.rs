//! The words of the command.

/// The options, and whether each takes a value.
pub const OPTIONS: [(&str, bool); 3] = [("--factor", true), ("--funds", true), ("--json", false)];

/// The words that a shell completes, for scripts/completion.sh: behind `=` stands what a value is.
pub fn completion() -> String {
    let word = |(name, valued)| if valued { format!("{name}=value ") } else { format!("{name} ") };
    let words: String = OPTIONS.into_iter().map(word).collect();
    format!("{words}--help --version\n")
}

/// What the command line asks for.
#[derive(Clone, Debug, Default, PartialEq, Eq)]
pub struct Options {
    pub json: bool,
    /// The factor in tenths.
    pub tenths: Option<u64>,
    pub funds: Option<u64>,
    /// The file; none, or `-`, is standard input.
    pub file: Option<String>,
}

impl Options {
    /// Reads the words after the command's name.
    pub fn parse(words: impl IntoIterator<Item = String>) -> Result<Options, String> {
        let mut words = words.into_iter();
        let mut options = Options::default();
        while let Some(word) = words.next() {
            match word.as_str() {
                "--json" => options.json = true,
                "--factor" => options.tenths = Some(tenths(words.next())?),
                "--funds" => options.funds = Some(funds(words.next())?),
                name if name.starts_with("--") => {
                    let known = "there are --factor F, --funds N and --json";
                    return Err(format!("unknown option {name:?}: {known}"));
                }
                _ if options.file.is_some() => {
                    return Err(format!("one file is read; {word:?} is a second one"));
                }
                _ => options.file = Some(word),
            }
        }
        Ok(options)
    }
}

/// The funds, in 100 million yen.
fn funds(word: Option<String>) -> Result<u64, String> {
    let word = word.ok_or("--funds needs a number, in 100 million yen")?;
    word.parse()
        .map_err(|_| format!("--funds needs a whole number in 100 million yen, not {word:?}"))
}

/// A factor with one place behind the point at most, in tenths.
fn tenths(word: Option<String>) -> Result<u64, String> {
    let word = word.ok_or("--factor needs a number, for example 5.1")?;
    let wrong =
        || format!("--factor needs a number with one decimal at most, as 5.1, not {word:?}");
    let (whole, tenth) = word.split_once('.').unwrap_or((&word, "0"));
    let digits = |text: &str| !text.is_empty() && text.bytes().all(|byte| byte.is_ascii_digit());
    if !digits(whole) || !digits(tenth) || tenth.len() != 1 {
        return Err(wrong());
    }
    let whole: u64 = whole.parse().map_err(|_| wrong())?;
    let tenth: u64 = tenth.parse().map_err(|_| wrong())?;
    whole.checked_mul(10).and_then(|tenths| tenths.checked_add(tenth)).ok_or_else(wrong)
}

#[cfg(test)]
mod tests {
    use super::{completion, Options, OPTIONS};

    fn parse(line: &str) -> Result<Options, String> {
        Options::parse(line.split_whitespace().map(String::from))
    }

    #[test]
    fn words_are_read() {
        let all = parse("--factor 5.1 --funds 499 --json x.csv").unwrap();
        assert_eq!((all.tenths, all.funds, all.json), (Some(51), Some(499), true));
        assert_eq!(all.file.as_deref(), Some("x.csv"));
        assert_eq!(parse("--factor 12").unwrap().tenths, Some(120));
        assert_eq!(parse("-").unwrap().file.as_deref(), Some("-"));
    }

    #[test]
    fn every_option_is_taken_told_completed_and_in_the_manual() {
        let known = parse("--unknown").unwrap_err();
        let manual = include_str!("../../docs/man/treasury.1").replace("\\-", "-");
        for (name, valued) in OPTIONS {
            assert!(parse(&format!("{name} 1")).is_ok() && known.contains(name), "{name}");
            assert_eq!(parse(name).is_err(), valued, "{name}");
            assert!(completion().split([' ', '=']).any(|word| word == name), "{name}");
            assert!(manual.contains(name), "{name}");
        }
        assert_eq!(completion(), "--factor=value --funds=value --json --help --version\n");
    }

    #[test]
    fn wrong_words_are_told() {
        for line in [
            "--factor",
            "--factor 5.12",
            "--factor .5",
            "--factor 5.",
            "--factor -1",
            "--factor 99999999999999999999",
            "--funds",
            "--funds 1.5",
            "--fund 5",
            "a b",
        ] {
            assert!(parse(line).is_err(), "{line}");
        }
    }
}
