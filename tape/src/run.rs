//! The program `dayrun` run on a tape, and whether it read all of it and all its lines came. The program
//! has no status but 0 for a run that could not be finished, so the lines are counted: the calls are made
//! here too, and tell how many there must be.

use crate::batch::Batch;
use crate::input::Day;
use crate::measure::counted;
use crate::progress::Meter;
use crate::source::BLOCK;
use crate::text::older_roll;
use settlement_day::Book;
use std::env;
use std::io::{self, BufRead, BufReader, BufWriter, Write};
use std::path::{Path, PathBuf};
use std::process::{Child, Command, Stdio};
use std::thread;

/// Where the program stands, seen from the repository.
const PROGRAM: &str = "target/bin/dayrun";

/// How a run ended.
#[derive(Clone, Debug, PartialEq, Eq)]
pub enum Ran {
    /// The whole tape was read and all lines came.
    Whole,
    /// All lines came, but reading ended before the tape did, for this reason.
    Ended(String),
    /// Lines are missing, for this reason.
    Cut(String),
}

/// Lines of the program: of instructions, of fails (`F`) and of charges (`C`).
#[derive(Clone, Copy, Debug, Default, PartialEq, Eq)]
struct Lines {
    instructions: usize,
    fails: usize,
    charges: usize,
}

impl Lines {
    /// Counts a line.
    fn count(&mut self, line: &[u8]) {
        match line {
            [b'F', b' ', ..] => self.fails += 1,
            [b'C', b' ', ..] => self.charges += 1,
            _ => self.instructions += 1,
        }
    }
}

/// What the program printed: its lines, whether the last has its end, and the line with which reading
/// ended early, if there is one.
#[derive(Clone, Debug, Default, PartialEq, Eq)]
struct Printed {
    lines: Lines,
    torn: bool,
    ended: Option<String>,
}

impl Printed {
    /// Is this what a tape gives?
    fn is_whole(&self, wanted: Lines) -> bool {
        !self.torn && self.lines == wanted
    }

    /// What came of what there must be.
    fn told(&self, wanted: Lines) -> String {
        let Lines { instructions, fails, charges } = self.lines;
        let torn = if self.torn { ", the last of them cut" } else { "" };
        let what = match wanted == self.lines {
            true if !self.torn => return "all its lines came".to_string(),
            _ if self.lines.fails + self.lines.charges == 0 => "the ledger is missing",
            _ => "the ledger is cut",
        };
        format!(
            "{what}: of {} {instructions} came, of {} {fails}, of {} {charges}{torn}",
            counted(wanted.instructions, "instruction line"),
            counted(wanted.fails, "F line"),
            counted(wanted.charges, "C line"),
        )
    }
}

/// Runs the program on a tape and copies its lines to an output. An error is that it cannot be run.
pub fn run(program: &Path, day: &Day, output: &mut dyn Write) -> Result<Ran, String> {
    let name = program.display();
    let mut child = Command::new(program)
        .stdin(Stdio::piped())
        .stdout(Stdio::piped())
        .stderr(Stdio::piped())
        .spawn()
        .map_err(|error| format!("{name} cannot be run: {error}"))?;
    let Talk { printed, said, given } = talk(&mut child, day, output);
    let status = child.wait().map_err(|error| format!("{name}: {error}"))?;
    let Given { wanted, older } = given?;
    let printed = match printed {
        Ok(printed) => printed,
        Err(error) => {
            return Ok(Ran::Cut(format!(
                "the lines could not be written: {error}; what is written of them is cut and no \
                 whole ledger"
            )))
        }
    };
    let told = printed.told(wanted);
    Ok(if !said.is_empty() {
        Ran::Cut(format!("{said}\n{told}"))
    } else if !status.success() {
        Ran::Cut(format!("{name} ended with {status}; {told}"))
    } else if !printed.is_whole(wanted) {
        Ran::Cut(format!("the lines of {name} are not whole: {told}"))
    } else if let Some(line) = printed.ended {
        let what = advice(older, &line);
        Ran::Ended(format!("reading ended before the tape did: {line}{what}"))
    } else {
        Ran::Whole
    })
}

/// A tape that was given to the program.
#[derive(Clone, Copy, Debug, Default, PartialEq, Eq)]
struct Given {
    /// The lines that it gives: one for each instruction and where reading ends, then the ledger and the charges
    /// of the book.
    wanted: Lines,
    /// Where reading ends at a roll of the older form, its word and what is to be said of it.
    older: Option<(usize, &'static str)>,
}

/// Gives a tape to a program, and makes its calls. A program that has ended reading takes no more: that is told
/// by what it printed.
fn give(day: &Day, input: Option<impl Write>) -> Result<Given, String> {
    let mut input = input.map(|input| BufWriter::with_capacity(BLOCK, input));
    let mut put = |words: &[u32]| {
        let mut bytes = words.iter().map(|word| word.to_le_bytes());
        if let Some(Err(_)) =
            input.as_mut().map(|to| bytes.try_for_each(|word| to.write_all(&word)))
        {
            input = None;
        }
    };
    let (mut book, mut batch) = (Book::fresh(), Batch::default());
    let mut given = Given::default();
    let (mut reading, mut meter) = (day.reading(), Meter::of_words(day.words()));
    while reading.more()? {
        let words = reading.words();
        let Ok(used) = batch.make(&mut book, words, |_, _| false) else {
            given.wanted.instructions += 1;
            given.older = older_roll(words).map(|what| (reading.word(), what));
            break;
        };
        // What is refused changes nothing, and the run goes on.
        given.wanted.instructions += batch.len();
        meter.after(batch.len(), reading.word());
        put(&words[..used]);
        reading.pass(used);
    }
    while reading.more()? && !reading.words().is_empty() {
        put(reading.words());
        reading.pass(reading.words().len());
    }
    // What is left of a word, if the program reads so far.
    let _ = input.map(|mut to| to.write_all(reading.stray()).and_then(|()| to.flush()));
    given.wanted.fails = book.ledger().count();
    given.wanted.charges = book.charges.iter().filter(|yen| **yen != 0).count();
    Ok(given)
}

/// What is to be said of the words at which reading ended, by the line that says so.
fn advice(older: Option<(usize, &'static str)>, line: &str) -> String {
    let at = line.split(' ').next().and_then(|index| index.parse().ok());
    let older = older.filter(|(word, _)| Some(*word) == at);
    older.map(|(_, what)| format!("; {what}")).unwrap_or_default()
}

/// What came of a run: the lines or why they could not be written, what the program said on standard
/// error, and the tape that was given to it, or why that could not be read.
struct Talk {
    printed: io::Result<Printed>,
    said: String,
    given: Result<Given, String>,
}

/// Gives the tape to the program and copies what it prints.
fn talk(child: &mut Child, day: &Day, output: &mut dyn Write) -> Talk {
    let input = child.stdin.take();
    let (printed, said) = (child.stdout.take(), child.stderr.take());
    thread::scope(|scope| {
        let said = scope.spawn(move || said.map(io::read_to_string));
        let given = scope.spawn(move || give(day, input));
        let printed = printed.map_or(Ok(Printed::default()), |printed| copy(printed, output));
        let said = said.join().ok().flatten().and_then(Result::ok).unwrap_or_default();
        let said = said.trim_end().to_string();
        Talk { printed, said, given: given.join().unwrap_or_else(|_| Ok(Given::default())) }
    })
}

/// Copies lines and counts them; keeps the first in which reading ended: index, `tape`, number, 0.
fn copy(from: impl io::Read, output: &mut dyn Write) -> io::Result<Printed> {
    let mut printed = Printed::default();
    let (mut from, mut output) = (BufReader::new(from), BufWriter::new(output));
    let mut line = Vec::new();
    while from.read_until(b'\n', &mut line)? > 0 {
        output.write_all(&line)?;
        printed.lines.count(&line);
        printed.torn = line.last() != Some(&b'\n');
        let mut words = line.split(|byte| *byte == b' ');
        if words.nth(1) == Some(b"tape") {
            let ended = String::from_utf8_lossy(&line).trim_end().to_string();
            printed.ended.get_or_insert(ended);
        }
        line.clear();
    }
    output.flush()?;
    Ok(printed)
}

/// The program that is named; otherwise that beside this tool, as they are installed; otherwise that of the
/// repository, seen from here or from this tool.
pub fn found(named: Option<&Path>) -> Result<PathBuf, String> {
    if let Some(named) = named {
        return Ok(named.to_path_buf());
    }
    let tool = env::current_exe().unwrap_or_default();
    let places = [
        Some(tool.with_file_name("dayrun")),
        Some(PathBuf::from(PROGRAM)),
        tool.ancestors().nth(3).map(|folder| folder.join(PROGRAM)),
    ];
    places.into_iter().flatten().find(|place| place.is_file()).ok_or_else(|| {
        format!("there is no {PROGRAM}: make it by `make programs`, or name it by --program PATH")
    })
}

#[cfg(test)]
mod tests {
    use super::*;
    use crate::input::Taken;

    /// A day of two fails and four charges, and its lines.
    const DAY: &str = "trade 0 1 2 3\ntrade 1 3 4 5\nclose\ncutoff\nroll 1 300 100000 accrued 0\n";
    const LINES: &str = "0 trade 0 0\n2 trade 0 0\n4 close 0 0\n5 cutoff 0 2\n6 roll 0 0\n\
        F 0 1 2 3 0\nF 1 3 4 5 0\nC 1 -12\nC 2 12\nC 3 -20\nC 4 20\n";

    /// Runs a line of the shell as the program, by a file that another process makes of it; `$lines`
    /// are the lines of the day.
    fn ran(name: &str, day: &str, script: &str) -> (Ran, String) {
        let file = env::temp_dir().join(format!("tape-run-{}-{name}", std::process::id()));
        let make =
            "printf '#!/bin/sh\\nlines=\"%s\"\\n%s\\n' \"$2\" \"$1\" >\"$0\" && chmod 755 \"$0\"";
        let mut shell = Command::new("sh");
        let made = shell.arg("-c").arg(make).arg(&file).arg(script).arg(LINES).status();
        assert!(made.unwrap().success());
        let mut output = Vec::new();
        let day = Day::of("day.txt", day.as_bytes().to_vec(), Taken::Apart).unwrap();
        let ran = run(&file, &day, &mut output);
        std::fs::remove_file(&file).unwrap();
        (ran.unwrap(), String::from_utf8(output).unwrap())
    }

    fn cut(name: &str, script: &str) -> String {
        match ran(name, DAY, script).0 {
            Ran::Cut(why) => why,
            other => panic!("{name}: {other:?}"),
        }
    }

    #[test]
    fn a_whole_run_is_told_from_others() {
        let whole = ran("whole", DAY, "cat >/dev/null; printf '%s' \"$lines\"");
        assert_eq!(whole, (Ran::Whole, LINES.to_string()));
        let (ended, printed) =
            ran("tape", "close\nbyte 01\n", "printf '0 close 0 0\\n1 tape 13 0\\n'");
        assert_eq!(printed, "0 close 0 0\n1 tape 13 0\n");
        assert!(matches!(ended, Ran::Ended(why) if why.ends_with("1 tape 13 0")));
        let failed = cut("failed", "exit 3");
        assert!(
            failed.contains("exit status: 3; the ledger is missing: of 5 instruction lines"),
            "{failed}"
        );
    }

    #[test]
    fn a_cut_ledger_is_told_from_a_whole_one() {
        let said = "echo 'dayrun: the lines could not be written' >&2";
        for (lines, bytes, told) in [
            ("0", 0, "the ledger is missing: of 5 instruction lines 0 came, of 2 F lines 0, of 4 C lines 0"),
            ("5", 60, "the ledger is missing: of 5 instruction lines 5 came, of 2 F lines 0, of 4 C lines 0"),
            ("1f", 72, "the ledger is cut: of 5 instruction lines 5 came, of 2 F lines 1, of 4 C lines 0"),
            ("2f", 84, "the ledger is cut: of 5 instruction lines 5 came, of 2 F lines 2, of 4 C lines 0"),
            ("2c", 99, "the ledger is cut: of 5 instruction lines 5 came, of 2 F lines 2, of 4 C lines 2"),
            ("torn", 113, "of 2 F lines 2, of 4 C lines 4, the last of them cut"),
        ] {
            let part = format!("printf '%s' \"$lines\" | head -c {bytes}");
            let why = cut(lines, &format!("{part}; {said}"));
            assert!(why.starts_with("dayrun: the lines could not be written\n"), "{lines}: {why}");
            assert!(why.contains(told), "{lines}: {why}");
            let silent = cut(&format!("silent{lines}"), &part);
            assert!(silent.contains("are not whole: ") && silent.contains(told), "{lines}: {silent}");
        }
        let all = cut("all", &format!("printf '%s' \"$lines\"; {said}"));
        assert_eq!(all, "dayrun: the lines could not be written\nall its lines came");
    }

    #[test]
    fn an_older_roll_at_which_reading_ended_is_told() {
        let mut words = vec![0x5000_0000, 0x7104_b000];
        words.extend([0x9001_86a0; 16]);
        let day = Day::of("x", crate::bytes::join(&words), Taken::Words).unwrap();
        let older = give(&day, None::<io::Sink>).unwrap().older;
        let told = advice(older, "1 tape 13 0");
        assert!(
            told.starts_with("; this roll has no accrued amounts: put sixteen words"),
            "{told}"
        );
        assert_eq!(advice(older, "0 tape 14 0"), "");
        assert_eq!(advice(older, "99 tape 13 0"), "");
    }

    #[test]
    fn an_output_that_fails_is_told() {
        struct Full;
        impl Write for Full {
            fn write(&mut self, _: &[u8]) -> io::Result<usize> {
                Err(io::Error::other("full"))
            }
            fn flush(&mut self) -> io::Result<()> {
                Ok(())
            }
        }
        let ran = run(Path::new("/bin/echo"), &Day::default(), &mut Full).unwrap();
        assert!(matches!(ran, Ran::Cut(why) if why.contains("could not be written: full; what")));
    }

    #[test]
    fn a_program_that_is_not_there_is_an_error() {
        let error =
            run(Path::new("/nowhere/dayrun"), &Day::default(), &mut Vec::new()).unwrap_err();
        assert!(error.contains("cannot be run"), "{error}");
    }
}
