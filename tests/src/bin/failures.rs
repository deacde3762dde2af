//! `failures`: the program where its input cannot be read or its lines cannot be written.
//!
//! It then says so on standard error, with status 0, and no line of ledger or charges stands on
//! standard output, but where the write fails inside those lines. `--program PATH` names the program.

use std::fs::{self, File};
use std::io::{self, Write};
use std::os::fd::OwnedFd;
use std::os::unix::net::UnixStream;
use std::path::Path;
use std::process::{Command, ExitCode, Output, Stdio};
use tape::text::to_tape;
use tests::options::Options;
use tests::programs::PROGRAM;

/// A day with a fail and a charge, so that there are lines of ledger and charges to leave out.
const DAY: &str = "trade 0 1 2 3000\nclose\ncutoff\nroll 1 300 100000\n";
/// What the program prints of it.
const LINES: &str = "0 trade 0 0\n2 close 0 0\n3 cutoff 0 1\n4 roll 0 0\nF 0 1 2 3000 0\n\
    C 1 -12328\nC 2 12328\n";

/// A day whose lines have fewer than 512 bytes, and with those of ledger and charges more than 1,024.
const SELLERS: u32 = 30;
/// Runs the program with a file as output that may have one block, of 512 bytes or of 1,024.
const ONE_BLOCK: &str = "trap '' XFSZ; ulimit -f 1; exec \"$0\" >\"$1\"";

/// What a case must say on standard error.
#[derive(Clone, Copy, PartialEq, Eq)]
enum Says {
    Nothing,
    Unread,
    Unwritten,
    /// The same, where some lines of the ledger are out already.
    UnwrittenInside,
}

/// A case: its name, what it must say, and the run.
type Case = (&'static str, Says, fn(&str) -> io::Result<Output>);

/// All cases.
const CASES: [Case; 9] = [
    ("a whole tape", Says::Nothing, |program| piped(program, whole_day())),
    ("an empty tape", Says::Nothing, |program| piped(program, Vec::new())),
    ("a directory as input", Says::Unread, |program| {
        Command::new(program).stdin(File::open("/")?).output()
    }),
    ("a closed input", Says::Unread, |program| shell("exec \"$0\" <&-", program)),
    ("an input that fails at once", Says::Unread, |program| fails_after(program, &[])),
    ("an input that fails inside an instruction", Says::Unread, |program| {
        fails_after(program, &whole_day()[..6])
    }),
    ("an input that fails after a whole day", Says::Unread, |program| {
        fails_after(program, &whole_day())
    }),
    ("a full output", Says::Unwritten, |program| {
        Command::new(program)
            .stdin(input_of(whole_day())?)
            .stdout(File::options().write(true).open("/dev/full")?)
            .stderr(Stdio::piped())
            .spawn()?
            .wait_with_output()
    }),
    ("a closed output", Says::Unwritten, |program| {
        Command::new("sh")
            .args(["-c", "exec \"$0\" >&-", program])
            .stdin(input_of(whole_day())?)
            .output()
    }),
];

fn main() -> ExitCode {
    match Options::of_command_line(1, &["--program"]).and_then(|options| run(&options)) {
        Ok(cases) => {
            println!("failures: {cases} cases are told as they must be");
            ExitCode::SUCCESS
        }
        Err(error) => {
            eprintln!("failures: {error}");
            ExitCode::FAILURE
        }
    }
}

/// Runs every case; all that is wrong is told.
fn run(options: &Options) -> Result<usize, String> {
    let program = options.own_or("--program", PROGRAM);
    if !Path::new(program).is_file() {
        return Err(format!("there is no program {program}: make it by `make programs`"));
    }
    let program = Path::new(program).canonicalize().map_err(|error| error.to_string())?;
    let program = program.to_string_lossy();
    let mut wrong = Vec::new();
    for (name, says, make) in CASES {
        let output = make(&program).map_err(|error| format!("{name}: {error}"))?;
        wrong.extend(
            faults(&output, says, LINES).into_iter().map(|fault| format!("{name}: {fault}")),
        );
    }
    wrong.extend(inside(&program).map_err(|error| format!("{INSIDE}: {error}"))?);
    if wrong.is_empty() {
        return Ok(CASES.len() + 1);
    }
    Err(format!("{} faults\n  {}", wrong.len(), wrong.join("\n  ")))
}

/// The last case.
const INSIDE: &str = "an output that is full inside the ledger";

/// Runs it. The day is compared with what the program prints of it where there is room.
fn inside(program: &str) -> io::Result<Vec<String>> {
    let tape = to_tape(&long_day()).expect("the day is a tape");
    let whole = Command::new(program).stdin(input_of(tape.clone())?).output()?.stdout;
    let file = std::env::temp_dir().join(format!("failures-{}", std::process::id()));
    let run = Command::new("sh")
        .args(["-c", ONE_BLOCK, program])
        .arg(&file)
        .stdin(input_of(tape)?)
        .output()?;
    let output = Output { stdout: fs::read(&file)?, ..run };
    fs::remove_file(&file)?;
    let faults = faults(&output, Says::UnwrittenInside, &String::from_utf8_lossy(&whole));
    Ok(faults.into_iter().map(|fault| format!("{INSIDE}: {fault}")).collect())
}

/// What is wrong with what the program printed and said of a day whose lines are these.
fn faults(output: &Output, says: Says, lines: &str) -> Vec<String> {
    let printed = String::from_utf8_lossy(&output.stdout);
    let said = String::from_utf8_lossy(&output.stderr);
    let mut faults = Vec::new();
    if !lines.starts_with(&*printed) {
        faults.push(format!("printed {printed:?}, which the day does not begin with"));
    }
    let closing = printed.lines().any(|line| line.starts_with("F ") || line.starts_with("C "));
    match says {
        Says::Unread | Says::Unwritten if closing => {
            faults.push(format!("printed lines of ledger or charges: {printed:?}"));
        }
        Says::UnwrittenInside if !closing || printed == lines => {
            faults.push(format!("does not end inside the ledger: {printed:?}"));
        }
        _ => {}
    }
    if !output.status.success() {
        faults.push(format!("ended with {}", output.status));
    }
    let right = match says {
        Says::Nothing => said.is_empty(),
        Says::Unread => message(&said, "read"),
        Says::Unwritten | Says::UnwrittenInside => message(&said, "written"),
    };
    if !right {
        faults.push(format!("said {said:?} on standard error"));
    }
    faults
}

/// Is this one line of the program's that has the word?
fn message(said: &str, word: &str) -> bool {
    said.starts_with("dayrun: ") && said.contains(word) && said.lines().count() == 1
}

/// The words of the day.
fn whole_day() -> Vec<u8> {
    to_tape(DAY).expect("the day is a tape")
}

/// As many sales of one issue, each of another account to another, that all fail and are charged.
fn long_day() -> String {
    let trades: String =
        (0..SELLERS).map(|seller| format!("trade 0 {seller} {} 3000\n", 63 - seller)).collect();
    format!("{trades}close\ncutoff\nroll 1 300 100000\n")
}

/// Runs the program on a tape that is read to its end.
fn piped(program: &str, tape: Vec<u8>) -> io::Result<Output> {
    let printed = !tape.is_empty();
    let output = Command::new(program).stdin(input_of(tape)?).output()?;
    if printed && output.stdout != LINES.as_bytes() {
        return Err(io::Error::other(format!(
            "printed {:?}",
            String::from_utf8_lossy(&output.stdout)
        )));
    }
    Ok(output)
}

/// An input that gives these bytes and then ends.
fn input_of(tape: Vec<u8>) -> io::Result<OwnedFd> {
    let (mut writer, reader) = UnixStream::pair()?;
    writer.write_all(&tape)?;
    Ok(reader.into())
}

/// Runs the program on an input that gives these bytes, after which a read fails: nothing more is
/// there, and it does not wait.
fn fails_after(program: &str, tape: &[u8]) -> io::Result<Output> {
    let (mut writer, reader) = UnixStream::pair()?;
    writer.write_all(tape)?;
    reader.set_nonblocking(true)?;
    let output = Command::new(program).stdin(OwnedFd::from(reader)).output();
    drop(writer);
    output
}

/// Runs a line of the shell in which `$0` is the program.
fn shell(line: &str, program: &str) -> io::Result<Output> {
    Command::new("sh").args(["-c", line, program]).output()
}
