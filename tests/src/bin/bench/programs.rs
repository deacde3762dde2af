//! The program beside the second engine's on whole tapes: calls a second and memory, or instructions of the
//! machine, counted by callgrind. Each run has to accept as many calls as the tape says.

use crate::tapes::{Make, Tape, TAPES};
use std::io::Write;
use std::path::Path;
use std::process::{Command, Stdio};
use std::time::Duration;
use std::{fs, thread};
use tests::options::Options;
use tests::programs::{both_there, run as run_program, Printed, PROGRAM, REFERENCE};

/// The measured calls of the tapes that are timed.
const LENGTHS: [usize; 3] = [10_000, 100_000, 1_000_000];
/// The measured calls of a tape that is counted; callgrind takes some fifty times the time.
const COUNTED: usize = 4_000;
/// How often each program runs on a tape; the quickest run is shown.
const RUNS: usize = 3;
/// After a run of this time no longer tape of the kind is run.
const LONGEST: Duration = Duration::from_secs(1);

/// Both programs, as the options name them.
fn programs(options: &Options) -> Result<[String; 2], String> {
    let program = options.own_or("--program", PROGRAM);
    let reference = options.own_or("--reference", REFERENCE);
    both_there(program, reference)?;
    Ok([program.to_string(), reference.to_string()])
}

/// Prints the table of times.
pub fn run(options: &Options) -> Result<(), String> {
    let programs = programs(options)?;
    println!("\n### Programs: thousand calls a second, and most memory in kilobytes\n");
    println!(
        "| tape | calls | accepted | program | second engine | times | program's memory \
         | second engine's memory |"
    );
    println!("|---|--:|--:|--:|--:|--:|--:|--:|");
    for make in TAPES {
        for length in LENGTHS {
            if timed(&programs, make, length)? > LONGEST {
                break;
            }
        }
    }
    Ok(())
}

/// Prints a line of the table of times; gives the longer of both times.
fn timed(
    [program, reference]: &[String; 2],
    make: Make,
    length: usize,
) -> Result<Duration, String> {
    let tape = make(length);
    let [one, other] = [measure(program, &tape)?, measure(reference, &tape)?];
    let all = (tape.before + tape.calls) as f64;
    let speed = |printed: &Printed| all / printed.time.as_secs_f64() / 1_000.0;
    let memory = |printed: &Printed| match printed.memory {
        0 => "–".to_string(),
        kilobytes => kilobytes.to_string(),
    };
    println!(
        "| {} | {} | {} | {:.0} | {:.0} | {:.1} | {} | {} |",
        tape.name,
        tape.before + tape.calls,
        tape.before + tape.accepted,
        speed(&one),
        speed(&other),
        speed(&one) / speed(&other),
        memory(&one),
        memory(&other)
    );
    Ok(one.time.max(other.time))
}

/// The quickest run of a program on a tape, with the most memory of all runs.
fn measure(program: &str, tape: &Tape) -> Result<Printed, String> {
    let bytes = tape.whole();
    let mut quickest = run_program(program, &bytes)?;
    accepts(program, tape, &quickest.output)?;
    for _ in 1..RUNS {
        let printed = run_program(program, &bytes)?;
        let memory = quickest.memory.max(printed.memory);
        if printed.time < quickest.time {
            quickest = printed;
        }
        quickest.memory = memory;
    }
    Ok(quickest)
}

/// Has the program accepted as many calls as the tape says?
fn accepts(program: &str, tape: &Tape, output: &[u8]) -> Result<(), String> {
    let text = String::from_utf8_lossy(output);
    let lines = text.lines().filter(|line| line.starts_with(|first: char| first.is_ascii_digit()));
    let (mut calls, mut accepted) = (0, 0);
    for line in lines {
        calls += 1;
        accepted += usize::from(line.split(' ').nth(2) == Some("0"));
    }
    let wanted = (tape.before + tape.calls, tape.before + tape.accepted);
    if (calls, accepted) == wanted {
        return Ok(());
    }
    Err(format!(
        "{program} accepts {accepted} of {calls} calls of '{}'; {} of {} are to be accepted",
        tape.name, wanted.1, wanted.0
    ))
}

/// Prints the table of counted instructions.
pub fn counts(options: &Options) -> Result<(), String> {
    let programs = programs(options)?;
    if Command::new("valgrind").arg("--version").stdout(Stdio::null()).status().is_err() {
        return Err("there is no valgrind, which counts: install Debian's package valgrind".into());
    }
    println!("\n### Programs: instructions of the machine a call, counted by callgrind\n");
    println!("| tape | calls | accepted | program | second engine | times |");
    println!("|---|--:|--:|--:|--:|--:|");
    for make in TAPES {
        let tape = make(COUNTED);
        let [one, other] = [counted(&programs[0], &tape)?, counted(&programs[1], &tape)?];
        println!(
            "| {} | {} | {} | {one:.0} | {other:.0} | {:.1} |",
            tape.name,
            tape.calls,
            tape.accepted,
            other / one
        );
    }
    Ok(())
}

/// Instructions a measured call: those of the whole tape less those of its first part.
fn counted(program: &str, tape: &Tape) -> Result<f64, String> {
    let printed = run_program(program, &tape.whole())?;
    accepts(program, tape, &printed.output)?;
    let count = |bytes: &[u8]| collected(Command::new("valgrind"), Path::new(program), &[], bytes);
    let [whole, first] = [count(&tape.whole())?, count(&tape.first)?];
    Ok((whole - first) as f64 / tape.calls as f64)
}

/// The instructions that callgrind counts of a program with these words on its command line and this input.
pub fn collected(
    mut valgrind: Command,
    program: &Path,
    words: &[&str],
    input: &[u8],
) -> Result<u64, String> {
    let log = std::env::temp_dir().join(format!("bench-counts-{}.log", std::process::id()));
    let mut child = valgrind
        .args(["--tool=callgrind", "--callgrind-out-file=/dev/null"])
        .arg(format!("--log-file={}", log.display()))
        .arg(program)
        .args(words)
        .stdin(Stdio::piped())
        .stdout(Stdio::null())
        .spawn()
        .map_err(|error| format!("valgrind cannot be run: {error}"))?;
    let mut to_child = child.stdin.take().expect("standard input is piped");
    let status = thread::scope(|scope| {
        scope.spawn(move || to_child.write_all(input));
        child.wait()
    });
    let said = fs::read_to_string(&log).unwrap_or_default();
    let _ = fs::remove_file(&log);
    if !status.map_err(|error| error.to_string())?.success() {
        return Err(format!("{} did not end well under valgrind: {said}", program.display()));
    }
    let line = said.lines().find_map(|line| line.split_once("Collected :"));
    let number = line.and_then(|(_, number)| number.trim().parse().ok());
    number.ok_or_else(|| format!("valgrind has counted nothing: {said}"))
}
