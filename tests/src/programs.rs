//! Programs that read a tape from standard input and print lines.

use std::io::{Read, Write};
use std::path::Path;
use std::process::{Child, Command, Stdio};
use std::time::{Duration, Instant};
use std::{fs, thread};

/// What a program printed, how long it ran and how much memory it had at most.
pub struct Printed {
    pub output: Vec<u8>,
    pub time: Duration,
    /// In kilobytes, 0 where the system does not tell it.
    pub memory: u64,
}

/// Where the program and the second engine's program are otherwise.
pub const PROGRAM: &str = "target/bin/dayrun";
pub const REFERENCE: &str = "build/release/reference_dayrun";

/// Looks whether both programs are there; an error says how to make them.
pub fn both_there(program: &str, reference: &str) -> Result<(), String> {
    if !Path::new(program).is_file() {
        return Err(format!(
            "there is no program {program}: make it by `make programs`, or name it by --program"
        ));
    }
    if !Path::new(reference).is_file() {
        return Err(format!(
            "there is no program {reference}: make it by `cargo build --release -p reference`, \
             or name it by --reference"
        ));
    }
    Ok(())
}

/// Runs a program on a tape; it must end well.
pub fn run(program: &str, tape: &[u8]) -> Result<Printed, String> {
    let start = Instant::now();
    let mut child = Command::new(program)
        .stdin(Stdio::piped())
        .stdout(Stdio::piped())
        .stderr(Stdio::inherit())
        .spawn()
        .map_err(|error| format!("{program} cannot be run: {error}"))?;
    let mut input = child.stdin.take().expect("standard input is piped");
    let (output, memory) = thread::scope(|scope| {
        scope.spawn(move || input.write_all(tape));
        read_all(&mut child)
    });
    let status = child.wait().map_err(|error| format!("{program}: {error}"))?;
    if !status.success() {
        return Err(format!("{program} did not end well: {status}"));
    }
    Ok(Printed { output, time: start.elapsed(), memory })
}

/// All that a child prints, and the most memory that it had while printing.
fn read_all(child: &mut Child) -> (Vec<u8>, u64) {
    let status = format!("/proc/{}/status", child.id());
    let mut stdout = child.stdout.take().expect("standard output is piped");
    let (mut output, mut part, mut memory) = (Vec::new(), vec![0; 1 << 16], 0);
    loop {
        match stdout.read(&mut part) {
            Ok(0) | Err(_) => return (output, memory),
            Ok(count) => output.extend_from_slice(&part[..count]),
        }
        memory = memory.max(peak(&status));
    }
}

/// The most memory that a process had, in kilobytes.
fn peak(status: &str) -> u64 {
    let text = fs::read_to_string(status).unwrap_or_default();
    let line = text.lines().find(|line| line.starts_with("VmHWM:"));
    line.and_then(|line| line.split_whitespace().nth(1)).and_then(|n| n.parse().ok()).unwrap_or(0)
}
