//! `tapes`: the program and the second engine's program on the same tapes, byte by byte.
//!
//! The samples of `tapes/`, then random tapes, then large ones. `--program PATH` and
//! `--reference PATH` name the programs; `--large N` is the number of large tapes. `--replay FILE`
//! runs one tape alone.

use std::fs::File;
use std::path::{Path, PathBuf};
use std::process::{Command, ExitCode, Stdio};
use std::time::{Duration, Instant};
use std::{fs, iter};
use tape::{bytes, text};
use tests::options::{number, Options};
use tests::programs::{both_there, run as run_program, PROGRAM, REFERENCE};
use tests::random_tapes::{day_tape, small_tape, words_of};
use tests::report::save_case;
use tests::rng::Rng;
use tests::shrink::shrink;
use tests::steps::Call;

/// The random tapes of the default run.
const DEFAULT_CASES: u64 = 6_000;
/// The large tapes of the default run, and the instructions of each.
const DEFAULT_LARGE: &str = "3";
const LARGE: u32 = 400_000;
/// The most words of a tape that is shown.
const MOST_SHOWN: usize = 400;
/// The trades that `tape explain` is timed on, how often, and how many times the program's time it
/// may take.
const TRADES: u32 = 1_000_000;
const RUNS: u32 = 5;
const MOST_TIMES: f64 = 8.0;
/// How often that is measured again on a machine with other work on it.
const ROUNDS: u32 = 5;
/// The program's own options.
const OWN: [&str; 5] = ["--program", "--reference", "--tool", "--large", "--samples"];
/// One of so many small tapes is run through the tool too.
const BY_TOOL: u64 = 20;
/// Where the tool is otherwise.
const TOOL: &str = "build/release/tape";

/// The two programs, and the tool that runs the first.
struct Programs {
    program: String,
    reference: String,
    tool: String,
}

fn main() -> ExitCode {
    match Options::of_command_line(DEFAULT_CASES, &OWN).and_then(run) {
        Ok(line) => {
            println!("tapes: {line}");
            ExitCode::SUCCESS
        }
        Err(error) => {
            eprintln!("tapes: {error}");
            ExitCode::FAILURE
        }
    }
}

/// Runs one replayed tape, or samples, random tapes and large ones; gives the last line.
fn run(options: Options) -> Result<String, String> {
    let programs = Programs {
        program: options.own_or("--program", PROGRAM).to_string(),
        reference: options.own_or("--reference", REFERENCE).to_string(),
        tool: options.own_or("--tool", TOOL).to_string(),
    };
    both_there(&programs.program, &programs.reference)?;
    if let Some(words) = &options.replay {
        let file = words.join(" ");
        let tape = fs::read(&file).map_err(|error| format!("cannot read {file}: {error}"))?;
        programs.compare(&tape).map_err(|told| report(&tape, &told))?;
        return Ok("the tape agrees".to_string());
    }
    let samples = programs.samples(options.own_or("--samples", "tapes"))?;
    let large: u64 = number("--large", Some(options.own_or("--large", DEFAULT_LARGE).to_string()))?;
    programs.random(&options)?;
    programs.large(&options, large)?;
    programs.explaining()?;
    let (seed, cases) = (options.seed, options.cases);
    Ok(format!("{samples} samples, {cases} tapes and {large} large ones agree (seed {seed})"))
}

impl Programs {
    /// Runs both programs on a tape; tells the first line in which they differ.
    fn compare(&self, tape: &[u8]) -> Result<usize, [String; 2]> {
        let run = |program: &str| run_program(program, tape).map(|printed| printed.output);
        let reference = run(&self.reference).map_err(|error| [error, String::new()])?;
        let program = run(&self.program).map_err(|error| ["ends well".to_string(), error])?;
        if reference == program {
            return Ok(reference.len());
        }
        Err(first_difference(&reference, &program))
    }

    /// Runs the samples; both programs print what is stored beside each.
    fn samples(&self, folder: &str) -> Result<usize, String> {
        let samples = samples_in(folder)?;
        for sample in &samples {
            let name = sample.display();
            let read = |path: &Path| {
                fs::read_to_string(path).map_err(|error| format!("{}: {error}", path.display()))
            };
            let tape =
                text::to_tape(&read(sample)?).map_err(|faults| format!("{name}: {faults:?}"))?;
            let expected = read(&sample.with_extension("expected"))?;
            for program in [&self.reference, &self.program] {
                let printed = run_program(program, &tape)?.output;
                if printed != expected.as_bytes() {
                    let [stored, told] = first_difference(expected.as_bytes(), &printed);
                    return Err(format!("{name}\n  stored: {stored}\n  {program}: {told}"));
                }
            }
            self.by_tool(sample, &expected)?;
        }
        Ok(samples.len())
    }

    /// Runs a sample through `tape run`: the stored lines, and status 0 only where the whole tape is
    /// read.
    fn by_tool(&self, sample: &Path, expected: &str) -> Result<(), String> {
        let mut run = Command::new(&self.tool);
        let run = run.args(["run", "--program", &self.program]).arg(sample);
        let output =
            run.output().map_err(|error| format!("{} cannot be run: {error}", self.tool))?;
        let name = sample.display();
        if output.stdout != expected.as_bytes() {
            let [stored, told] = first_difference(expected.as_bytes(), &output.stdout);
            return Err(format!("{name}\n  stored: {stored}\n  tape run: {told}"));
        }
        let whole = !expected.contains(" tape ");
        let (status, said) = (output.status, String::from_utf8_lossy(&output.stderr));
        if output.status.success() != whole || said.is_empty() != whole {
            return Err(format!("{name}: tape run ended with {status} and said {said:?}"));
        }
        Ok(())
    }

    /// Runs a tape through `tape run`, which counts its lines: none is missing.
    fn counted_by_tool(&self, tape: &[u8]) -> Result<(), String> {
        let file = save_tape(tape)?;
        let mut run = Command::new(&self.tool);
        let run = run.args(["run", "--words", "--program", &self.program]).arg(&file);
        let output =
            run.output().map_err(|error| format!("{} cannot be run: {error}", self.tool))?;
        fs::remove_file(&file).map_err(|error| format!("{}: {error}", file.display()))?;
        let said = String::from_utf8_lossy(&output.stderr);
        let ended = said.starts_with("tape: reading ended before the tape did");
        if output.status.code() != Some(i32::from(ended)) || said.is_empty() == ended {
            return Err(format!("tape run ended with {} and said {said:?}", output.status));
        }
        Ok(())
    }

    /// Runs small random tapes.
    fn random(&self, options: &Options) -> Result<(), String> {
        let start = Instant::now();
        for at in 0..options.cases {
            let tape = small_tape(&mut Rng::of_case(options.seed, at));
            self.check(options.seed, &tape)?;
            if at % BY_TOOL == 0 {
                self.counted_by_tool(&tape)?;
            }
            if (at + 1) % 1_000 == 0 {
                let seconds = start.elapsed().as_secs();
                eprintln!("{} of {} tapes agree, {seconds} s", at + 1, options.cases);
            }
        }
        Ok(())
    }

    /// Runs large tapes, few and many accounts in turn.
    fn large(&self, options: &Options, large: u64) -> Result<(), String> {
        for at in 0..large {
            let start = Instant::now();
            let mut rng = Rng::of_case(!options.seed, at);
            let tape = day_tape(&mut rng, LARGE, at % 2 == 1);
            let printed = self.check(options.seed, &tape)?;
            self.counted_by_tool(&tape)?;
            eprintln!(
                "large tape {} of {large}: {LARGE} instructions, {printed} bytes agree, {} s",
                at + 1,
                start.elapsed().as_secs()
            );
        }
        Ok(())
    }

    /// `tape explain` on a million trades takes at most eight times as long as the program.
    fn explaining(&self) -> Result<(), String> {
        let mut rng = Rng::new(11);
        let mut words = Vec::new();
        for _ in 0..TRADES {
            let from = rng.range(0, 63);
            let to = (from + rng.range(1, 63)) % 64;
            let call =
                Call::Trade { issue: rng.range(0, 15), from, to, lots: rng.range(1, 100_000) };
            words.extend(words_of(&call).expect("a trade fits a tape"));
        }
        let file = save_tape(&bytes::join(&words))?;
        let mut times = f64::INFINITY;
        for _ in 0..ROUNDS {
            let program = quickest(&mut Command::new(&self.program), &file)?;
            let tool = quickest(Command::new(&self.tool).arg("explain"), &file)?;
            times = times.min(tool.as_secs_f64() / program.as_secs_f64());
            if times <= MOST_TIMES {
                break;
            }
        }
        fs::remove_file(&file).map_err(|error| format!("{}: {error}", file.display()))?;
        eprintln!("tape explain takes {times:.1} times as long as the program on {TRADES} trades");
        if times > MOST_TIMES {
            return Err(format!("tape explain takes {times:.1} times the program's time"));
        }
        Ok(())
    }

    /// Compares on a tape; a mismatch is shrunk, shown and kept.
    fn check(&self, seed: u64, tape: &[u8]) -> Result<usize, String> {
        self.compare(tape).map_err(|told| {
            let fails = |parts: &[Vec<u8>]| self.compare(&parts.concat()).is_err();
            let short = shrink(parts_of(tape), fails).concat();
            let told = self.compare(&short).err().unwrap_or(told);
            let kept = save_case("tapes", seed, &short);
            format!("seed {seed}\n{}\n  {kept}", report(&short, &told))
        })
    }
}

/// Keeps a tape in a file, to be read as standard input.
fn save_tape(tape: &[u8]) -> Result<PathBuf, String> {
    let file = std::env::temp_dir().join(format!("million-trades-{}.tape", std::process::id()));
    fs::write(&file, tape).map_err(|error| format!("{}: {error}", file.display()))?;
    Ok(file)
}

/// The quickest of some runs of a command on a tape.
fn quickest(command: &mut Command, tape: &Path) -> Result<Duration, String> {
    let mut times = Vec::new();
    for _ in 0..RUNS {
        let input = File::open(tape).map_err(|error| format!("{}: {error}", tape.display()))?;
        let start = Instant::now();
        let status = command.stdin(input).stdout(Stdio::null()).status();
        let status = status.map_err(|error| format!("{command:?} cannot be run: {error}"))?;
        times.push(start.elapsed());
        if !status.success() {
            return Err(format!("{command:?} ended with {status}"));
        }
    }
    Ok(times.into_iter().min().unwrap_or_default())
}

/// The samples in text form of a folder.
fn samples_in(folder: &str) -> Result<Vec<PathBuf>, String> {
    let files = fs::read_dir(folder).map_err(|error| {
        format!("cannot read the samples in {folder}: {error}; name their folder by --samples")
    })?;
    let mut samples: Vec<PathBuf> = files
        .filter_map(|file| file.ok().map(|file| file.path()))
        .filter(|path| path.extension().is_some_and(|extension| extension == "txt"))
        .collect();
    samples.sort();
    if samples.is_empty() {
        return Err(format!("there are no samples in {folder}; name their folder by --samples"));
    }
    Ok(samples)
}

/// The parts of a tape that can be left out: instructions, then words and last bytes.
fn parts_of(tape: &[u8]) -> Vec<Vec<u8>> {
    let (words, stray) = bytes::split(tape);
    let mut parts = Vec::new();
    let mut at = 0;
    while at < words.len() {
        let count = reference::tape::read(&words[at..]).map_or(1, |(_, count)| count);
        parts.push(bytes::join(&words[at..at + count]));
        at += count;
    }
    parts.into_iter().chain(iter::once(stray.to_vec())).collect()
}

/// The first line in which two outputs differ, as each has it.
fn first_difference(one: &[u8], other: &[u8]) -> [String; 2] {
    let lines = |output: &[u8]| -> Vec<String> {
        output
            .split(|byte| *byte == b'\n')
            .map(|line| String::from_utf8_lossy(line).into())
            .collect()
    };
    let (one, other) = (lines(one), lines(other));
    let at = one.iter().zip(&other).take_while(|(one, other)| one == other).count();
    [one, other].map(|lines| match lines.get(at) {
        Some(line) => format!("line {}: {line}", at + 1),
        None => format!("line {}: none", at + 1),
    })
}

/// What the programs print differently, and the tape as words and as text if it is short.
fn report(tape: &[u8], [reference, program]: &[String; 2]) -> String {
    let words = bytes::split(tape).0;
    let shown = if words.len() <= MOST_SHOWN {
        let words: String = words.iter().map(|word| format!(" {word:08x}")).collect();
        format!("\n{}  words:{words}", text::of_tape(tape))
    } else {
        format!(" of {} words", words.len())
    };
    format!("mismatch on the tape{shown}\n  reference: {reference}\n  program:   {program}")
}
