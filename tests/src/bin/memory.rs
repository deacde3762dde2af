//! `memory`: the tool `tape` on tapes of 100,000 and of 1,000,000 instructions: what reads a tape from its beginning to
//! its end takes no more memory for the long one, whether it is text or words, a file or a pipe; and of a tape that
//! does not end the beginning is told.
//!
//! `--tool PATH` and `--program PATH` name the tool and the program that `tape run` runs.

use std::fs::{self, File};
use std::io::{self, BufWriter, Read, Write};
use std::path::PathBuf;
use std::process::{Child, Command, ExitCode, Stdio};
use std::thread;
use tape::text::to_tape;
use tests::options::Options;
use tests::programs::PROGRAM;

/// The tool's own options, and where it is otherwise.
const OWN: [&str; 2] = ["--tool", "--program"];
const TOOL: &str = "build/release/tape";
/// The instructions of a day, and the days of the short tape and of the long one.
const OF_DAY: usize = 400;
const DAYS: [usize; 2] = [250, 2_500];
/// How many kilobytes the long tape may take more than the short one.
const MOST_MORE: i64 = 1_024;
/// How many bytes are read of what is told of a tape that does not end, and how many kilobytes that may take.
const ENOUGH: u64 = 50_000_000;
const MOST: i64 = 16_384;

/// Runs the tool with a gigabyte of memory at most, so that one that takes more ends.
const LIMITED: &str = "ulimit -v 1048576; exec \"$0\" \"$1\"";

/// What is asked of a tape; `DAY` is its name. The tool's status may be one of two.
const ASKED: [&str; 16] = [
    "write TEXT",
    "write --hex TEXT",
    "read WORDS",
    "check DAY",
    "check --json DAY",
    "run --program PROGRAM DAY",
    "explain DAY",
    "explain --json DAY",
    "explain --account 1 DAY",
    "explain --html --day 1 DAY",
    "why --account 2 --issue 0 DAY",
    "look DAY OWNERS 0 1",
    "jam DAY DESK",
    "statement --all DAY",
    "export --records DAY",
    "import --trades CSV",
];

fn main() -> ExitCode {
    match Options::of_command_line(1, &OWN).and_then(|options| run(&options)) {
        Ok(line) => {
            println!("memory: {line}");
            ExitCode::SUCCESS
        }
        Err(error) => {
            eprintln!("memory: {error}");
            ExitCode::FAILURE
        }
    }
}

/// Asks everything of both tapes, and of one that does not end.
fn run(options: &Options) -> Result<String, String> {
    let folder = std::env::temp_dir().join(format!("memory-{}", std::process::id()));
    fs::create_dir(&folder).map_err(|error| format!("{}: {error}", folder.display()))?;
    let asked = Folder { folder, options }.ask_all();
    fs::remove_dir_all(std::env::temp_dir().join(format!("memory-{}", std::process::id())))
        .map_err(|error| format!("the folder: {error}"))?;
    let asked = asked?;
    Ok(format!("{asked} runs take no more of a long tape, and a tape without an end is told"))
}

/// A folder with the tapes, and what stands beside them.
struct Folder<'a> {
    folder: PathBuf,
    options: &'a Options,
}

impl Folder<'_> {
    /// Asks everything; answers how much that was.
    fn ask_all(&self) -> Result<usize, String> {
        let made = self.make();
        made.map_err(|error| format!("the tapes: {error}"))?;
        let (mut asked, mut wrong) = (0, Vec::new());
        for words in ASKED {
            let forms: &[&str] = if words.contains("DAY") { &["TEXT", "WORDS"] } else { &[""] };
            for form in forms {
                for piped in [false, true] {
                    wrong.extend(self.beside(&words.replace("DAY", form), piped)?);
                    asked += 1;
                }
            }
        }
        // A tool that holds a long tape would not come to an end of this one.
        let endless: &[&str] = if wrong.is_empty() { &["explain", "check"] } else { &[] };
        for verb in endless {
            wrong.extend(self.endless(verb).map_err(|error| format!("{verb}: {error}"))?);
        }
        if wrong.is_empty() {
            return Ok(asked);
        }
        Err(format!("{} faults\n  {}", wrong.len(), wrong.join("\n  ")))
    }

    /// A file of the folder.
    fn file(&self, name: &str) -> PathBuf {
        self.folder.join(name)
    }

    /// Writes the tapes, day by day, so that they are in no memory here: the tool's would begin with it.
    fn make(&self) -> io::Result<()> {
        let day = day();
        let words = to_tape(&day).expect("the day is a tape");
        let trades = day.lines().filter_map(|line| line.strip_prefix("trade "));
        let rows: String = trades.map(|trade| trade.replace(' ', ",") + "\n").collect();
        for (at, days) in DAYS.into_iter().enumerate() {
            let create =
                |name: &str| Ok::<_, io::Error>(BufWriter::new(File::create(self.file(name))?));
            let mut text = create(&format!("TEXT{at}"))?;
            let mut tape = create(&format!("WORDS{at}"))?;
            let mut csv = create(&format!("CSV{at}"))?;
            csv.write_all(b"issue,from,to,lots\n")?;
            for _ in 0..days {
                text.write_all(day.as_bytes())?;
                tape.write_all(&words)?;
                csv.write_all(rows.as_bytes())?;
            }
            [text, tape, csv].iter_mut().try_for_each(Write::flush)?;
        }
        fs::write(self.file("OWNERS"), "owns 0 0-63\n")?;
        fs::write(self.file("DESK"), "settles 0-63 0\nholds 0 0 5\n")
    }

    /// The tool with these words, on one of the two tapes; that is piped to it where it is the last word.
    fn tool(&self, words: &str, at: usize, piped: bool) -> Command {
        let mut command = Command::new("sh");
        let mut line = format!("exec {}", self.options.own_or("--tool", TOOL));
        for word in words.split(' ') {
            let file = |name: &str| self.file(name).display().to_string();
            let tape = ["TEXT", "WORDS", "CSV"].contains(&word);
            line += &match word {
                _ if tape && piped => " -".to_string(),
                _ if tape => format!(" {}", file(&format!("{word}{at}"))),
                "OWNERS" | "DESK" => format!(" {}", file(word)),
                "PROGRAM" => format!(" {}", self.options.own_or("--program", PROGRAM)),
                other => format!(" {other}"),
            };
            if tape && piped {
                line = format!("cat {} | ({line}", file(&format!("{word}{at}")));
            }
        }
        let end = if piped { ")" } else { "" };
        command.arg("-c").arg(line + end);
        command.stdin(Stdio::null()).stdout(Stdio::null()).stderr(Stdio::piped());
        command
    }

    /// Asks the same of both tapes; answers what is wrong with the memory that it takes.
    fn beside(&self, words: &str, piped: bool) -> Result<Option<String>, String> {
        let shown = format!("tape {words}{}", if piped { ", by a pipe" } else { "" });
        let run = |at| {
            let mut child =
                self.tool(words, at, piped).spawn().map_err(|error| error.to_string())?;
            let mut said = String::new();
            let read = child.stderr.take().map_or(Ok(0), |mut from| from.read_to_string(&mut said));
            read.map_err(|error| error.to_string())?;
            let (status, memory) = ended(&child)?;
            if status > 1 || !said.is_empty() && !said.contains("reading") && !said.contains("span")
            {
                return Err(format!("{shown} ended with {status} and said {said}"));
            }
            Ok(memory)
        };
        let (short, long) = (run(0)?, run(1)?);
        let more = long - short > MOST_MORE;
        eprintln!("{shown}: {short} and {long} kB");
        Ok(more
            .then(|| format!("{shown} takes {short} kB of a short tape and {long} of a long one")))
    }

    /// Asks of a tape that does not end; answers what is wrong with the memory that it takes.
    fn endless(&self, verb: &str) -> io::Result<Option<String>> {
        let tool = self.options.own_or("--tool", TOOL);
        let mut command = Command::new("sh");
        command.args(["-c", LIMITED, tool, verb]).stdin(Stdio::piped()).stdout(Stdio::piped());
        let mut child = command.spawn()?;
        // Refused where trades are taken, so that `check` tells it too.
        let words = [&[0, 0, 0, 0x60][..]; 4_096].concat();
        let (input, output) = (child.stdin.take(), child.stdout.take());
        let read = thread::scope(|scope| {
            // Ends where the tool does, which nobody reads then.
            scope.spawn(move || {
                let Some(mut input) = input else { return };
                while input.write_all(&words).is_ok() {}
            });
            output.map_or(Ok(0), |output| io::copy(&mut output.take(ENOUGH), &mut io::sink()))
        })?;
        let (_, memory) = ended(&child).map_err(io::Error::other)?;
        eprintln!("tape {verb} of a tape without an end: {memory} kB");
        let wrong = read < ENOUGH || memory > MOST;
        let told = format!("tape {verb} of a tape without an end: {read} bytes, {memory} kB");
        Ok(wrong.then_some(told))
    }
}

/// A day that can stand any number of times: trades that are settled, a call that is refused, and a roll.
fn day() -> String {
    let trades = (0..OF_DAY - 5).map(|at| format!("trade {} 1 2 {}\n", at % 2, 1 + at % 7));
    let lots = |issue| (0..OF_DAY - 5).filter(move |at| at % 2 == issue).map(|at| 1 + at % 7);
    let delivered = |issue| format!("deliver {issue} 1 {}\n", lots(issue).sum::<usize>());
    let settled = [delivered(0), delivered(1)].concat();
    format!("{}close\n{settled}cutoff\nroll 1 300 100000 accrued 0\n", trades.collect::<String>())
}

/// What a process that ended has used, as the system counts it: times, the most memory in kilobytes, and the rest.
#[repr(C)]
#[derive(Default)]
struct Usage {
    times: [i64; 4],
    memory: i64,
    rest: [i64; 13],
}

extern "C" {
    fn wait4(id: i32, status: *mut i32, options: i32, usage: *mut Usage) -> i32;
}

/// Waits for a process: its status, and the most memory that it or one that it waited for had.
fn ended(child: &Child) -> Result<(i32, i64), String> {
    let (id, mut status, mut usage) = (child.id() as i32, 0, Usage::default());
    // SAFETY: the places of the status and of the usage are written to, each as long as the system has it.
    if unsafe { wait4(id, &mut status, 0, &mut usage) } != id {
        return Err("it cannot be waited for".to_string());
    }
    Ok((status >> 8 & 0xff, usage.memory))
}
