//! `daybook_faults`: the console's folder, where the process ends, the power goes, the disk fails or a file is
//! damaged. After each fault the folder that is opened has the book of the second engine after the calls that
//! were answered, or after those whose answer was on its way, and nothing else; or it is not opened, where a
//! file is damaged, with its place.
//!
//! `--part NAME` runs one part: ends, failures, random, cuts, bits, formats, stories. `--cases N` is the number of
//! random scripts.

use daybook::console::{self, Ended, Manner};
use daybook::faults::{Fault, Faulty, Then};
use daybook::files::Disk;
use daybook::format::RECORD_BYTES;
use daybook::history::{self, History};
use daybook::store::{self, Opened};
use daybook::{folder, format};
use std::env;
use std::fs;
use std::io::{self, Write};
use std::path::{Path, PathBuf};
use std::process::{self, Command, ExitCode, Stdio};
use tests::books::{random_book, Shape};
use tests::convert::{library_book, library_instruction, library_ticket};
use tests::json::{self, Value};
use tests::options::Options;
use tests::rng::Rng;
use tests::scripts::{follow, random_script, Followed, Line};
use tests::steps::{parse, Step};

/// Random scripts.
const CASES: u64 = 1_000;
/// The error numbers of the system: input or output, no room, a file system that is only read.
const ERRORS: [i32; 3] = [5, 28, 30];
/// An operation that never comes.
const NEVER: u64 = u64::MAX;

/// The worked day P5 to P9 with a lift, a refused trade, a ticket that is used twice, and questions.
const DAY: &str =
    "turn 2; trade 0 4 1 230000; trade 0 5 2 250000; trade 0 5 3 150000; trade 0 5 5 1; \
    close; deliver 0 5 345000 out 4096; unit 0 3; ask 0 7; commit 0 7 1 30000 0 1 out 4096; \
    commit 0 7 1 30000 0 1 out 4096; status 0 3; deliver 0 4 200000 out 4096; cutoff out 4096; \
    roll 1 300 QUOTES";
/// The next day, before which the folder is compacted.
const NEXT: &str =
    "mark 15 1; resolve 0 5 30000 out 4096; pair-off 0 5; trade 3 1 2 100001; close; \
    cutoff out 4096";

fn main() -> ExitCode {
    let words: Vec<String> = env::args().skip(1).collect();
    if let [verb, folder, at, part, batch] = words.as_slice() {
        if verb == "child" {
            return child(folder, at, part, batch);
        }
    }
    match Options::of_command_line(CASES, &["--part"]).and_then(|options| run(&options)) {
        Ok(told) => {
            println!("daybook_faults: {told}");
            ExitCode::SUCCESS
        }
        Err(error) => {
            eprintln!("daybook_faults: {error}");
            ExitCode::FAILURE
        }
    }
}

/// A part: its name, and what it does in a folder of its own.
type Part = (&'static str, fn(&Path, &Options) -> Result<String, String>);

const PARTS: [Part; 7] = [
    ("ends", ends),
    ("failures", failures),
    ("random", random),
    ("cuts", cuts),
    ("bits", bits),
    ("formats", formats),
    ("stories", stories),
];

/// Runs the parts, and tells what each did.
fn run(options: &Options) -> Result<String, String> {
    let only = options.own_or("--part", "all");
    let mut told = Vec::new();
    for (name, part) in PARTS.iter().filter(|(name, _)| only == "all" || only == *name) {
        let folder = place(name);
        let _ = fs::remove_dir_all(&folder);
        fs::create_dir_all(&folder).map_err(text)?;
        told.push(part(&folder, options).map_err(|error| format!("{name}: {error}"))?);
        fs::remove_dir_all(&folder).map_err(text)?;
    }
    if told.is_empty() {
        return Err(format!("there is no part {only}"));
    }
    Ok(told.join("; "))
}

/// A folder for a part, in memory where there is such a place.
fn place(name: &str) -> PathBuf {
    let memory = Path::new("/dev/shm");
    let base = if memory.is_dir() { memory.to_path_buf() } else { env::temp_dir() };
    base.join(format!("daybook-faults-{}-{name}", process::id()))
}

fn text(error: io::Error) -> String {
    error.to_string()
}

/// The lines of the two days, and how many the first has.
fn days() -> (Vec<Line>, usize) {
    let quotes = [["100000"; 16], ["0"; 16]].concat().join(" ");
    let lines = |day: &str| -> Vec<Line> {
        let steps = parse(&day.replace("QUOTES", &quotes));
        let line = |step: Step| match step {
            Step::Call(call) => Line::of(call),
            Step::Set(_) => None,
        };
        steps.unwrap_or_default().into_iter().filter_map(line).collect()
    };
    let (day, next) = (lines(DAY), lines(NEXT));
    let first = day.len();
    ([day, next].concat(), first)
}

/// What was said of a folder: that it holds a book, and the number of its snapshot.
#[derive(Default)]
struct Said {
    made: bool,
    number: u32,
}

/// Lines to be played to consoles of a folder, with a compaction before one of them.
struct Play<'a> {
    files: &'a Faulty,
    folder: &'a Path,
    script: &'a [Line],
    compacted: usize,
    batch: bool,
}

impl Play<'_> {
    /// Plays them; what is answered goes to an output. An error is that the folder is not made, opened or
    /// compacted, or that the console ended before its lines did.
    fn run(&self, answers: &mut dyn Write, said: &mut Said) -> Result<(), String> {
        let Play { files, folder, script, compacted, batch } = *self;
        store::make(&mut files.clone(), folder)?;
        said.made = true;
        let (before, behind) = script.split_at(compacted.min(script.len()));
        let parts = if behind.is_empty() { &[before][..] } else { &[before, behind] };
        for (at, lines) in parts.iter().enumerate() {
            let Opened { mut store, mut book, .. } = store::open(files.clone(), folder)?;
            if at == 1 {
                said.number = store.compact(&book)?;
                drop(store);
                let again = store::open(files.clone(), folder)?;
                (store, book) = (again.store, again.book);
            }
            let lines: String = lines.iter().map(|line| format!("{}\n", line.text)).collect();
            let ended = console::run(
                store,
                book,
                Manner { batch, ..Manner::default() },
                lines.as_bytes(),
                answers,
            );
            if ended.map_err(text)? == Ended::Unsure {
                return Err("the console ended".to_string());
            }
        }
        Ok(())
    }
}

/// The operations of a script without a fault, by which faults are placed.
fn operations(
    folder: &Path,
    script: &[Line],
    compacted: usize,
    batch: bool,
) -> Result<u64, String> {
    let _ = fs::remove_dir_all(folder);
    let files = Faulty::new(Fault { at: NEVER, part: 0, then: Then::End });
    let mut answers = Vec::new();
    Play { files: &files, folder, script, compacted, batch }
        .run(&mut answers, &mut Said::default())?;
    let followed = follow(script, &String::from_utf8_lossy(&answers))?;
    let held = folder::held(folder)?;
    if !followed.unknown.is_empty() || followed.more(&held.book, 0) != Some(0) {
        return Err("without a fault the book is another".to_string());
    }
    fs::remove_dir_all(folder).map_err(text)?;
    Ok(files.count())
}

/// Looks at a folder after a fault: it opens with a book that it may have, and goes on. Answers how many
/// calls more than were answered it has.
fn look(folder: &Path, said: &Said, followed: &Followed, most: usize) -> Result<usize, String> {
    let none = folder::numbers(folder).map_or(true, |found| found.snapshots.is_empty());
    if !said.made && followed.done == 0 && none {
        // No book was made, and none was promised: it can be made.
        store::make(&mut Disk, folder)?;
    }
    if folder::newest(folder)? < said.number {
        return Err("a snapshot that was said to be there is not".to_string());
    }
    let read = folder::held(folder)?.book;
    let Opened { store, book, .. } = store::open(Disk, folder)?;
    if book != read {
        return Err("two readings differ".to_string());
    }
    let wrong = || {
        format!(
            "the book is not that after {} answered calls and at most {most} more",
            followed.done
        )
    };
    let more = followed.more(&book, most).ok_or_else(wrong)?;
    let mut answers = Vec::new();
    let line = "trade 15 62 63 2\n";
    console::run(store, book.clone(), Manner::default(), line.as_bytes(), &mut answers)
        .map_err(text)?;
    let after = folder::held(folder)?;
    let traded = String::from_utf8_lossy(&answers).starts_with("done: ");
    if traded != (after.book != book) {
        return Err("a call after it is answered otherwise than it is kept".to_string());
    }
    Ok(more)
}

/// The child of `ends`: plays the script to the disk with an end at an operation.
fn child(folder: &str, at: &str, part: &str, batch: &str) -> ExitCode {
    let (Ok(at), Ok(part)) = (at.parse(), part.parse()) else { return ExitCode::FAILURE };
    let files = Faulty::new(Fault { at, part, then: Then::Abort });
    let ((script, compacted), batch) = (days(), batch == "batch");
    let folder = Path::new(folder);
    let play = Play { files: &files, folder, script: &script, compacted, batch };
    let played = play.run(&mut io::stdout().lock(), &mut Said::default());
    if played.is_ok() {
        ExitCode::SUCCESS
    } else {
        ExitCode::FAILURE
    }
}

/// The process ended before, inside and after every operation of the script.
fn ends(place: &Path, _: &Options) -> Result<String, String> {
    let ((script, compacted), folder) = (days(), place.join("desk"));
    let (mut ends, mut on_the_way) = (0, 0);
    for batch in [false, true] {
        let most = if batch { script.len() } else { 1 };
        for at in 0..operations(&folder, &script, compacted, batch)? {
            for part in [0, 1, RECORD_BYTES - 1, usize::MAX] {
                let _ = fs::remove_dir_all(&folder);
                let output = ended(&folder, at, part, batch)?;
                let wrong = |error| format!("batch {batch}, operation {at}, part {part}: {error}");
                let followed = follow(&script, &output).map_err(wrong)?;
                let more = look(&folder, &Said::default(), &followed, most).map_err(wrong)?;
                (ends, on_the_way) = (ends + 1, on_the_way + usize::from(more > 0));
            }
        }
    }
    met("an answer on its way", on_the_way)?;
    Ok(format!("{ends} ends of the process"))
}

/// What a child answered that ended at an operation.
fn ended(folder: &Path, at: u64, part: usize, batch: bool) -> Result<String, String> {
    let program = env::current_exe().map_err(text)?;
    let output = Command::new(program)
        .arg("child")
        .arg(folder)
        .args([at.to_string(), part.to_string()])
        .arg(if batch { "batch" } else { "lines" })
        .stderr(Stdio::null())
        .output()
        .map_err(text)?;
    if output.status.code().is_some() {
        return Err(format!("operation {at}: the child ended by itself, {}", output.status));
    }
    Ok(String::from_utf8_lossy(&output.stdout).to_string())
}

/// Something that must have come up.
fn met(what: &str, count: usize) -> Result<(), String> {
    if count == 0 {
        Err(format!("never met: {what}"))
    } else {
        Ok(())
    }
}

/// Every operation of the script fails, once, twice or from then on, with each error, a write also in its
/// middle.
fn failures(place: &Path, _: &Options) -> Result<String, String> {
    let ((script, compacted), folder) = (days(), place.join("desk"));
    let (mut cases, mut not_done, mut unsure) = (0, 0, 0);
    for batch in [false, true] {
        let most = if batch { script.len() } else { 1 };
        for at in 0..operations(&folder, &script, compacted, batch)? {
            for (which, times) in [1, 2, 3, NEVER - at].into_iter().enumerate() {
                let error = ERRORS[(at as usize + which) % ERRORS.len()];
                for part in [0, 7, RECORD_BYTES] {
                    let _ = fs::remove_dir_all(&folder);
                    let files = Faulty::new(Fault { at, part, then: Then::Fail { error, times } });
                    let (mut answers, mut said) = (Vec::new(), Said::default());
                    let (folder, script) = (&*folder, &*script);
                    let play = Play { files: &files, folder, script, compacted, batch };
                    let _ = play.run(&mut answers, &mut said);
                    let answers = String::from_utf8_lossy(&answers);
                    let wrong =
                        |error| format!("batch {batch}, operation {at}, {times} times: {error}");
                    let followed = follow(script, &answers).map_err(wrong)?;
                    let is_unsure = answers.contains("it is not known");
                    let most = if is_unsure { most } else { 0 };
                    look(folder, &said, &followed, most).map_err(wrong)?;
                    not_done += usize::from(answers.contains("not done: "));
                    unsure += usize::from(is_unsure);
                    cases += 1;
                }
            }
        }
    }
    met("a call that is not done", not_done - unsure)?;
    met("a call of which it is not known", unsure)?;
    Ok(format!("{cases} failures of the disk"))
}

/// Random scripts with the power gone at a random operation, and what was not synced lost or not.
fn random(place: &Path, options: &Options) -> Result<String, String> {
    let folder = place.join("desk");
    let (mut calls, mut on_the_way) = (0, 0);
    for case in 0..options.cases {
        let mut rng = Rng::of_case(options.seed, case);
        let lines = rng.range(5, 40) as usize;
        let script = random_script(&mut rng, lines);
        let compacted = rng.range(0, 2 * lines as u32) as usize;
        let batch = rng.chance(1, 3);
        let wrong = |error| format!("case {case} of seed {}: {error}", options.seed);
        let all = operations(&folder, &script, compacted, batch).map_err(wrong)?;
        let at = rng.next_u64() % all;
        let part = *rng.pick(&[0, 1, 4, RECORD_BYTES / 2, RECORD_BYTES, usize::MAX]);
        let _ = fs::remove_dir_all(&folder);
        let files = Faulty::new(Fault { at, part, then: Then::End });
        let (mut answers, mut said) = (Vec::new(), Said::default());
        let play = Play { files: &files, folder: &folder, script: &script, compacted, batch };
        let _ = play.run(&mut answers, &mut said);
        files.lose(|most| rng.next_u64() % (most + 1)).map_err(text)?;
        let followed = follow(&script, &String::from_utf8_lossy(&answers)).map_err(wrong)?;
        let most = if batch { lines } else { 1 };
        let more = look(&folder, &said, &followed, most).map_err(wrong)?;
        if !files.came() {
            return Err(wrong("the end did not come".to_string()));
        }
        calls += followed.done;
        on_the_way += usize::from(more > 0);
    }
    met("an answer on its way", on_the_way)?;
    Ok(format!("{} random scripts with random ends, {calls} calls answered", options.cases))
}

/// Makes the folder of the two days, compacted between them or not.
fn make(folder: &Path, is_compacted: bool) -> Result<(), String> {
    let (script, first) = days();
    let compacted = if is_compacted { first } else { script.len() };
    let files = Faulty::new(Fault { at: NEVER, part: 0, then: Then::End });
    let play = Play { files: &files, folder, script: &script, compacted, batch: false };
    play.run(&mut Vec::new(), &mut Said::default())
}

/// The books of a folder after 0, 1, 2, .. records of its journal.
fn books(folder: &Path) -> Result<Vec<settlement_day::Book>, String> {
    let number = folder::newest(folder)?;
    let mut books = vec![folder::book(folder, number)?];
    let found = folder::journal_of(&folder::read(&folder::journal(folder, number))?);
    for call in found.calls {
        let before = books.last().cloned().unwrap_or_default();
        books.push(folder::replayed(before, &[call])?);
    }
    Ok(books)
}

/// The journal cut at every byte: the folder opens with the records before.
fn cuts(place: &Path, _: &Options) -> Result<String, String> {
    let folder = place.join("desk");
    make(&folder, false)?;
    let books = books(&folder)?;
    let path = folder::journal(&folder, 0);
    let bytes = folder::read(&path)?;
    for length in (0..=bytes.len()).rev() {
        fs::write(&path, &bytes[..length]).map_err(text)?;
        let Opened { store, book, note } = store::open(Disk, &folder)?;
        let records = length / RECORD_BYTES;
        let torn = length % RECORD_BYTES > 0;
        let left = fs::metadata(&path).map_err(text)?.len() as usize;
        let right = store.records() == records as u64 && left == records * RECORD_BYTES;
        if !right || book != books[records] || note.is_some() != torn {
            return Err(format!("cut at byte {length}: {} records", store.records()));
        }
    }
    Ok(format!("{} cuts of a journal", bytes.len() + 1))
}

/// One bit turned at every place of a folder: it is not opened.
fn bits(place: &Path, _: &Options) -> Result<String, String> {
    let folder = place.join("desk");
    make(&folder, true)?;
    let number = folder::newest(&folder)?;
    let (snapshot, journal) = (folder::snapshot(&folder, number), folder::journal(&folder, number));
    let (mut words, mut records) = (folder::read(&snapshot)?, folder::read(&journal)?);
    for bit in 0..8 * words.len() {
        words[bit / 8] ^= 1 << (bit % 8);
        if folder::book_of(&words).is_ok() {
            return Err(format!("bit {bit} of the snapshot is turned, and it is opened"));
        }
        words[bit / 8] ^= 1 << (bit % 8);
    }
    for bit in 0..8 * records.len() {
        records[bit / 8] ^= 1 << (bit % 8);
        let found = folder::journal_of(&records);
        let at = bit / 8 / RECORD_BYTES;
        if found.damaged.is_none() || found.calls.len() != at || found.torn > 0 {
            return Err(format!("bit {bit} of the journal is turned, and record {at} is read"));
        }
        records[bit / 8] ^= 1 << (bit % 8);
    }
    turned(&folder, &snapshot, 97)?;
    turned(&folder, &journal, 1)?;
    folder::held(&folder)?;
    Ok(format!("{} bits turned", 8 * (words.len() + records.len())))
}

/// One bit turned at every so many bytes of a file: the folder is not opened, the file is named, and it is
/// left as it is.
fn turned(folder: &Path, path: &Path, step: usize) -> Result<(), String> {
    let bytes = folder::read(path)?;
    let name = path.file_name().unwrap_or_default().to_string_lossy();
    for at in (0..bytes.len()).step_by(step) {
        let mut changed = bytes.clone();
        changed[at] ^= 1 << (at % 8);
        fs::write(path, &changed).map_err(text)?;
        let opened = store::open(Disk, folder);
        let told =
            opened.err().ok_or(format!("byte {at} of {name} is turned, and it is opened"))?;
        if !told.contains(&*name) || fs::read(path).map_err(text)? != changed {
            return Err(format!("byte {at} of {name} is turned: {told}"));
        }
    }
    fs::write(path, bytes).map_err(text)
}

/// Snapshots and records beside those of the second engine: random books and scripts, whole and damaged.
fn formats(_: &Path, options: &Options) -> Result<String, String> {
    let mut reasons = [0; 6];
    let mut records = 0;
    for case in 0..options.cases {
        let mut rng = Rng::of_case(options.seed, case);
        let shape = Shape::few(&mut rng);
        let book = random_book(&mut rng, &shape);
        let wrong = |what: &str| format!("case {case} of seed {}: {what}", options.seed);
        let saved = reference::snapshot::save(&book);
        if format::save(&library_book(&book)).ok() != saved.clone().ok() {
            return Err(wrong("a book is saved as other words"));
        }
        let mut words = saved.map_err(|_| wrong("a random book is not sound"))?;
        reasons[damage(&mut rng, &mut words)] += 1;
        let opened = reference::snapshot::open(&words).map(|book| library_book(&book));
        if format::open(&words).ok() != opened.ok() {
            return Err(wrong("words are opened as another book"));
        }
        let script = random_script(&mut rng, 12);
        for line in &script {
            records += usize::from(record(&mut rng, line).map_err(|what| wrong(&what))?);
        }
    }
    met("a record", records)?;
    reasons.iter().try_for_each(|&count| met("a kind of damage", count))?;
    Ok(format!("{} snapshots and {records} records as the second engine's", options.cases))
}

/// Damages the words of a snapshot, or not; answers how.
fn damage(rng: &mut Rng, words: &mut Vec<u32>) -> usize {
    let at = rng.range(3, words.len() as u32 - 1) as usize;
    let kind = rng.range(0, 5) as usize;
    match kind {
        0 => {}
        1 => words.truncate(at),
        2 => words[0] ^= 1 << rng.range(0, 31),
        3 => words[at] ^= 1 << rng.range(0, 31),
        4 => words[rng.range(3, 22) as usize] = rng.next_u32() >> rng.range(0, 31),
        _ => words[at] = rng.next_u32(),
    }
    if kind >= 4 {
        let sum = reference::snapshot::weighted(&words[3..]);
        (words[1], words[2]) = (sum as u32, (sum >> 32) as u32);
    }
    kind
}

/// The record of a line as the second engine has it, whole and damaged; answers whether it has one.
fn record(rng: &mut Rng, line: &Line) -> Result<bool, String> {
    use reference::journal::{self, Kept};
    use tests::steps::Call;
    let number = rng.next_u32() >> rng.range(0, 31);
    let words = match &line.call {
        Call::Commit { ticket, .. } => journal::write_commit(number, ticket),
        call => {
            let Some(words) = tests::random_tapes::words_of(call) else { return Ok(false) };
            let (instruction, _) = reference::tape::read(&words).map_err(|n| n.to_string())?;
            let quotes = reference::tape::quotes(&words);
            journal::write_call(number, &instruction, &quotes).map_err(|n| n.to_string())?
        }
    };
    let kept = journal::read(number, &words).map_err(|n| n.to_string())?;
    let call = match &kept {
        Kept::Call(instruction, quotes) => daybook::call::Call::Tape {
            instruction: library_instruction(instruction),
            quotes: quotes.clone(),
        },
        Kept::Commit(ticket) => daybook::call::Call::Commit(library_ticket(ticket)),
    };
    if format::record(number, &call) != Some(words) {
        return Err(format!("`{}` has another record", line.text));
    }
    let changed = changed(rng, &words);
    let wanted = match journal::read(number, &changed) {
        Ok(_) => format::Read::Call(call),
        Err(journal::NONE) => format::Read::Nothing,
        Err(journal::TORN) => format::Read::Torn,
        Err(_) => format::Read::Damaged,
    };
    if format::read(number, &changed) != wanted {
        return Err(format!("a changed record of `{}` is read otherwise", line.text));
    }
    Ok(true)
}

/// The words of a record changed, cut, with a word behind them, or as they are.
fn changed(rng: &mut Rng, words: &[u32]) -> Vec<u32> {
    let mut changed = words.to_vec();
    let at = rng.range(0, words.len() as u32 - 1) as usize;
    match rng.range(0, 4) {
        0 => changed[at] = rng.next_u32(),
        1 => changed.truncate(at),
        2 => changed.push(rng.next_u32()),
        3 => {
            changed[at] ^= 1 << rng.range(0, 31);
            changed.push(rng.next_u32());
        }
        _ => {}
    }
    changed
}

/// The story of random scripts: every unit that it names belongs to the account that it names, in the order
/// as lifted.
fn stories(place: &Path, options: &Options) -> Result<String, String> {
    let folder = place.join("desk");
    let (mut told, mut lifted) = (0, 0);
    for case in 0..options.cases.div_ceil(4) {
        let mut rng = Rng::of_case(options.seed ^ STORIES, case);
        let script = random_script(&mut rng, 60);
        let wrong = |error: String| format!("case {case} of seed {}: {error}", options.seed);
        operations(&folder, &script, usize::MAX, true).map_err(wrong)?;
        let files = Faulty::new(Fault { at: NEVER, part: 0, then: Then::End });
        let compacted = rng.range(0, 90) as usize;
        let play = Play { files: &files, folder: &folder, script: &script, compacted, batch: true };
        play.run(&mut Vec::new(), &mut Said::default()).map_err(wrong)?;
        if folder.join("snapshot-1").exists() && rng.chance(1, 2) {
            // Without it the story begins with the book of a snapshot, in the middle of a day.
            let _ = fs::remove_file(folder.join("snapshot-0"));
        }
        let history = history::read(&folder).map_err(wrong)?;
        let (facts, lifts) = look_at_story(&history).map_err(wrong)?;
        (told, lifted) = (told + facts, lifted + lifts);
        fs::remove_dir_all(&folder).map_err(text)?;
    }
    met("a unit in a story", told)?;
    met("a fail on a day with lifts", lifted)?;
    Ok(format!("{told} units named in stories, {lifted} after lifts"))
}

/// A number by which the stories' scripts are others than those of the ends.
const STORIES: u64 = 0x73;

/// Looks at a history's story beside its book, call by call: how many units were named, and how many of
/// them by a cutoff on a day with lifts.
fn look_at_story(history: &History) -> Result<(usize, usize), String> {
    let mut story = Vec::new();
    history.explain(true, &mut story).map_err(text)?;
    let story = String::from_utf8_lossy(&story);
    let mut calls = history.calls.iter();
    let mut book = history.begins.clone();
    let (mut named, mut lifted) = (0, 0);
    for line in story.lines() {
        let object = json::read(line)?;
        let fact = object.get("fact").and_then(Value::text).unwrap_or_default();
        if matches!(fact, "instruction" | "lift") {
            let call = calls.next().ok_or("the story has more calls than the journal")?;
            book = folder::replayed(book, std::slice::from_ref(call))?;
        }
        let field = |name: &str| -> Option<u32> { object.get(name)?.number()?.try_into().ok() };
        let (units, account) = match fact {
            "handed" => ([field("first"), field("last")], field("account")),
            "waits" | "partly" => ([field("unit"); 2], field("account")),
            "fails" => ([field("first"), field("last")], field("to")),
            _ => continue,
        };
        let issue = field("issue").ok_or(line)?;
        for unit in units {
            let found = settlement_day::calls::unit(&book, issue, unit.ok_or(line)?).ok().flatten();
            if found.map(|unit| unit.account) != account {
                return Err(format!("unit {unit:?} is {found:?}: {line}"));
            }
            named += 1;
        }
        let after_lift = fact == "fails" && book.lifts(issue).next().is_some();
        lifted += usize::from(after_lift);
    }
    if calls.next().is_some() {
        return Err("the story has fewer calls than the journal".to_string());
    }
    Ok((named, lifted))
}
