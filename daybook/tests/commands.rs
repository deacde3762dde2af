//! The command as it is run: the worked day, what is refused, one writer a folder, a full disk, damage.

use std::fs;
use std::io::Write;
use std::path::{Path, PathBuf};
use std::process::{Child, Command, Output, Stdio};

/// The worked day P5 to P9 with a lift, a line each.
const DAY: &str = include_str!("day.txt");

/// A folder that is not there yet, and goes with this.
struct Desk(PathBuf);

impl Desk {
    fn new(name: &str) -> Desk {
        let folder = std::env::temp_dir().join(format!("daybook-{}-{name}", std::process::id()));
        let _ = fs::remove_dir_all(&folder);
        Desk(folder)
    }

    /// A folder with a fresh book.
    fn made(name: &str) -> Desk {
        let desk = Desk::new(name);
        assert_eq!(desk.run(&["new"], "").status.code(), Some(0));
        desk
    }

    fn path(&self) -> &Path {
        &self.0
    }

    /// Runs the command with words before the folder and lines as its input.
    fn run(&self, words: &[&str], lines: &str) -> Output {
        let mut child = self.begin(words);
        // A command that ends before it reads takes no lines.
        let _ = child.stdin.take().unwrap().write_all(lines.as_bytes());
        child.wait_with_output().unwrap()
    }

    /// Begins the command.
    fn begin(&self, words: &[&str]) -> Child {
        Command::new(env!("CARGO_BIN_EXE_daybook"))
            .args(words)
            .arg(self.path())
            .stdin(Stdio::piped())
            .stdout(Stdio::piped())
            .stderr(Stdio::piped())
            .spawn()
            .unwrap()
    }

    fn answers(&self, words: &[&str], lines: &str) -> String {
        text(&self.run(words, lines).stdout)
    }
}

impl Drop for Desk {
    fn drop(&mut self) {
        let _ = fs::remove_dir_all(&self.0);
    }
}

fn text(bytes: &[u8]) -> String {
    String::from_utf8(bytes.to_vec()).unwrap()
}

#[test]
fn the_worked_day_with_a_lift() {
    let desk = Desk::made("day");
    let output = desk.run(&[], DAY);
    assert_eq!(text(&output.stdout), include_str!("day.expected"));
    assert_eq!(output.status.code(), Some(1), "a call of the day is refused");
    assert_eq!(desk.answers(&["tape"], ""), include_str!("day.tape.expected"));
    assert_eq!(desk.answers(&["explain"], ""), include_str!("day.told"));
    let checked = desk.answers(&["check"], "");
    assert!(
        checked.starts_with("snapshot-0 and journal-0: whole, 9 records; then day 1"),
        "{checked}"
    );
    let compacted = desk.answers(&["compact"], "");
    assert!(compacted.contains("journal-0 with 9 records stays beside"), "{compacted}");
    assert_eq!(desk.answers(&["explain"], ""), include_str!("day.told"));
    assert_eq!(desk.answers(&["tape"], ""), include_str!("day.tape.expected"));
    let ledger = desk.answers(&[], "ledger\n");
    assert!(
        ledger.starts_with("3 fail entries; issue 0: account 4 owes account 2 30,000"),
        "{ledger}"
    );
    fs::remove_file(desk.path().join("journal-0")).unwrap();
    let told = desk.answers(&["explain"], "");
    assert!(
        told.starts_with("The story begins with snapshot-1, day 1, Taking: journals"),
        "{told}"
    );
}

#[test]
fn lines_together_are_answered_as_lines_alone() {
    let (alone, together) = (Desk::made("alone"), Desk::made("together"));
    assert_eq!(alone.answers(&[], DAY), together.answers(&["--batch"], DAY));
    let journal = |desk: &Desk| fs::read(desk.path().join("journal-0")).unwrap();
    assert_eq!(journal(&alone), journal(&together));
}

#[test]
fn a_program_is_told_in_objects() {
    let desk = Desk::made("json");
    let answers =
        desk.answers(&["--json"], "trade 0 1 2 3\n\n# a note\nclose\ncutoff\nsell\ncommit\n");
    let lines: Vec<&str> = answers.lines().collect();
    assert_eq!(
        lines[0],
        "{\"schema\":1,\"line\":1,\"answer\":\"done\",\"call\":\"trade\",\"said\":\"trade 0 1 2 3\",\
         \"records\":[],\"day\":0,\"phase\":\"Taking\"}"
    );
    let begins = |at: usize, begins: &str| {
        assert!(lines[at].starts_with(&format!("{{\"schema\":1,{begins}")), "{}", lines[at]);
    };
    begins(1, "\"line\":4,\"answer\":\"done\",\"call\":\"close\"");
    let fails = "\"records\":[{\"record\":\"fails\",\"issue\":0,\"from\":1,\"to\":2,\"lots\":3}]";
    assert!(lines[2].contains(fails), "{}", lines[2]);
    begins(3, "\"line\":6,\"answer\":\"wrong\",\"faults\":[{\"column\":1");
    begins(4, "\"line\":7,\"answer\":\"nothing\",\"why\":\"there is no ticket");
    assert_eq!(lines.len(), 5);
}

#[test]
fn wrong_lines_are_answered_and_the_next_is_heard() {
    let desk = Desk::made("wrong");
    let mut lines = b"close # \xff\n".to_vec();
    lines.extend([b'x'; 70_000]);
    lines.extend(b"\nclose\nend\nclose\n");
    let mut child = desk.begin(&[]);
    child.stdin.take().unwrap().write_all(&lines).unwrap();
    let output = child.wait_with_output().unwrap();
    let answers = text(&output.stdout);
    let answers: Vec<&str> = answers.lines().collect();
    assert_eq!(
        answers[0],
        "wrong: line 1, column 9: the line is not in UTF-8 from here on: write it so"
    );
    assert!(answers[1].starts_with("wrong: line 2, column 1: the line is longer than 65536 bytes"));
    assert_eq!((answers[2], answers.len()), ("done: close; day 0, Settling", 3));
    assert_eq!(output.status.code(), Some(1));
}

#[test]
fn one_writer_a_folder_and_a_dead_one_holds_nothing() {
    let desk = Desk::made("lock");
    let mut first = desk.begin(&[]);
    // Its answer says that it has opened the folder.
    first.stdin.as_mut().unwrap().write_all(b"trade 0 1 2 3\n").unwrap();
    let mut answer = [0; 19];
    std::io::Read::read_exact(first.stdout.as_mut().unwrap(), &mut answer).unwrap();
    for words in [&[][..], &["compact"], &["cut", "--yes"]] {
        let second = desk.run(words, "");
        assert_eq!(second.status.code(), Some(2));
        assert!(text(&second.stderr).contains("another daybook is at work"), "{second:?}");
    }
    assert!(text(&desk.run(&["check"], "").stderr).contains("a daybook is at work"));
    first.kill().unwrap();
    first.wait().unwrap();
    let again = desk.answers(&[], "status\n");
    assert!(again.ends_with("journal-0 with 1 record\n"), "{again}");
}

#[test]
fn a_full_disk_is_told_and_loses_nothing() {
    let desk = Desk::made("full");
    let script = "trap '' XFSZ; ulimit -f 1; exec \"$0\" \"$1\"";
    let mut child = Command::new("sh")
        .args(["-c", script, env!("CARGO_BIN_EXE_daybook")])
        .arg(desk.path())
        .stdin(Stdio::piped())
        .stdout(Stdio::piped())
        .stderr(Stdio::piped())
        .spawn()
        .unwrap();
    let lines = "trade 0 1 2 3\n".repeat(12);
    child.stdin.take().unwrap().write_all(lines.as_bytes()).unwrap();
    let output = child.wait_with_output().unwrap();
    assert_eq!(output.status.code(), Some(3));
    assert!(text(&output.stderr).contains("the disk failed: what was answered as not done"));
    let answers = text(&output.stdout);
    let done = answers.lines().filter(|answer| answer.starts_with("done: ")).count();
    assert!((3..12).contains(&done) && answers.lines().count() == 12, "{answers}");
    assert!(answers
        .lines()
        .skip(done)
        .all(|answer| answer.starts_with("not done: trade 0 1 2 3: ")
            && answer.contains("journal-0 could not be written: ")));
    assert_eq!(fs::metadata(desk.path().join("journal-0")).unwrap().len(), 144 * done as u64);
    let again = desk.run(&[], "status\n");
    let told = format!("journal-0 with {done} records\n");
    assert!(text(&again.stdout).ends_with(&told) && again.stderr.is_empty(), "{again:?}");
}

#[test]
fn a_damaged_record_is_named_and_can_be_cut() {
    let desk = Desk::made("damaged");
    desk.run(&[], DAY);
    let path = desk.path().join("journal-0");
    let mut bytes = fs::read(&path).unwrap();
    bytes[4 * 144 + 10] ^= 4;
    fs::write(&path, &bytes).unwrap();
    for words in [&[][..], &["compact"], &["tape"]] {
        let output = desk.run(words, "close\n");
        assert_eq!((output.status.code(), text(&output.stdout)), (Some(2), String::new()));
        let said = text(&output.stderr);
        assert!(
            said.contains("record 4, at byte 576, is damaged, with 4 records behind it"),
            "{said}"
        );
    }
    assert_eq!(desk.run(&["check"], "").status.code(), Some(1));
    assert_eq!(desk.run(&["cut"], "").status.code(), Some(1));
    assert_eq!(fs::read(&path).unwrap(), bytes);
    let cut = desk.answers(&["cut", "--yes"], "");
    assert!(cut.starts_with("the journal has 4 records now; 720 bytes are left out"), "{cut}");
    assert_eq!(fs::read(desk.path().join("journal-0.damaged-1")).unwrap(), bytes);
    assert_eq!(desk.answers(&["cut"], ""), "no record is damaged: nothing is cut\n");
    let told = desk.answers(&[], "status\n");
    assert!(told.starts_with("day 0, Settling") && told.ends_with("with 4 records\n"), "{told}");
}

#[test]
fn what_is_missing_or_in_the_way_is_told() {
    let desk = Desk::new("missing");
    let says = |words: &[&str]| {
        let output = desk.run(words, "");
        assert_eq!(output.status.code(), Some(2), "{output:?}");
        text(&output.stderr)
    };
    assert!(says(&[]).contains("there is no folder"));
    assert!(says(&["check"]).contains("make a book by `daybook new"));
    fs::create_dir(desk.path()).unwrap();
    assert!(says(&[]).contains("holds no book, no file snapshot-0"));
    assert_eq!(desk.run(&["new"], "").status.code(), Some(0));
    assert!(says(&["new"]).contains("holds a book already"));
    desk.run(&[], "trade 0 1 2 3\n");
    fs::rename(desk.path().join("snapshot-0"), desk.path().join("away")).unwrap();
    assert!(says(&[]).contains("journal-0 has records, and there is no snapshot-0"));
    assert!(says(&["new"]).contains("journal-0 has records, and there is no snapshot-0"));
    fs::rename(desk.path().join("away"), desk.path().join("snapshot-0")).unwrap();
    fs::rename(desk.path().join("journal-0"), desk.path().join("away")).unwrap();
    assert!(says(&[]).contains("journal-0 is missing: put it back from a copy"));
    fs::rename(desk.path().join("away"), desk.path().join("journal-0")).unwrap();
    fs::remove_file(desk.path().join("lock")).unwrap();
    fs::create_dir(desk.path().join("lock")).unwrap();
    assert!(says(&[]).contains("only read it"));
    assert!(desk.answers(&["tape"], "").ends_with("trade 0 1 2 3\n"));
}
