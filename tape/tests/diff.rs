//! `tape diff` as it is called: what it tells of two tapes, and with which status it ends.

use std::ffi::OsStr;
use std::fs;
use std::io::Write;
use std::path::{Path, PathBuf};
use std::process::{Command, Stdio};
use std::time::{Duration, Instant};
use tape::diff::{diff, Form};
use tape::input::{Day, Taken};
use tape::text;

/// The status, what was printed and what was said.
type Ended = (i32, String, String);

/// How an object begins, up to what it is of.
const BEGINS: &str = "{\"schema\":1,\"fact\":\"diff\",\"of\":\"";

/// A file of this content, which goes with this.
struct File(PathBuf);

impl File {
    fn new(name: &str, content: &[u8]) -> File {
        let path = std::env::temp_dir().join(format!("tape-diff-{}-{name}", std::process::id()));
        fs::write(&path, content).expect("a file");
        File(path)
    }
}

impl Drop for File {
    fn drop(&mut self) {
        let _ = fs::remove_file(&self.0);
    }
}

/// Runs `tape diff` with these words on this input.
fn ended(words: &[&OsStr], input: &[u8]) -> Ended {
    let mut child = Command::new(env!("CARGO_BIN_EXE_tape"))
        .arg("diff")
        .args(words)
        .stdin(Stdio::piped())
        .stdout(Stdio::piped())
        .stderr(Stdio::piped())
        .spawn()
        .expect("the tool runs");
    // The tool may end without reading its input.
    let _ = child.stdin.take().expect("a pipe").write_all(input);
    let output = child.wait_with_output().expect("the tool ends");
    let text = |bytes: &[u8]| String::from_utf8_lossy(bytes).to_string();
    (output.status.code().unwrap_or(-1), text(&output.stdout), text(&output.stderr))
}

/// What is told of a tape in a file, which is A, and one on standard input, which is B: the status and the lines
/// behind the first, which names them.
fn told(name: &str, options: &[&str], a: &str, b: &str) -> (i32, String) {
    let file = File::new(name, a.as_bytes());
    let mut words: Vec<&OsStr> = options.iter().map(OsStr::new).collect();
    words.extend([file.0.as_os_str(), OsStr::new("-")]);
    let (status, printed, said) = ended(&words, b.as_bytes());
    assert_eq!(said, "", "{printed}");
    let (head, rest) = printed.split_once('\n').expect("a line");
    if options.is_empty() {
        assert_eq!(head, format!("A is {}, B is standard input", file.0.display()));
    }
    (status, rest.to_string())
}

fn has(text: &str, lines: &[&str]) {
    for line in lines {
        assert!(text.lines().any(|one| one == *line), "{line}\n{text}");
    }
}

#[test]
fn equal_tapes_have_the_same_instructions() {
    let day = "trade 0 4 1 100\nclose\ndeliver 0 4 60\ncutoff\nroll 1 300 100000 accrued 0\n";
    assert_eq!(told("equal", &[], day, day), (0, "Day 0: the same instructions\n".into()));
    let days = format!("{day}{day}close\n");
    let same = "Days 0 to 2: the same instructions\n";
    assert_eq!(told("equal-days", &[], &days, &format!("# late\n\n{days}")), (0, same.into()));
    assert_eq!(told("empty", &[], "", ""), (0, "Day 0: the same instructions\n".into()));
}

#[test]
fn a_text_and_its_words_do_not_differ() {
    let folder = Path::new(env!("CARGO_MANIFEST_DIR")).join("../tapes");
    let (text, words) = (folder.join("p5-to-p9.txt"), folder.join("p5-to-p9.tape"));
    let (status, printed, said) = ended(&[text.as_os_str(), words.as_os_str()], b"");
    assert_eq!((status, said.as_str()), (0, ""));
    assert!(printed.ends_with("\nDay 0: the same instructions\n"), "{printed}");
    let hex = File::new("hex", b"10042000 80000003 50000000");
    let words = [OsStr::new("--hex"), hex.0.as_os_str(), OsStr::new("-")];
    assert_eq!(ended(&words, b"10042000 80000003 50000000").0, 0);
    assert_eq!(ended(&words, b"10042000 80000004 50000000").0, 1);
}

#[test]
fn a_corrected_day_is_told_as_stored() {
    let root = Path::new(env!("CARGO_MANIFEST_DIR")).join("..");
    let names = ["tapes/p5-to-p9.txt", "tapes/p5-to-p9-corrected.txt"];
    let mut tool = Command::new(env!("CARGO_BIN_EXE_tape"));
    let output = tool.arg("diff").args(names).current_dir(&root).output().expect("the tool runs");
    let stored =
        fs::read_to_string(root.join("tapes/p5-to-p9-corrected.diff")).expect("the stored");
    assert_eq!(String::from_utf8_lossy(&output.stdout), stored);
    assert_eq!(output.status.code(), Some(1));
    let documents = fs::read_to_string(root.join("docs/TAPE.md")).expect("docs/TAPE.md");
    assert!(documents.contains(&format!("$ tape diff {}\n{stored}```", names.join(" "))));
}

#[test]
fn one_trade_more_changes_the_order_and_the_fails() {
    let a = "trade 0 4 1 100000\ntrade 0 4 2 50000\nclose\ncutoff\n";
    let b = "trade 0 4 1 100000\ntrade 0 4 2 50000\ntrade 0 5 3 70000\nclose\ncutoff\n";
    let (status, text) = told("more", &[], a, b);
    assert_eq!(status, 1);
    let expected = "\
Day 0, instructions: 1 only in B
  only in B, word 4, line 3: trade: account 5 sells account 3 70,000 lots (3,500,000,000 yen face) of issue 0
  issue 0: unit 1 is in A account 2's, 50,000 lots; in B account 3's, 70,000 lots; the accounts from there on: in A 2; in B 3, 2
  issue 0: account 4 fails account 2: 50,000 lots in A, nothing in B
  issue 0: account 4 fails account 3: nothing in A, 50,000 lots in B
  issue 0: account 5 fails account 2: nothing in A, 50,000 lots in B
  issue 0: account 5 fails account 3: nothing in A, 20,000 lots in B
At the end: day 0, Cut
  issue 0: account 3 stands at 0 in A, 70,000 in B
  issue 0: account 5 stands at 0 in A, -70,000 in B
  issue 0: account 4 owes account 2 since day 0: 50,000 lots in A, nothing in B
  issue 0: account 4 owes account 3 since day 0: nothing in A, 50,000 lots in B
  issue 0: account 5 owes account 2 since day 0: nothing in A, 50,000 lots in B
  issue 0: account 5 owes account 3 since day 0: nothing in A, 20,000 lots in B
";
    assert_eq!(text, expected);
    let (_, back) = told("less", &[], b, a);
    has(&back, &["Day 0, instructions: 1 only in A"]);
    has(&back, &["  issue 0: account 4 fails account 2: nothing in A, 50,000 lots in B"]);
}

#[test]
fn changed_lots_change_the_charges_of_each_day_that_follows() {
    let roll = "close\ncutoff\nroll 1 300 100000 accrued 0\n";
    let day = |lots: u32| format!("trade 0 4 1 {lots}\n{roll}{roll}");
    let (status, text) = told("lots", &[], &day(100_000), &day(90_000));
    assert_eq!(status, 1);
    let expected = "\
Day 0, instructions: 1 changed
  changed, word 0, line 1: trade: account 4 sells account 1 100,000 lots (5,000,000,000 yen face) of issue 0; in B 90,000 lots (4,500,000,000 yen face)
  issue 0: unit 0 is in A account 1's, 100,000 lots; in B account 1's, 90,000 lots; the accounts from there on: 1
  issue 0: account 4 fails account 1: 100,000 lots in A, 90,000 lots in B
  roll: account 1: 410,958 yen in A, 369,863 yen in B
  roll: account 4: -410,958 yen in A, -369,863 yen in B
Day 1: the same instructions
  roll: account 1: 410,958 yen in A, 369,863 yen in B
  roll: account 4: -410,958 yen in A, -369,863 yen in B
At the end: day 2, Taking
  issue 0: account 4 owes account 1 since day 0: 100,000 lots in A, 90,000 lots in B
  account 1: 821,916 yen in A, 739,726 yen in B
  account 4: -821,916 yen in A, -739,726 yen in B
";
    assert_eq!(text, expected);
}

#[test]
fn trades_in_another_order_change_nothing() {
    let a = "trade 0 4 1 100\ntrade 0 5 2 50\nclose\ncutoff\n";
    let b = "trade 0 5 2 50\ntrade 0 4 1 100\nclose\ncutoff\n";
    let moved = "\
Day 0, instructions: 1 moved
  moved, A word 0, line 1, B word 2, line 2: trade: account 4 sells account 1 100 lots (5,000,000 yen face) of issue 0
  day 0: the books end the same
";
    assert_eq!(told("moved", &[], a, b), (1, moved.to_string()));
    let (block, rest) =
        ("trade 1 8 9 1\ntrade 1 8 9 2\ntrade 1 8 9 3\n", "trade 2 8 9 4\n".repeat(5));
    let (_, text) = told("block", &[], &format!("{block}{rest}"), &format!("{rest}{block}"));
    has(&text, &["Day 0, instructions: 3 moved", "  day 0: the books end the same"]);
    has(
        &text,
        &["  moved, 3 instructions from A word 0, line 1, B word 10, line 6 on, the first: trade: account 8 \
           sells account 9 1 lot (50,000 yen face) of issue 1"],
    );
}

#[test]
fn a_delivery_that_ends_inside_a_unit_hands_none() {
    let day = |lots: u32| format!("trade 5 3 1 200001\nclose\ndeliver 5 3 {lots}\ncutoff\n");
    let (status, text) = told("inside", &[], &day(99_999), &day(100_000));
    assert_eq!(status, 1);
    has(
        &text,
        &[
            "Day 0, instructions: 1 changed",
            "  issue 5: account 1 is handed in A 99,999 lots of a unit; in B 1 unit, 100,000 lots in all",
            "  issue 5: account 3 fails account 1: 100,002 lots in A, 100,001 lots in B",
        ],
    );
    let open = |lots: u32| format!("trade 5 3 1 200001\nclose\ndeliver 5 3 {lots}\n");
    let (_, text) = told("waits", &[], &open(100_000), &open(100_001));
    has(&text, &["  issue 5: account 3 has delivered today 100,000 lots in A, 100,001 lots in B"]);
    assert!(!text.contains("is handed"), "{text}");
}

#[test]
fn a_tie_that_is_decided_otherwise_shows_in_the_order() {
    let day = |lots: u32| format!("trade 0 20 9 {lots}\ntrade 0 21 7 150000\nclose\n");
    let (_, text) = told("tie", &[], &day(150_000), &day(150_001));
    has(
        &text,
        &["  issue 0: unit 0 is in A account 7's, 100,000 lots; in B account 9's, 100,000 lots; the accounts from \
           there on: in A 7, 9, 7, 9; in B 9, 7, 9, 7"],
    );
    let turned = |turn: &str| {
        let trades = "trade 0 9 1 450000\ntrade 0 9 2 230000\n";
        format!("{turn}close\ncutoff\nroll 1 300 100000 accrued 0\n{trades}close\n")
    };
    let (_, text) = told("turn", &[], &turned(""), &turned("turn 1\n"));
    has(
        &text,
        &[
            "Day 0, instructions: 1 only in B",
            "Day 1: the same instructions",
            "  issue 0: unit 1 is in A account 1's, 100,000 lots; in B account 2's, 100,000 lots; the accounts from \
             there on: in A 1 (3 units), 2 (2 units), 1, 2; in B 2, 1, 2, 1 (3 units), 2",
            "At the end: day 1, Settling",
            "  full units are dealt in turn from no day on in A, from day 1 on in B",
        ],
    );
}

#[test]
fn an_instruction_refused_in_one_is_told_with_why() {
    let day = |lots: u32| format!("trade 0 1 2 {lots}\nclose\ndeliver 0 1 5\ncutoff\n");
    let (status, text) = told("refused", &[], &day(5), &day(4));
    assert_eq!(status, 1);
    has(
        &text,
        &["  refused otherwise, word 3, line 3: deliver: account 1 delivers 5 lots (250,000 yen face) of issue 0: done \
           in A; in B refused by 9: the account does not owe that many lots; account 1 still owes 4 lots of issue 0 \
           today"],
    );
    // Refused in both by the same number: nothing to tell.
    let (_, text) = told("both", &[], &day(3), &day(4));
    assert!(!text.contains("refused"), "{text}");
    // Many like ones are one line.
    let many = |first: &str| format!("{first}trade 0 1 2 9\nclose\n{}", "mark 0 1\n".repeat(9));
    let (_, text) = told("like", &[], &many(""), &many("close\n"));
    has(
        &text,
        &["  refused otherwise, A word 0, line 1, B word 1, line 2: trade: account 1 sells account 2 9 lots (450,000 \
           yen face) of issue 0: done in A; in B refused by 3: this is not the call's phase; the book is in Settling, \
           trade belongs to Taking"],
    );
    let like = text.lines().find(|line| line.contains("9 times from")).expect("a line");
    assert!(like.contains("in A refused by 20: ") && like.ends_with("; done in B"), "{like}");
}

#[test]
fn where_reading_ends_is_told() {
    let a = "trade 0 1 2 3\nclose\nword 50000001\ncutoff\n";
    let (status, text) = told("damaged", &[], a, "trade 0 1 2 3\nclose\ncutoff\n");
    assert_eq!(status, 1);
    has(
        &text,
        &[
            "Day 0, instructions: 1 only in B",
            "  only in B, word 3, line 3: cutoff",
            "At the end: in A day 0, Settling; in B day 0, Cut",
            "  reading ends in A at word 3, line 3, refused by 14: a word's kind or its unused bits are wrong; B is \
             read to its end",
        ],
    );
    assert_eq!(told("both-end", &[], a, a), (0, "Day 0: the same instructions\n".into()));
    let (status, text) = told("rest", &[], a, &a.replace("50000001", "50000002"));
    assert_eq!(status, 1);
    assert!(
        text.starts_with("Day 0: the same instructions\nAt the end: day 0, Settling\n  reading")
    );
    let (status, text) = told("cut", &[], "close\nbyte 00\n", "close\n");
    assert!(status == 1 && text.contains("in A at word 1, line 2, refused by 13: "), "{text}");
}

#[test]
fn days_that_one_tape_has_alone_are_counted() {
    let a = "close\ncutoff\nroll 1 300 100000 accrued 0\n";
    let (status, text) = told("days", &[], a, &format!("{a}trade 0 1 2 3\nclose\n"));
    let expected = "\
Day 0: the same instructions
Day 1 stands only in B: 2 instructions, from word 35, line 4 on
At the end: in A day 1, Taking; in B day 1, Settling
  issue 0: account 1 stands at 0 in A, -3 in B
  issue 0: account 2 stands at 0 in A, 3 in B
";
    assert_eq!((status, text.as_str()), (1, expected));
    let (status, text) = told("more-days", &[], &a.repeat(4), a);
    assert_eq!(status, 1);
    has(&text, &["Days 1 to 3 stand only in A: 9 instructions, from word 35, line 4 on"]);
    has(&text, &["At the end: in A day 4, Taking; in B day 1, Taking"]);
    // A roll at the end begins a day that has nothing in it.
    let (_, text) = told("roll", &[], a, "close\ncutoff\n");
    assert!(!text.contains("stands only"), "{text}");
    has(&text, &["At the end: in A day 1, Taking; in B day 0, Cut"]);
}

#[test]
fn other_terms_of_a_roll_are_told() {
    let day = |roll: &str| format!("close\ncutoff\nroll {roll}\n");
    let changed = |a: &str, b: &str| {
        let (status, text) = told("terms", &[], &day(a), &day(b));
        assert_eq!(status, 1, "{text}");
        assert!(text.ends_with("\n  day 0: the books end the same\n"), "{text}");
        text.lines().nth(1).unwrap_or_default().to_string()
    };
    assert_eq!(
        changed("1 300 100000 accrued 0", "2 300 100000 accrued 0"),
        "  changed, word 2, line 3: roll: 1 day at 3.00 percent a year; in B roll: 2 days at 3.00 percent a year"
    );
    let prices = "1 300 100000 100000 5 5 5 5 5 5 5 5 5 5 5 5 5 5 accrued 0";
    let others =
        "1 300 100000 100001 5 5 5 5 5 5 5 5 5 5 5 5 5 5 accrued 0 0 0 0 0 0 0 0 0 0 0 0 0 0 0 7";
    assert_eq!(
        changed(prices, others),
        "  changed, word 2, line 3: roll: 1 day at 3.00 percent a year; the quotes of issues 1 and 15 differ"
    );
}

#[test]
fn resolves_pair_offs_and_marks_are_sums() {
    let day = |later: &str| {
        format!(
            "trade 3 1 2 30\nclose\ncutoff\nroll 1 300 100000 accrued 0\ntrade 3 2 4 20\nclose\ncutoff\n{later}"
        )
    };
    let (_, text) = told("later", &[], &day("pair-off 3 2\nmark 5 1\n"), &day("resolve 3 1 12\n"));
    has(
        &text,
        &[
            "Day 0: the same instructions",
            "Day 1, instructions: 2 only in A, 1 only in B",
            "  issue 3: account 1 hands to account 2 in resolves: nothing in A, 12 lots in B",
            "  issue 3: account 2 pairs off 20 lots in A, nothing in B",
            "  issue 5 takes even lots only in A, any lots in B",
            "  issue 3: account 1 owes account 2 since day 0: 10 lots in A, 18 lots in B",
            "  issue 3: account 1 owes account 4 since day 1: 20 lots in A, nothing in B",
        ],
    );
}

#[test]
fn of_many_differences_the_first_are_listed() {
    let trades = |lots: u32| -> String {
        (0..40).map(|at| format!("trade 0 1 2 {}\n", lots + at)).collect()
    };
    let (_, text) = told("many", &[], &trades(1), "close\n");
    assert_eq!(text.matches("  only in A, ").count(), 12, "{text}");
    has(&text, &["Day 0, instructions: 40 only in A, 1 only in B"]);
    has(&text, &["  28 more instructions only in A are not listed"]);
    // As JSON all are told.
    let (_, json) = told("many-json", &["--json"], &trades(1), "close\n");
    assert_eq!(json.matches("\"of\":\"only\"").count(), 41);
    let like = "deliver 0 1 1\n".repeat(9_000);
    let head = "trade 0 1 2 100000\nclose\n";
    let (_, text) = told("like-ones", &[], &format!("{head}{like}"), head);
    let line = "  only in A, 9,000 times from word 3, line 3 on: deliver: account 1 delivers 1 lot (50,000 yen face) of \
                issue 0";
    has(&text, &["Day 0, instructions: 9,000 only in A", line]);
}

#[test]
fn time_is_by_the_length_of_the_tapes() {
    // Trades between two accounts, to and fro, which the book takes.
    let trades = |count: u32, lots: u32| -> Vec<u8> {
        let head = |at: u32| if at % 2 == 0 { 0x1004_2000 } else { 0x1008_1000 };
        let words = (0..count).flat_map(|at| [head(at), 0x8000_0000 | (lots + at * 7 % 90_001)]);
        words.flat_map(u32::to_le_bytes).collect()
    };
    let turn = 0xe000_0005_u32.to_le_bytes();
    let start = Instant::now();
    let equal = trades(300_000, 1);
    let more = [&turn[..], &equal, &turn].concat();
    for (one, other) in [(&equal, &equal), (&equal, &more), (&equal, &trades(300_000, 100_000))] {
        let days =
            [one, other].map(|tape| Day::of("x", tape.clone(), Taken::Words).expect("words"));
        let mut told = Vec::new();
        let differs = diff([&days[0], &days[1]], Form::Text, &mut told).expect("it is written");
        assert_eq!(differs, one != other);
        assert!(told.len() < 20_000, "{}", told.len());
    }
    assert!(start.elapsed() < Duration::from_secs(60), "{:?}", start.elapsed());
}

/// Numbers that look random, from a seed.
struct Numbers(u64);

impl Numbers {
    fn below(&mut self, limit: u32) -> u32 {
        self.0 = self.0.wrapping_mul(0x5851_f42d_4c95_7f2d).wrapping_add(0x1405_7b7e_f767_814f);
        (self.0 >> 33) as u32 % limit
    }

    /// A line of a small market.
    fn line(&mut self) -> String {
        let (issue, one) = (self.below(2), self.below(4));
        let (other, lots) = (self.below(4), 1 + self.below(3) * 100_000);
        match self.below(12) {
            0..=4 => format!("trade {issue} {one} {other} {lots}"),
            5 => "close".to_string(),
            6 | 7 => format!("deliver {issue} {one} {lots}"),
            8 => "cutoff".to_string(),
            9 => format!("resolve {issue} {one} {lots}"),
            10 => format!("pair-off {issue} {one}"),
            _ => "roll 1 300 100000 accrued 0".to_string(),
        }
    }
}

#[test]
fn tapes_differ_just_where_their_words_do() {
    let mut numbers = Numbers(3);
    let mut same = 0;
    for _ in 0..400 {
        let a: Vec<String> = (0..numbers.below(40)).map(|_| numbers.line()).collect();
        let mut b = a.clone();
        for _ in 0..numbers.below(3) {
            let at = numbers.below(b.len() as u32 + 1) as usize;
            match numbers.below(3) {
                0 => b.insert(at, numbers.line()),
                1 if at < b.len() => drop(b.remove(at)),
                _ if at + 1 < b.len() => b.swap(at, at + 1),
                _ => {}
            }
        }
        let tapes = [&a, &b].map(|lines| text::to_tape(&lines.join("\n")).expect("a text form"));
        let days = tapes.each_ref().map(|tape| Day::of("x", tape.clone(), Taken::Words).unwrap());
        for form in [Form::Text, Form::Json] {
            let differs = |one: &Day, other: &Day| {
                diff([one, other], form, &mut std::io::sink()).expect("it is written")
            };
            let differ = tapes[0] != tapes[1];
            let found = [differs(&days[0], &days[1]), differs(&days[1], &days[0])];
            assert_eq!(found, [differ; 2], "{a:?} {b:?}");
            same += u32::from(!differ);
        }
    }
    assert!(same > 50, "{same} are the same");
}

/// Pairs of tapes that have every difference.
fn differing() -> Vec<(String, String)> {
    let roll = "roll 1 300 100000 accrued 0\n";
    let day = format!("trade 3 1 2 30\nclose\ncutoff\n{roll}trade 3 2 4 20\nclose\ncutoff\n");
    let trades: Vec<String> = (1..=900).map(|lots| format!("trade 0 1 2 {lots}\n")).collect();
    let falling: Vec<String> = trades.iter().rev().cloned().collect();
    let paired = |pair_offs: &str| {
        let fails = "trade 0 1 2 9\ntrade 1 1 2 9\nclose\ncutoff\n";
        format!("{fails}{roll}trade 0 2 3 9\ntrade 1 2 3 9\nclose\ncutoff\n{pair_offs}")
    };
    vec![
        (
            format!("{day}pair-off 3 2\nmark 5 1\nturn 7\n"),
            format!("{day}resolve 3 1 12\nturn 8\n{roll}close\n"),
        ),
        (
            "trade 0 1 2 150000\nclose\ndeliver 0 1 9\ncutoff\n".to_string() + roll,
            "trade 0 1 2 9\nclose\ndeliver 0 1 10\ndeliver 0 1 9\ncutoff\n".to_string() + roll,
        ),
        (
            "trade 0 1 2 9\nclose\ndeliver 0 1 10\n".into(),
            "trade 0 1 2 10\nclose\ndeliver 0 1 10\n".into(),
        ),
        (
            "trade 0 1 2 5\ntrade 0 3 4 5\nclose\n".into(),
            "trade 0 3 4 5\ntrade 0 1 2 5\nclose\n".into(),
        ),
        ("close\nword 0\n".into(), "close\n".into()),
        (trades.concat(), falling.concat()),
        (paired("pair-off 0 2\npair-off 1 2\n"), paired("pair-off 1 2\npair-off 0 2\n")),
    ]
}

#[test]
fn every_fact_of_json_is_in_the_documents() {
    let path = Path::new(env!("CARGO_MANIFEST_DIR")).join("../docs/TAPE.md");
    let documents = fs::read_to_string(path).expect("docs/TAPE.md");
    let section = documents.split("\n## tape diff\n").nth(1).expect("the section");
    let section = section.split("\n## ").next().unwrap_or_default();
    let (mut names, mut facts) = (Vec::new(), 0);
    for (a, b) in differing() {
        let (status, json) = told("facts", &["--json"], &a, &b);
        assert_eq!(status, 1);
        for line in json.lines() {
            let name = line.strip_prefix(BEGINS).and_then(|rest| rest.split('"').next());
            let name = name.unwrap_or_else(|| panic!("{line}"));
            let row = section.lines().find(|row| row.starts_with(&format!("| `{name}` |")));
            let row = row.unwrap_or_else(|| panic!("docs/TAPE.md has no row of `{name}`"));
            for field in line.split('"').filter(|part| part.chars().all(char::is_alphabetic)) {
                let of_all =
                    ["schema", "fact", "of", "day", "word", "line", "call", "a", "b", "count"];
                let quoted = format!("\"{field}\":");
                if line.contains(&quoted) && !of_all.contains(&field) && !of_call(field) {
                    assert!(row.contains(&format!("`{field}`")), "`{name}` has `{field}`: {row}");
                }
            }
            names.push(name.to_string());
            facts += 1;
        }
    }
    names.sort();
    names.dedup();
    let expected = "alone books-same change-over changed charge charged day delivered end entry fails handed ledger \
        marked moved net only order paired reading-ends refused resolved same unordered";
    let found: Vec<&str> = names.iter().map(String::as_str).collect();
    assert_eq!(found, expected.split_whitespace().collect::<Vec<_>>(), "{facts} facts");
    assert!(section.contains("| `tapes` |"));
}

/// Is it a number of an instruction?
fn of_call(field: &str) -> bool {
    ["issue", "from", "to", "account", "lots", "days", "rate", "mark", "turn", "refusal", "why"]
        .contains(&field)
}

#[test]
fn objects_have_what_is_of_both_tapes_in_a_and_b() {
    let file = File::new("objects \"x\"", b"trade 0 1 2 5\nclose\ndeliver 0 1 5\ncutoff\n");
    let words = [OsStr::new("--json"), file.0.as_os_str(), OsStr::new("-")];
    let (status, json, _) = ended(&words, b"trade 0 1 2 4\nclose\ndeliver 0 1 5\ncutoff\n");
    assert_eq!(status, 1);
    let escaped = file.0.display().to_string().replace('"', "\\\"");
    let tapes = format!("tapes\",\"a\":\"{escaped}\",\"b\":\"standard input\"}}");
    let objects = [
        tapes.as_str(),
        "day\",\"day\":0,\"a\":0,\"b\":0,\"moved\":0,\"changed\":1}",
        "changed\",\"day\":0,\"call\":\"trade\",\"a\":{\"word\":0,\"line\":1,\"issue\":0,\"from\":1,\"to\":2,\
         \"lots\":5},\"b\":{\"word\":0,\"line\":1,\"issue\":0,\"from\":1,\"to\":2,\"lots\":4},\"quoted\":[]}",
        "refused\",\"day\":0,\"count\":1,\"call\":\"deliver\",\"issue\":0,\"account\":1,\"lots\":5,\
         \"a\":{\"word\":3,\"line\":3,\"refusal\":0},\"b\":{\"word\":3,\"line\":3,\"refusal\":9,\"why\":\"refused \
         by 9: the account does not owe that many lots; account 1 still owes 4 lots of issue 0 today\"}}",
        "order\",\"day\":0,\"issue\":0,\"unit\":0,\"a\":{\"account\":2,\"lots\":5,\"accounts\":[2],\"units\":[1],\
         \"more\":0},\"b\":{\"account\":2,\"lots\":4,\"accounts\":[2],\"units\":[1],\"more\":0}}",
        "handed\",\"day\":0,\"issue\":0,\"account\":2,\"a\":{\"units\":1,\"lots\":5},\"b\":{\"units\":0,\"lots\":0}}",
        "fails\",\"day\":0,\"issue\":0,\"from\":1,\"to\":2,\"a\":0,\"b\":4}",
        "end\",\"a\":{\"day\":0,\"phase\":\"Cut\"},\"b\":{\"day\":0,\"phase\":\"Cut\"}}",
        "net\",\"issue\":0,\"account\":1,\"a\":-5,\"b\":-4}",
    ];
    for object in objects {
        has(&json, &[&format!("{BEGINS}{object}")]);
    }
}

/// What is told of two tapes by the names of a file, with these options. The names have a date too, and the days of
/// two tapes may have different ones: none is told.
fn told_by_names(name: &str, options: &[&str]) -> String {
    let names = "date 2026-11-17\nissue 0 JGB-350\naccount 1 Aoba\naccount 2 Bizen\n";
    let names = File::new(&format!("{name}-names"), names.as_bytes());
    let file = names.0.to_str().expect("a name");
    let options = [options, &["--names", file]].concat();
    let a = "trade JGB-350 Aoba Bizen 5\nclose\ncutoff\n";
    let b = "trade 0 1 2 4\ndeliver 0 Aoba 1\nclose\ndeliver 0 1 1\ncutoff\n";
    let (status, told) = told(name, &options, a, b);
    assert!(status == 1 && !told.contains("2026-11-17"), "{told}");
    told
}

#[test]
fn names_stand_in_the_place_of_numbers() {
    let text = told_by_names("named", &[]);
    has(
        &text,
        &[
            "Day 0, instructions: 2 only in B, 1 changed",
            "  changed, word 0, line 1: trade: account Aoba sells account Bizen 5 lots (250,000 yen face) of issue \
             JGB-350; in B 4 lots (200,000 yen face)",
            "  issue JGB-350: account Aoba fails account Bizen: 5 lots in A, 3 lots in B",
            "At the end: day 0, Cut",
            "  issue JGB-350: account Aoba owes account Bizen since day 0: 5 lots in A, 3 lots in B",
        ],
    );
}

#[test]
fn names_stand_beside_the_numbers_of_objects() {
    let json = told_by_names("named-json", &["--json"]);
    let issue = "\"issue\":0,\"issue_name\":\"JGB-350\"";
    let account = "\"account\":1,\"account_name\":\"Aoba\"";
    let from_to = "\"from\":1,\"from_name\":\"Aoba\",\"to\":2,\"to_name\":\"Bizen\"";
    let unit = |lots: u32| {
        let whose = "\"account\":2,\"account_name\":\"Bizen\"";
        format!("{{{whose},\"lots\":{lots},\"accounts\":[2],\"units\":[1],\"more\":0}}")
    };
    let trade = |lots: u32| format!("{{\"word\":0,\"line\":1,{issue},{from_to},\"lots\":{lots}}}");
    for object in [
        format!(
            "only\",\"day\":0,\"in\":\"b\",\"word\":2,\"line\":2,\"count\":1,\"call\":\"deliver\",{issue},{account},\
             \"lots\":1}}"
        ),
        format!("changed\",\"day\":0,\"call\":\"trade\",\"a\":{},\"b\":{},\"quoted\":[]}}", trade(5), trade(4)),
        format!("order\",\"day\":0,{issue},\"unit\":0,\"a\":{},\"b\":{}}}", unit(5), unit(4)),
        format!("fails\",\"day\":0,{issue},{from_to},\"a\":5,\"b\":3}}"),
        "end\",\"a\":{\"day\":0,\"phase\":\"Cut\"},\"b\":{\"day\":0,\"phase\":\"Cut\"}}".to_string(),
        format!("net\",{issue},{account},\"a\":-5,\"b\":-4}}"),
        format!("delivered\",{issue},{account},\"a\":0,\"b\":1}}"),
        format!("entry\",{issue},{from_to},\"since\":0,\"a\":5,\"b\":3}}"),
    ] {
        has(&json, &[&format!("{BEGINS}{object}")]);
    }
}

#[test]
fn wrong_words_and_files_are_told_with_status_2() {
    let file = File::new("wrong", b"close\nsell\n");
    let (file, dash) = (file.0.as_os_str(), OsStr::new("-"));
    let option = |name: &'static str| OsStr::new(name);
    for (words, told) in [
        (vec![], "diff needs two tapes:"),
        (vec![dash], "diff needs two tapes:"),
        (vec![dash, dash, dash], "diff needs two tapes:"),
        (vec![dash, dash], "standard input is one file: name `-` once"),
        (vec![option("--hex"), option("--words"), file, dash], "--hex and --words contradict"),
        (vec![option("--html"), file, dash], "`tape diff` has no option --html"),
        (vec![option("/nowhere/day"), dash], "cannot read /nowhere/day"),
    ] {
        let (status, printed, said) = ended(&words, b"close\n");
        assert_eq!((status, printed.as_str()), (2, ""), "{words:?}");
        assert!(said.contains(told) && said.matches(told).count() == 1, "{words:?}: {said}");
    }
    // What is wrong with both is told.
    let (status, _, said) = ended(&[file, dash], b"buy\n");
    assert_eq!(status, 2);
    let places: Vec<bool> =
        ["wrong:2:1: ", "standard input:1:1: "].map(|at| said.contains(at)).to_vec();
    assert_eq!(places, [true, true], "{said}");
}
