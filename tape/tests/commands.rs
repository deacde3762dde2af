//! The tool as it is called: what it prints, what it says and with which status it ends.

use std::ffi::OsStr;
use std::fs;
use std::io::{Read, Write};
use std::os::unix::ffi::OsStrExt;
use std::os::unix::fs::PermissionsExt;
use std::os::unix::process::ExitStatusExt;
use std::path::{Path, PathBuf};
use std::process::{Child, Command, Output, Stdio};
use std::thread::sleep;
use std::time::{Duration, Instant};

/// Runs the tool with these words on this input.
fn tape<W: AsRef<OsStr>>(words: &[W], input: &[u8]) -> Output {
    let mut child = begun(words);
    let mut stdin = child.stdin.take().expect("standard input is piped");
    // The tool may end without reading its input.
    let _ = stdin.write_all(input);
    drop(stdin);
    child.wait_with_output().expect("the tool ends")
}

/// The tool at work on these words.
fn begun<W: AsRef<OsStr>>(words: &[W]) -> Child {
    Command::new(env!("CARGO_BIN_EXE_tape"))
        .args(words)
        .stdin(Stdio::piped())
        .stdout(Stdio::piped())
        .stderr(Stdio::piped())
        .spawn()
        .expect("the tool runs")
}

/// An empty folder for a test of this name.
fn folder(name: &str) -> PathBuf {
    let folder = std::env::temp_dir().join(format!("tape-test-{}-{name}", std::process::id()));
    let _ = fs::remove_dir_all(&folder);
    fs::create_dir(&folder).expect("a folder");
    folder
}

/// A file of a folder, with this content.
fn file(folder: &Path, name: impl AsRef<Path>, content: &[u8]) -> PathBuf {
    let path = folder.join(name);
    fs::write(&path, content).expect("a file");
    path
}

/// The names of the files of a folder.
fn names(folder: &Path) -> Vec<String> {
    let files = fs::read_dir(folder).expect("the folder");
    let mut names: Vec<String> =
        files.map(|file| file.expect("a file").file_name().to_string_lossy().into()).collect();
    names.sort();
    names
}

/// The status, what was printed and what was said.
fn ended<W: AsRef<OsStr>>(words: &[W], input: &[u8]) -> (i32, String, String) {
    let output = tape(words, input);
    let text = |bytes: &[u8]| String::from_utf8_lossy(bytes).to_string();
    (output.status.code().unwrap_or(-1), text(&output.stdout), text(&output.stderr))
}

#[test]
fn help_and_version() {
    for words in [&["--help"][..], &["-h"], &["explain", "--help"], &["help"]] {
        let (status, printed, said) = ended(words, b"");
        assert_eq!((status, said.as_str()), (0, ""), "{words:?}");
        assert!(printed.starts_with("tape write ") && printed.contains("Status: 0 done"));
    }
    assert_eq!(ended(&["--version"], b"").1, format!("tape {}\n", env!("CARGO_PKG_VERSION")));
}

#[test]
fn wrong_words_are_told_with_status_2() {
    for (words, told) in [
        (&[][..], "say what to do"),
        (&["play"], "there is no `tape play`"),
        (
            &["read", "--hexa"],
            "`tape read` has no option --hexa: it takes --hex, --words, --names, -o, --force",
        ),
        (&["write", "--account", "1"], "`tape write` has no option --account"),
        (&["read", "a", "b"], "name one file: what is told goes to another by -o FILE"),
        (&["write", "w.txt", "w.tape"], "name one file: what is told goes to another by -o FILE"),
        (&["read", "/nowhere/day.tape"], "cannot read /nowhere/day.tape"),
        (&["write", "-o", "/nowhere/day.tape"], "cannot write /nowhere/day.tape"),
        (&["write", "-o", "/"], "cannot write /: it is a folder"),
        (&["write", "-o"], "-o needs a file"),
        (&["write", "--force"], "name one by -o FILE"),
        (&["run", "--program"], "--program needs a path"),
        (&["explain", "--account", "64"], "--account needs a number from 0 to 63, not \"64\""),
        (&["explain", "--account=99"], "--account needs a number from 0 to 63, not \"99\""),
        (&["explain", "--issue", "16"], "--issue needs a number from 0 to 15, not \"16\""),
        (&["explain", "--day", "65536"], "--day needs a number from 0 to 65535, not \"65536\""),
        (&["explain", "--day", "1"], "--day 1: the tape ends on day 0"),
        (&["explain", "--issue"], "--issue needs a number from 0 to 15"),
        (&["explain", "--issue", "1", "--issue=2"], "--issue stands twice"),
        (&["explain", "--json", "--html"], "--json and --html contradict each other"),
        (&["check", "--hex", "--words"], "--hex and --words contradict each other"),
        (&["check", "--hex=1"], "--hex takes no value"),
        (&["check", "-", "-"], "standard input is one file: name `-` once"),
        (&["run", "--program", "/nowhere/dayrun"], "/nowhere/dayrun cannot be run"),
    ] {
        let (status, printed, said) = ended(words, b"close\n");
        assert_eq!((status, printed.as_str()), (2, ""), "{words:?}");
        assert!(said.starts_with("tape: ") && said.contains(told), "{words:?}: {said}");
    }
}

#[test]
fn all_errors_of_a_text_have_file_line_and_column() {
    let (status, printed, said) = ended(&["write"], b"trade 16 1 2 x\nclose\nsell\n");
    assert_eq!((status, printed.as_str()), (2, ""));
    let lines: Vec<&str> = said.lines().collect();
    assert_eq!(lines.len(), 3, "{said}");
    assert!(lines[0].starts_with("tape: standard input:1:7: issue \"16\""), "{said}");
    assert!(lines[1].starts_with("tape: standard input:1:14: lots \"x\""), "{said}");
    assert!(lines[2].starts_with("tape: standard input:3:1: there is no instruction"), "{said}");
    let (status, _, said) = ended(&["explain", "--hex"], b"50000000 close\n");
    assert_eq!(status, 2);
    assert!(said.starts_with("tape: standard input:1:10: \"close\" is not a word"), "{said}");
}

#[test]
fn a_text_is_told_from_words() {
    let text = b"trade 0 1 2 3\nclose\ncutoff\n";
    let words = tape(&["write"], text).stdout;
    assert_eq!(ended(&["read"], &words).1.as_bytes(), text);
    let (status, _, said) = ended(&["read"], text);
    assert!(status == 2 && said.contains("this is text and not the words of a tape"), "{said}");
    let (status, _, said) = ended(&["write"], &words);
    assert!(status == 2 && said.contains("these are the words of a tape and not text"), "{said}");
    let told = ended(&["explain"], text).1;
    assert!(told.contains("account 1 fails account 2"), "{told}");
    let of_words = ended(&["explain"], &words).1;
    assert_eq!(
        of_words,
        told.replace(", line 1", "").replace(", line 2", "").replace(", line 3", "")
    );
    assert_eq!(ended(&["explain", "--hex"], b"10042000 80000003 50000000 60000000").1, of_words);
}

#[test]
fn check_tells_refusals_with_status_1() {
    let (status, printed, said) = ended(&["check"], b"trade 0 1 2 3\nclose\ntrade 0 1 2 3\n");
    assert_eq!((status, said.as_str()), (1, ""));
    assert_eq!(
        printed,
        "standard input:3:1: trade: refused by 3: this is not the call's phase; the book is in \
         Settling, trade belongs to Taking\n3 instructions, 1 refused\n"
    );
    assert_eq!(ended(&["check"], b"close\n"), (0, "1 instruction, 0 refused\n".into(), "".into()));
}

#[test]
fn check_tells_refusals_as_objects_too() {
    let text = b"trade 0 1 2 3\nclose\n  trade 0 1 2 3\nword 50000001\n";
    let (status, printed, said) = ended(&["check", "--json"], text);
    assert_eq!((status, said.as_str()), (1, ""));
    let expected = "\
{\"schema\":1,\"fact\":\"instruction\",\"day\":0,\"word\":3,\"line\":3,\"column\":3,\"file\":\"standard input\",\
\"call\":\"trade\",\"issue\":0,\"from\":1,\"to\":2,\"lots\":3,\"refusal\":3,\"why\":\"refused by 3: this is not the \
call's phase; the book is in Settling, trade belongs to Taking\"}
{\"schema\":1,\"fact\":\"reading-ends\",\"day\":0,\"word\":5,\"line\":4,\"column\":1,\"file\":\"standard input\",\
\"refusal\":14,\"why\":\"a word's kind or its unused bits are wrong\"}
{\"schema\":1,\"fact\":\"checked\",\"instructions\":3,\"refused\":2}
";
    assert_eq!(printed, expected);
    let words = tape(&["write"], text).stdout;
    let of_words = ended(&["check", "--json"], &words).1;
    let without_place = |line: &str| !line.contains("\"line\":") && !line.contains("\"column\":");
    assert!(of_words.lines().all(without_place) && of_words.lines().count() == 3, "{of_words}");
    let good = "{\"schema\":1,\"fact\":\"checked\",\"instructions\":1,\"refused\":0}\n";
    assert_eq!(ended(&["check", "--json"], b"close\n"), (0, good.into(), "".into()));
}

#[test]
fn a_roll_without_accrued_amounts_is_told() {
    let said =
        "tape: standard input:1:1: this roll has no accrued amounts: they are taken as 0 for \
                every issue\n";
    let (status, hex, notes) = ended(&["write", "--hex"], b"roll 1 300 100000\n");
    assert_eq!((status, notes.as_str()), (0, said));
    assert_eq!(hex.matches("90000000").count(), 16);
    let with = ended(&["write", "--hex"], b"roll 1 300 100000 accrued 0\n");
    assert_eq!(with, (0, hex, "".into()));
    assert_eq!(ended(&["explain"], b"roll 1 300 100000\n").2, said);
    assert_eq!(ended(&["check"], b"roll 1 300 100000\n").2, said);
}

#[test]
fn an_older_roll_is_told_what_to_do() {
    let roll = format!("7104b000{}", " 900186a0".repeat(16));
    let advice = "this roll has no accrued amounts: put sixteen words of kind 9 after its prices, \
                  90000000 where nothing is accrued\n";
    for (after, number) in [("", 13), (" 50000000", 14)] {
        let words = format!("{roll}{after}");
        let (status, printed, _) = ended(&["check", "--hex"], words.as_bytes());
        assert_eq!(status, 1);
        let line = printed.lines().next().unwrap_or_default();
        assert!(line.contains(&format!("refused by {number}")), "{printed}");
        assert!(format!("{line}\n").ends_with(advice), "{printed}");
        for form in [&["read", "--hex"][..], &["explain", "--hex"], &["explain", "--hex", "--json"]]
        {
            let told = ended(form, words.as_bytes()).1;
            assert!(told.contains(advice.trim_end()), "{told}");
        }
    }
}

#[test]
fn why_tells_of_a_unit() {
    let text = b"trade 0 1 2 150000\nclose\ndeliver 0 1 100000\ncutoff\n";
    let told =
        "at the end of the tape, day 0, Cut: unit 1 of issue 0, 50,000 lots (2,500,000,000 yen \
                face) for account 2, wholly failed: at the cutoff nothing of it had come\n";
    assert_eq!(ended(&["why", "-", "0", "1"], text), (0, told.into(), "".into()));
    let (status, printed, _) = ended(&["why", "--at", "5", "--json", "-", "0", "1"], text);
    assert!(
        status == 0 && printed.ends_with("\"status\":\"waiting\",\"wants\":50000}\n"),
        "{printed}"
    );
    let (status, printed, said) = ended(&["why", "-", "0", "2"], text);
    assert_eq!((status, said.as_str()), (1, ""));
    assert!(printed.ends_with("refused by 16: issue 0 has no unit 2, its units are 0 to 1\n"));
    let of_account = ended(&["why", "--account", "2", "--issue", "0", "-"], text);
    let told = "at the end of the tape, day 0, Cut: account 2 is due 150,000 lots (7,500,000,000 yen face) of issue 0 in 2 \
        units\n  unit 0, 100,000 lots (5,000,000,000 yen face), is handed\n  unit 1, 50,000 lots (2,500,000,000 yen \
        face), wholly failed: at the cutoff nothing of it had come\n  account 1 owes it 50,000 lots (2,500,000,000 yen \
        face) of the issue since day 0\n";
    assert_eq!(of_account, (0, told.into(), "".into()));
    let settling = ended(&["why", "--account=2", "--issue=0", "--at=3"], text);
    assert!(
        settling.1.starts_with("before word 3, line 3, day 0, Settling: account 2"),
        "{settling:?}"
    );
    let taking = ended(&["why", "--account=2", "--issue=0"], b"trade 0 1 2 5\n");
    assert!(taking.0 == 1 && taking.1.contains("Taking: refused by 3"), "{taking:?}");
    for (words, told) in [
        (&["why", "--account=2", "-"][..], "--account and --issue go together"),
        (&["why", "--issue=2", "-", "0", "0"], "--account and --issue go together"),
        (&["why", "--account=64", "--issue=0", "-"], "--account needs a number from 0 to 63"),
        (&["why", "--day=1", "--account=2", "--issue=0", "-"], "--day 1: the tape ends on day 0"),
        (&["why", "--day=0", "--at=3", "-", "0", "0"], "--at and --day contradict each other"),
        (&["why", "-", "0"], "why needs a day, an issue and a unit"),
        (&["why", "0", "1"], "why needs a day, an issue and a unit"),
        (&["why", "-", "0", "x"], "UNIT needs a number from 0 to 4294967295, not \"x\""),
        (&["why", "--at", "1", "-", "0", "0"], "trade begins at word 0 and has 2"),
        (&["why", "--html", "-", "0", "0"], "`tape why` has no option --html"),
    ] {
        let (status, printed, said) = ended(words, text);
        assert!(status == 2 && printed.is_empty() && said.contains(told), "{words:?}: {said}");
    }
}

#[test]
fn an_output_that_fails_is_told() {
    let full = std::fs::File::options().write(true).open("/dev/full").expect("/dev/full");
    let output = Command::new(env!("CARGO_BIN_EXE_tape")).arg("--help").stdout(full).output();
    let output = output.expect("the tool runs");
    assert_eq!(output.status.code(), Some(2));
    assert!(String::from_utf8_lossy(&output.stderr).starts_with("tape: cannot write"));
}

#[test]
fn a_file_that_exists_is_left_unless_it_is_asked_for() {
    let folder = folder("exists");
    let text = file(&folder, "w.txt", b"close\n");
    let (status, printed, said) = ended(&[OsStr::new("write"), text.as_ref(), text.as_ref()], b"");
    assert_eq!((status, printed.as_str()), (2, ""), "{said}");
    assert_eq!(fs::read(&text).unwrap(), b"close\n");
    let out = folder.join("w.tape");
    let words = |more: &[&str]| -> Vec<std::ffi::OsString> {
        let words = ["write".as_ref(), text.as_os_str(), "-o".as_ref(), out.as_os_str()];
        words.into_iter().chain(more.iter().map(OsStr::new)).map(OsStr::to_os_string).collect()
    };
    assert_eq!(ended(&words(&[]), b""), (0, "".into(), "".into()));
    assert_eq!(fs::read(&out).unwrap(), [0, 0, 0, 0x50]);
    fs::write(&out, "what was there").unwrap();
    let (status, _, said) = ended(&words(&[]), b"");
    assert!(status == 2 && said.contains("w.tape exists and is left as it is"), "{said}");
    assert_eq!(fs::read(&out).unwrap(), b"what was there");
    fs::set_permissions(&out, fs::Permissions::from_mode(0o640)).unwrap();
    assert_eq!(ended(&words(&["--force"]), b"").0, 0);
    assert_eq!(fs::read(&out).unwrap(), [0, 0, 0, 0x50]);
    assert_eq!(fs::metadata(&out).unwrap().permissions().mode() & 0o777, 0o640);
    assert_eq!(names(&folder), ["w.tape", "w.txt"]);
    fs::remove_dir_all(folder).unwrap();
}

#[test]
fn a_run_that_fails_leaves_the_file_that_was_there() {
    let folder = folder("fails");
    let out = file(&folder, "lines.txt", b"what was there");
    let run = |verb: &str, more: &[&str], input: &[u8]| {
        let words = [verb.as_ref(), "--force".as_ref(), "-o".as_ref(), out.as_os_str()];
        let words: Vec<&OsStr> = words.into_iter().chain(more.iter().map(OsStr::new)).collect();
        ended(&words, input)
    };
    assert_eq!(run("write", &[], b"sell\n").0, 2);
    assert_eq!(run("explain", &["--day", "3"], b"close\n").0, 2);
    let (status, _, said) = run("run", &["--program", "/bin/true"], b"close\n");
    assert!(
        status == 1 && said.contains("the ledger is missing") && said.contains("no file is"),
        "{said}"
    );
    assert_eq!(fs::read(&out).unwrap(), b"what was there");
    assert_eq!(names(&folder), ["lines.txt"]);
    let link = folder.join("link.txt");
    std::os::unix::fs::symlink(&out, &link).unwrap();
    let words = ["check".as_ref(), "--force".as_ref(), "-o".as_ref(), link.as_os_str()];
    assert_eq!(ended(&words, b"close\n").0, 0);
    assert_eq!(fs::read(&out).unwrap(), b"1 instruction, 0 refused\n");
    assert!(fs::symlink_metadata(&link).unwrap().is_symlink());
    fs::remove_dir_all(folder).unwrap();
}

/// The signals that are ignored here, which every program begun here ignores too: bit 0 is signal 1.
fn ignored_signals() -> u64 {
    let status = fs::read_to_string("/proc/self/status").unwrap();
    let mask = status.lines().find_map(|line| line.strip_prefix("SigIgn:")).unwrap();
    u64::from_str_radix(mask.trim(), 16).unwrap()
}

#[test]
fn a_run_that_is_interrupted_leaves_the_old_file_and_no_other() {
    // A signal that is ignored where the tests run, as in a background job, stays ignored.
    let signals = [("-HUP", 1), ("-INT", 2), ("-TERM", 15)];
    let heard = signals.iter().filter(|(_, number)| ignored_signals() >> (number - 1) & 1 == 0);
    let heard: Vec<&str> = heard.map(|(name, _)| *name).collect();
    assert!(!heard.is_empty(), "every signal is ignored here");
    for signal in heard {
        let folder = folder(&format!("interrupted{signal}"));
        let out = file(&folder, "told.txt", b"what was there");
        // A million refused calls take a while to tell.
        let day = file(&folder, "day.tape", &[0, 0, 0, 0x60].repeat(1_000_000));
        let words = [
            "explain".as_ref(),
            "--force".as_ref(),
            "-o".as_ref(),
            out.as_os_str(),
            day.as_os_str(),
        ];
        let mut child = begun(&words);
        let start = Instant::now();
        while names(&folder).len() < 3 && start.elapsed() < Duration::from_secs(20) {
            sleep(Duration::from_millis(1));
        }
        assert_eq!(names(&folder).len(), 3, "it is written beside");
        let id = child.id().to_string();
        assert!(Command::new("kill").args([signal, &id]).status().unwrap().success());
        assert!(!child.wait().unwrap().success());
        assert_eq!(names(&folder), ["day.tape", "told.txt"], "{signal}");
        assert_eq!(fs::read(&out).unwrap(), b"what was there");
        fs::remove_dir_all(folder).unwrap();
    }
}

#[test]
fn a_pipe_that_nobody_reads_ends_it_without_a_message() {
    let folder = folder("unread");
    let day = file(&folder, "day.tape", &[0, 0, 0, 0x60].repeat(200_000));
    for words in
        [&["explain"][..], &["explain", "--json"], &["check"], &["check", "--json"], &["read"]]
    {
        let words = words.iter().map(OsStr::new).chain([day.as_os_str()]);
        let mut child = begun(&words.collect::<Vec<_>>());
        drop(child.stdin.take());
        let mut first = [0; 64];
        child.stdout.take().expect("a pipe").read_exact(&mut first).expect("some bytes");
        let ended = child.wait_with_output().expect("the tool ends");
        assert_eq!(ended.status.signal(), Some(13), "{:?}", ended.status);
        assert_eq!(String::from_utf8_lossy(&ended.stderr), "");
    }
    fs::remove_dir_all(folder).unwrap();
}

/// Days that fill the ledger, and the trades of the next one, whose cutoff has no room for its fails: it takes long
/// to be refused.
fn full_ledger() -> String {
    let trade = |issue, from: u32| format!("trade {issue} {from} {} 1\n", from + 32);
    let trades: String =
        (0..16).flat_map(|issue| (0..32).map(move |from| trade(issue, from))).collect();
    let quotes = format!("1{} accrued 0{}", " 1".repeat(15), " 0".repeat(15));
    let day = format!("{trades}close\ncutoff\nroll 1 0 {quotes}\n");
    format!("{}{trades}close\n", day.repeat(4))
}

#[test]
fn long_work_tells_its_progress_at_a_terminal() {
    let folder = folder("progress");
    let mut words = tape::text::to_tape(&full_ledger()).expect("a tape");
    words.extend([0, 0, 0, 0x60].repeat(12_000_000));
    let all = format!(" of {}, ", tape::measure::Grouped(words.len() as i128 / 4));
    let day = file(&folder, "day.tape", &words);
    let tool = env!("CARGO_BIN_EXE_tape");
    for verb in ["check", "explain --html", "why --account 0 --issue 0", "run --program /bin/true"]
    {
        // `script` gives it a terminal; what is told goes elsewhere.
        let command = format!("exec {tool} {verb} {} >/dev/null", day.display());
        let mut terminal = Command::new("script")
            .args(["-qec", &command, "/dev/null"])
            .stdin(Stdio::null())
            .stdout(Stdio::piped())
            .spawn()
            .expect("script, of Debian's package bsdutils");
        let start = Instant::now();
        let mut shown = [0; 160];
        terminal.stdout.take().expect("a pipe").read_exact(&mut shown).expect("progress is told");
        assert!(start.elapsed() >= Duration::from_secs(2), "{verb}: {:?}", start.elapsed());
        terminal.kill().expect("it is at work");
        terminal.wait().expect("it ends");
        let shown = String::from_utf8_lossy(&shown);
        let line = "\r\u{1b}[Ktape: word ";
        assert!(shown.starts_with(line) && shown.contains(&all), "{verb}: {shown:?}");
        assert!(shown.matches(line).count() > 1, "{verb}: {shown:?}");
    }
    fs::remove_dir_all(folder).unwrap();
}

#[test]
fn a_long_text_by_a_pipe_is_told_as_the_file() {
    let folder = folder("piped");
    let text = "trade 0 1 2 3\ntrade 0 2 1 3\nroll 1 2 3\n".repeat(40_000);
    let wrong = format!("{text}sell\n");
    let (kept, none) = (folder.join("kept"), folder.join("none"));
    fs::create_dir(&kept).unwrap();
    for (name, text) in [("right.txt", &text), ("wrong.txt", &wrong)] {
        let day = file(&folder, name, text.as_bytes());
        for verb in ["write", "check", "explain", "statement --all"] {
            let words: Vec<&OsStr> = verb.split(' ').map(OsStr::new).collect();
            let of_file = tape(&[&words[..], &[day.as_os_str()]].concat(), b"");
            let said = String::from_utf8_lossy(&of_file.stderr);
            let said = said.replace(&day.display().to_string(), "standard input");
            for place in [&kept, &none] {
                let mut child = Command::new(env!("CARGO_BIN_EXE_tape"))
                    .args(&words)
                    .env("TMPDIR", place)
                    .stdin(Stdio::piped())
                    .stdout(Stdio::piped())
                    .stderr(Stdio::piped())
                    .spawn()
                    .expect("the tool runs");
                let (mut input, text) = (child.stdin.take().expect("a pipe"), text.clone());
                let piped = std::thread::spawn(move || input.write_all(text.as_bytes()));
                let told = child.wait_with_output().expect("the tool ends");
                piped.join().expect("it is piped").expect("all of it is read");
                assert_eq!(told.status, of_file.status, "{verb}");
                assert_eq!(String::from_utf8_lossy(&told.stderr), said, "{verb}");
                let printed = String::from_utf8_lossy(&of_file.stdout);
                let printed = printed.replace(&day.display().to_string(), "standard input");
                assert!(printed == String::from_utf8_lossy(&told.stdout), "{verb}");
            }
        }
    }
    assert_eq!(names(&kept), [""; 0]);
    fs::remove_dir_all(folder).unwrap();
}

#[test]
fn of_a_tape_that_does_not_end_the_beginning_is_told() {
    for (verb, line) in
        [("explain", "  word 0: cutoff: refused by 3"), ("check", "standard input: word 0: cutoff")]
    {
        let mut child = begun(&[verb]);
        let mut input = child.stdin.take().expect("a pipe");
        let piped = std::thread::spawn(move || {
            let words = [0, 0, 0, 0x60].repeat(1_000);
            while input.write_all(&words).is_ok() {}
        });
        let mut told = vec![0; 1 << 20];
        child.stdout.take().expect("a pipe").read_exact(&mut told).expect("it is told");
        let told = String::from_utf8_lossy(&told);
        assert!(told.contains(line), "{}", &told[..200]);
        assert_eq!(child.wait().expect("the tool ends").signal(), Some(13));
        piped.join().expect("nobody reads on");
    }
}

#[test]
fn what_is_put_behind_a_tape_while_it_is_read_is_not_read() {
    let folder = folder("behind");
    let words = [0, 0, 0, 0x60].repeat(100_000);
    let day = file(&folder, "day.tape", &words);
    let behind = fs::File::options().append(true).open(&day).unwrap();
    let mut read = Command::new(env!("CARGO_BIN_EXE_tape"));
    assert!(read.arg("read").arg(&day).stdout(behind).status().unwrap().success());
    let found = fs::read(&day).unwrap();
    assert!(found[..words.len()] == words && found[words.len()..] == *b"cutoff\n".repeat(100_000));
    fs::remove_dir_all(folder).unwrap();
}

#[test]
fn several_days_are_run_one_after_the_other() {
    let folder = folder("several");
    let monday = file(&folder, "mon.txt", b"trade 0 1 2 3\nclose\n");
    let tuesday = file(&folder, "tue.txt", b"cutoff\ntrade 0 1 2 3\n");
    let (before, after) = (fs::read(&monday).unwrap(), fs::read(&tuesday).unwrap());
    let days = |words: &[&str]| {
        let words = words.iter().map(OsStr::new).chain([monday.as_os_str(), tuesday.as_os_str()]);
        ended(&words.collect::<Vec<_>>(), b"")
    };
    let (status, told, _) = days(&["explain"]);
    assert_eq!(status, 0);
    assert!(told.contains("account 1 fails account 2") && told.contains("tue.txt line 1: cutoff"));
    let (status, told, _) = days(&["check"]);
    assert!(status == 1 && told.ends_with("4 instructions, 1 refused\n"), "{told}");
    assert!(told.contains("tue.txt:2:1: trade: refused by 3"), "{told}");
    assert_eq!((fs::read(&monday).unwrap(), fs::read(&tuesday).unwrap()), (before, after));
    let mut words = vec![OsStr::new("why"), monday.as_os_str(), tuesday.as_os_str()];
    words.extend(["0", "0"].map(OsStr::new));
    assert!(ended(&words, b"").1.contains("day 0, Cut: unit 0 of issue 0"));
    fs::remove_dir_all(folder).unwrap();
}

#[test]
fn a_name_that_is_no_text_is_taken() {
    let folder = folder("bytes");
    let day = file(&folder, OsStr::from_bytes(b"m\xffn\xe9.txt"), b"close\nsell\n");
    let out = folder.join(OsStr::from_bytes(b"\xfe\xff"));
    let (status, _, said) = ended(&[OsStr::new("check"), day.as_os_str()], b"");
    assert!(status == 2 && said.contains(".txt:2:1: there is no instruction"), "{said}");
    fs::write(&day, "close\n").unwrap();
    let words = ["check".as_ref(), "-o".as_ref(), out.as_os_str(), day.as_os_str()];
    assert_eq!(ended(&words, b""), (0, "".into(), "".into()));
    assert_eq!(fs::read(&out).unwrap(), b"1 instruction, 0 refused\n");
    let program = folder.join(OsStr::from_bytes(b"\xfe"));
    let words = ["run".as_ref(), "--program".as_ref(), program.as_os_str()];
    assert!(ended(&words, b"").2.contains("cannot be run"));
    let wrong = OsStr::from_bytes(b"--\xff");
    assert!(ended(&[OsStr::new("run"), wrong], b"").2.contains("has no option"));
    assert!(ended(&[wrong], b"").2.contains("there is no `tape"));
    let number = OsStr::from_bytes(b"--day=\xff");
    assert!(ended(&[OsStr::new("explain"), number], b"").2.contains("--day needs a number"));
    fs::remove_dir_all(folder).unwrap();
}

#[test]
fn two_dashes_end_the_options() {
    let folder = folder("dashes");
    file(&folder, "--day", b"close\n");
    let run = |words: &[&str]| {
        let mut tool = Command::new(env!("CARGO_BIN_EXE_tape"));
        let output = tool.args(words).current_dir(&folder).output().expect("the tool runs");
        (output.status.code(), String::from_utf8(output.stdout).expect("text"))
    };
    let checked = (Some(0), "1 instruction, 0 refused\n".to_string());
    assert_eq!(run(&["check", "--", "--day"]), checked);
    assert!(run(&["explain", "--day=0", "--", "--day"]).1.contains("word 0, line 1: close"));
    fs::remove_dir_all(folder).unwrap();
}

#[test]
fn text_in_another_encoding_is_neither_text_nor_words() {
    let utf16 = |text: &str| text.encode_utf16().flat_map(u16::to_le_bytes).collect::<Vec<u8>>();
    let shift_jis = b"trade 0 1 2 3 # \x96\xf1\x92\xe8\nclose\n".to_vec();
    for (bytes, what) in [
        (shift_jis, "text that is not in UTF-8, by line 1: save it as UTF-8"),
        (b"close # caf\xe9\n".to_vec(), "text that is not in UTF-8, by line 1: save it as UTF-8"),
        (utf16("\u{feff}trade 0 1 2 3\n"), "text in UTF-16: save it as UTF-8"),
        (utf16("trade 0 1 2 3\n"), "text in UTF-16: save it as UTF-8"),
        (
            vec![0x12, 0x34, 0x56, 0xf8, 0xff],
            "begins with the bytes 12 34 56 f8, which no instruction",
        ),
    ] {
        for verb in ["write", "read", "check", "run", "explain"] {
            let (status, printed, said) = ended(&[verb], &bytes);
            assert_eq!((status, printed.as_str()), (2, ""), "{verb}: {said}");
            assert!(
                said.contains("this is neither the text form nor the words of a tape"),
                "{said}"
            );
            assert!(said.contains(what), "{verb}: {said}");
        }
    }
    let damaged = ended(&["check", "--words"], &[1, 0, 0, 0x50]);
    assert!(damaged.0 == 1 && damaged.1.contains("word 0: reading ends here: refused by 14"));
    assert!(ended(&["read", "--words"], &[1, 0, 0, 0x50]).1.ends_with("word 50000001\n"));
}

#[test]
fn a_text_that_is_wrong_throughout_is_told_in_a_dozen_lines() {
    let text = "sell everything now\n".repeat(200_000);
    for verb in ["write", "check", "explain"] {
        let (status, printed, said) = ended(&[verb], text.as_bytes());
        assert_eq!((status, printed.as_str()), (2, ""));
        assert_eq!(said.lines().count(), 13);
        assert!(said.ends_with("standard input: 199,988 more errors are not listed\n"), "{said}");
    }
    let long = format!("close\n{}\n", "x".repeat(5_000_000));
    let said = ended(&["write"], long.as_bytes()).2;
    assert!(said.len() < 1_000 && said.contains(".. (5,000,000 letters)"), "{}", said.len());
    let hex = ended(&["check", "--hex"], "x ".repeat(200_000).as_bytes()).2;
    assert!(hex.lines().count() == 13 && hex.contains("199,988 more errors"), "{hex}");
}

#[test]
fn a_device_is_written_as_it_is() {
    let (status, printed, said) = ended(&["check", "-o", "/dev/null"], b"close\n");
    assert_eq!((status, printed.as_str(), said.as_str()), (0, "", ""));
    let (status, _, said) = ended(&["check", "-o", "/dev/full"], b"close\n");
    assert!(status == 2 && said.starts_with("tape: cannot write /dev/full: "), "{said}");
    assert_eq!(ended(&["check", "-o", "-"], b"close\n").1, "1 instruction, 0 refused\n");
}

/// A names file, and two days by its names.
const NAMES: &str =
    "date 2026-11-17 # a Tuesday\nissue 0 JGB-350\naccount 1 Aoba\naccount 2 Bizen\n";
const NAMED: &str = "trade JGB-350 Aoba Bizen 150,000\nclose\ndeliver JGB-350 Aoba 100,000\n\
    deliver JGB-350 Aoba 50,001\ncutoff\nroll 3 300 100,000 accrued 0\ntrade JGB-350 Bizen Aoba 7\nclose\n";

/// A folder with the names file and the two days, and what a command in it ends with.
struct Named(PathBuf);

impl Named {
    fn new(name: &str) -> Named {
        let folder = folder(name);
        file(&folder, "desk.names", NAMES.as_bytes());
        file(&folder, "day.txt", NAMED.as_bytes());
        Named(folder)
    }

    /// Runs the tool on these words, which have a space between, with this input.
    fn ended(&self, words: &str, input: &[u8]) -> (i32, String, String) {
        let mut tool = Command::new(env!("CARGO_BIN_EXE_tape"));
        let tool = tool.args(words.split(' ')).current_dir(&self.0).stdin(Stdio::piped());
        let mut child =
            tool.stdout(Stdio::piped()).stderr(Stdio::piped()).spawn().expect("the tool runs");
        let _ = child.stdin.take().expect("standard input is piped").write_all(input);
        let output = child.wait_with_output().expect("the tool ends");
        let text = |bytes: &[u8]| String::from_utf8_lossy(bytes).to_string();
        (output.status.code().unwrap_or(-1), text(&output.stdout), text(&output.stderr))
    }

    /// What it prints where all is well.
    fn told(&self, words: &str) -> String {
        let (status, printed, said) = self.ended(words, b"");
        assert_eq!((status, said.as_str()), (0, ""), "{words}");
        printed
    }
}

impl Drop for Named {
    fn drop(&mut self) {
        let _ = fs::remove_dir_all(&self.0);
    }
}

#[test]
fn names_are_written_and_read_back() {
    let desk = Named::new("round");
    let numbers = NAMED.replace("JGB-350", "0").replace("Aoba", "1").replace("Bizen", "2");
    let words = tape(&["write"], numbers.as_bytes()).stdout;
    assert_eq!(desk.told("write --names desk.names -o day.tape day.txt"), "");
    assert_eq!(fs::read(desk.0.join("day.tape")).unwrap(), words);
    let text = desk.told("read --names desk.names day.tape");
    assert_eq!(text, NAMED.replace(',', ""));
    assert_eq!(ended(&["read"], &words).1, numbers.replace(',', ""));
    file(&desk.0, "again.txt", text.as_bytes());
    let hex = desk.told("write --names=desk.names --hex again.txt");
    assert_eq!(hex.as_bytes(), tape(&["write", "--hex"], numbers.as_bytes()).stdout);
    file(&desk.0, "day.hex", hex.as_bytes());
    assert_eq!(desk.told("read --hex --names desk.names day.hex"), text);
    let (status, _, said) = desk.ended("write day.txt", b"");
    assert!(status == 2 && said.starts_with("tape: day.txt:1:7: issue \"JGB-350\" is not a"));
}

#[test]
fn every_verb_tells_by_names_and_dates() {
    let desk = Named::new("told");
    let (status, printed, _) = desk.ended("check --names desk.names day.txt", b"");
    let refused = "day.txt:4:1: deliver: refused by 9: the account does not owe that many lots; account Aoba still \
        owes 50,000 lots of issue JGB-350 today\n8 instructions, 1 refused\n";
    assert_eq!((status, printed.as_str()), (1, refused));
    let (status, _, said) = desk.ended("run --program /bin/true --names desk.names day.txt", b"");
    assert!(status == 1 && said.contains("the ledger is missing"), "{said}");
    let text = desk.told("explain --names desk.names day.txt");
    for line in [
        "Day 0 (2026-11-17)\n  word 0, line 1: trade: account Aoba sells account Bizen 150,000 lots (7,500,000,000 yen \
         face) of issue JGB-350\n",
        "issue JGB-350: account Aoba fails account Bizen: 50,000 lots (2,500,000,000 yen face), of unit 1\n",
        "\n\nDay 1 (2026-11-20)\n",
        "\nAt the end: day 1 (2026-11-20), Settling\n",
        "account Aoba owes account Bizen 50,000 lots (2,500,000,000 yen face), since day 0 (2026-11-17)\n",
    ] {
        assert!(text.contains(line), "{line}\n{text}");
    }
    let json = desk.told("explain --json --names desk.names day.txt");
    let day = "\"fact\":\"day\",\"day\":1,\"date\":\"2026-11-20\",\"order\":\"old\",\"turn\":0}\n";
    let fails =
        "\"issue\":0,\"issue_name\":\"JGB-350\",\"from\":1,\"from_name\":\"Aoba\",\"to\":2,\
        \"to_name\":\"Bizen\",\"lots\":50000,\"first\":1,";
    assert!(json.contains(day) && json.contains(fails), "{json}");
    let page = desk.told("explain --html --names desk.names day.txt");
    assert!(page.contains("<h2>Day 1 (2026-11-20)</h2>"), "{page}");
    assert!(page.contains("<h3>Day 0 (2026-11-17), issue JGB-350</h3>"), "{page}");
    file(&desk.0, "desk.txt", b"settles Aoba 0\nsettles Bizen 0\nholds 0 JGB-350 5\n");
    let jam = desk.told("jam --names desk.names --sizes 1 day.txt desk.txt");
    assert!(jam.starts_with("at the end of the tape, day 1 (2026-11-20), Settling: 7 lots owed"));
    file(&desk.0, "owners.txt", b"owns 0 Aoba\nowns 1 Bizen\n");
    let look = desk.told("look --names desk.names --as 1 day.txt owners.txt JGB-350 Bizen");
    let head = "at the end of the tape, day 1 (2026-11-20), Settling: account Bizen in issue JGB-350: it owes 7 lots,";
    assert!(look.starts_with(head), "{look}");
    assert!(look.ends_with("entry 0: Aoba fails 50,000 lots to Bizen, since day 0 (2026-11-17)\n"));
    let look = desk.told("look --json --names desk.names day.txt owners.txt 0 2");
    let whose = "\"issue\":0,\"issue_name\":\"JGB-350\",\"account\":2,\"account_name\":\"Bizen\",";
    assert!(look.contains(whose), "{look}");
    let entry = "{\"from\":1,\"from_name\":\"Aoba\",\"to\":2,\"to_name\":\"Bizen\",\"lots\":50000,\"day\":0,\
        \"date\":\"2026-11-17\"}";
    assert!(look.contains(entry), "{look}");
    let one = desk.told("statement --names desk.names day.txt JGB-350 Aoba");
    let head = "account Aoba, issue JGB-350: lots over 8 instructions, 1 refused; day 1 (2026-11-20) is still settling";
    assert!(one.starts_with(head), "{one}");
    let all = desk.told("statement --all --names desk.names day.txt");
    assert!(all.contains("\nJGB-350     Aoba        150,000        100,000"), "{all}");
    let error = desk.ended("markets --names desk.names 2 1", b"").2;
    assert!(error.contains("`tape markets` has no option --names"), "{error}");
}

#[test]
fn names_and_dates_stand_on_the_command_line() {
    let desk = Named::new("asked");
    let unit = desk.told("why --names desk.names day.txt JGB-350 0");
    let told = "at the end of the tape, day 1 (2026-11-20), Settling: unit 0 of issue JGB-350, 7 lots (350,000 yen face) \
        for account Aoba, waits: with 7 lots more delivered in the issue, and no lift between, it is handed\n";
    assert_eq!(unit, told);
    let was = desk.told("why --json --day 2026-11-17 --names desk.names day.txt JGB-350 1");
    let told = "\"fact\":\"status\",\"day\":0,\"date\":\"2026-11-17\",\"phase\":\"Cut\",\"word\":8,\"line\":6,\
        \"issue\":0,\"issue_name\":\"JGB-350\",\"unit\":1,\"refusal\":0,\"account\":2,\"account_name\":\"Bizen\",\
        \"lots\":50000,\"status\":\"wholly failed\",\"lacks\":50000}\n";
    assert!(was.ends_with(told), "{was}");
    let account = "why --account Bizen --issue JGB-350 --day 2026-11-17 --names desk.names";
    let sentences = desk.told(&format!("{account} day.txt"));
    let head = "before word 8, line 6, day 0 (2026-11-17), Cut: account Bizen is due 150,000 lots (7,500,000,000 yen face) \
        of issue JGB-350 in 2 units\n";
    assert!(sentences.starts_with(head), "{sentences}");
    let owes = "  account Aoba owes it 50,000 lots (2,500,000,000 yen face) of the issue since day 0 (2026-11-17)\n";
    assert!(sentences.ends_with(owes), "{sentences}");
    let json = desk.told(&format!("{account} --json day.txt"));
    let entry = "\"from\":1,\"from_name\":\"Aoba\",\"to\":2,\"to_name\":\"Bizen\",\"lots\":50000,\"since\":0}\n";
    assert!(json.ends_with(entry), "{json}");
    let (status, printed, _) = desk.ended("why --names desk.names day.txt JGB-350 9", b"");
    assert!(status == 1 && printed.ends_with("issue JGB-350 has no unit 9, its one unit is 0\n"));
    let explain = "explain --names desk.names day.txt";
    let second = desk.told(&format!("{explain} --day 2026-11-20 --account Aoba --issue JGB-350"));
    assert!(second.starts_with("Day 1 (2026-11-20)\n") && !second.contains("Day 0"), "{second}");
    assert_eq!(second, desk.told(&format!("{explain} --day 1 --account 1 --issue 0")));
}

#[test]
fn wrong_names_are_told_with_what_to_do() {
    let desk = Named::new("wrong");
    file(&desk.0, "plain.names", b"account 1 Aoba\n");
    file(&desk.0, "bad.names", b"date 2026-11-31\n\nissue 16 JGB\naccount 1 a,b\n");
    let wrong = |words: &str, told: &str| {
        let (status, printed, said) = desk.ended(words, b"close\n");
        assert_eq!((status, printed.as_str()), (2, ""), "{words}: {said}");
        assert!(said.contains(told), "{words}: {said}");
    };
    for (words, told) in [
        (
            "--account Aobo",
            "--account: there is no account \"Aobo\": the names file has Aoba, Bizen",
        ),
        ("--issue Aoba", "--issue: there is no issue \"Aoba\": the names file has JGB-350"),
        ("--issue 16", "--issue needs a number from 0 to 15, not \"16\""),
        ("--day 2026-11-18", "--day 2026-11-18: no day of the tape has the date 2026-11-18: it is"),
        ("--day 2026-11-18", "it is between day 0 (2026-11-17) and day 1 (2026-11-20)"),
        ("--day 2026-11-16", "the first is day 0 (2026-11-17)"),
        ("--day 2027-11-16", "the last is day 1 (2026-11-20)"),
        ("--day 2026-02-30", "--day: \"2026-02-30\" is no date"),
    ] {
        wrong(&format!("explain --names desk.names day.txt {words}"), told);
    }
    wrong(
        "explain --issue JGB-350 day.txt",
        "--issue needs a number from 0 to 15, not \"JGB-350\"",
    );
    wrong("explain --day 2026-11-17 --names plain.names", "--day 2026-11-17: day 0 has no date");
    wrong("why --names desk.names day.txt JGB 0", "ISSUE: there is no issue \"JGB\"");
    wrong("why --day 2026-11-17 day.txt 0 0", "issue \"JGB-350\" is not a number");
    wrong("statement --names desk.names day.txt JGB-350 B", "ACCOUNT: there is no account \"B\"");
    wrong("write --names plain.names day.txt", "the names file names no issue, write its number");
    for told in [
        "tape: bad.names:1:6: \"2026-11-31\" is no date",
        "\ntape: bad.names:3:7: \"16\" is no issue: write a number from 0 to 15",
        "\ntape: bad.names:4:11: \"a,b\" is no name with ','",
    ] {
        wrong("check --names bad.names day.txt", told);
    }
    wrong("check --names none.names day.txt", "cannot read none.names");
    wrong("check --names", "--names needs a file");
    for words in ["check --names -", "check --names - -", "write --names -"] {
        wrong(words, "standard input is one file: name `-` once");
    }
    let (status, printed, _) = desk.ended("check --names - day.txt", NAMES.as_bytes());
    assert!(status == 1 && printed.contains("account Aoba still owes"), "{printed}");
}
