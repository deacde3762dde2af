//! The command as a treasurer uses it.

use std::io::Write;
use std::process::{Command, Stdio};

/// What the command prints, what it says on standard error, and its status.
fn treasury(words: &[&str], input: &str) -> (String, String, i32) {
    let mut child = Command::new(env!("CARGO_BIN_EXE_treasury"))
        .args(words)
        .stdin(Stdio::piped())
        .stdout(Stdio::piped())
        .stderr(Stdio::piped())
        .spawn()
        .unwrap();
    // A command that refuses its words does not read its input.
    let _ = child.stdin.take().unwrap().write_all(input.as_bytes());
    let output = child.wait_with_output().unwrap();
    let text = |bytes: Vec<u8>| String::from_utf8(bytes).unwrap();
    (text(output.stdout), text(output.stderr), output.status.code().unwrap())
}

const FILE: &str = "participant,average\nNorth,20\nEast,60\nSouth,10\nWest,60\nHill,0\n";

#[test]
fn a_default_is_printed_with_its_sums() {
    let (table, error, status) = treasury(&["--factor", "2.5", "--funds", "110"], FILE);
    assert_eq!((error.as_str(), status), ("", 0));
    let expected = "\
factor 2.5, funds 110; amounts in 100 million yen
no  participant  average  base  share
 0  North             20    50     10
 1  East              60   150     50
 2  South             10    50      0
 3  West              60   150     50
 4  Hill               0     0      0
    sum              150   400    110
";
    assert_eq!(table, expected);
}

#[test]
fn without_funds_there_are_bases_alone() {
    let (table, _, status) = treasury(&["--factor", "2.4"], "A 60\nB 20\n");
    assert_eq!(status, 0);
    assert!(table.starts_with("factor 2.4; amounts"), "{table}");
    assert!(table.ends_with("    sum               80   150\n"), "{table}");
}

#[test]
fn given_bases_are_taken() {
    let (table, _, status) = treasury(&["--funds", "80", "-"], "A 60 30\nB 20 70\n");
    assert_eq!(status, 0);
    assert!(table.starts_with("given bases, funds 80;"), "{table}");
    assert!(table.contains(" 0  A                 60    30     30\n"), "{table}");
}

#[test]
fn json_is_one_object() {
    let (json, _, status) =
        treasury(&["--json", "--factor", "5", "--funds", "60"], "\"A\",20\nB,4\n");
    assert_eq!(status, 0);
    let expected = "{\"schema\":1,\"fact\":\"funds\",\"refusal\":0,\"factor_tenths\":50,\"funds\":60,\"participants\":[\
        {\"number\":0,\"participant\":\"\\\"A\\\"\",\"average\":20,\"base\":100,\"share\":50},\
        {\"number\":1,\"participant\":\"B\",\"average\":4,\"base\":50,\"share\":10}],\
        \"sum\":{\"average\":24,\"base\":150,\"share\":60}}\n";
    assert_eq!(json, expected);
}

#[test]
fn refusals_are_told_with_what_to_do() {
    let (table, error, status) = treasury(&["--factor", "2.5", "--funds", "401"], FILE);
    assert_eq!((table.as_str(), status), ("", 1));
    assert!(
        error.contains("refused by 25: the funds of 401 are above all bases together, 400"),
        "{error}"
    );
    let (json, _, status) = treasury(&["--json", "--factor", "2.5", "--funds", "401"], FILE);
    let begins = "{\"schema\":1,\"fact\":\"funds\",\"refusal\":25,\"what\":\"the funds of 401";
    assert!(json.starts_with(begins) && status == 1, "{json}");
    let (_, error, status) = treasury(&["--factor", "1", "--funds", "1"], "A 1000001\n");
    assert!(
        error.contains("standard input:1:3: refused by 24: the average 1000001") && status == 1,
        "{error}"
    );
    let many: String = (0..65).map(|at| format!("P{at} 1\n")).collect();
    let (_, error, status) = treasury(&["--factor", "1"], &many);
    assert!(
        error.contains("standard input:65:1: refused by 24: P64 is participant 65") && status == 1,
        "{error}"
    );
    let (_, error, status) = treasury(&["--factor", "1", "--funds", "1000001"], FILE);
    assert!(error.contains("refused by 24: the funds of 1000001") && status == 1, "{error}");
    let (_, error, status) = treasury(&["--factor", "100000.1"], FILE);
    assert!(error.contains("refused by 24: the factor of 100000.1") && status == 1, "{error}");
}

#[test]
fn wrong_words_and_files_are_told() {
    for (words, input, part) in [
        (&["--factor", "2.55"][..], FILE, "one decimal"),
        (&["--funds", "1"][..], FILE, "say the factor"),
        (&["--factor", "1"][..], "A 1 50\n", "leave out --factor"),
        (&["--factor", "1"][..], "A 1,048\n", "a number with a comma"),
        (&["--factor", "1", "/no/such/file"][..], "", "could not be read"),
        (&["--tenths", "1"][..], "", "unknown option"),
    ] {
        let (table, error, status) = treasury(words, input);
        assert_eq!((table.as_str(), status), ("", 2), "{error}");
        assert!(error.contains(part), "{error}");
    }
}
