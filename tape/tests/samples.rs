//! Each sample of `tapes/` prints what is stored beside it.

use std::fs;
use std::path::{Path, PathBuf};
use tape::input::{Day, Taken};
use tape::names::Names;
use tape::statement::Told;
use tape::{telling, text};

/// The samples in text form.
fn samples() -> Vec<PathBuf> {
    let directory = Path::new(env!("CARGO_MANIFEST_DIR")).join("../tapes");
    let files = fs::read_dir(directory).expect("the folder tapes/");
    let mut samples: Vec<PathBuf> = files
        .map(|file| file.expect("a file of tapes/").path())
        .filter(|path| path.extension().is_some_and(|extension| extension == "txt"))
        .collect();
    samples.sort();
    samples
}

/// The words of a sample.
fn tape_of(sample: &Path) -> Vec<u8> {
    let lines = fs::read_to_string(sample).expect("a sample in text form");
    text::to_tape(&lines).unwrap_or_else(|faults| panic!("{}: {faults:?}", sample.display()))
}

/// A sample as a day, in its text form.
fn day_of(sample: &Path) -> Day {
    let bytes = fs::read(sample).expect("a sample in text form");
    Day::of("sample", bytes, Taken::Apart).expect("a day")
}

#[test]
fn each_sample_prints_what_is_stored() {
    assert!(samples().len() >= 7, "the samples are there");
    for sample in samples() {
        let expected = fs::read_to_string(sample.with_extension("expected"));
        let printed = reference::run::run(&tape_of(&sample));
        assert_eq!(printed, expected.expect("the stored output"), "{}", sample.display());
    }
}

#[test]
fn the_settled_days_are_stored_as_words_too() {
    let sample = Path::new(env!("CARGO_MANIFEST_DIR")).join("../tapes/p5-to-p9.txt");
    let words = fs::read(sample.with_extension("tape")).expect("the words of the settled days");
    assert_eq!(tape_of(&sample), words);
}

#[test]
fn each_sample_is_read_back() {
    for sample in samples() {
        let tape = tape_of(&sample);
        assert_eq!(text::to_tape(&text::of_tape(&tape)), Ok(tape), "{}", sample.display());
    }
}

#[test]
fn each_sample_is_explained() {
    for sample in samples() {
        let told = telling::explained(&day_of(&sample));
        assert!(told.starts_with("Day 0\n") && told.contains("\nAt the end: day "), "{told}");
    }
}

#[test]
fn the_settled_days_are_told() {
    let sample = Path::new(env!("CARGO_MANIFEST_DIR")).join("../tapes/p5-to-p9.txt");
    let told = telling::explained(&day_of(&sample));
    for line in [
        "issue 0: units 0 to 1 are account 2's, 100,000 lots each",
        "issue 0: unit 5 is account 2's, 50,000 lots",
        "unit 2 is handed to account 1: 100,000 lots",
        "45,000 lots wait for unit 3 of account 1, 100,000 lots",
        "issue 0: the remaining 45,000 lots go to unit 5 of account 2, which still lacks 5,000 lots",
        "issue 0: account 5 fails account 1: 30,000 lots",
        "account 4 is charged 20,547 yen for 5,000 lots of issue 0, which account 2 is given",
        "account 5: -226,026 yen",
    ] {
        assert!(told.contains(line), "{line}\n{told}");
    }
}

#[test]
fn the_statements_of_all_accounts_are_stored() {
    let sample = Path::new(env!("CARGO_MANIFEST_DIR")).join("../tapes/fails-statement.txt");
    let told = Told::all(&day_of(&sample)).expect("the statements").text();
    let stored = fs::read_to_string(sample.with_extension("statement"));
    assert_eq!(told, stored.expect("the stored statements"));
}

#[test]
fn the_two_days_are_told_by_their_names() {
    let sample = Path::new(env!("CARGO_MANIFEST_DIR")).join("../tapes/two-days.txt");
    let names = fs::read_to_string(sample.with_extension("names")).expect("the names");
    let names = Names::parse(&names).unwrap_or_else(|faults| panic!("{faults:?}"));
    let tape = tape_of(&sample);
    let text = text::of_tape_by(&names, &tape);
    assert!(text.contains("trade JGB-350 Aoba Echigo 320000\n"), "{text}");
    assert_eq!(text::parse_by(&names, &text).map(|parsed| parsed.tape), Ok(tape));
    let mut day = Day::by(names);
    day.add("sample", text.into_bytes(), Taken::Apart).expect("a day");
    let told = telling::explained(&day);
    assert!(told.starts_with("Day 0 (2026-11-19)\n"), "{told}");
    for line in [
        "\nDay 1 (2026-11-20), the new order: full units are dealt in turn since day 1 (2026-11-20)\n",
        "issue JGB-350: accounts Fushimi and Ginza have the same net, 150,000 lots: the lower number",
        "of issue FRN-12: refused by 19: lots are odd in a marked issue; issue FRN-12 is in multiples",
        "\nAt the end: day 2 (2026-11-23), Taking\n",
    ] {
        assert!(told.contains(line), "{line}\n{told}");
    }
    assert!(!told.contains("account 3 ") && !told.contains("issue 2"), "{told}");
}
