//! CSV in and out: the tool as it is called, and every sample beside what the program prints.

use std::collections::BTreeMap;
use std::fs;
use std::path::{Path, PathBuf};
use std::process::Command;
use tape::csv::Rows;
use tape::export::{self, Table};
use tape::input::{Day, Taken};
use tape::telling::{explain, Form, Only};
use tape::text;

/// A row by the names of its columns.
type Named = BTreeMap<String, String>;

/// The folder of the samples.
fn samples() -> PathBuf {
    Path::new(env!("CARGO_MANIFEST_DIR")).join("../tapes")
}

/// What a sample is stored with.
fn stored(name: &str) -> String {
    fs::read_to_string(samples().join(name)).unwrap_or_else(|error| panic!("{name}: {error}"))
}

/// A sample as a day.
fn day_of(name: &str) -> Day {
    Day::of(name, stored(name).into_bytes(), Taken::Apart).expect("a day")
}

/// An empty folder for a test of this name, with these files.
fn folder(name: &str, files: &[(&str, &str)]) -> PathBuf {
    let folder = std::env::temp_dir().join(format!("tape-csv-{}-{name}", std::process::id()));
    let _ = fs::remove_dir_all(&folder);
    fs::create_dir(&folder).expect("a folder");
    for (name, content) in files {
        fs::write(folder.join(name), content).expect("a file");
    }
    folder
}

/// Runs the tool in a folder: its status, what it printed and what it said.
fn tool(folder: &Path, words: &[&str]) -> (i32, String, String) {
    let mut tool = Command::new(env!("CARGO_BIN_EXE_tape"));
    let output = tool.args(words).current_dir(folder).output().expect("the tool runs");
    let text = |bytes: Vec<u8>| String::from_utf8(bytes).expect("text");
    (output.status.code().unwrap_or(-1), text(output.stdout), text(output.stderr))
}

/// The rows of a table, each cell by the name of its column.
fn named(table: &str) -> Vec<Named> {
    let mut rows = Rows::of(table).map(|row| {
        let row = row.expect("CSV").into_iter();
        row.map(|cell| cell.text.into_owned()).collect::<Vec<String>>()
    });
    let names = rows.next().expect("a header");
    let row = |row: Vec<String>| {
        assert_eq!(row.len(), names.len(), "{row:?}");
        names.iter().cloned().zip(row).collect()
    };
    rows.map(row).collect()
}

/// A table of a day.
fn table_of(day: &Day, table: Table) -> Vec<Named> {
    let mut written = Vec::new();
    export::run(day, table, &mut written).expect("it is written");
    named(&String::from_utf8(written).expect("text"))
}

/// The number in a column; 0 where there is none.
fn number(row: &Named, column: &str) -> i64 {
    row[column].parse().unwrap_or_default()
}

/// The settled day of the paper as three files.
const SETTLED: [&str; 11] = [
    "import",
    "--trades",
    "p5-to-p9.trades.csv",
    "--deliveries",
    "p5-to-p9.deliveries.csv",
    "--quotes",
    "p5-to-p9.quotes.csv",
    "--days",
    "1",
    "--rate",
    "300",
];

#[test]
fn three_files_are_the_settled_day() {
    let (status, day, said) = tool(&samples(), &SETTLED);
    assert_eq!((status, said.as_str()), (0, ""));
    let expected = "\
# made by `tape import`: trades of p5-to-p9.trades.csv, deliveries of p5-to-p9.deliveries.csv, quotes of \
p5-to-p9.quotes.csv
trade 0 4 1 230000
trade 0 5 2 250000
trade 0 5 3 150000
close
deliver 0 5 345000
deliver 0 4 200000
cutoff
roll 1 300 100000 accrued 0
";
    assert_eq!(day, expected);
    let words = fs::read(samples().join("p5-to-p9.tape")).expect("the words of the settled day");
    assert_eq!(text::to_tape(&day), Ok(words));
    let folder = folder("settled", &[]);
    let out = folder.join("day.txt");
    let mut to_file = SETTLED.to_vec();
    to_file.extend(["-o", out.to_str().expect("a name")]);
    assert_eq!(tool(&samples(), &to_file), (0, "".into(), "".into()));
    let checked = tool(&folder, &["check", "day.txt"]);
    assert_eq!(checked, (0, "8 instructions, 0 refused\n".into(), "".into()));
    let (status, _, said) = tool(&samples(), &to_file);
    assert!(status == 2 && said.contains("day.txt exists and is left as it is"), "{said}");
    fs::remove_dir_all(folder).unwrap();
}

#[test]
fn a_wrong_file_is_told_with_its_place() {
    let head = "issue,from,to,lots\n";
    for (trades, told) in [
        ("".to_string(), ":1:1: there is no header: let the first line name issue, from, to, lots"),
        ("0,1,2,3\n".to_string(), ":1:1: a number is no name of a column"),
        (head.replace(',', ";"), ":1:6: this file is separated by semicolons: save it with"),
        ("issue,from,to\n".to_string(), ":1:1: the column lots is missing: the header names issue"),
        (
            "issue,from,to,lots,price\n".to_string(),
            ":1:20: there is no column \"price\": write issue, from, to, lots, or note, which",
        ),
        ("issue,from,to,lots,LOTS\n".to_string(), ":1:20: the column \"LOTS\" stands twice"),
        (format!("{head}\n0,1,2\n"), ":3:1: this row has 3 fields, and the header 4"),
        (format!("{head}0,1,2,230,000\n"), ":2:11: this row has 5 fields, and the header 4"),
        (format!("{head}0,1,2,\"3\n"), ":2:7: this quote is not closed"),
        (format!("{head}0,1,2,\"3\" \n"), ":2:10: the field in quotes that begins in line 2 ends"),
        (format!("{head}0,1,2,3\r0,1,2,4\n"), ":2:8: a carriage return stands alone here"),
        (format!("{head}0,1,2,2.5\n"), ":2:7: lots \"2.5\" is not a number: write digits alone"),
        (format!("{head}0,1,2,0\n"), ":2:7: lots \"0\" is too small: write a number from 1 to"),
        (format!("{head}0,64,2,1\n"), ":2:3: from \"64\" is too large: write a number from 0"),
        (format!("{head}0,1,1,1\n"), ":2:5: from and to are the same account"),
        (format!("{head}0,1,2,1 # \u{1b}\n"), ": this is neither the text form nor the words"),
    ] {
        let folder = folder("wrong", &[("t.csv", trades.as_str())]);
        let (status, printed, said) = tool(&folder, &["import", "--trades", "t.csv"]);
        assert_eq!((status, printed.as_str()), (2, ""), "{trades:?}: {said}");
        assert!(said.starts_with(&format!("tape: t.csv{told}")), "{trades:?}: {said}");
        assert_eq!(said.lines().count(), 1, "{said}");
        fs::remove_dir_all(folder).unwrap();
    }
}

#[test]
fn all_wrong_files_are_told_and_of_many_errors_a_dozen() {
    let many = format!("issue,from,to,lots\n{}", "0,1,1,5\n".repeat(200_000));
    let (trades, deliveries) = (("t.csv", many.as_str()), ("d.csv", "issue,account\n"));
    let folder = folder("all", &[trades, deliveries, ("q.csv", "issue,price\n0,5\n")]);
    let words = "import --trades t.csv --deliveries=d.csv --quotes q.csv --days=1 --rate=0";
    let (status, printed, said) = tool(&folder, &words.split(' ').collect::<Vec<_>>());
    assert_eq!((status, printed.as_str()), (2, ""));
    let lines: Vec<&str> = said.lines().collect();
    assert_eq!(lines.len(), 15, "{said}");
    assert_eq!(lines[12], "tape: t.csv: 199,988 more errors are not listed");
    assert!(lines[13].starts_with("tape: d.csv:1:1: the column lots is missing"), "{said}");
    let lacking = "issues 1, 2, 3, 4, 5, 6, 7, 8, 9, 10, 11, 12, 13, 14 and 15 have no quote";
    assert!(lines[14].starts_with(&format!("tape: q.csv:2:1: {lacking}")), "{said}");
    fs::remove_dir_all(folder).unwrap();
}

#[test]
fn what_import_is_asked_must_fit_together() {
    let folder = folder("asked", &[("t.csv", "issue,from,to,lots\n0,1,2,3\n")]);
    for (words, told) in [
        (&[][..], "import takes its files by --trades, --deliveries and --quotes, one at least"),
        (&["t.csv"], "import takes its files by --trades, --deliveries and --quotes"),
        (&["--trades", "t.csv", "t.csv"], "import takes its files by --trades"),
        (&["--quotes", "t.csv"], "--quotes, --days and --rate go together"),
        (&["--quotes", "t.csv", "--rate", "1"], "--quotes, --days and --rate go together"),
        (&["--trades", "t.csv", "--days", "1"], "--quotes, --days and --rate go together"),
        (&["--quotes=t.csv", "--days=13", "--rate=1"], "--days needs a number from 1 to 12"),
        (&["--quotes=t.csv", "--days=1", "--rate=10001"], "--rate needs a number from 0 to 10000"),
        (&["--trades", "-", "--deliveries", "-"], "standard input is one file: name `-` once"),
        (&["--trades", "none.csv"], "cannot read none.csv"),
        (&["--trades"], "--trades needs a file"),
        (&["--trades", "t.csv", "--absent", "1"], "`tape import` has no option --absent"),
    ] {
        let (status, printed, said) = tool(&folder, &[&["import"][..], words].concat());
        assert_eq!((status, printed.as_str()), (2, ""), "{words:?}");
        assert!(said.starts_with("tape: ") && said.contains(told), "{words:?}: {said}");
    }
    let (status, day, _) = tool(&folder, &["import", "--trades", "t.csv"]);
    assert_eq!((status, day.lines().last()), (0, Some("trade 0 1 2 3")));
    fs::remove_dir_all(folder).unwrap();
}

#[test]
fn the_tables_of_two_days_are_stored() {
    for table in ["records", "ledger", "charges"] {
        let written = tool(&samples(), &["export", &format!("--{table}"), "two-days.txt"]);
        assert_eq!(written, (0, stored(&format!("two-days.{table}.csv")), "".into()), "{table}");
    }
    let written = tool(&samples(), &["export", "--statements", "fails-statement.txt"]);
    assert_eq!(written, (0, stored("fails-statement.statements.csv"), "".into()));
}

#[test]
fn the_tables_of_every_sample_are_what_the_program_prints() {
    let (mut records, mut entries, mut charged) = (0, 0, 0);
    for file in fs::read_dir(samples()).expect("the folder tapes/") {
        let name = file.expect("a file").file_name().into_string().expect("a name");
        let Some(sample) = name.strip_suffix(".txt") else { continue };
        let (day, printed) = (day_of(&name), stored(&format!("{sample}.expected")));
        let lines: Vec<Vec<&str>> = printed.lines().map(|line| line.split(' ').collect()).collect();
        let of = |first: &str| -> Vec<&Vec<&str>> {
            lines.iter().filter(|line| line[0] == first).collect()
        };
        let mut counts: BTreeMap<String, usize> = BTreeMap::new();
        for row in table_of(&day, Table::Records) {
            *counts.entry(row["word"].clone()).or_insert(0) += 1;
        }
        for line in lines.iter().filter(|line| line[0] != "F" && line[0] != "C") {
            let count = counts.remove(line[0]).unwrap_or_default();
            assert_eq!(count.to_string(), line[3], "{name}: {line:?}");
            records += count;
        }
        assert!(counts.is_empty(), "{name}: {counts:?}");
        let ledger = table_of(&day, Table::Ledger);
        assert_eq!(ledger.len(), of("F").len(), "{name}");
        for (row, line) in ledger.iter().zip(of("F")) {
            let cells = ["issue", "from", "to", "lots", "since"].map(|column| row[column].as_str());
            assert_eq!(cells, line[1..], "{name}");
        }
        let mut sums: BTreeMap<i64, i64> = BTreeMap::new();
        for row in table_of(&day, Table::Charges) {
            *sums.entry(number(&row, "from")).or_insert(0) -= number(&row, "yen");
            *sums.entry(number(&row, "to")).or_insert(0) += number(&row, "yen");
        }
        sums.retain(|_, yen| *yen != 0);
        let sums: Vec<Vec<String>> = sums
            .iter()
            .map(|(account, yen)| vec!["C".to_string(), account.to_string(), yen.to_string()])
            .collect();
        assert_eq!(sums.iter().collect::<Vec<_>>(), of("C"), "{name}");
        (entries, charged) = (entries + ledger.len(), charged + sums.len());
    }
    assert!(records > 100 && entries > 20 && charged >= 15, "{records} {entries} {charged}");
}

/// The number behind a name in an object of JSON, as it stands there.
fn in_json<'a>(object: &'a str, name: &str) -> &'a str {
    let Some((_, rest)) = object.split_once(&format!("\"{name}\":")) else { return "" };
    rest.split([',', '}']).next().unwrap_or_default().trim_matches('"')
}

/// The records that an object of `tape explain --json` tells: of like units one each.
fn records_in(object: &str) -> Vec<Vec<String>> {
    let fact = in_json(object, "fact");
    let to = if matches!(fact, "handed" | "partly") { "account" } else { "to" };
    let account = if fact == "met" { "account" } else { "" };
    let units: Vec<[String; 3]> = match fact {
        "handed" => {
            let unit = |name: &str| in_json(object, name).parse::<u32>().expect("a unit");
            let units = unit("first")..=unit("last");
            units.map(|unit| [unit.to_string(), unit.to_string(), "1".to_string()]).collect()
        }
        "partly" => vec![[in_json(object, "unit"), in_json(object, "unit"), "1"].map(String::from)],
        "fails" => vec![["first", "last", "units"].map(|name| in_json(object, name).to_string())],
        "resolved" | "met" => vec![["", "", ""].map(String::from)],
        _ => Vec::new(),
    };
    let names = ["day", "line", "word", "fact", "issue", "from", to, "lots"];
    let row = |units: [String; 3]| {
        let first = names.iter().map(|name| in_json(object, name).to_string());
        let last = [account, "fromSince", "toSince"].map(|name| in_json(object, name).to_string());
        first.chain(units).chain(last).collect()
    };
    units.into_iter().map(row).collect()
}

#[test]
fn the_records_are_the_facts_that_are_explained() {
    for name in ["two-days.txt", "change-over.txt", "p10.txt", "p5-to-p9.txt", "marked-issue.txt"] {
        let day = day_of(name);
        let mut told = Vec::new();
        explain(&day, Form::Json, Only::default(), &mut told).expect("it is told");
        let told = String::from_utf8(told).expect("text");
        let facts: Vec<Vec<String>> = told.lines().flat_map(records_in).collect();
        let columns = "day line word record issue from to lots first last units account fromSince \
                       toSince";
        let cells = |row: Named| columns.split(' ').map(|column| row[column].clone()).collect();
        let rows: Vec<Vec<String>> =
            table_of(&day, Table::Records).into_iter().map(cells).collect();
        assert!(!rows.is_empty(), "{name}");
        assert_eq!(rows, facts, "{name}");
        let calls = [
            ("handed", "deliver"),
            ("partly", "cutoff"),
            ("fails", "cutoff"),
            ("resolved", "resolve"),
            ("met", "pair-off"),
        ];
        for row in table_of(&day, Table::Records) {
            let pair = (row["record"].as_str(), row["call"].as_str());
            assert!(calls.contains(&pair), "{name}: {pair:?}");
        }
    }
}

#[test]
fn a_tape_that_is_not_read_to_its_end_is_told() {
    for table in ["--records", "--ledger", "--charges"] {
        let (status, written, said) = tool(&samples(), &["export", table, "damaged.txt"]);
        assert!(status == 1 && written.lines().count() >= 1, "{table}: {written}");
        assert!(said.starts_with("tape: damaged.txt:"), "{said}");
        assert!(said.contains(":1: reading ends here: refused by 14: "), "{said}");
    }
    let (status, written, said) = tool(&samples(), &["export", "--statements", "damaged.txt"]);
    assert!(status == 1 && written.starts_with("issue,account,due,"), "{written}");
    assert!(said.contains("; reading ends at word ") && said.contains("refused by 14"), "{said}");
    let long = format!("trade 0 1 2 5\nclose\ncutoff\n{}", "pair-off 0 1\n".repeat(4_094));
    let folder = folder("long", &[("long.txt", long.as_str())]);
    let (status, written, said) = tool(&folder, &["export", "--statements", "long.txt"]);
    assert_eq!((status, written.lines().nth(1)), (0, Some("0,1,5,0,5,0,4096,0,,4097,")));
    assert!(said.contains("the words from word 4097, line 4097 on are behind the span"), "{said}");
    fs::remove_dir_all(folder).unwrap();
}

#[test]
fn of_several_days_the_file_is_written_in_quotes_where_it_needs_them() {
    let tuesday = "cutoff\nroll 1 300 100000 accrued 0\n";
    let days = ["mon.txt", "a \"b\", c.txt"];
    let folder = folder("days", &[(days[0], "trade 0 1 2 7\nclose\n"), (days[1], tuesday)]);
    let (status, written, said) = tool(&folder, &[&["export", "--records"][..], &days].concat());
    assert_eq!((status, said.as_str()), (0, ""));
    let row = "0,\"a \"\"b\"\", c.txt\",1,3,cutoff,fails,0,1,2,7,0,0,1,,,";
    assert_eq!(written.lines().nth(1), Some(row));
    assert_eq!(named(&written)[0]["file"], "a \"b\", c.txt");
    let (_, written, _) = tool(&folder, &[&["export", "--charges"][..], &days].concat());
    let row = "0,\"a \"\"b\"\", c.txt\",2,4,0,1,2,7,100000,0,350000,1,300,28";
    assert_eq!(written.lines().nth(1), Some(row));
    fs::remove_dir_all(folder).unwrap();
}

#[test]
fn names_stand_in_the_files_and_in_the_tables() {
    let files = [
        ("desk.names", "date 2026-11-17\nissue 0 JGB-350\naccount 1 Aoba\naccount 2 Bizen\n"),
        ("t.csv", "issue,from,to,lots\nJGB-350,Aoba,2,7\n0,3,Bizen,5\n"),
        ("d.csv", "issue,account,lots\nJGB-350,Aoba,4\n"),
        ("wrong.csv", "issue,from,to,lots\nJGB,Aobo,2,7\n"),
        ("day.txt", "trade JGB-350 Aoba Bizen 7\ntrade 0 3 2 5\nclose\ncutoff\n"),
    ];
    let folder = folder("named", &files);
    let import = ["import", "--names", "desk.names", "--trades"];
    let of = |words: &[&str]| tool(&folder, &[&import[..], words].concat());
    let lines = "trade 0 1 2 7\ntrade 0 3 2 5\nclose\ndeliver 0 1 4\n";
    let made = format!("# made by `tape import`: trades of t.csv, deliveries of d.csv\n{lines}");
    assert_eq!(of(&["t.csv", "--deliveries", "d.csv"]), (0, made, "".into()));
    let told = "tape: wrong.csv:2:1: there is no issue \"JGB\": the names file has JGB-350\n\
        tape: wrong.csv:2:5: there is no account \"Aobo\": the names file has Aoba, Bizen\n";
    assert_eq!(of(&["wrong.csv"]), (2, "".into(), told.into()));
    let (status, _, said) = tool(&folder, &["import", "--trades", "t.csv"]);
    assert!(status == 2 && said.contains("t.csv:2:1: issue \"JGB-350\" is not a number"), "{said}");
    for (table, rows) in [
        ("--ledger", ["JGB-350,Aoba,Bizen,7,0", "JGB-350,3,Bizen,5,0"]),
        (
            "--records",
            [
                "0,,4,5,cutoff,fails,JGB-350,Aoba,Bizen,7,0,0,1,,,",
                "0,,4,5,cutoff,fails,JGB-350,3,Bizen,5,0,0,1,,,",
            ],
        ),
        ("--statements", ["JGB-350,Aoba,7,0,7,0,4,0,,,", "JGB-350,3,5,0,5,0,4,0,,,"]),
    ] {
        let words = ["export", table, "--names", "desk.names", "day.txt"];
        let (status, written, said) = tool(&folder, &words);
        assert_eq!((status, said.as_str()), (0, ""), "{table}");
        assert_eq!(written.lines().skip(1).collect::<Vec<_>>(), rows, "{table}");
    }
    fs::remove_dir_all(folder).unwrap();
}

#[test]
fn one_table_is_asked_for() {
    let one = |words: &[&str]| tool(&samples(), &[&["export"][..], words].concat());
    for (words, told) in [
        (&["p10.txt"][..], "say which table export writes"),
        (&["--records", "--ledger", "p10.txt"], "--records and --ledger contradict each other"),
        (&["--charges", "--statements"], "--charges and --statements contradict each other"),
        (&["--records", "--hex", "--words"], "--hex and --words contradict each other"),
        (&["--records", "--json"], "`tape export` has no option --json"),
    ] {
        let (status, written, said) = one(words);
        assert_eq!((status, written.as_str()), (2, ""), "{words:?}");
        assert!(said.contains(told), "{words:?}: {said}");
    }
    let (_, text, _) = one(&["--ledger", "p5-to-p9.txt"]);
    assert_eq!(one(&["--ledger", "p5-to-p9.tape"]).1, text);
    assert_eq!(text.lines().count(), 5);
    let empty = one(&["--ledger", "ring.txt"]);
    assert_eq!(empty, (0, "issue,from,to,lots,since\n".into(), "".into()));
}
