//! What `tape explain` tells: as text, as JSON that is parsed here, and as a page of HTML.

use std::collections::BTreeMap;
use std::fs;
use std::path::Path;
use tape::input::{Day, Taken};
use tape::names::Names;
use tape::telling::{explain, explained, Form, Only, Untold};
use tape::text;

/// A value of a flat JSON object.
#[derive(Clone, Debug, PartialEq, Eq)]
enum Value {
    Number(i64),
    Text(String),
    List(Vec<i64>),
}

/// A JSON object of one line.
type Object = BTreeMap<String, Value>;

/// Two days of two issues: ties, a partial unit, refused calls, a resolve and a pair-off.
const DAYS: &str = "trade 0 4 1 230000\ntrade 0 5 2 250000\ntrade 0 5 3 150000\ntrade 3 1 2 30\n\
    trade 3 1 1 30\nclose\ndeliver 0 5 345000\ndeliver 0 4 200000\ndeliver 0 4 30001\ncutoff\n\
    roll 1 300 100000\ntrade 3 2 3 20\ntrade 3 2 1 5\nclose\ncutoff\npair-off 3 2\nresolve 0 4 6000\n\
    word 50000001\n";

/// Two days of an issue that is marked: odd lots and new marks refused, and the mark at the end.
const MARKED: &str = "mark 3 1\nmark 5 1\nmark 5 0\ntrade 3 4 1 7\ntrade 3 4 1 130000\nmark 3 1\n\
    close\ndeliver 3 4 110002\ncutoff\nroll 1 300 100000\nmark 3 0\nresolve 3 4 1\n";

/// Two days, the second with full units dealt in turn: rounds of two receivers and of one, stock that
/// waits, fails of units that lie apart.
const CHANGED: &str = "turn 1\nclose\ncutoff\nroll 1 300 100000\ntrade 0 9 1 450000\n\
    trade 0 9 2 230000\ntrade 1 9 5 100000\nclose\ndeliver 0 9 150000\ncutoff\nturn 7\n\
    resolve 0 9 530000\nroll 1 300 100000\ntrade 0 9 1 450000\ntrade 0 9 2 230000\nclose\n\
    deliver 0 9 680000\n";

/// A day in its text form.
fn day(text: &str) -> Day {
    Day::of("day.txt", text.as_bytes().to_vec(), Taken::Apart).expect("a text form")
}

/// The same as words.
fn words(text: &str) -> Day {
    let tape = text::to_tape(text).expect("a text form");
    Day::of("day.tape", tape, Taken::Words).expect("words")
}

fn told_of(day: &Day, form: Form, only: Only) -> String {
    let mut told = Vec::new();
    explain(day, form, only, &mut told).expect("it is written");
    String::from_utf8(told).expect("text")
}

fn told(form: Form, only: Only, text: &str) -> String {
    told_of(&day(text), form, only)
}

/// Parses a flat object; anything else is told.
fn parse(line: &str) -> Result<Object, String> {
    let mut rest = line.strip_prefix('{').ok_or("no {")?.strip_suffix('}').ok_or("no }")?;
    let mut object = Object::new();
    while !rest.is_empty() {
        let (name, after) = text_at(rest)?;
        let after = after.strip_prefix(':').ok_or("no :")?;
        let (value, after) = value_at(after)?;
        if object.insert(name, value).is_some() {
            return Err("a name stands twice".to_string());
        }
        rest = match after.strip_prefix(',') {
            Some("") => return Err("a comma at the end".to_string()),
            Some(next) => next,
            None if after.is_empty() => after,
            None => return Err(format!("what is {after:?}")),
        };
    }
    Ok(object)
}

/// The text in quotes that begins here, and what follows it.
fn text_at(rest: &str) -> Result<(String, &str), String> {
    let (text, after) = rest
        .strip_prefix('"')
        .and_then(|rest| rest.split_once('"'))
        .ok_or_else(|| format!("no text at {rest:?}"))?;
    let plain = text.chars().all(|letter| !letter.is_control() && letter != '\\');
    plain.then(|| (text.to_string(), after)).ok_or_else(|| format!("{text:?} is not plain"))
}

/// The value that begins here, and what follows it.
fn value_at(rest: &str) -> Result<(Value, &str), String> {
    if rest.starts_with('"') {
        return text_at(rest).map(|(text, after)| (Value::Text(text), after));
    }
    if let Some(list) = rest.strip_prefix('[') {
        let (items, after) = list.split_once(']').ok_or("no ]")?;
        let items: Result<Vec<i64>, _> = items.split(',').map(str::parse).collect();
        return Ok((Value::List(items.map_err(|error| error.to_string())?), after));
    }
    let end = rest.find([',', '}']).unwrap_or(rest.len());
    let number = rest[..end].parse().map_err(|_| format!("no value at {rest:?}"))?;
    Ok((Value::Number(number), &rest[end..]))
}

/// All objects that are told of the days.
fn objects(only: Only) -> Vec<Object> {
    let parsed = |line: &str| parse(line).unwrap_or_else(|error| panic!("{line}: {error}"));
    told(Form::Json, only, DAYS).lines().map(parsed).collect()
}

fn number(object: &Object, name: &str) -> i64 {
    match object.get(name) {
        Some(Value::Number(number)) => *number,
        other => panic!("{name} is {other:?} in {object:?}"),
    }
}

fn named<'a>(objects: &'a [Object], name: &str) -> Vec<&'a Object> {
    let name = Value::Text(name.to_string());
    objects.iter().filter(|object| object.get("fact") == Some(&name)).collect()
}

#[test]
fn some_samples_are_told_as_stored() {
    let folder = Path::new(env!("CARGO_MANIFEST_DIR")).join("../tapes");
    for name in ["p5-to-p9", "change-over", "two-days"] {
        let read = |extension: &str| {
            let file = folder.join(name).with_extension(extension);
            fs::read_to_string(&file).unwrap_or_else(|error| panic!("{}: {error}", file.display()))
        };
        assert_eq!(explained(&day(&read("txt"))), read("told"));
    }
}

#[test]
fn full_units_dealt_in_turn_have_round_and_receiver() {
    let text = told(Form::Text, Only::default(), CHANGED);
    for line in [
        "word 0, line 1: turn: full units dealt in turn from day 1 on\n",
        "\nDay 1, the new order: full units are dealt in turn since day 1\n",
        "issue 0: units 0 to 3 are rounds 1 to 2: in each one full unit each to accounts 1 and 2, in this order\n",
        "issue 0: units 4 to 5 are rounds 3 to 4: in each one full unit to account 1\n",
        "issue 1: unit 0 is round 1: one full unit to account 5\n",
        "issue 0: unit 5 of account 1 is full, unit 6 of account 1 is small: the full one is first",
        "unit 0 is handed to account 1: 100,000 lots (5,000,000,000 yen face), round 1, receiver 1 of 2\n",
        "50,000 lots wait for unit 1 of account 2, 100,000 lots, round 1, receiver 2 of 2\n",
        "issue 0: account 9 fails account 2: 150,000 lots (7,500,000,000 yen face), of units 1 and 3\n",
        "issue 0: account 9 fails account 1: 300,000 lots (15,000,000,000 yen face), of 3 units from 2 to 5 that lie apart\n",
        "turn: full units dealt in turn from day 7 on: refused by 26: the day is not after today, or the new \
         order is in force; full units are dealt in turn since day 1\n",
        "units 4 to 5 are handed to account 1: 100,000 lots (5,000,000,000 yen face) each, rounds 3 to 4, \
         receiver 1 of 1\n",
        "unit 7 is handed to account 2: 30,000 lots (1,500,000,000 yen face)\n",
        "charges\n      full units are dealt in turn from day 1 on\n",
    ] {
        assert!(text.contains(line), "{line}\n{text}");
    }
    let json = told(Form::Json, Only::default(), CHANGED);
    for part in [
        "{\"schema\":1,\"fact\":\"day\",\"day\":0,\"order\":\"old\",\"turn\":0}\n",
        "{\"schema\":1,\"fact\":\"day\",\"day\":1,\"order\":\"new\",\"turn\":1}\n",
        "\"call\":\"turn\",\"turn\":1,\"refusal\":0}\n",
        "\"first\":0,\"last\":3,\"round\":1,\"until\":2,\"accounts\":[1,2]}\n",
        "\"first\":4,\"last\":5,\"account\":1,\"lots\":100000,\"round\":3,\"until\":4,\"receiver\":1,\"of\":1}\n",
        "\"lots\":300000,\"first\":2,\"last\":5,\"units\":3}\n",
    ] {
        assert!(json.contains(part), "{part}\n{json}");
    }
    let page = told(Form::Html, Only::default(), CHANGED);
    for part in [
        "The new order: full units are dealt in turn since day 1. 3 trades; close at line 8, word 42;",
        "<p>680,000 lots (34,000,000,000 yen face) due in 8 units.</p>",
        "<td>0</td><td>1, round 1</td><td>100,000</td><td><b class=\"badge handed\">handed</b></td>",
        "<td>1</td><td>2, round 1</td><td>100,000</td><td><b class=\"badge partly\">partly failed</b> 50,000 handed, \
         50,000 failed</td>",
        "<td>2–3</td><td>1 and 2, one each in round 2</td><td>2 × 100,000</td><td><b class=\"badge failed\">",
        "<td>4–5</td><td>1, rounds 3–4</td><td>2 × 100,000</td><td><b class=\"badge failed\">failed</b></td>",
        "<p>Full units are dealt in turn from day 1 on.</p>",
    ] {
        assert!(page.contains(part), "{part}\n{page}");
    }
    let of_two = told(Form::Html, Only { account: Some(2), ..Only::default() }, CHANGED);
    let row = "<td>3</td><td>2, round 2, receiver 2 of 2</td><td>100,000</td><td><b class=\"badge failed\">";
    assert!(of_two.contains(row), "{of_two}");
    let to_come = told(Form::Text, Only::default(), "turn 2\nclose\ncutoff\nroll 1 300 1\n");
    let line = "\nDay 1, the old order: full units are dealt in turn from day 2 on\n";
    assert!(to_come.contains(line), "{to_come}");
}

#[test]
fn text_says_why() {
    let text = told(Form::Text, Only::default(), DAYS);
    for line in [
        "accounts 2 and 3 have small units of the same size, 50,000 lots: the lower number is first (both small)",
        "unit 4 of account 3 is full, unit 5 of account 2 is small: the full one is first (full and small)",
        "issue 0: units 0 to 1 are account 2's, 100,000 lots each, of 250,000 lots due",
        "account 4 still owes 30,000 lots of issue 0 today",
        "refused by 9: the account does not owe that many lots; account 4 still owes 30,000 lots",
        "refused by 6: from and to are the same account",
        "account 5 fails account 3: 25,000 lots (1,250,000,000 yen face), of unit 6",
        "value 250,000,000 yen at 100.000, accrued 0.000, 1 day at 3.00 percent a year",
        "2 steps, 25 lots cancelled",
        "the fail of account 1 to account 2 since day 0 meets that of account 2 to account 3 since day 1: 20 lots \
         (1,000,000 yen face); account 1 now owes them to account 3\n",
        "since day 0 meets that of account 2 to account 1 since day 1: 5 lots (250,000 yen face); they fall away\n",
        "in the ledger: issue 3: account 1 owes account 3 20 lots (1,000,000 yen face), since day 1",
        "account 4 hands to account 3: 1,000 lots (50,000,000 yen face)",
        "reading ends, refused by 14",
        "At the end: day 1, Cut",
    ] {
        assert!(text.contains(line), "{line}\n{text}");
    }
}

#[test]
fn marks_are_told_in_plain_words() {
    let text = told(Form::Text, Only::default(), MARKED);
    for line in [
        "word 0, line 1: mark: issue 3 in multiples of 100,000 yen face, even lots only\n",
        "word 2, line 3: mark: issue 5 in multiples of 50,000 yen face, any lots\n",
        "of issue 3: refused by 19: lots are odd in a marked issue; issue 3 is in multiples of",
        "even lots only: refused by 20: the issue has a net or an entry; issue 3 has nets of 2 accounts",
        "any lots: refused by 20: the issue has a net or an entry; issue 3 has nets of 0 accounts and 1 entry in",
        "10,002 lots wait for unit 1 of account 1, 30,000 lots",
        "charges\n      issue 3 is in multiples of 100,000 yen face, even lots only\n      issue 3: account 4",
    ] {
        assert!(text.contains(line), "{line}\n{text}");
    }
    let page = told(Form::Html, Only::default(), MARKED);
    assert!(page.contains("<p>In multiples of 100,000 yen face, even lots only: issue 3.</p>"));
    assert!(!told(Form::Html, Only::default(), DAYS).contains("even lots only"));
    let of_five = told(Form::Text, Only { issue: Some(5), ..Only::default() }, MARKED);
    assert!(of_five.contains("mark: issue 5") && !of_five.contains("issue 3"), "{of_five}");
}

#[test]
fn equal_nets_are_both_full() {
    let text = told(Form::Text, Only::default(), "trade 0 1 4 200000\ntrade 0 1 2 200000\nclose\n");
    let line =
        "accounts 2 and 4 have the same net, 200,000 lots: the lower number is first (both full)";
    assert!(text.contains(line), "{text}");
    assert!(!text.contains("full and small") && !text.contains("both small"), "{text}");
}

#[test]
fn two_hundred_like_units_are_one_line() {
    let day = "trade 0 1 2 20000000\nclose\ndeliver 0 1 20000000\ncutoff\n";
    let text = told(Form::Text, Only::default(), day);
    assert!(text.contains("units 0 to 199 are account 2's, 100,000 lots each"), "{text}");
    assert!(text.contains("units 0 to 199 are handed to account 2"), "{text}");
    assert!(text.contains("account 1 owes nothing more of issue 0 today"), "{text}");
    assert!(text.contains("nothing fails"), "{text}");
    assert!(text.lines().count() < 20, "{text}");
}

#[test]
fn a_fail_of_many_units_names_them() {
    let day = "trade 0 1 2 350000\nclose\ndeliver 0 1 120000\ncutoff\n";
    let text = told(Form::Text, Only::default(), day);
    assert!(text.contains("the remaining 20,000 lots go to unit 1 of account 2"), "{text}");
    assert!(
        text.contains("fails account 2: 180,000 lots (9,000,000,000 yen face), of units 1 to 2")
    );
    assert!(text.contains("fails account 2: 50,000 lots (2,500,000,000 yen face), of unit 3"));
}

#[test]
fn json_is_one_object_a_line_with_the_same_facts() {
    let objects = objects(Only::default());
    assert!(objects.iter().all(|object| number(object, "day") <= 1));
    let fails: Vec<[i64; 5]> = named(&objects, "fails")
        .iter()
        .map(|fail| ["issue", "from", "to", "lots", "first"].map(|name| number(fail, name)))
        .collect();
    let expected = [
        [0, 4, 2, 5_000, 5],
        [0, 4, 3, 25_000, 6],
        [0, 5, 3, 25_000, 6],
        [0, 5, 1, 30_000, 7],
        [3, 1, 2, 30, 0],
        [3, 2, 3, 20, 0],
        [3, 2, 1, 5, 1],
    ];
    assert_eq!(fails, expected);
    let refused: Vec<i64> =
        named(&objects, "instruction").iter().map(|one| number(one, "refusal")).collect();
    assert_eq!(refused.iter().filter(|&&number| number != 0).collect::<Vec<_>>(), [&6, &9]);
    assert_eq!(named(&objects, "tie")[0]["accounts"], Value::List(vec![2, 3]));
    assert_eq!(named(&objects, "tie")[0]["case"], Value::Text("both small".to_string()));
    let after = named(&objects, "small-after-full")[0];
    assert_eq!(
        ["unit", "account", "next", "follower"].map(|name| number(after, name)),
        [4, 3, 5, 2]
    );
    assert_eq!(number(named(&objects, "reading-ends")[0], "refusal"), 14);
    let yen: i64 = named(&objects, "charged").iter().map(|one| number(one, "yen")).sum();
    assert_eq!(yen, 0);
    assert_eq!(number(named(&objects, "paired")[0], "cancelled"), 25);
}

#[test]
fn every_fact_of_json_is_in_the_documents() {
    let path = Path::new(env!("CARGO_MANIFEST_DIR")).join("../docs/TAPE.md");
    let documents = fs::read_to_string(path).expect("docs/TAPE.md");
    let mut seen = objects(Only::default());
    for day in ["close\ncutoff\n", MARKED, CHANGED] {
        let told = told(Form::Json, Only::default(), day);
        seen.extend(told.lines().map(|line| parse(line).expect("an object")));
    }
    let mut names: Vec<&Value> = seen.iter().map(|object| &object["fact"]).collect();
    names.sort_by_key(|name| format!("{name:?}"));
    names.dedup();
    assert_eq!(names.len(), 23, "{names:?}");
    for object in &seen {
        let Value::Text(name) = &object["fact"] else { panic!("{object:?}") };
        let row = documents.lines().find(|line| line.starts_with(&format!("| `{name}` |")));
        let row = row.unwrap_or_else(|| panic!("docs/TAPE.md has no row of `{name}`"));
        let of_all = ["schema", "fact", "day", "word", "line"];
        for field in object.keys().filter(|field| !of_all.contains(&field.as_str())) {
            assert!(row.contains(&format!("`{field}`")), "docs/TAPE.md: `{name}` has `{field}`");
        }
    }
}

/// Is the object about this account, or about none?
fn is_about(object: &Object, account: i64) -> bool {
    let accounts = ["from", "to", "account", "follower"].map(|name| object.get(name));
    let listed = match object.get("accounts") {
        Some(Value::List(accounts)) => accounts.contains(&account),
        _ => accounts == [None; 4],
    };
    accounts.contains(&Some(&Value::Number(account))) || listed
}

#[test]
fn issue_account_and_day_narrow_it() {
    let all = objects(Only::default());
    let of_issue = objects(Only { issue: Some(3), ..Only::default() });
    assert!(of_issue.iter().all(|o| !o.contains_key("issue") || number(o, "issue") == 3));
    assert!(!named(&of_issue, "fails").is_empty() && of_issue.len() < all.len());
    let of_account = objects(Only { account: Some(4), ..Only::default() });
    assert_eq!(named(&of_account, "charged").len(), 1);
    assert!(of_account.len() < all.len());
    let of_day = objects(Only { day: Some(1), ..Only::default() });
    assert!(of_day.iter().all(|object| number(object, "day") == 1));
    assert!(!named(&of_day, "paired").is_empty() && named(&of_day, "charge").is_empty());
}

#[test]
fn a_narrowed_telling_keeps_the_instruction_that_an_effect_belongs_to() {
    for account in 0..6 {
        let objects = objects(Only { account: Some(account), ..Only::default() });
        let account = i64::from(account);
        for (at, object) in objects.iter().enumerate() {
            let is_instruction = object["fact"] == Value::Text("instruction".to_string());
            if !is_instruction {
                assert!(is_about(object, account), "{object:?}");
            }
            let Some(Value::Number(word)) = object.get("word") else { continue };
            let of_word = |other: &&Object| other.get("word") == Some(&Value::Number(*word));
            let ends = object["fact"] == Value::Text("reading-ends".to_string());
            let first = objects.iter().find(of_word).expect("itself");
            assert!(ends || first["fact"] == Value::Text("instruction".to_string()), "{object:?}");
            // An instruction of others is there for an effect that follows it.
            if is_instruction && !is_about(object, account) {
                assert!(objects[at + 1..].iter().any(|next| of_word(&next)), "{object:?}");
            }
        }
    }
    let two = told(Form::Text, Only { account: Some(2), ..Only::default() }, DAYS);
    let handed = "word 11, line 7: deliver: account 5 delivers 345,000 lots (17,250,000,000 yen face) \
        of issue 0\n      units 0 to 1 are handed to account 2: 100,000 lots (5,000,000,000 yen face) \
        each\n  word 13, line 8: deliver: account 4 delivers 200,000 lots (10,000,000,000 yen face) of \
        issue 0\n      45,000 lots wait for unit 5 of account 2, 50,000 lots\n  word 17, line 10: cutoff";
    assert!(two.contains(handed), "{two}");
    assert!(!two.contains("delivers 30,001"), "{two}");
}

#[test]
fn every_fact_names_its_instruction() {
    let of_book =
        ["day", "end", "change-over", "marked", "entry", "charged"].map(|name| name.to_string());
    let parsed = |text: String| -> Vec<Object> {
        text.lines().map(|line| parse(line).expect("an object")).collect()
    };
    let of_text = parsed(told(Form::Json, Only::default(), DAYS));
    let of_words = parsed(told_of(&words(DAYS), Form::Json, Only::default()));
    assert_eq!(of_text.len(), of_words.len());
    let mut last = None;
    for (one, other) in of_text.iter().zip(&of_words) {
        let Value::Text(name) = &one["fact"] else { panic!("{one:?}") };
        let has = !of_book.contains(name);
        assert_eq!((one.contains_key("word"), one.contains_key("line")), (has, has), "{one:?}");
        assert_eq!((one.get("word"), None), (other.get("word"), other.get("line")), "{other:?}");
        if name == "instruction" {
            last = Some((one["word"].clone(), one["line"].clone()));
        } else if has && name != "reading-ends" {
            assert_eq!(last, Some((one["word"].clone(), one["line"].clone())), "{one:?}");
        }
    }
    let fails = of_text.iter().filter(|one| one["fact"] == Value::Text("fails".to_string()));
    let lines: Vec<i64> = fails.map(|one| number(one, "line")).collect();
    assert_eq!(lines, [10, 10, 10, 10, 10, 15, 15]);
}

#[test]
fn several_days_are_one_tape_and_name_their_files() {
    let mut days = Day::of("mon.txt", b"trade 0 1 2 3\nclose\n".to_vec(), Taken::Apart).unwrap();
    days.add("tue.txt", b"# late\ncutoff\n".to_vec(), Taken::Apart).unwrap();
    let text = told_of(&days, Form::Text, Only::default());
    assert!(text.contains("  word 2, mon.txt line 2: close\n"), "{text}");
    assert!(
        text.contains("  word 3, tue.txt line 2: cutoff\n      issue 0: account 1 fails account 2")
    );
    let json = told_of(&days, Form::Json, Only::default());
    let fails = json.lines().find(|line| line.contains("\"fails\"")).expect("a fail");
    assert!(fails.contains("\"word\":3,\"line\":2,\"file\":\"tue.txt\","), "{fails}");
}

#[test]
fn days_have_a_line_between_them() {
    let all = told(Form::Text, Only::default(), DAYS);
    assert!(all.starts_with("Day 0\n") && all.contains("\n\nDay 1\n"), "{all}");
    let second = told(Form::Text, Only { day: Some(1), ..Only::default() }, DAYS);
    assert!(second.starts_with("Day 1\n"), "{second}");
}

#[test]
fn ones_are_told_in_the_singular() {
    let day = "trade 0 1 2 150001\nclose\ndeliver 0 1 100001\ncutoff\nroll 1 300 100000\n\
        trade 0 2 3 50000\nclose\ncutoff\npair-off 0 2\n";
    let text = told(Form::Text, Only::default(), day);
    for line in [
        "\n      1 lot waits for unit 1 of account 2, 50,001 lots\n",
        "issue 0: the remaining 1 lot goes to unit 1 of account 2, which still lacks 50,000 lots",
        "\n      1 step, 50,000 lots cancelled\n",
        "\n  the whole book has 1 fail entry in the ledger and 2 accounts with charges\n",
    ] {
        assert!(text.contains(line), "{line}\n{text}");
    }
}

#[test]
fn a_page_counts_the_units_that_it_shows() {
    let of = |account| told(Form::Html, Only { account, ..Only::default() }, DAYS);
    assert!(of(None).contains("<p>630,000 lots (31,500,000,000 yen face) due in 8 units.</p>"));
    assert!(of(Some(1)).contains("<p><b>Only what is of account 1 is shown.</b></p>"));
    assert!(!of(None).contains("Only what is"));
    assert!(of(None).contains("<td>5,000</td><td>100.000</td><td>0.000</td><td>250,000,000</td>"));
    assert!(of(Some(1)).contains("<p>230,000 lots (11,500,000,000 yen face) due in 3 units.</p>"));
    let day = "trade 0 9 1 230000\ntrade 0 9 8 7\nclose\n";
    let page = told(Form::Html, Only { account: Some(8), ..Only::default() }, day);
    assert!(page.contains("<p>7 lots (350,000 yen face) due in 1 unit.</p>"), "{page}");
    assert!(
        page.contains("<td>3</td><td>8</td><td>7</td><td><b class=\"badge open\">open</b></td>")
    );
}

#[test]
fn html_is_one_page_with_nothing_from_elsewhere() {
    let page = told(Form::Html, Only::default(), DAYS);
    assert!(page.starts_with("<!DOCTYPE html>") && page.trim_end().ends_with("</html>"));
    for absent in ["<script", "http", "src=", "url(", "@import", "title="] {
        assert!(!page.contains(absent), "{absent}");
    }
    for link in page.split("href=\"").skip(1) {
        let name = link.strip_prefix('#').and_then(|link| link.split_once('"')).expect("a link").0;
        assert!(page.contains(&format!("id=\"{name}\"")), "{name}");
    }
    for tag in
        ["html", "head", "body", "style", "div", "table", "tr", "td", "th", "ul", "li", "section"]
    {
        let opened =
            page.matches(&format!("<{tag}>")).count() + page.matches(&format!("<{tag} ")).count();
        assert_eq!(opened, page.matches(&format!("</{tag}>")).count(), "{tag}");
    }
    for part in [
        "<h1>Settlement days 0 to 1</h1>\n<p>day.txt: 17 instructions, 2 refused.</p>",
        "<p><b>The tape is not read to its end: line 18, word 60: reading ends, refused by 14",
        "<td><a href=\"#day-0-issue-0\">0</a> <a href=\"#day-0-issue-3\">3</a></td>",
        "<h3>Day 1, issue 3</h3>",
        "<td>0–1</td><td>2</td><td>2 × 100,000</td><td><b class=\"badge handed\">handed</b></td>",
        "<b class=\"badge partly\">partly failed</b> 45,000 handed, 5,000 failed</td>",
        "<h3>Ledger of fails</h3>",
        "<td>-226,026</td>",
    ] {
        assert!(page.contains(part), "{part}\n{page}");
    }
    let one = told(Form::Html, Only { issue: Some(3), ..Only::default() }, DAYS);
    assert!(!one.contains("issue 0</h3>") && one.contains("issue 3</h3>"));
}

#[test]
fn a_page_tells_what_became_of_each_fail() {
    let page = told(Form::Html, Only::default(), DAYS);
    for part in [
        "<td>4</td><td>2</td><td>5,000</td><td>250,000,000</td><td>unit 5</td><td><ul><li>charged 20,547 yen at the \
         roll of day 0</li><li>5,000 lots resolved on day 1, line 17, word 58</li><li>nothing is left of it</li></ul>",
        "<li>1,000 lots resolved on day 1, line 17, word 58</li><li>24,000 lots still open at the end of the tape</li>",
        "<td>1</td><td>2</td><td>30</td><td>1,500,000</td><td>unit 0</td><td><ul><li>charged 123 yen at the roll of \
         day 0</li><li>20 lots paired off by account 2 on day 1, line 16, word 57</li><li>5 lots paired off by account \
         2 on day 1, line 16, word 57</li><li>5 lots still open at the end of the tape</li></ul>",
        "<td>1</td><td>3</td><td>20</td><td>1,000,000</td><td>the pair-off of account 2</td><td>20 lots still open",
        "<ul><li>5,000 lots to account 2, failed on day 0</li><li>1,000 lots to account 3, failed on day 0</li></ul>",
        "<h3>Roll: 1 day at 3.00&nbsp;% a year</h3>",
    ] {
        assert!(page.contains(part), "{part}\n{page}");
    }
    // What became of a fail is told on the page of its day, too.
    let first = told(Form::Html, Only { day: Some(0), ..Only::default() }, DAYS);
    assert!(first.contains("<li>5,000 lots resolved on day 1, line 17, word 58</li>"), "{first}");
    assert!(first.contains("<h1>Settlement day 0</h1>") && !first.contains("Day 1, issue"));
}

#[test]
fn an_account_s_page_is_what_it_is_told() {
    let of = |account| told(Form::Html, Only { account: Some(account), ..Only::default() }, DAYS);
    let three = of(3);
    for part in [
        "<h1>Account 3, settlement days 0 to 1</h1>",
        "<h2>What it was to receive</h2>\n<table class=\"receives\">",
        "<a href=\"#day-0-issue-0\">0</a></td><td>0</td><td>150,000</td><td>100,000</td><td>50,000<ul><li>25,000 \
         by account 4</li><li>25,000 by account 5</li></ul></td><td>0</td><td>0</td><td>50,000</td><td>205,478</td>",
        "<td><a href=\"#day-1-issue-0\">1</a></td><td>0</td><td>0</td><td>0</td><td>0</td><td>1,000</td><td>0</td>\
         <td>49,000</td><td>0</td>",
        "<h2>What it was to deliver</h2>\n<p>None.</p>",
    ] {
        assert!(three.contains(part), "{part}\n{three}");
    }
    let two = of(2);
    let delivers = "<td><a href=\"#day-1-issue-3\">1</a></td><td>3</td><td>25</td><td>0</td><td>25<ul><li>20 to \
        account 3</li><li>5 to account 1</li></ul></td><td>0</td><td>25</td><td>0</td><td>0</td>";
    assert!(two.contains(delivers), "{two}");
    assert!(!told(Form::Html, Only::default(), DAYS).contains("What it was to receive"));
}

#[test]
fn a_page_that_would_be_too_long_is_refused_with_what_to_do() {
    let long = |deliveries: usize| {
        let text = format!("trade 0 1 2 20000000\nclose\n{}", "deliver 0 1 1\n".repeat(deliveries));
        let mut page = Vec::new();
        explain(&day(&text), Form::Html, Only::default(), &mut page).map(|_| page.len())
    };
    let error = long(20_000).expect_err("too long");
    let Untold::Long(what) = error else { panic!("{error:?}") };
    assert!(
        what.starts_with("a page has at most 20,000 rows, and this one would have more by day 0")
    );
    assert!(what.contains("--day N") && what.contains("leave out --html"), "{what}");
    assert!(long(9_000).expect("a page") < 5_000_000);
    // Refused instructions are listed up to 50, with how many more there are.
    let page = told(Form::Html, Only::default(), &"cutoff\n".repeat(30_000));
    assert!(page.contains("<h3>Refused: 30,000</h3>") && page.len() < 50_000, "{}", page.len());
    assert!(page.contains("<p>29,950 more are not listed here: tape check lists all.</p>"));
}

#[test]
fn two_hundred_like_units_are_one_row_of_a_page() {
    let text = "trade 0 1 2 20000000\ntrade 0 3 4 15000000\nclose\ndeliver 0 1 12345678\ncutoff\n";
    for (text, rows) in
        [(text.to_string(), 4), (format!("turn 1\nclose\ncutoff\nroll 1 1 1\n{text}"), 5)]
    {
        let page = told(Form::Html, Only::default(), &text);
        let table = page.split("<table class=\"order\">").nth(1).expect("the order");
        let table = table.split("</table>").next().unwrap_or_default();
        assert_eq!(table.matches("<tr><td>").count(), rows, "{table}");
        let handed = match rows {
            4 => "units 0–122 to account 2: 123 × 100,000 lots</td>",
            _ => {
                "units 0–122, rounds 1–62, 100,000 lots each: 62 to account 2, 61 to account 4</td>"
            }
        };
        assert!(page.contains(handed), "{page}");
    }
}

/// The dates that the days of these tests may have.
const DATES: [&str; 4] = ["2026-12-30", "2026-12-31", "2027-01-01", "2027-01-02"];

/// A day in its text form, by these names.
fn named_by(names: &str, text: &str) -> Day {
    let mut day = Day::by(Names::parse(names).expect("names"));
    day.add("day.txt", text.as_bytes().to_vec(), Taken::Apart).expect("a text form");
    day
}

/// A day in which every issue and account has a name of its own, and day 0 a date.
fn all_named(text: &str) -> Day {
    let issues = (0..16).map(|number| format!("issue {number} I{number:02}x\n"));
    let accounts = (0..64).map(|number| format!("account {number} A{number:02}x\n"));
    let names: String = issues.chain(accounts).collect();
    named_by(&format!("date {}\n{names}", DATES[0]), text)
}

/// What is told with the numbers in the place of their names again, and without dates.
fn numbered(told: &str) -> String {
    let undated =
        DATES.iter().fold(told.to_string(), |told, date| told.replace(&format!(" ({date})"), ""));
    (0..64).fold(undated, |told, number| {
        let (issue, account) = (format!("I{number:02}x"), format!("A{number:02}x"));
        told.replace(&issue, &number.to_string()).replace(&account, &number.to_string())
    })
}

/// A page without its style.
fn unstyled(page: &str) -> String {
    let (head, rest) = page.split_once("<style>").expect("a style");
    head.to_string() + rest.split_once("</style>").expect("its end").1
}

/// How issues and accounts are told by their numbers, if some are.
fn by_number(told: &str) -> Vec<String> {
    let words = ["account ", "accounts ", "issue "];
    let all = words.iter().flat_map(|word| (0..10).map(move |digit| format!("{word}{digit}")));
    all.filter(|unnamed| told.contains(unnamed.as_str())).collect()
}

#[test]
fn names_and_dates_stand_where_the_numbers_stood() {
    for text in [DAYS, MARKED, CHANGED] {
        let with = told_of(&all_named(text), Form::Text, Only::default());
        assert_eq!(numbered(&with), told(Form::Text, Only::default(), text));
        assert!(by_number(&with).is_empty(), "{:?}: {with}", by_number(&with));
        for account in [None, Some(2), Some(4), Some(9)] {
            let only = Only { account, ..Only::default() };
            let page = told_of(&all_named(text), Form::Html, only);
            assert_eq!(unstyled(&numbered(&page)), unstyled(&told(Form::Html, only, text)));
            assert!(by_number(&page).is_empty(), "{:?}: {page}", by_number(&page));
        }
    }
    let with = told_of(&all_named(DAYS), Form::Text, Only::default());
    let page = told_of(&all_named(DAYS), Form::Html, Only::default());
    for (day, date) in [("ay 0", "ay 0 (2026-12-30)"), ("ay 1", "ay 1 (2026-12-31)")] {
        for told in [&with, &page] {
            assert!(told.contains(date), "{told}");
            assert_eq!(told.matches(day).count(), told.matches(date).count(), "{told}");
        }
    }
    assert!(with.starts_with("Day 0 (2026-12-30)\n  word 0, line 1: trade: account A04x sells "));
    assert!(with.contains("\n\nDay 1 (2026-12-31)\n"), "{with}");
}

#[test]
fn a_page_with_names_has_them_in_every_table() {
    let page = told_of(&all_named(DAYS), Form::Html, Only::default());
    for part in [
        "<h1>Settlement days 0 (2026-12-30) to 1 (2026-12-31)</h1>",
        "<td><a href=\"#day-0\">0 (2026-12-30)</a></td><td>old</td><td><a href=\"#day-0-issue-0\">I00x</a> \
         <a href=\"#day-0-issue-3\">I03x</a></td>",
        "<h3>Day 1 (2026-12-31), issue I03x</h3>",
        "<td>0–1</td><td>A02x</td><td>2 × 100,000</td>",
        "<p>To deliver at the close: account A04x 230,000 lots, account A05x 400,000 lots.</p>",
        "<td>A05x</td><td>345,000</td><td><ul><li>units 0–1 to account A02x: 2 × 100,000 lots</li>",
        "<td>45,000 lots for unit 3 of account A01x</td>",
        "<td>A04x</td><td>A02x</td><td>5,000</td><td>250,000,000</td><td>unit 5</td><td><ul><li>charged 20,547 yen at \
         the roll of day 0 (2026-12-30)</li><li>5,000 lots resolved on day 1 (2026-12-31), line 17, word 58</li>",
        "<td>the pair-off of account A02x</td>",
        "<li>5,000 lots to account A02x, failed on day 0 (2026-12-30)</li>",
        "<td>I00x</td><td>A04x</td><td>A02x</td><td>5,000</td><td>100.000</td>",
        "<td>I03x</td><td>A01x</td><td>A03x</td><td>20</td><td>1,000,000</td><td>1 (2026-12-31)</td>",
        "<td>A05x</td><td>-226,026</td>",
        ".ledger tr > :nth-child(6) { text-align: left; }",
    ] {
        assert!(page.contains(part), "{part}\n{page}");
    }
    let three = told_of(&all_named(DAYS), Form::Html, Only { account: Some(3), ..Only::default() });
    for part in [
        "<h1>Account A03x, settlement days 0 (2026-12-30) to 1 (2026-12-31)</h1>",
        "<p><b>Only what is of account A03x is shown.</b></p>",
        "<td><a href=\"#day-0-issue-0\">0 (2026-12-30)</a></td><td>I00x</td><td>150,000</td><td>100,000</td><td>50,000\
         <ul><li>25,000 by account A04x</li>",
    ] {
        assert!(three.contains(part), "{part}\n{three}");
    }
    let rule = "td, li { overflow-wrap: anywhere; }";
    assert!(page.contains(rule) && !told(Form::Html, Only::default(), DAYS).contains(rule));
}

#[test]
fn json_has_names_beside_its_numbers() {
    let parsed = |text: String| -> Vec<Object> {
        text.lines().map(|line| parse(line).unwrap_or_else(|why| panic!("{line}: {why}"))).collect()
    };
    let added = ["issue_name", "account_name", "from_name", "to_name", "date"];
    let path = Path::new(env!("CARGO_MANIFEST_DIR")).join("../docs/TAPE.md");
    let documents = fs::read_to_string(path).expect("docs/TAPE.md");
    let missing: Vec<&&str> =
        added.iter().filter(|field| !documents.contains(&format!("`{field}`"))).collect();
    assert!(missing.is_empty(), "docs/TAPE.md has not {missing:?}");
    for text in [DAYS, MARKED, CHANGED] {
        let plain = parsed(told(Form::Json, Only::default(), text));
        let with = parsed(told_of(&all_named(text), Form::Json, Only::default()));
        assert_eq!(plain.len(), with.len());
        for (mut one, other) in with.into_iter().zip(plain) {
            for (field, letter) in [("issue", 'I'), ("account", 'A'), ("from", 'A'), ("to", 'A')] {
                let name = one
                    .contains_key(field)
                    .then(|| Value::Text(format!("{letter}{:02}x", number(&one, field))));
                assert_eq!(one.get(&format!("{field}_name")), name.as_ref(), "{one:?}");
            }
            let date = DATES[number(&one, "day") as usize].to_string();
            assert_eq!(one.get("date"), Some(&Value::Text(date)), "{one:?}");
            one.retain(|name, _| !added.contains(&name.as_str()));
            if let Some(Value::Text(why)) = one.get("why").cloned() {
                one.insert("why".to_string(), Value::Text(numbered(&why)));
            }
            // The numbers are all there, and nothing else is new.
            assert_eq!(one, other);
        }
    }
}

#[test]
fn where_some_are_named_the_others_are_numbers_and_a_page_escapes() {
    let day = named_by("issue 3 X/1\naccount 4 A&B\n", DAYS);
    let text = told_of(&day, Form::Text, Only::default());
    for line in [
        "Day 0\n  word 0, line 1: trade: account A&B sells account 1 230,000 lots",
        "trade: account 1 sells account 2 30 lots (1,500,000 yen face) of issue X/1\n",
        "account A&B fails account 2: 5,000 lots",
        "\n\nDay 1\n",
        "account A&B still owes 30,000 lots of issue 0 today",
    ] {
        assert!(text.contains(line), "{line}\n{text}");
    }
    let json = told_of(&day, Form::Json, Only::default());
    let deliver =
        "\"call\":\"deliver\",\"issue\":0,\"account\":4,\"account_name\":\"A&B\",\"lots\":200000,";
    assert!(json.contains(deliver) && !json.contains("\"date\""), "{json}");
    for account in [None, Some(4), Some(2)] {
        let page = told_of(&day, Form::Html, Only { account, ..Only::default() });
        assert!(page.contains("account A&amp;B") && !page.contains("A&B"), "{page}");
    }
    let dated = named_by("date 2026-12-30\n", DAYS);
    let text = told_of(&dated, Form::Text, Only { day: Some(1), ..Only::default() });
    assert!(text.starts_with("Day 1 (2026-12-31)\n") && text.contains("since day 0 (2026-12-30)"));
}
