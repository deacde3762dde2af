//! The commands that print objects: on every sample tape and some others, on pairs of tapes, on sessions of the
//! console, and on files of participants.

use crate::pairs;
use crate::place::Place;
use settlement_day::{ACCOUNTS, ISSUES};
use std::fs;
use tape::text::to_tape;

/// The commands on each tape, in the place of `DAY`. `other.txt` is a day without instructions, so that files
/// are named.
const ON_A_TAPE: [&str; 13] = [
    "tape explain --json DAY",
    "tape explain --json other.txt DAY",
    "tape check --json DAY",
    "tape check --json other.txt DAY",
    "tape statement --json --all DAY",
    "tape statement --json DAY 0 2",
    "tape jam --json --sizes 100000,10000 DAY all.desk",
    "tape look --json DAY owners.txt 0 2",
    "tape look --json --as 0 DAY owners.txt 0 2",
    "tape why --json DAY 0 0",
    "tape why --json --at 0 DAY 0 0",
    "tape why --json --account 2 --issue 0 DAY",
    "tape why --json --at 0 --account 2 --issue 0 DAY",
];

/// Commands that print no objects, for those that follow.
const BEFORE: [&str; 3] = ["daybook new desk", "daybook new day", "daybook new full"];

/// The option with names for all that a tape can have, and the date of day 0.
const NAMED: &str = "--names all.names";
const DAY_0: &str = "date 2026-11-17\n";

/// The other commands.
const ONCE: [&str; 35] = [
    "tape explain --json tapes/p5-to-p9.txt tapes/ring.txt",
    "tape explain --json --issue 2 --account 30 --day 1 tapes/two-days.txt",
    "tape explain --json --names tapes/two-days.names tapes/two-days.txt",
    "tape check --json --names tapes/two-days.names tapes/two-days.txt",
    "tape why --json --names tapes/two-days.names --account Ginza --issue JGB-350 tapes/two-days.txt",
    "tape statement --json --all long.txt",
    "tape why --json --at 9 tapes/p5-to-p9.txt 0 3",
    "tape why --json --at 12 tapes/p5-to-p9.txt 0 0",
    "tape why --json --at 12 tapes/p5-to-p9.txt 0 5",
    "tape why --json --at 12 tapes/p5-to-p9.txt 0 6",
    "tape why --json --at 12 tapes/p5-to-p9.txt 16 0",
    "tape why --json --at 12 tapes/p5-to-p9.txt 0 4294967295",
    "tape why --json --day 2 tapes/change-over.txt 0 3",
    "tape why --json --day 0 --account 30 --issue 2 tapes/two-days.txt",
    "tape why --json --day 2 --account 1 --issue 0 tapes/change-over.txt",
    "tape jam --json tapes/ring.txt tapes/ring.desk",
    "tape look --json --at 12 tapes/p5-to-p9.txt owners.txt 0 2",
    "tape look --json tapes/p5-to-p9.txt owners.txt 16 0",
    "tape look --json tapes/p5-to-p9.txt owners.txt 0 64",
    "tape look --json --as 4294967295 tapes/p5-to-p9.txt owners.txt 0 2",
    "tape markets --json 2 1",
    "tape markets --json 0 0",
    "tape markets --json 5 4",
    "tape markets --json --delivered 1,0,2,0,0 5 4",
    "daybook --json desk <desk.lines",
    "daybook explain --json desk",
    "daybook --json --batch day <daybook/tests/day.txt",
    "daybook explain --json day",
    "trap '' XFSZ; ulimit -f 1; exec daybook --json full <full.lines",
    "treasury --json --factor 2.5 --funds 110 participants.csv",
    "treasury --json --factor 2.5 participants.csv",
    "treasury --json --funds 80 bases.csv",
    "treasury --json --factor 2.5 --funds 401 participants.csv",
    "treasury --json --factor 2.5 --funds 1000001 participants.csv",
    "treasury --json --factor 5.1 --funds 499 annex.csv",
];

/// A tape with what the samples lack: a close that is refused.
const CLOSED_TWICE: &str = "close\nclose\n";

/// A session of the console with every line that it takes, a lift among them.
const DESK: &str = "\
help
order 0
turn 9
mark 5 1
trade 0 4 1 230,000
trade 0 5 2 250,000
trade 0 5 3 150,000
order 0
why 0 0
close
deliver 0 5 345,000
order 0
unit 0 7
unit 0 99
why 0 0
why 0 7
commit
ask 0 7
commit
status
deliver 0 4 200,000
deliver 0 4 200,000
cutoff
why 0 6
why 0 7
order 0
ledger
resolve 0 4 1,000
pair-off 0 2
roll 1 300 100,000
charges
sell
status
";

/// The participants of a default, and some with bases.
const PARTICIPANTS: &str = "participant,average\nNorth,20\nEast,60\nSouth,10\nWest,60\nHill,0\n";
const BASES: &str = "\"A\" 60 30\nB 20 70\n";
/// The participants of document 002's annex, with more columns than the command takes.
const ANNEX: &str = include_str!("../../../funds-annex.txt");
/// More instructions than the span of a statement has.
const MANY: usize = 4_097;

/// Runs all commands; what each printed is looked at. Answers how many they were.
pub fn run(place: &Place, look: &mut dyn FnMut(&str, &str)) -> Result<usize, String> {
    put_files(place)?;
    BEFORE.iter().try_for_each(|command| place.run(command).map(|_| ()))?;
    let tapes = tapes(place)?;
    let on_tapes =
        tapes.iter().flat_map(|tape| ON_A_TAPE.map(|command| command.replace("DAY", tape)));
    let once = ONCE.iter().chain(&pairs::COMMANDS).map(|command| command.to_string());
    let commands: Vec<String> = on_tapes.chain(once).collect();
    for command in &commands {
        look(command, &place.run(command)?);
    }
    Ok(commands.len())
}

/// Puts the files there that the commands name.
fn put_files(place: &Place) -> Result<(), String> {
    pairs::put(place)?;
    let issues = (0..ISSUES).map(|number| format!("issue {number} Issue-{number}\n"));
    let accounts = (0..ACCOUNTS).map(|number| format!("account {number} Account-{number}\n"));
    let names: Vec<String> = issues.chain(accounts).collect();
    place.put("all.names", [DAY_0, &names.concat()].concat())?;
    place.put("other.txt", "# no instruction\n")?;
    place.put("all.desk", "settles 0-63 0\nholds 0 0 50,000\n")?;
    place.put("owners.txt", "owns 0 5\nowns 1 2-3\n")?;
    place.put("desk.lines", DESK)?;
    place.put("full.lines", "trade 0 1 2 3\n".repeat(12))?;
    place.put("participants.csv", PARTICIPANTS)?;
    place.put("bases.csv", BASES)?;
    let of_annex = |line: &str| line.split_whitespace().take(2).collect::<Vec<_>>().join(" ");
    let annex: Vec<String> =
        ANNEX.lines().filter(|line| !line.starts_with('#')).map(of_annex).collect();
    place.put("annex.csv", annex.join("\n"))?;
    let long = format!("trade 0 1 2 3\nclose\ncutoff\n{}", "pair-off 0 1\n".repeat(MANY));
    place.put("long.txt", long)
}

/// The tapes as the commands name them: the samples and one more, in their text form, and as words with names.
fn tapes(place: &Place) -> Result<Vec<String>, String> {
    place.put("closed-twice.txt", CLOSED_TWICE)?;
    let mut texts = vec![("closed-twice.txt".to_string(), CLOSED_TWICE.to_string())];
    let files = fs::read_dir("tapes").map_err(|error| format!("tapes: {error}"))?;
    for file in files {
        let path = file.map_err(|error| format!("tapes: {error}"))?.path();
        let name = path.display().to_string();
        if name.ends_with(".txt") {
            let text = fs::read_to_string(&path).map_err(|error| format!("{name}: {error}"))?;
            texts.push((name, text));
        }
    }
    texts.sort();
    let mut tapes = Vec::new();
    for (name, text) in texts {
        let words = name.replace('/', "-").replace(".txt", ".tape");
        let tape = to_tape(&text).map_err(|faults| format!("{name}: {faults:?}"))?;
        place.put(&words, tape)?;
        tapes.extend([name, format!("{NAMED} {words}")]);
    }
    Ok(tapes)
}
