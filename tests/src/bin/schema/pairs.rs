//! Pairs of tapes that differ, and the commands that compare them: together they print every object of
//! `tape diff`, with every field.

use crate::place::Place;

/// The commands.
pub const COMMANDS: [&str; 10] = [
    "tape diff --json --names all.names morning.txt corrected.txt",
    "tape diff --json corrected.txt morning.txt",
    "tape diff --json --names all.names longer.txt short.txt",
    "tape diff --json short.txt longer.txt",
    "tape diff --json rising.txt falling.txt",
    "tape diff --json paired.txt paired-otherwise.txt",
    "tape diff --json tapes/damaged.txt tapes/not-whole.txt",
    "tape diff --json tapes/damaged.txt tapes/example.txt",
    "tape diff --json tapes/two-days.txt tapes/two-days.txt",
    "tape diff --json tapes/p5-to-p9.tape tapes/p5-to-p9-corrected.txt",
];

/// Four days: of each call one that stands elsewhere in the other tape, has other numbers there or is refused
/// otherwise. In the other tape the new order is in force on day 3.
const MORNING: &str = "\
roll 13 300 100,000 accrued 0
mark 3 1
trade 0 1 2 5
pair-off 0 1
turn 3
deliver 0 1 2
trade 3 5 6 4
trade 4 8 9 100
mark 5 1
turn 4
trade 6 10 11 250,000
trade 6 10 12 150,000
trade 7 1 2 6
close
deliver 6 10 120,000
cutoff
resolve 6 10 1,000
roll 1 300 100,000 accrued 0
# Day 1: account 9 is owed a fail and owes one.
trade 4 9 13 150
close
cutoff
pair-off 4 9
roll 1 300 100,000 accrued 0
# Day 2
close
cutoff
roll 1 300 100,000 accrued 0
# Day 3
turn 9
trade 9 30 31 100
close
deliver 9 30 10
";
const CORRECTED: &str = "\
trade 3 5 6 4
trade 4 8 9 200
mark 5 0
turn 5
trade 6 10 11 250,000
trade 6 10 12 150,000
mark 3 1
close
trade 0 1 2 5
deliver 0 1 2
deliver 6 10 220,000
cutoff
roll 13 300 100,000 accrued 0
turn 3
pair-off 0 1
resolve 6 10 2,000
roll 2 310 100,000 accrued 5
# Day 1
trade 4 9 13 150
close
cutoff
pair-off 4 9
roll 1 300 100,000 accrued 0
# Day 2
close
cutoff
roll 1 300 100,000 accrued 0
# Day 3
turn 9
trade 9 30 31 120
close
deliver 9 30 15
";

/// Every call, and a second day; and one call of them alone.
const LONGER: &str = "\
mark 5 1
turn 3
trade 0 1 2 3
trade 0 2 3 4
close
deliver 0 1 1
cutoff
resolve 0 1 1
pair-off 0 2
roll 1 300 100,000 accrued 0
close
";
const SHORT: &str = "trade 0 1 2 3\n";

/// Two pair-offs, behind which the ledger has the same entries in the sequence of the pair-offs.
const BEFORE_PAIR_OFFS: &str = "\
trade 0 1 2 10
trade 1 3 4 10
close
cutoff
roll 1 300 100,000 accrued 0
trade 0 2 5 10
trade 1 4 6 10
close
cutoff
";
const PAIR_OFFS: [&str; 2] = ["pair-off 0 2\n", "pair-off 1 4\n"];

/// So many trades in the opposite sequence are more edits than are looked for.
const MANY: u32 = 1_200;

/// Puts the tapes there.
pub fn put(place: &Place) -> Result<(), String> {
    let [one, other] = PAIR_OFFS;
    let trade = |lots: u32| format!("trade 0 1 2 {lots}\n");
    let rising: Vec<String> = (1..=MANY).map(trade).collect();
    let falling: Vec<String> = rising.iter().rev().cloned().collect();
    place.put("morning.txt", MORNING)?;
    place.put("corrected.txt", CORRECTED)?;
    place.put("longer.txt", LONGER)?;
    place.put("short.txt", SHORT)?;
    place.put("paired.txt", [BEFORE_PAIR_OFFS, one, other].concat())?;
    place.put("paired-otherwise.txt", [BEFORE_PAIR_OFFS, other, one].concat())?;
    place.put("rising.txt", rising.concat())?;
    place.put("falling.txt", falling.concat())
}
