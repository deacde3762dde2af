//! `tape markets`: every small market, each once.

use super::{put, say, Ended, Verb};
use crate::markets::{count, list, lots_of, refused, Size};
use crate::options::{number, valued, Given, Opt, JSON};

const DELIVERED: Opt = valued("--delivered", "lots with a comma between");

pub(super) const VERB: Verb = Verb {
    name: "markets",
    usage: "\
tape markets [--json] [--delivered LOTS,LOTS..] ACCOUNTS MOST
        lists every small market once: all nets of 0 to 5 accounts, each within MOST lots to either
        side, 0 to 4, that sum to 0; with --delivered it counts those in which each account owes at
        least its lots, by their fail entries after cutoff",
    options: &[JSON, DELIVERED],
    act,
};

fn act(given: &Given) -> Result<Ended, String> {
    let [accounts, most] = given.names.as_slice() else {
        return Err(format!("markets needs accounts and the most of a net:\n{}", VERB.usage));
    };
    let size = Size {
        accounts: number("ACCOUNTS", accounts, 0..=u32::MAX)?,
        most: number("MOST", most, 0..=u32::MAX)?,
    };
    let json = given.has(&JSON);
    let told = match given.value(&DELIVERED) {
        None => list(size).map(|listed| if json { listed.json() } else { listed.text() }),
        Some(lots) => count(size, lots_of(&lots.to_string_lossy())?).map(|counted| {
            if json {
                counted.json()
            } else {
                counted.text()
            }
        }),
    };
    match told {
        Ok(told) => put(given, told.as_bytes()),
        Err(refusal) => {
            say(&refused(refusal));
            Ok(Ended::Badly)
        }
    }
}
