//! Every small market, each once, for testers: the markets, or how many of them have how many fail entries.

use crate::json;
use crate::measure::counted;
use settlement_day::markets::{self, COUNTS};
use settlement_day::Refusal;

/// What is asked: so many accounts, nets of at most so much to either side.
#[derive(Clone, Copy, Debug, PartialEq, Eq)]
pub struct Size {
    pub accounts: u32,
    pub most: u32,
}

/// All markets of a size.
#[derive(Clone, Debug, PartialEq, Eq)]
pub struct Listed {
    size: Size,
    markets: Vec<Vec<i32>>,
}

/// The markets of a size that owe at least the delivered lots, by their fail entries.
#[derive(Clone, Debug, PartialEq, Eq)]
pub struct Counted {
    size: Size,
    delivered: Vec<u32>,
    counts: [u32; COUNTS],
}

/// All markets of a size.
pub fn list(size: Size) -> Result<Listed, Refusal> {
    Ok(Listed { size, markets: markets::all(size.accounts, size.most)? })
}

/// The markets of a size by their fail entries.
pub fn count(size: Size, delivered: Vec<u32>) -> Result<Counted, Refusal> {
    let counts = markets::fails(size.accounts, size.most, &delivered)?;
    Ok(Counted { size, delivered, counts })
}

/// Delivered lots with a comma between; nothing is no lots.
pub fn lots_of(list: &str) -> Result<Vec<u32>, String> {
    if list.is_empty() {
        return Ok(Vec::new());
    }
    let lots = |word: &str| {
        let wrong = || format!("--delivered needs lots with a comma between, not {list:?}");
        word.parse().map_err(|_| wrong())
    };
    list.split(',').map(lots).collect()
}

/// Why a size is refused by 7, with what to do.
pub fn refused(refusal: Refusal) -> String {
    let number = refusal.number();
    format!(
        "refused by {number}: give 0 to {} accounts, nets of 0 to {} to either side, and delivered \
         lots for each account",
        markets::MOST_ACCOUNTS,
        markets::MOST_NET
    )
}

/// Numbers with a blank between.
fn spaced<T: ToString>(numbers: &[T]) -> String {
    numbers.iter().map(T::to_string).collect::<Vec<String>>().join(" ")
}

impl Size {
    /// The size in words.
    fn text(self) -> String {
        format!("{}, nets of at most {}", counted(self.accounts as usize, "account"), self.most)
    }
}

impl Listed {
    /// A line for each market, behind their number.
    pub fn text(&self) -> String {
        let line = |market: &Vec<i32>| spaced(market) + "\n";
        let lines: String = self.markets.iter().map(line).collect();
        format!("{}: {}\n{lines}", self.size.text(), counted(self.markets.len(), "market"))
    }

    /// One object.
    pub fn json(&self) -> String {
        let Size { accounts, most } = self.size;
        json::fact("markets", |object| {
            object.field("accounts", accounts).field("most", most);
            object.field("count", self.markets.len()).field("markets", &self.markets);
        })
    }
}

impl Counted {
    /// How many markets that is.
    fn all(&self) -> usize {
        self.counts.iter().map(|&count| count as usize).sum()
    }

    /// A line for each number of fail entries.
    pub fn text(&self) -> String {
        let mut told = format!(
            "{}, delivered [{}]: {} in which each account owes at least its lots\n",
            self.size.text(),
            spaced(&self.delivered),
            counted(self.all(), "market")
        );
        for (entries, &count) in self.counts.iter().enumerate() {
            let entries = if entries == 1 {
                "1 fail entry".into()
            } else {
                format!("{entries} fail entries")
            };
            told += &format!("{entries}: {}\n", counted(count as usize, "market"));
        }
        told
    }

    /// One object.
    pub fn json(&self) -> String {
        let Size { accounts, most } = self.size;
        json::fact("marketFails", |object| {
            object.field("accounts", accounts).field("most", most);
            object.field("delivered", &self.delivered);
            object.field("markets", self.all()).field("byEntries", &self.counts[..]);
        })
    }
}

#[cfg(test)]
mod tests {
    use super::*;

    const TWO: Size = Size { accounts: 2, most: 1 };

    #[test]
    fn markets_in_lines_and_as_json() {
        let listed = list(TWO).unwrap();
        assert_eq!(listed.text(), "2 accounts, nets of at most 1: 3 markets\n-1 1\n0 0\n1 -1\n");
        assert_eq!(
            listed.json(),
            "{\"schema\":1,\"fact\":\"markets\",\"accounts\":2,\"most\":1,\"count\":3,\
             \"markets\":[[-1,1],[0,0],[1,-1]]}\n"
        );
        assert_eq!(list(Size { accounts: 6, most: 1 }), Err(Refusal::Lots));
    }

    #[test]
    fn counts_in_lines_and_as_json() {
        let counted = count(TWO, vec![0, 0]).unwrap();
        assert!(counted.text().contains("[0 0]: 3 markets in which"), "{}", counted.text());
        assert!(counted.text().contains("\n0 fail entries: 1 market\n1 fail entry: 2 markets\n"));
        assert_eq!(
            counted.json(),
            "{\"schema\":1,\"fact\":\"marketFails\",\"accounts\":2,\"most\":1,\"delivered\":[0,0],\
             \"markets\":3,\"byEntries\":[1,2,0,0,0]}\n"
        );
        assert_eq!(count(TWO, vec![0]), Err(Refusal::Lots));
    }

    #[test]
    fn delivered_lots_are_a_list() {
        assert_eq!(lots_of("1,0,2"), Ok(vec![1, 0, 2]));
        assert_eq!(lots_of(""), Ok(vec![]));
        for wrong in ["x", "1,,2", "-1", "4294967296"] {
            assert!(lots_of(wrong).is_err(), "{wrong}");
        }
    }
}
