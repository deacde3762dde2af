//! The table of a default: what the proved library answers, as text and as JSON.

use crate::file::{Fault, Participant};
use settlement_day::funds::{self, Amounts, MOST_AMOUNT, PARTICIPANTS};
use settlement_day::Refusal;
use tape::json;

/// The fact that both objects of JSON are: the table, and the refusal.
const FACT: &str = "funds";

/// The participants of a default, the factor that their bases come from (none where bases are given),
/// and the funds (none where only bases are asked for).
#[derive(Clone, Debug, PartialEq, Eq)]
pub struct Provision {
    pub participants: Vec<Participant>,
    pub tenths: Option<u64>,
    pub funds: Option<u64>,
}

/// A line of the table.
#[derive(Clone, Debug, PartialEq, Eq)]
pub struct Row {
    pub name: String,
    pub average: u64,
    pub base: u64,
    pub share: Option<u64>,
}

/// The table, by participant number.
#[derive(Clone, Debug, PartialEq, Eq)]
pub struct Table {
    pub rows: Vec<Row>,
    pub tenths: Option<u64>,
    pub funds: Option<u64>,
}

/// Why there is no table: a refusal, where in the file it comes from if it comes from there, and what
/// to do.
#[derive(Clone, Debug, PartialEq, Eq)]
pub struct Refused {
    pub number: u32,
    pub place: Option<Fault>,
    pub what: String,
}

impl Provision {
    /// The averages, by participant number.
    fn averages(&self) -> Vec<u64> {
        self.participants.iter().map(|one| one.average.amount).collect()
    }

    /// The bases: those given, or those of the averages and the factor.
    fn bases(&self, averages: &[u64]) -> Result<Vec<u64>, Refusal> {
        if let Some(tenths) = self.tenths {
            let mut output: Amounts = [0; PARTICIPANTS];
            funds::bases(averages, tenths, &mut output)?;
            return Ok(output.into_iter().take(averages.len()).collect());
        }
        Ok(self.participants.iter().map(|one| one.base.map_or(0, |base| base.amount)).collect())
    }

    /// The table, or why there is none.
    pub fn table(&self) -> Result<Table, Refused> {
        let averages = self.averages();
        let bases = self.bases(&averages).map_err(|refusal| self.refused(refusal, 0))?;
        let together = bases.iter().map(|&base| u128::from(base)).sum();
        let mut output: Amounts = [0; PARTICIPANTS];
        let amount = self.funds.unwrap_or(0);
        match self.tenths {
            Some(tenths) => funds::funds(&averages, tenths, amount, &mut output),
            None => funds::shares(&averages, &bases, amount, &mut output),
        }
        .map_err(|refusal| self.refused(refusal, together))?;
        let rows = self.participants.iter().zip(bases).zip(output);
        let row = |((one, base), share): ((&Participant, u64), u64)| Row {
            name: one.name.clone(),
            average: one.average.amount,
            base,
            share: self.funds.map(|_| share),
        };
        Ok(Table { rows: rows.map(row).collect(), tenths: self.tenths, funds: self.funds })
    }

    /// What a refusal comes from.
    fn refused(&self, refusal: Refusal, together: u128) -> Refused {
        let (number, funds) = (refusal.number(), self.funds.unwrap_or(0));
        if refusal == Refusal::Bases {
            let what = format!(
                "the funds of {funds} are above all bases together, {together}; lower the funds or \
                 raise the factor"
            );
            return Refused { number, place: None, what };
        }
        if let Some(one) = self.participants.get(PARTICIPANTS) {
            let what =
                format!("{} is participant {}; there are at most 64", one.name, PARTICIPANTS + 1);
            return Refused {
                number,
                place: Some(Fault { place: one.place, what: what.clone() }),
                what,
            };
        }
        let large = self.participants.iter().find(|one| one.average.amount > MOST_AMOUNT);
        if let Some(one) = large {
            let amount = one.average.amount;
            let what =
                format!("the average {amount} is above 1,000,000; write it in 100 million yen");
            let fault = Fault { place: one.average.place, what: what.clone() };
            return Refused { number, place: Some(fault), what };
        }
        let what = match self.tenths.filter(|&tenths| tenths > MOST_AMOUNT) {
            Some(tenths) => {
                format!("the factor of {}.{} is above 100,000", tenths / 10, tenths % 10)
            }
            None => {
                format!("the funds of {funds} are above 1,000,000; give them in 100 million yen")
            }
        };
        Refused { number, place: None, what }
    }
}

impl Table {
    /// The sums of averages, bases and shares.
    fn sums(&self) -> (u128, u128, u128) {
        let sum = |of: fn(&Row) -> u64| self.rows.iter().map(|row| u128::from(of(row))).sum();
        (sum(|row| row.average), sum(|row| row.base), sum(|row| row.share.unwrap_or(0)))
    }

    /// The table as text, with the sums in the last line.
    pub fn text(&self) -> String {
        let (average, base, share) = self.sums();
        let head = ["no", "participant", "average", "base", "share"].map(String::from);
        let foot =
            [String::new(), "sum".into(), average.to_string(), base.to_string(), share.to_string()];
        let mut lines = vec![head];
        for (number, row) in self.rows.iter().enumerate() {
            let share = row.share.map_or(String::new(), |share| share.to_string());
            let amounts = (row.average.to_string(), row.base.to_string());
            lines.push([number.to_string(), row.name.clone(), amounts.0, amounts.1, share]);
        }
        lines.push(foot);
        let columns = if self.funds.is_some() { 5 } else { 4 };
        let width =
            |at: usize| lines.iter().map(|line| line[at].chars().count()).max().unwrap_or(0);
        let widths: Vec<usize> = (0..columns).map(width).collect();
        let mut text = self.heading();
        for line in &lines {
            let cell = |at: usize| match at {
                1 => format!("{:<1$}", line[at], widths[at]),
                _ => format!("{:>1$}", line[at], widths[at]),
            };
            let cells: Vec<String> = (0..columns).map(cell).collect();
            text.push_str(cells.join("  ").trim_end());
            text.push('\n');
        }
        text
    }

    /// What the table is of.
    fn heading(&self) -> String {
        let factor = match self.tenths {
            Some(tenths) => format!("factor {}.{}", tenths / 10, tenths % 10),
            None => "given bases".into(),
        };
        let funds = self.funds.map_or(String::new(), |funds| format!(", funds {funds}"));
        format!("{factor}{funds}; amounts in 100 million yen\n")
    }

    /// The table as one object of JSON.
    pub fn json(&self) -> String {
        let (average, base, share) = self.sums();
        json::fact(FACT, |object| {
            object.field("refusal", 0_u32).field("factor_tenths", self.tenths);
            object.field("funds", self.funds);
            object.objects("participants", self.rows.iter().enumerate(), |one, (number, row)| {
                one.field("number", number).field("participant", row.name.as_str());
                one.field("average", row.average).field("base", row.base);
                one.field("share", row.share);
            });
            object.object("sum", |sum| {
                sum.field("average", average).field("base", base);
                sum.field("share", self.funds.map(|_| share));
            });
        })
    }
}

impl Refused {
    /// The refusal for people; the file is that of the participants.
    pub fn text(&self, file: &str) -> String {
        let told = format!("refused by {}: {}", self.number, self.what);
        match &self.place {
            Some(fault) => Fault { place: fault.place, what: told }.in_file(file),
            None => told,
        }
    }

    /// The refusal as one object of JSON.
    pub fn json(&self) -> String {
        json::fact(FACT, |object| {
            object.field("refusal", self.number).field("what", self.what.as_str());
        })
    }
}
