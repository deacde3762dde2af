//! The participants in a text or CSV file: a line each, with its name, its average and, where bases
//! are given, its base; by commas, semicolons or spaces. Behind `#` everything is left out, and so is
//! a first line that names the columns.

use std::collections::BTreeMap;
use std::fmt;

/// A number and where it stands in the file.
#[derive(Clone, Copy, Debug, PartialEq, Eq)]
pub struct Amount {
    pub amount: u64,
    pub place: Place,
}

/// A line and a column, each from 1.
#[derive(Clone, Copy, Debug, PartialEq, Eq)]
pub struct Place {
    pub line: usize,
    pub column: usize,
}

/// A participant; its number is its place in the list, from 0.
#[derive(Clone, Debug, PartialEq, Eq)]
pub struct Participant {
    pub name: String,
    pub place: Place,
    pub average: Amount,
    pub base: Option<Amount>,
}

/// What is wrong with a file, and what to do.
#[derive(Clone, Debug, PartialEq, Eq)]
pub struct Fault {
    pub place: Place,
    pub what: String,
}

impl Fault {
    /// The fault with the file that it is in, as editors take a place.
    pub fn in_file(&self, file: &str) -> String {
        format!("{file}:{}: {}", self.place, self.what)
    }
}

impl fmt::Display for Place {
    fn fmt(&self, text: &mut fmt::Formatter) -> fmt::Result {
        write!(text, "{}:{}", self.line, self.column)
    }
}

/// A field of a line, and where it begins.
struct Field<'a> {
    text: &'a str,
    place: Place,
}

impl Field<'_> {
    fn fault(&self, what: String) -> Fault {
        Fault { place: self.place, what }
    }

    /// The field as an amount.
    fn amount(&self, name: &str) -> Result<Amount, Fault> {
        let text = self.text;
        let digits = !text.is_empty() && text.bytes().all(|byte| byte.is_ascii_digit());
        let what = format!("{name} {text:?} is no number; write digits alone, in 100 million yen");
        if !digits || (text.len() > 1 && text.starts_with('0')) {
            return Err(self.fault(what));
        }
        let large = format!("{name} {text} is too large; write amounts in 100 million yen");
        let amount = text.parse().map_err(|_| self.fault(large))?;
        Ok(Amount { amount, place: self.place })
    }
}

/// The fields of a line before `#`, without the blanks around them: between commas or semicolons where
/// there are some, between blanks where there are none.
fn fields_of(line: &str, number: usize) -> Vec<Field<'_>> {
    let before = line.split('#').next().unwrap_or_default();
    let marks: &[char] = if before.contains([',', ';']) { &[',', ';'] } else { &[' ', '\t'] };
    let mut fields = Vec::new();
    let mut start = 0;
    for part in before.split(marks) {
        let text = part.trim();
        let at = start + (part.len() - part.trim_start().len());
        let column = before[..at].chars().count() + 1;
        if marks[0] == ',' || !text.is_empty() {
            fields.push(Field { text, place: Place { line: number, column } });
        }
        start += part.len() + 1;
    }
    fields.retain(|field| !before.trim().is_empty() || !field.text.is_empty());
    fields
}

/// Does the line name the columns?
fn is_heading(fields: &[Field]) -> bool {
    fields.len() > 1 && fields[1].text.eq_ignore_ascii_case("average")
}

/// Is the name followed by what may be the first digits of a number with a comma in it, as `A 1,048`?
fn is_split_number(fields: &[Field]) -> bool {
    let Some((_, last)) = fields[0].text.rsplit_once([' ', '\t']) else { return false };
    let digits = |text: &str| text.bytes().all(|byte| byte.is_ascii_digit());
    digits(last) && fields.get(1).is_some_and(|next| next.text.len() == 3 && digits(next.text))
}

/// The participant of a line.
fn participant_of(fields: &[Field]) -> Result<Participant, Fault> {
    let name = &fields[0];
    if name.text.is_empty() {
        return Err(name.fault("a participant has no name; write NAME,AVERAGE".into()));
    }
    if is_split_number(fields) {
        let what = "a name and a number with a comma in it; write digits alone, or NAME;AVERAGE";
        return Err(name.fault(what.into()));
    }
    if let Some(more) = fields.get(3) {
        return Err(
            more.fault("a line has a name, an average and a base; leave out the rest".into())
        );
    }
    let Some(average) = fields.get(1) else {
        let what = format!("{} has no average; write NAME,AVERAGE", name.text);
        return Err(name.fault(what));
    };
    Ok(Participant {
        name: name.text.into(),
        place: name.place,
        average: average.amount("the average")?,
        base: fields.get(2).map(|base| base.amount("the base")).transpose()?,
    })
}

/// The participants of a file's text: all of them with a base, or none.
pub fn participants(text: &str) -> Result<Vec<Participant>, Fault> {
    let text = text.strip_prefix('\u{feff}').unwrap_or(text);
    let mut participants: Vec<Participant> = Vec::new();
    let mut lines: BTreeMap<String, usize> = BTreeMap::new();
    let mut begun = false;
    for (line, number) in text.lines().zip(1..) {
        let fields = fields_of(line, number);
        if fields.is_empty() || (!begun && is_heading(&fields)) {
            begun = begun || !fields.is_empty();
            continue;
        }
        begun = true;
        let participant = participant_of(&fields)?;
        if let Some(first) = lines.insert(participant.name.clone(), number) {
            let what = format!("{} stands in line {first} already; leave one out", fields[0].text);
            return Err(fields[0].fault(what));
        }
        let given = |participant: &Participant| participant.base.is_some();
        if participants.first().is_some_and(|first| given(first) != given(&participant)) {
            let what =
                "either every participant has a base or none; fill them in, or leave them out";
            return Err(fields[0].fault(what.into()));
        }
        participants.push(participant);
    }
    Ok(participants)
}

#[cfg(test)]
mod tests {
    use super::participants;

    fn told(text: &str) -> String {
        match participants(text) {
            Ok(participants) => participants
                .iter()
                .map(|one| {
                    let base = one.base.map_or(String::new(), |base| format!("/{}", base.amount));
                    format!("{}={}{base} ", one.name, one.average.amount)
                })
                .collect(),
            Err(fault) => fault.in_file("x"),
        }
    }

    #[test]
    fn lines_are_read() {
        assert_eq!(told("A 10\nB\t20\n"), "A=10 B=20 ");
        assert_eq!(
            told("# all\nparticipant,average\n\n First Bank , 10 # x\nB,20\r\n"),
            "First Bank=10 B=20 "
        );
        assert_eq!(told("\u{feff}name;average;base\nA;10;50\nB;20;0\n"), "A=10/50 B=20/0 ");
        assert_eq!(told(""), "");
    }

    #[test]
    fn faults_are_told_with_their_places() {
        assert!(told("A 10\nB x\n").starts_with("x:2:3: the average \"x\" is no number"));
        assert!(told("A,1,048\n").starts_with("x:1:5: the base \"048\" is no number"));
        assert!(told("A 1,348\n").starts_with("x:1:1: a name and a number with a comma in it"));
        assert!(told("A,1,0,48\n").starts_with("x:1:7: a line has a name"));
        assert!(told("A\n").starts_with("x:1:1: A has no average"));
        assert!(told(",5\n").starts_with("x:1:1: a participant has no name"));
        assert!(told("A,\n").starts_with("x:1:3: the average \"\" is no number"));
        assert!(told("A 1\nA 2\n").starts_with("x:2:1: A stands in line 1 already"));
        assert!(told("A 1 5\nB 2\n").starts_with("x:2:1: either every participant"));
        assert!(told("A -1\n").starts_with("x:1:3: the average \"-1\" is no number"));
        assert!(told("A 99999999999999999999\n").starts_with("x:1:3: the average"));
        assert!(told("É 1\nÉé x\n").starts_with("x:2:4:"));
    }
}
