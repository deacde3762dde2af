//! CSV by RFC 4180: rows of cells with a comma between them, a cell in quotes where it has a comma,
//! a quote or a line end in it, and a header that names the columns. What is wrong is told with its
//! place; what is written has a line feed behind each row.

use crate::fault::{shown, Fault, Faults, Word};
use crate::lines::{place_of_byte, Lines};
use crate::measure::{counted, write_number};
use crate::output::Untold;
use crate::source::Source;
use crate::text::digits_of;
use std::array;
use std::borrow::Cow;
use std::io::{self, Write};

/// The column that every file may have and that is not read.
pub const NOTE: &str = "note";
/// The letters for which a cell is written in quotes.
const IN_QUOTES: [char; 4] = [',', '"', '\n', '\r'];
/// Separators that are no commas, and what they are called.
const OTHER_SEPARATORS: [(char, &str); 2] = [(';', "semicolons"), ('\t', "tabs")];

/// A cell: its text without the quotes around it, and where it begins.
#[derive(Clone, Debug, PartialEq, Eq)]
pub struct Cell<'a> {
    pub text: Cow<'a, str>,
    /// The line's number, from 1.
    pub line: usize,
    /// The column of the line, from 1.
    pub column: usize,
}

impl Cell<'_> {
    /// What it has without the blanks around it.
    fn word(&self) -> Word<'_> {
        Word { text: self.text.trim(), line: self.line, column: self.column }
    }
}

/// A row has at least one cell.
pub type Row<'a> = Vec<Cell<'a>>;

/// The rows of a text, or what is wrong with them. Behind a fault they go on with the next line.
#[derive(Clone, Debug)]
pub struct Rows<'a> {
    rest: &'a str,
    /// The place of the rest.
    line: usize,
    column: usize,
}

impl<'a> Rows<'a> {
    /// The rows of a text.
    pub fn of(text: &'a str) -> Rows<'a> {
        Rows::from_line(text, 1)
    }

    /// The rows of a text that begins with the line of this number.
    fn from_line(text: &'a str, line: usize) -> Rows<'a> {
        Rows { rest: text, line, column: 1 }
    }

    /// Passes over so many bytes of the rest, and answers them.
    fn pass(&mut self, bytes: usize) -> &'a str {
        let (passed, rest) = self.rest.split_at(bytes);
        self.rest = rest;
        match passed.rfind('\n') {
            Some(last) => {
                self.line += passed.bytes().filter(|byte| *byte == b'\n').count();
                self.column = passed[last + 1..].chars().count() + 1;
            }
            None => self.column += passed.chars().count(),
        }
        passed
    }

    /// The same, of bytes among which no line ends.
    fn pass_in_line(&mut self, bytes: usize) -> &'a str {
        let (passed, rest) = self.rest.split_at(bytes);
        self.rest = rest;
        self.column += passed.chars().count();
        passed
    }

    /// A fault where the rest begins.
    fn fault(&self, what: String) -> Fault {
        Fault { line: self.line, column: self.column, what }
    }

    /// The next cell, and whether the row has another behind it.
    fn cell(&mut self) -> Result<(Cell<'a>, bool), Fault> {
        let (line, column) = (self.line, self.column);
        let text = if self.rest.starts_with('"') { self.in_quotes()? } else { self.plain()? };
        let cell = Cell { text, line, column };
        if self.rest.starts_with(',') {
            self.pass_in_line(1);
            return Ok((cell, true));
        }
        if self.ends_line() {
            return Ok((cell, false));
        }
        if self.rest.starts_with('\r') {
            let what = "a carriage return stands alone here: end the lines with LF or CRLF";
            return Err(self.fault(what.to_string()));
        }
        Err(self.fault(format!(
            "the field in quotes that begins in line {line} ends before this: write a comma or a \
             line end behind it, and a quote inside it twice"
        )))
    }

    /// The text of a cell without quotes.
    fn plain(&mut self) -> Result<Cow<'a, str>, Fault> {
        // As bytes, which are quicker to look through than letters.
        let ends = |byte| IN_QUOTES.contains(&char::from(byte));
        let end = self.rest.bytes().position(ends).unwrap_or(self.rest.len());
        let text = self.pass_in_line(end);
        if self.rest.starts_with('"') {
            let what = "a quote stands inside a field that does not begin with one: put the field \
                        in quotes, and write each quote inside it twice";
            return Err(self.fault(what.to_string()));
        }
        Ok(Cow::Borrowed(text))
    }

    /// The text of a cell in quotes, each quote inside it once.
    fn in_quotes(&mut self) -> Result<Cow<'a, str>, Fault> {
        let (line, column) = (self.line, self.column);
        self.pass_in_line(1);
        let mut text = Cow::Borrowed("");
        loop {
            let Some(end) = self.rest.find('"') else {
                self.pass(self.rest.len());
                let what = "this quote is not closed: write another at the field's end".to_string();
                return Err(Fault { line, column, what });
            };
            text += self.pass(end);
            self.pass_in_line(1);
            if !self.rest.starts_with('"') {
                return Ok(text);
            }
            text += self.pass_in_line(1);
        }
    }

    /// Passes over the end of a line or of the text, if it is here.
    fn ends_line(&mut self) -> bool {
        let end = if self.rest.starts_with("\r\n") {
            2
        } else {
            usize::from(self.rest.starts_with('\n'))
        };
        if end > 0 {
            self.rest = &self.rest[end..];
            (self.line, self.column) = (self.line + 1, 1);
            return true;
        }
        self.rest.is_empty()
    }

    /// Passes over the rest of a line.
    fn leave_line(&mut self) {
        let end = self.rest.find('\n').map_or(self.rest.len(), |at| at + 1);
        self.pass(end);
    }
}

impl<'a> Iterator for Rows<'a> {
    type Item = Result<Row<'a>, Fault>;

    fn next(&mut self) -> Option<Result<Row<'a>, Fault>> {
        if self.rest.is_empty() {
            return None;
        }
        let mut row = Vec::new();
        loop {
            match self.cell() {
                Ok((cell, more)) => {
                    row.push(cell);
                    if !more {
                        return Some(Ok(row));
                    }
                }
                Err(fault) => {
                    self.leave_line();
                    return Some(Err(fault));
                }
            }
        }
    }
}

/// A column of a file: its name, and what every row has in it where the file lacks the column; none
/// where the file must have it.
#[derive(Clone, Copy, Debug, PartialEq, Eq)]
pub struct Column {
    pub name: &'static str,
    pub lacking: Option<&'static str>,
}

/// The texts of the rows of a file, one after another: no more of it is in memory than its longest row.
struct Texts<'a> {
    lines: Lines<'a>,
    row: Vec<u8>,
}

impl<'a> Texts<'a> {
    /// The rows of a file behind a byte-order mark.
    fn of(source: &'a Source) -> Result<Texts<'a>, String> {
        let mut lines = Lines::of(source);
        lines.pass_mark()?;
        Ok(Texts { lines, row: Vec::new() })
    }

    /// The next row with its line ends, and the number of its first line.
    fn next(&mut self) -> Result<Option<(&str, usize)>, String> {
        self.row.clear();
        let (source, mut open, mut first) = (self.lines.source(), false, None);
        while let Some((number, line)) = self.lines.line_with_end()? {
            first.get_or_insert(number);
            self.row.extend(line);
            // A line without a quote leaves it as it was, which is quicker to see.
            if line.contains(&b'"') {
                open = is_open(line, open);
            }
            if !open {
                break;
            }
        }
        let Some(first) = first else { return Ok(None) };
        let row = std::str::from_utf8(&self.row).map_err(|_| source.changed())?;
        Ok(Some((row, first)))
    }
}

/// Where a byte of a row stands.
#[derive(Clone, Copy, PartialEq, Eq)]
enum At {
    /// At the beginning of a cell.
    Begin,
    /// In a cell without quotes.
    Plain,
    /// In a cell in quotes.
    Quoted,
    /// Behind a quote in it, which may be the last.
    Behind,
    /// Behind something wrong, up to the line's end.
    Wrong,
}

/// Is a cell in quotes open at the end of a line, at whose beginning it was open or not? Then the row goes on in
/// the next line.
fn is_open(line: &[u8], open: bool) -> bool {
    let mut at = if open { At::Quoted } else { At::Begin };
    let mut next = 0;
    while let Some(byte) = line.get(next) {
        if at == At::Quoted {
            // What stands in quotes may be long, and is passed over at once.
            let Some(quote) = place_of_byte(b'"', &line[next..]) else { return true };
            (at, next) = (At::Behind, next + quote + 1);
            continue;
        }
        next += 1;
        at = match (at, byte) {
            (At::Wrong, _) => return false,
            (At::Begin | At::Behind, b'"') => At::Quoted,
            (_, b',') => At::Begin,
            (_, b'\n') => return false,
            (_, b'\r') if line.get(next) == Some(&b'\n') => return false,
            (_, b'\r') | (At::Plain, b'"') | (At::Behind, _) => At::Wrong,
            _ => At::Plain,
        };
    }
    at == At::Quoted
}

/// What takes the cells of a row; it answers what is wrong with them.
pub type Take<'a, const N: usize> = dyn FnMut([Word; N]) -> Result<Vec<Fault>, Untold> + 'a;

/// Reads a file whose first row names its columns, in any order, and hands on each row under it, its
/// cells in the order of `columns`; answers how many lines it has, or all that is wrong with it, also what `take`
/// answers of a row. A byte-order mark and rows with nothing in them are passed over.
pub fn read<const N: usize>(
    source: &Source,
    columns: &[Column; N],
    take: &mut Take<N>,
) -> Result<Result<usize, Faults>, Untold> {
    if let Some(fault) = other_separator(source)? {
        return Ok(Err(fault.into()));
    }
    let (mut texts, mut header, mut faults) = (Texts::of(source)?, None, Faults::default());
    while let Some((text, line)) = texts.next()? {
        let Some(row) = Rows::from_line(text, line).next() else { continue };
        if row.as_ref().is_ok_and(|row| is_blank(row)) {
            continue;
        }
        let Some(header) = &header else {
            match row.map_err(Faults::from).and_then(|first| Header::of(&first, columns)) {
                Ok(first) => header = Some(first),
                Err(wrong) => return Ok(Err(wrong)),
            }
            continue;
        };
        match row {
            Err(fault) => faults.push(fault),
            Ok(row) => match header.words(&row) {
                Ok(words) => faults.extend(take(words)?),
                Err(wrong) => faults.extend(wrong),
            },
        }
    }
    if header.is_none() {
        let what = format!("there is no header: let the first line name {}", names_of(columns));
        faults.push(Fault { line: 1, column: 1, what });
    }
    Ok(if faults.is_empty() { Ok(texts.lines.number()) } else { Err(faults) })
}

/// Has a row nothing in it?
fn is_blank(row: &[Cell]) -> bool {
    row.iter().all(|cell| cell.word().text.is_empty())
}

/// Tells a file that is separated by something else than commas, by its first line.
fn other_separator(source: &Source) -> Result<Option<Fault>, String> {
    let mut lines = Lines::of(source);
    lines.pass_mark()?;
    while let Some((number, line)) = lines.line()? {
        let line = std::str::from_utf8(line).map_err(|_| source.changed())?;
        if !line.trim().is_empty() {
            return Ok(separated_otherwise(number, line));
        }
    }
    Ok(None)
}

/// Tells a line that is separated by something else than commas.
fn separated_otherwise(number: usize, line: &str) -> Option<Fault> {
    if line.contains(',') {
        return None;
    }
    OTHER_SEPARATORS.into_iter().find_map(|(separator, name)| {
        let column = line[..line.find(separator)?].chars().count() + 1;
        let what = format!("this file is separated by {name}: save it with commas");
        Some(Fault { line: number, column, what })
    })
}

/// The names of columns.
fn names_of(columns: &[Column]) -> String {
    let names: Vec<&str> = columns.iter().map(|column| column.name).collect();
    names.join(", ")
}

/// Where the columns of a file stand in its rows, the last the column that is not read; and how many
/// cells a row has.
struct Header<'a, const N: usize> {
    columns: &'a [Column; N],
    stands: Vec<Option<usize>>,
    width: usize,
}

impl<'a, const N: usize> Header<'a, N> {
    /// The header of a row, or what is wrong with it.
    fn of(row: &[Cell], columns: &'a [Column; N]) -> Result<Header<'a, N>, Faults> {
        let names = names_of(columns);
        let first = row[0].word();
        if digits_of(first.text).is_some() {
            let what = format!("a number is no name of a column: let the first line name {names}");
            return Err(first.fault(what).into());
        }
        let (mut stands, mut faults) = (vec![None; N + 1], Faults::default());
        for (at, cell) in row.iter().enumerate() {
            let (word, name) = (cell.word(), shown(cell.word().text));
            let known = place_of(columns, word.text);
            match known.map(|known| stands[known].replace(at)) {
                Some(None) => {}
                Some(Some(_)) => {
                    let what = format!("the column {name} stands twice: leave one out");
                    faults.push(word.fault(what));
                }
                None => {
                    let known = format!("{names}, or {NOTE}, which is not read");
                    faults.push(word.fault(format!("there is no column {name}: write {known}")));
                }
            }
        }
        for (column, stands) in columns.iter().zip(&stands) {
            if stands.is_none() && column.lacking.is_none() {
                let name = column.name;
                let what = format!("the column {name} is missing: the header names {names}");
                faults.push(first.fault(what));
            }
        }
        if faults.is_empty() {
            return Ok(Header { columns, stands, width: row.len() });
        }
        Err(faults)
    }

    /// The cells of a row, in the order of the columns.
    fn words<'b>(&self, row: &'b [Cell]) -> Result<[Word<'b>; N], Vec<Fault>> {
        if row.len() != self.width {
            let here = counted(row.len(), "field");
            let what = format!("this row has {here}, and the header {}", self.width);
            return Err(vec![match row.get(self.width) {
                Some(more) => more.word().fault(format!(
                    "{what}: put a field with a comma in it in quotes, as \"230,000\""
                )),
                None => row[0].word().fault(format!("{what}: write one for each column")),
            }]);
        }
        Ok(array::from_fn(|at| match self.stands[at] {
            Some(stands) => row[stands].word(),
            None => Word { text: self.columns[at].lacking.unwrap_or_default(), ..row[0].word() },
        }))
    }
}

/// The place of a name among the columns, upper or lower case; behind them that which is not read.
fn place_of(columns: &[Column], name: &str) -> Option<usize> {
    let mut names = columns.iter().map(|column| column.name).chain([NOTE]);
    names.position(|known| known.eq_ignore_ascii_case(name))
}

/// What is written to a cell.
#[derive(Clone, Copy, Debug, PartialEq, Eq)]
pub enum Value<'a> {
    /// Nothing.
    None,
    /// A number, without separators.
    Number(u64),
    /// A text, in quotes where it needs them.
    Text(&'a str),
}

/// Writes a row.
pub fn write_row(out: &mut impl Write, values: &[Value]) -> io::Result<()> {
    for (at, value) in values.iter().enumerate() {
        if at > 0 {
            out.write_all(b",")?;
        }
        match value {
            Value::None => {}
            Value::Number(number) => write_number(out, *number)?,
            Value::Text(text) if text.contains(IN_QUOTES) => {
                write!(out, "\"{}\"", text.replace('"', "\"\""))?
            }
            Value::Text(text) => out.write_all(text.as_bytes())?,
        }
    }
    out.write_all(b"\n")
}

#[cfg(test)]
mod tests {
    use super::*;

    const COLUMNS: [Column; 3] = [
        Column { name: "issue", lacking: None },
        Column { name: "price", lacking: None },
        Column { name: "accrued", lacking: Some("0") },
    ];

    /// The rows of a text, their cells without places.
    fn texts(text: &str) -> Vec<Vec<String>> {
        let row = |row: Row| row.into_iter().map(|cell| cell.text.into_owned()).collect();
        Rows::of(text).map(|read| row(read.unwrap())).collect()
    }

    /// The rows under a header, or the faults with their places.
    fn read_all(text: &str) -> Result<Vec<[String; 3]>, Faults> {
        let mut rows = Vec::new();
        read(&source(text), &COLUMNS, &mut |cells| {
            rows.push(cells.map(|cell| cell.text.to_string()));
            Ok(Vec::new())
        })
        .unwrap()
        .map(|_| rows)
    }

    /// A text as a file.
    fn source(text: &str) -> Source {
        Source::held("q.csv", text.as_bytes().to_vec())
    }

    #[test]
    fn rows_of_plain_cells_and_of_cells_in_quotes() {
        assert_eq!(texts("a,b\r\nc,\n"), [["a", "b"], ["c", ""]]);
        let in_quotes = "\"230,000\",\"a \"\"b\"\"\"\n\"\",\"c\r\nd\"";
        assert_eq!(texts(in_quotes), [["230,000", "a \"b\""], ["", "c\r\nd"]]);
        assert_eq!(texts(" a ,円"), [[" a ", "円"]]);
        assert_eq!(texts("a\n\nb"), [["a"], [""], ["b"]]);
        assert!(texts("").is_empty());
    }

    #[test]
    fn cells_have_their_places_behind_line_ends_in_quotes_too() {
        let text = "円,\"b\nc\",d\r\n,e";
        let rows: Vec<Row> = Rows::of(text).map(Result::unwrap).collect();
        let places: Vec<(usize, usize)> =
            rows.iter().flatten().map(|cell| (cell.line, cell.column)).collect();
        assert_eq!(places, [(1, 1), (1, 3), (2, 4), (3, 1), (3, 2)]);
    }

    #[test]
    fn a_row_that_is_no_csv_is_told_and_the_next_is_read() {
        for (text, place, what) in [
            ("a,\"b\" c\nd", (1, 6), "the field in quotes that begins in line 1 ends before this"),
            ("\"a\nb\"c\nd", (2, 3), "the field in quotes that begins in line 1 ends before this"),
            ("a,b\"c\"\nd", (1, 4), "a quote stands inside a field that does not begin with one"),
            ("a\rb\nd", (1, 2), "a carriage return stands alone here"),
        ] {
            let mut rows = Rows::of(text);
            let fault = rows.next().unwrap().unwrap_err();
            assert_eq!((fault.line, fault.column), place, "{text:?}");
            assert!(fault.what.starts_with(what), "{fault}");
            assert_eq!(rows.next().unwrap().unwrap()[0].text, "d", "{text:?}");
            assert_eq!(rows.next(), None);
        }
        let mut open = Rows::of("a\nb, c,\"d\ne,f\n");
        assert!(open.next().unwrap().is_ok());
        let fault = open.next().unwrap().unwrap_err();
        assert_eq!((fault.line, fault.column), (2, 6));
        assert!(fault.what.starts_with("this quote is not closed"), "{fault}");
        assert_eq!(open.next(), None);
    }

    #[test]
    fn rows_that_are_read_line_by_line_are_those_of_the_text() {
        let mut numbers = 7_u64;
        let mut next = |limit: usize| {
            numbers =
                numbers.wrapping_mul(0x5851_f42d_4c95_7f2d).wrapping_add(0x1405_7b7e_f767_814f);
            (numbers >> 33) as usize % limit
        };
        let letters = ["a", ",", "\"", "\n", "\r", "\r\n", "\"\"", "円", "\",\"", "\"\n"];
        for _ in 0..20_000 {
            let text: String = (0..next(16)).map(|_| letters[next(letters.len())]).collect();
            let source = source(&text);
            let (mut texts, mut rows) = (Texts::of(&source).unwrap(), Rows::of(&text));
            while let Some((row, line)) = texts.next().unwrap() {
                let mut found = Rows::from_line(row, line);
                assert_eq!(found.next(), rows.next(), "{text:?}");
                assert_eq!(found.next(), None, "{text:?}");
            }
            assert_eq!(rows.next(), None, "{text:?}");
        }
    }

    #[test]
    fn what_is_written_reads_back_the_same() {
        let letters = ['a', '7', ' ', ',', '"', '\n', '\r', ';', '#', '円', '\u{feff}', '\t'];
        let mut numbers = 1_u64;
        let mut next = |limit: usize| {
            numbers =
                numbers.wrapping_mul(0x5851_f42d_4c95_7f2d).wrapping_add(0x1405_7b7e_f767_814f);
            (numbers >> 33) as usize % limit
        };
        for _ in 0..2_000 {
            let mut rows: Vec<Vec<String>> = Vec::new();
            for _ in 0..next(5) {
                let mut row = Vec::new();
                for _ in 0..1 + next(3) {
                    let length = next(6);
                    row.push((0..length).map(|_| letters[next(letters.len())]).collect());
                }
                rows.push(row);
            }
            let mut written = Vec::new();
            for row in &rows {
                let values: Vec<Value> = row.iter().map(|text| Value::Text(text)).collect();
                write_row(&mut written, &values).unwrap();
            }
            let written = String::from_utf8(written).unwrap();
            assert_eq!(texts(&written), rows, "{written:?}");
        }
        let mut written = Vec::new();
        let values = [Value::Number(u64::MAX), Value::None, Value::Text("a \"b\""), Value::None];
        write_row(&mut written, &values).unwrap();
        assert_eq!(written, b"18446744073709551615,,\"a \"\"b\"\"\",\n");
    }

    #[test]
    fn a_header_names_the_columns_in_any_order() {
        let all = [["3", "100,000", "7"], ["4", "5", "0"]];
        for text in [
            "issue,price,accrued\n3,\"100,000\",7\n4,5,0\n",
            "\u{feff}Note, ACCRUED ,Issue,\"price\"\r\n\"a\nb\",7,3,\"100,000\"\r\n,0, 4 ,5",
            "\n,\nissue,price,accrued\n\n3,\"100,000\",7\n,,\n4,5,0\n\n  \n\"\",\"\",\"\"\n,,,\n",
        ] {
            assert_eq!(read_all(text).unwrap(), all, "{text:?}");
        }
        assert_eq!(read_all("price,issue\n5,4\n").unwrap(), [["4", "5", "0"]]);
        assert_eq!(read_all("price,issue\n").unwrap(), [[""; 3]; 0]);
    }

    #[test]
    fn a_wrong_header_is_told_with_its_place() {
        let missing = "is missing: the header names issue, price, accrued";
        let no_header = "there is no header: let the first line name issue, price, accrued";
        for (text, faults) in [
            ("", vec![(1, 1, no_header.to_string())]),
            ("\n , \n", vec![(1, 1, no_header.to_string())]),
            (
                "issue,price, cost\n1,2,3\n",
                vec![(
                    1,
                    13,
                    "there is no column \"cost\": write issue, price, accrued, or note, which is \
                     not read"
                        .to_string(),
                )],
            ),
            ("\nissue,accrued", vec![(2, 1, format!("the column price {missing}"))]),
            (
                "Issue,price,ISSUE,note,note",
                vec![
                    (1, 13, "the column \"ISSUE\" stands twice: leave one out".to_string()),
                    (1, 24, "the column \"note\" stands twice: leave one out".to_string()),
                ],
            ),
            (
                "0,5,3\n",
                vec![(
                    1,
                    1,
                    "a number is no name of a column: let the first line name issue, price, accrued"
                        .to_string(),
                )],
            ),
            (
                "\u{feff}円;price;accrued\n1;2;3\n",
                vec![(1, 2, "this file is separated by semicolons: save it with".to_string())],
            ),
            (
                "issue\tprice\n",
                vec![(1, 6, "this file is separated by tabs: save it with commas".to_string())],
            ),
            ("issue,pri\"ce\n", vec![(1, 10, "a quote stands inside a field".to_string())]),
        ] {
            let told = read_all(text).unwrap_err();
            assert_eq!(told.count, faults.len(), "{text:?}: {told:?}");
            for (fault, (line, column, what)) in told.first.iter().zip(faults) {
                assert_eq!((fault.line, fault.column), (line, column), "{text:?}: {fault}");
                assert!(fault.what.starts_with(&what), "{text:?}: {fault}");
            }
        }
    }

    #[test]
    fn rows_of_another_length_are_told_and_what_is_answered_of_a_row() {
        let told = read_all("issue,price\n1,2\n1\n1,230,000\n\"1,2\n").unwrap_err();
        let listed = told.listed("q.csv", ["error", "errors"]);
        assert_eq!(
            listed,
            [
                "q.csv:3:1: this row has 1 field, and the header 2: write one for each column",
                "q.csv:4:7: this row has 3 fields, and the header 2: put a field with a comma in \
                 it in quotes, as \"230,000\"",
                "q.csv:5:1: this quote is not closed: write another at the field's end",
            ]
        );
        let text = format!("issue,price\n{}", "1,2\n".repeat(100_000));
        let told = read(&source(&text), &COLUMNS, &mut |[issue, ..]| {
            Ok(vec![issue.fault("wrong".to_string()); 2])
        });
        let told = told.unwrap().unwrap_err();
        assert_eq!((told.first.len(), told.count), (12, 200_000));
        assert_eq!((told.first[2].line, told.first[2].column), (3, 1));
    }

    #[test]
    fn a_long_file_takes_time_by_its_length() {
        let long = format!("issue,price,note\n1,2,\"{}\"\n", "円\n\"\"".repeat(200_000));
        assert_eq!(read_all(&long).unwrap().len(), 1);
        let open = format!("issue,price\n{}", "1,\"2\n".repeat(200_000));
        assert!(!read_all(&open).unwrap_err().is_empty());
    }
}
