//! Objects of JSON, one a line: the one place where they are put together. The first field of each is the
//! version of their schema, docs/settlement-day.schema.json; docs/JSON.md is for those who read them.

use crate::known::Known;
use crate::measure::write_number;
use crate::names::Date;
use std::io::{self, Write};

/// The version of the schema. Fields and objects may be added within a version; a field that goes, or that
/// says something else than before, raises it.
pub const SCHEMA: u32 = 1;

/// How an object begins: with its version; and one that is a fact, up to its name.
const BEGINS: &[u8] = b"{\"schema\":1";
const FACT: &[u8] = b"{\"schema\":1,\"fact\":\"";
/// What stands before the name of a field: behind another field, and where it is the first of an object.
const BEHIND: &[u8] = b",\"";
const FIRST: &[u8] = b"\"";

/// What stands behind the name of a field.
pub trait Value {
    /// Writes it.
    fn write(&self, out: &mut impl Write) -> io::Result<()>;
}

/// A name of the program's own, such as that of a phase: it is written as it is, for it has nothing that
/// JSON escapes.
#[derive(Clone, Copy, Debug, PartialEq, Eq)]
pub struct Name(pub &'static str);

impl Value for Name {
    fn write(&self, out: &mut impl Write) -> io::Result<()> {
        out.write_all(b"\"")?;
        out.write_all(self.0.as_bytes())?;
        out.write_all(b"\"")
    }
}

impl Value for str {
    /// A text between quotes, with quotes, backslashes and control characters escaped.
    fn write(&self, out: &mut impl Write) -> io::Result<()> {
        let bytes = self.as_bytes();
        let mut written = 0;
        out.write_all(b"\"")?;
        for (at, byte) in bytes.iter().enumerate() {
            let quoted = matches!(byte, b'"' | b'\\');
            if *byte >= b' ' && !quoted {
                continue;
            }
            out.write_all(&bytes[written..at])?;
            match quoted {
                true => out.write_all(&[b'\\', *byte])?,
                false => write!(out, "\\u{byte:04x}")?,
            }
            written = at + 1;
        }
        out.write_all(&bytes[written..])?;
        out.write_all(b"\"")
    }
}

/// Numbers that are not negative, without the cost of a format: a tape may have a million instructions.
macro_rules! numbers {
    ($($number:ty)*) => {$(
        impl Value for $number {
            fn write(&self, out: &mut impl Write) -> io::Result<()> {
                write_number(out, *self as u64)
            }
        }
    )*};
}

numbers!(u8 u16 u32 u64 usize);

impl Value for u128 {
    fn write(&self, out: &mut impl Write) -> io::Result<()> {
        write!(out, "{self}")
    }
}

impl Value for i64 {
    fn write(&self, out: &mut impl Write) -> io::Result<()> {
        if *self < 0 {
            out.write_all(b"-")?;
        }
        write_number(out, self.unsigned_abs())
    }
}

impl Value for i32 {
    fn write(&self, out: &mut impl Write) -> io::Result<()> {
        i64::from(*self).write(out)
    }
}

impl<V: Value> Value for Option<V> {
    /// The value, or null.
    fn write(&self, out: &mut impl Write) -> io::Result<()> {
        match self {
            Some(value) => value.write(out),
            None => out.write_all(b"null"),
        }
    }
}

impl<V: Value> Value for [V] {
    fn write(&self, out: &mut impl Write) -> io::Result<()> {
        out.write_all(b"[")?;
        for (at, value) in self.iter().enumerate() {
            if at > 0 {
                out.write_all(b",")?;
            }
            value.write(out)?;
        }
        out.write_all(b"]")
    }
}

impl<V: Value> Value for Vec<V> {
    fn write(&self, out: &mut impl Write) -> io::Result<()> {
        self.as_slice().write(out)
    }
}

impl<V: Value + ?Sized> Value for &V {
    fn write(&self, out: &mut impl Write) -> io::Result<()> {
        (**self).write(out)
    }
}

/// An object that is being written, field by field. A write that fails is told at the end; nothing is
/// written behind it.
pub struct Object<'a, W> {
    out: &'a mut W,
    /// What names issues and accounts and gives days their dates.
    known: Option<&'a Known>,
    /// What stands before the next field.
    before: &'static [u8],
    written: io::Result<()>,
}

impl<'a, W: Write> Object<'a, W> {
    /// Begins an object on a line of its own, with the version of the schema.
    pub fn begin(out: &'a mut W) -> Object<'a, W> {
        let written = out.write_all(BEGINS);
        Object { out, known: None, before: BEHIND, written }
    }

    /// Begins an object that is a fact of this name, one of the program's own.
    pub fn fact(out: &'a mut W, fact: &'static str) -> Object<'a, W> {
        let written = out.write_all(FACT).and_then(|()| out.write_all(fact.as_bytes()));
        let written = written.and_then(|()| out.write_all(b"\""));
        Object { out, known: None, before: BEHIND, written }
    }

    /// The object with the names of its issues and accounts and the dates of its days beside their numbers,
    /// as far as they are known.
    pub fn by(self, known: &'a Known) -> Object<'a, W> {
        Object { known: Some(known), ..self }
    }

    /// A field.
    #[inline]
    pub fn field(&mut self, name: &str, value: impl Value) -> &mut Self {
        self.put(|object| {
            object.named(name)?;
            value.write(object.out)
        })
    }

    /// A field that is left out where there is nothing to say.
    pub fn optional(&mut self, name: &str, value: Option<impl Value>) -> &mut Self {
        match value {
            Some(value) => self.field(name, value),
            None => self,
        }
    }

    /// The issue that the object is about.
    pub fn issue(&mut self, issue: impl Into<u32>) -> &mut Self {
        let issue = issue.into();
        let name = self.known.and_then(|known| known.names.issue_name(issue));
        self.field("issue", issue).optional("issue_name", name)
    }

    /// An account that the object is about, by what it is there: `account`, `from` or `to`.
    pub fn account(&mut self, name: &str, account: impl Into<u32>) -> &mut Self {
        let account = account.into();
        self.field(name, account);
        match self.known.and_then(|known| known.names.account_name(account)) {
            Some(called) => self.field(&format!("{name}_name"), called),
            None => self,
        }
    }

    /// The day that the object is of.
    pub fn day(&mut self, day: impl Into<u32>) -> &mut Self {
        let day = day.into();
        self.dated(day, self.known.and_then(|known| known.day(day).date))
    }

    /// The day that the object is of, and its date where it has one.
    pub fn dated(&mut self, day: u32, date: Option<Date>) -> &mut Self {
        self.field("day", day).optional("date", date.map(|date| date.to_string()).as_deref())
    }

    /// A field that is an object.
    pub fn object(&mut self, name: &str, fill: impl FnOnce(&mut Object<'_, W>)) -> &mut Self {
        self.put(|object| {
            object.named(name)?;
            object.nested(fill)
        })
    }

    /// A field that is a list of objects, one for each item.
    pub fn objects<T>(
        &mut self,
        name: &str,
        items: impl IntoIterator<Item = T>,
        fill: impl Fn(&mut Object<'_, W>, T),
    ) -> &mut Self {
        self.put(|object| {
            object.named(name)?;
            object.out.write_all(b"[")?;
            for (at, item) in items.into_iter().enumerate() {
                if at > 0 {
                    object.out.write_all(b",")?;
                }
                object.nested(|one| fill(one, item))?;
            }
            object.out.write_all(b"]")
        })
    }

    /// Ends the object and its line.
    pub fn end(self) -> io::Result<()> {
        self.written?;
        self.out.write_all(b"}\n")
    }

    /// Writes a part, if all before it is written.
    #[inline]
    fn put(&mut self, write: impl FnOnce(&mut Self) -> io::Result<()>) -> &mut Self {
        if self.written.is_ok() {
            self.written = write(self);
        }
        self
    }

    /// Writes the name of a field.
    #[inline]
    fn named(&mut self, name: &str) -> io::Result<()> {
        self.out.write_all(self.before)?;
        self.before = BEHIND;
        self.out.write_all(name.as_bytes())?;
        self.out.write_all(b"\":")
    }

    /// Writes an object inside this one.
    fn nested(&mut self, fill: impl FnOnce(&mut Object<'_, W>)) -> io::Result<()> {
        self.out.write_all(b"{")?;
        let known = self.known;
        let mut object = Object { out: &mut *self.out, known, before: FIRST, written: Ok(()) };
        fill(&mut object);
        object.written?;
        self.out.write_all(b"}")
    }
}

/// The line of an object as a text.
pub fn line(fill: impl FnOnce(&mut Object<'_, Vec<u8>>)) -> String {
    let mut line = Vec::new();
    ended(Object::begin(&mut line), fill);
    String::from_utf8_lossy(&line).into_owned()
}

/// The line of an object that is a fact of this name, as a text.
pub fn fact(fact: &'static str, fill: impl FnOnce(&mut Object<'_, Vec<u8>>)) -> String {
    let mut line = Vec::new();
    ended(Object::fact(&mut line, fact), fill);
    String::from_utf8_lossy(&line).into_owned()
}

/// The line of a fact with the names and dates that are known beside numbers, as a text.
pub fn fact_by(
    known: &Known,
    fact: &'static str,
    fill: impl FnOnce(&mut Object<'_, Vec<u8>>),
) -> String {
    let mut line = Vec::new();
    ended(Object::fact(&mut line, fact).by(known), fill);
    String::from_utf8_lossy(&line).into_owned()
}

/// Fills an object in memory and ends it.
fn ended(mut object: Object<'_, Vec<u8>>, fill: impl FnOnce(&mut Object<'_, Vec<u8>>)) {
    fill(&mut object);
    // A write to memory does not fail.
    let _ = object.end();
}

#[cfg(test)]
mod tests {
    use super::*;

    #[test]
    fn every_object_begins_with_the_version() {
        assert_eq!(line(|_| ()), format!("{{\"schema\":{SCHEMA}}}\n"));
        assert_eq!(fact("end", |_| ()), format!("{{\"schema\":{SCHEMA},\"fact\":\"end\"}}\n"));
    }

    #[test]
    fn values_of_each_kind_stand_behind_their_names() {
        let told = fact("units", |object| {
            object.field("call", Name("x")).issue(3_u8).account("to", 63_u32).day(9_u16);
            object.field("most", u64::MAX).field("least", i64::MIN).field("net", -5);
            object.field("sum", u128::from(u64::MAX) + 1);
            object.field("none", None::<u32>).field("some", Some(7_usize));
            object.optional("left", None::<&str>).optional("out", Some("x"));
            object.field("lists", vec![vec![-1, 1], vec![]]).field("two", &[4_u64, 5][..]);
        });
        let expected =
            "{\"schema\":1,\"fact\":\"units\",\"call\":\"x\",\"issue\":3,\"to\":63,\"day\":9,\
            \"most\":18446744073709551615,\"least\":-9223372036854775808,\"net\":-5,\
            \"sum\":18446744073709551616,\"none\":null,\"some\":7,\"out\":\"x\",\
            \"lists\":[[-1,1],[]],\"two\":[4,5]}\n";
        assert_eq!(told, expected);
    }

    #[test]
    fn objects_stand_inside_an_object() {
        let told = line(|object| {
            object.objects("items", [1_u32, 2], |one, item| {
                one.field("item", item).objects("none", [0; 0], |_, _: u32| ());
            });
            object.object("sum", |sum| {
                sum.field("items", 2_u32);
            });
        });
        let items = "[{\"item\":1,\"none\":[]},{\"item\":2,\"none\":[]}]";
        assert_eq!(told, format!("{{\"schema\":1,\"items\":{items},\"sum\":{{\"items\":2}}}}\n"));
    }

    #[test]
    fn a_text_is_escaped() {
        let told = line(|object| {
            object.field("file", "a \"b\" \\ \n円.txt").field("empty", "");
        });
        assert_eq!(
            told,
            "{\"schema\":1,\"file\":\"a \\\"b\\\" \\\\ \\u000a円.txt\",\"empty\":\"\"}\n"
        );
    }

    #[test]
    fn a_write_that_fails_is_told_at_the_end() {
        // An output with room for the version and a little more.
        let mut room = [0_u8; 20];
        let mut out = &mut room[..];
        let mut object = Object::begin(&mut out);
        object.field("fact", Name("instruction")).field("day", 0_u32);
        assert!(object.end().is_err());
        assert_eq!(&room[..11], BEGINS);
    }
}
