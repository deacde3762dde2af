//! A reader of JSON, for what the programs print and for the schema: values of every kind, but of numbers
//! whole ones alone, since no other is printed.

use std::fmt;

/// A value. An object keeps its fields in the order in which they stand.
#[derive(Clone, Debug, PartialEq, Eq)]
pub enum Value {
    Null,
    Bool(bool),
    Number(i128),
    Text(String),
    List(Vec<Value>),
    Object(Vec<(String, Value)>),
}

impl Value {
    /// The fields, where it is an object.
    pub fn fields(&self) -> Option<&[(String, Value)]> {
        match self {
            Value::Object(fields) => Some(fields),
            _ => None,
        }
    }

    /// The field of a name, where it is an object that has it.
    pub fn get(&self, name: &str) -> Option<&Value> {
        let field = self.fields()?.iter().find(|(field, _)| field == name);
        field.map(|(_, value)| value)
    }

    /// The items, where it is a list.
    pub fn items(&self) -> Option<&[Value]> {
        match self {
            Value::List(items) => Some(items),
            _ => None,
        }
    }

    /// The text, where it is one.
    pub fn text(&self) -> Option<&str> {
        match self {
            Value::Text(text) => Some(text),
            _ => None,
        }
    }

    /// The number, where it is one.
    pub fn number(&self) -> Option<i128> {
        match self {
            Value::Number(number) => Some(*number),
            _ => None,
        }
    }
}

impl fmt::Display for Value {
    /// As JSON, but for texts, which are told as Rust has them.
    fn fmt(&self, told: &mut fmt::Formatter) -> fmt::Result {
        let joined = |parts: Vec<String>| parts.join(",");
        match self {
            Value::Null => told.write_str("null"),
            Value::Bool(value) => write!(told, "{value}"),
            Value::Number(number) => write!(told, "{number}"),
            Value::Text(text) => write!(told, "{text:?}"),
            Value::List(items) => {
                write!(told, "[{}]", joined(items.iter().map(Value::to_string).collect()))
            }
            Value::Object(fields) => {
                let field = |(name, value): &(String, Value)| format!("{name:?}:{value}");
                write!(told, "{{{}}}", joined(fields.iter().map(field).collect()))
            }
        }
    }
}

/// The value that a text is, with nothing but blanks around it; or what is wrong, and at which byte.
pub fn read(text: &str) -> Result<Value, String> {
    let mut reader = Reader { text, at: 0 };
    let value = reader.value().and_then(|value| {
        reader.blanks();
        match reader.text.get(reader.at..) {
            Some("") => Ok(value),
            _ => Err("something stands behind the value".to_string()),
        }
    });
    value.map_err(|what| format!("byte {}: {what}", reader.at))
}

/// A text, and how far it is read.
struct Reader<'a> {
    text: &'a str,
    at: usize,
}

impl Reader<'_> {
    /// The next byte, if there is one.
    fn next(&self) -> Option<u8> {
        self.text.as_bytes().get(self.at).copied()
    }

    /// Passes over blanks.
    fn blanks(&mut self) {
        while matches!(self.next(), Some(b' ' | b'\t' | b'\n' | b'\r')) {
            self.at += 1;
        }
    }

    /// Takes these bytes, if they are the next.
    fn takes(&mut self, wanted: &str) -> bool {
        let is_next = self.text.as_bytes()[self.at..].starts_with(wanted.as_bytes());
        if is_next {
            self.at += wanted.len();
        }
        is_next
    }

    /// Takes these bytes, which must be the next.
    fn must(&mut self, wanted: &str) -> Result<(), String> {
        if self.takes(wanted) {
            return Ok(());
        }
        Err(format!("{wanted} is missing"))
    }

    /// A value, with blanks before it.
    fn value(&mut self) -> Result<Value, String> {
        self.blanks();
        match self.next() {
            Some(b'{') => self.object(),
            Some(b'[') => self.list(),
            Some(b'"') => self.string().map(Value::Text),
            Some(b'-' | b'0'..=b'9') => self.whole().map(Value::Number),
            _ if self.takes("true") => Ok(Value::Bool(true)),
            _ if self.takes("false") => Ok(Value::Bool(false)),
            _ if self.takes("null") => Ok(Value::Null),
            _ => Err("no value begins here".to_string()),
        }
    }

    /// An object; no name stands twice.
    fn object(&mut self) -> Result<Value, String> {
        let mut fields: Vec<(String, Value)> = Vec::new();
        self.must("{")?;
        self.blanks();
        if self.takes("}") {
            return Ok(Value::Object(fields));
        }
        loop {
            self.blanks();
            let name = self.string()?;
            if fields.iter().any(|(other, _)| *other == name) {
                return Err(format!("{name:?} stands twice"));
            }
            self.blanks();
            self.must(":")?;
            let value = self.value()?;
            fields.push((name, value));
            self.blanks();
            if self.takes("}") {
                return Ok(Value::Object(fields));
            }
            self.must(",")?;
        }
    }

    /// A list.
    fn list(&mut self) -> Result<Value, String> {
        let mut items = Vec::new();
        self.must("[")?;
        self.blanks();
        if self.takes("]") {
            return Ok(Value::List(items));
        }
        loop {
            items.push(self.value()?);
            self.blanks();
            if self.takes("]") {
                return Ok(Value::List(items));
            }
            self.must(",")?;
        }
    }

    /// A whole number, without a leading 0, a point or an exponent.
    fn whole(&mut self) -> Result<i128, String> {
        let begins = self.at;
        self.takes("-");
        let digits = self.at;
        while self.next().is_some_and(|byte| byte.is_ascii_digit()) {
            self.at += 1;
        }
        let found = &self.text[digits..self.at];
        if found.is_empty() || (found.len() > 1 && found.starts_with('0')) {
            return Err("a number has digits, and no 0 before them".to_string());
        }
        if matches!(self.next(), Some(b'.' | b'e' | b'E')) {
            return Err("a number is a whole one".to_string());
        }
        self.text[begins..self.at].parse().map_err(|_| "a number is too large".to_string())
    }

    /// A text between quotes.
    fn string(&mut self) -> Result<String, String> {
        self.must("\"")?;
        let mut found = String::new();
        loop {
            let rest = &self.text[self.at..];
            let Some(letter) = rest.chars().next() else {
                return Err("a text has no end".to_string());
            };
            self.at += letter.len_utf8();
            match letter {
                '"' => return Ok(found),
                '\\' => found.push(self.escaped()?),
                control if control < ' ' => {
                    return Err("a text has a control character".to_string())
                }
                other => found.push(other),
            }
        }
    }

    /// The letter that stands escaped behind a backslash.
    fn escaped(&mut self) -> Result<char, String> {
        let letter = self.next();
        self.at += 1;
        Ok(match letter {
            Some(letter @ (b'"' | b'\\' | b'/')) => char::from(letter),
            Some(b'b') => '\u{8}',
            Some(b'f') => '\u{c}',
            Some(b'n') => '\n',
            Some(b'r') => '\r',
            Some(b't') => '\t',
            Some(b'u') => {
                let digits =
                    self.text.get(self.at..self.at + 4).ok_or("four digits are missing")?;
                let number = u32::from_str_radix(digits, 16).map_err(|error| error.to_string())?;
                self.at += 4;
                char::from_u32(number).ok_or("half of a pair stands alone")?
            }
            _ => return Err("there is no such escape".to_string()),
        })
    }
}

#[cfg(test)]
mod tests {
    use super::*;

    #[test]
    fn values_are_read() {
        let text =
            " {\"a\" : [1, -2,0], \"b\":{}, \"c\":\"x\\\"\\\\\\n\\u00e9円\", \"d\":[null,true,false], \"e\":[]} ";
        let value = read(text).unwrap();
        let told =
            "{\"a\":[1,-2,0],\"b\":{},\"c\":\"x\\\"\\\\\\né円\",\"d\":[null,true,false],\"e\":[]}";
        assert_eq!(value.to_string(), told);
        assert_eq!(value.get("c").and_then(Value::text), Some("x\"\\\né円"));
        let list = value.get("a").and_then(Value::items).unwrap();
        assert_eq!(list[1].number(), Some(-2));
        assert_eq!((value.get("f"), list[1].get("a"), list[1].text()), (None, None, None));
        assert_eq!(value.fields().map(<[_]>::len), Some(5));
    }

    #[test]
    fn what_is_no_json_is_refused_with_its_place() {
        for (text, told) in [
            ("", "byte 0: no value begins here"),
            ("{\"a\":1,}", "byte 7: \" is missing"),
            ("{\"a\":1 \"b\":2}", "byte 7: , is missing"),
            ("{\"a\":1,\"a\":2}", "byte 10: \"a\" stands twice"),
            ("[1,2", "byte 4: , is missing"),
            ("[1,]", "byte 3: no value begins here"),
            ("1 2", "byte 2: something stands behind the value"),
            ("01", "byte 2: a number has digits, and no 0 before them"),
            ("-", "byte 1: a number has digits"),
            ("1.5", "byte 1: a number is a whole one"),
            ("1e3", "byte 1: a number is a whole one"),
            ("\"a", "byte 2: a text has no end"),
            ("\"a\nb\"", "byte 3: a text has a control character"),
            ("\"\\x\"", "byte 3: there is no such escape"),
            ("\"\\u12\"", "byte 3: four digits are missing"),
            ("\"\\ud800\"", "byte 7: half of a pair stands alone"),
            ("nul", "byte 0: no value begins here"),
        ] {
            let error = read(text).unwrap_err();
            assert!(error.starts_with(told), "{text}: {error}");
        }
    }
}
