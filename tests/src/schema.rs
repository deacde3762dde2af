//! Objects beside a schema: as much of JSON Schema, draft 2020-12, as docs/settlement-day.schema.json uses. A
//! keyword that is not known here is an error, so that nothing of a schema is passed over. What of a schema
//! was met is told, so that nothing stands in it that is never printed.

use crate::json::{self, Value};
use std::collections::BTreeSet;
use tape::json::SCHEMA;

/// Parts of a schema, by their places in it: alternatives, fields, the names of an enum, the types of a list of
/// types.
pub type Parts = BTreeSet<String>;

/// The keywords that ask something of a value.
const ASKING: [&str; 15] = [
    "$ref",
    "type",
    "const",
    "enum",
    "minimum",
    "maximum",
    "format",
    "items",
    "minItems",
    "maxItems",
    "properties",
    "required",
    "additionalProperties",
    "oneOf",
    "allOf",
];
/// The keywords that are for readers, or hold definitions.
const TELLING: [&str; 5] = ["$schema", "$comment", "title", "description", "$defs"];
/// How a reference to a definition begins.
const DEFINITION: &str = "#/$defs/";
/// The most faults that are told where a value is as no alternative says.
const MOST_TOLD: usize = 3;

/// A schema.
pub struct Schema {
    root: Value,
}

/// What is wrong with a value, and where in it. A constant that is another says that another alternative is
/// meant.
struct Fault {
    field: String,
    what: String,
    constant: bool,
}

impl Fault {
    fn new(field: &str, what: impl Into<String>) -> Fault {
        Fault { field: field.to_string(), what: what.into(), constant: false }
    }

    fn told(&self) -> String {
        let field = if self.field.is_empty() { "the object" } else { &self.field };
        format!("{field}: {}", self.what)
    }
}

/// The parts that a value met, or what is wrong with it.
type Looked = Result<Parts, Fault>;

/// A value and the schema that it is looked at by, each with its place.
#[derive(Clone, Copy)]
struct Here<'a> {
    schema: &'a Value,
    place: &'a str,
    value: &'a Value,
    field: &'a str,
}

impl Schema {
    /// Reads a schema. Every keyword is known, every reference leads to a definition, and every definition is
    /// referred to.
    pub fn read(text: &str) -> Result<Schema, String> {
        let schema = Schema { root: json::read(text)? };
        let mut referred = BTreeSet::new();
        for (place, one) in schema.all() {
            for (keyword, value) in one.fields().unwrap_or_default() {
                let keyword = keyword.as_str();
                if !ASKING.contains(&keyword) && !TELLING.contains(&keyword) {
                    return Err(format!("{place}: the keyword {keyword} is not known"));
                }
                if keyword == "$ref" {
                    let name = value.text().unwrap_or_default();
                    schema.definition(name).ok_or(format!("{place}: there is no {name}"))?;
                    referred.insert(name.to_string());
                }
            }
        }
        let definitions = schema.root.get("$defs").and_then(Value::fields).unwrap_or_default();
        let mut names = definitions.iter().map(|(name, _)| format!("{DEFINITION}{name}"));
        match names.find(|name| !referred.contains(name)) {
            Some(name) => Err(format!("nothing refers to {name}")),
            None => Ok(schema),
        }
    }

    /// Looks at a line: an object whose first field is the version, as just one alternative says. Answers the
    /// parts of the schema that it met.
    pub fn check_line(&self, line: &str) -> Result<Parts, String> {
        let value = json::read(line)?;
        let first = value.fields().and_then(<[_]>::first);
        let version = Value::Number(SCHEMA.into());
        if !first.is_some_and(|(name, value)| name == "schema" && *value == version) {
            return Err(format!("the first field is not the version of the schema, {version}"));
        }
        self.check(&value)
    }

    /// Looks at a value. Answers the parts of the schema that it met, or what is wrong.
    pub fn check(&self, value: &Value) -> Result<Parts, String> {
        let here = Here { schema: &self.root, place: "#", value, field: "" };
        self.look(here).map_err(|fault| fault.told())
    }

    /// All parts that a value can meet.
    pub fn parts(&self) -> Parts {
        let mut parts = Parts::new();
        for (place, schema) in self.all() {
            for (keyword, value) in schema.fields().unwrap_or_default() {
                let fields = value.fields().unwrap_or_default().iter();
                let items = value.items().unwrap_or_default().iter();
                match keyword.as_str() {
                    "oneOf" => parts.extend(items.zip(0..).map(|(one, at)| part(&place, one, at))),
                    "enum" | "type" => {
                        parts.extend(items.map(|one| format!("{place}/{keyword}/{one}")));
                    }
                    "properties" => {
                        let may_be = fields.filter(|(_, one)| *one != Value::Bool(false));
                        parts.extend(may_be.map(|(name, _)| format!("{place}/{keyword}/{name}")));
                    }
                    _ => {}
                }
            }
        }
        parts
    }

    /// All schemas of it, with their places.
    fn all(&self) -> Vec<(String, &Value)> {
        let mut all = Vec::new();
        gather(&self.root, "#".to_string(), &mut all);
        all
    }

    /// The definition that a reference leads to.
    fn definition(&self, reference: &str) -> Option<&Value> {
        self.root.get("$defs")?.get(reference.strip_prefix(DEFINITION)?)
    }

    /// Looks at a value by all keywords of a schema.
    fn look(&self, here: Here) -> Looked {
        if *here.schema == Value::Bool(false) {
            return Err(Fault::new(here.field, "is not to be there"));
        }
        let mut met = Parts::new();
        for (keyword, wanted) in here.schema.fields().unwrap_or_default() {
            met.extend(self.keyword(here, keyword, wanted)?);
        }
        Ok(met)
    }

    /// Looks at a value by one keyword.
    fn keyword(&self, here: Here, keyword: &str, wanted: &Value) -> Looked {
        match keyword {
            "$ref" => {
                let place = wanted.text().unwrap_or_default();
                let schema = self.definition(place);
                let schema = schema.ok_or_else(|| Fault::new(here.field, format!("no {place}")))?;
                self.look(Here { schema, place, ..here })
            }
            "oneOf" => self.one_of(here, wanted),
            "allOf" => self.all_of(here, wanted),
            "properties" => self.properties(here, wanted),
            "items" => self.items(here, wanted),
            "enum" => listed(here, wanted),
            "type" => typed(here, wanted),
            _ => plain(here, keyword, wanted).map(|()| Parts::new()),
        }
    }

    /// Just one alternative.
    fn one_of(&self, here: Here, alternatives: &Value) -> Looked {
        let (mut found, mut faults) = (Vec::new(), Vec::new());
        for (schema, at) in alternatives.items().unwrap_or_default().iter().zip(0..) {
            let place = part(here.place, schema, at);
            match self.look(Here { schema, place: &place, ..here }) {
                Ok(met) => found.push((place, met)),
                Err(fault) => faults.push(fault),
            }
        }
        match found.as_mut_slice() {
            [] => Err(as_none(here, &faults)),
            [(place, met)] => {
                met.insert(place.clone());
                Ok(std::mem::take(met))
            }
            several => {
                let places: Vec<&str> = several.iter().map(|(place, _)| place.as_str()).collect();
                Err(Fault::new(here.field, format!("is as several say: {}", places.join(", "))))
            }
        }
    }

    /// All of some schemas.
    fn all_of(&self, here: Here, schemas: &Value) -> Looked {
        let mut met = Parts::new();
        for (schema, at) in schemas.items().unwrap_or_default().iter().zip(0..) {
            let place = format!("{}/allOf/{at}", here.place);
            met.extend(self.look(Here { schema, place: &place, ..here })?);
        }
        Ok(met)
    }

    /// Each field by its own schema. A constant that is another is told before all else.
    fn properties(&self, here: Here, schemas: &Value) -> Looked {
        let (mut met, mut wrong): (Parts, Option<Fault>) = (Parts::new(), None);
        for (name, schema) in schemas.fields().unwrap_or_default() {
            let Some(value) = here.value.get(name) else { continue };
            let place = format!("{}/properties/{name}", here.place);
            let field =
                format!("{}{}{name}", here.field, if here.field.is_empty() { "" } else { "." });
            match self.look(Here { schema, place: &place, value, field: &field }) {
                Ok(parts) => {
                    met.extend(parts);
                    met.insert(place);
                }
                Err(fault) if fault.constant => return Err(fault),
                Err(fault) => {
                    wrong.get_or_insert(fault);
                }
            }
        }
        wrong.map_or(Ok(met), Err)
    }

    /// Each item of a list.
    fn items(&self, here: Here, schema: &Value) -> Looked {
        let mut met = Parts::new();
        let place = format!("{}/items", here.place);
        for (value, at) in here.value.items().unwrap_or_default().iter().zip(0..) {
            let field = format!("{}[{at}]", here.field);
            met.extend(self.look(Here { schema, place: &place, value, field: &field })?);
        }
        Ok(met)
    }
}

/// The part that an alternative is: the definition that it refers to, or its place.
fn part(place: &str, alternative: &Value, at: usize) -> String {
    let reference = alternative.get("$ref").and_then(Value::text);
    reference.map_or_else(|| format!("{place}/oneOf/{at}"), String::from)
}

/// A schema and all that stand inside it, with their places.
fn gather<'a>(schema: &'a Value, place: String, all: &mut Vec<(String, &'a Value)>) {
    for (keyword, value) in schema.fields().unwrap_or_default() {
        match keyword.as_str() {
            "oneOf" | "allOf" => {
                for (one, at) in value.items().unwrap_or_default().iter().zip(0..) {
                    gather(one, format!("{place}/{keyword}/{at}"), all);
                }
            }
            "properties" | "$defs" => {
                for (name, one) in value.fields().unwrap_or_default() {
                    gather(one, format!("{place}/{keyword}/{name}"), all);
                }
            }
            "items" => gather(value, format!("{place}/items"), all),
            _ => {}
        }
    }
    all.push((place, schema));
}

/// What is said of a value that is as no alternative says: what is wrong by those whose constants it has.
fn as_none(here: Here, faults: &[Fault]) -> Fault {
    let near: Vec<String> =
        faults.iter().filter(|fault| !fault.constant).map(Fault::told).take(MOST_TOLD).collect();
    if near.is_empty() {
        let what = "is as no alternative says, by its constants".to_string();
        return Fault { field: here.field.to_string(), what, constant: true };
    }
    Fault::new(here.field, format!("is as no alternative says: {}", near.join("; ")))
}

/// One of some values.
fn listed(here: Here, values: &Value) -> Looked {
    if values.items().unwrap_or_default().contains(here.value) {
        return Ok(Parts::from([format!("{}/enum/{}", here.place, here.value)]));
    }
    Err(Fault::new(here.field, format!("{} is none of {values}", here.value)))
}

/// Of a type, or of one of some.
fn typed(here: Here, types: &Value) -> Looked {
    let is = |name: &Value| match (name.text().unwrap_or_default(), here.value) {
        ("object", Value::Object(_))
        | ("array", Value::List(_))
        | ("string", Value::Text(_))
        | ("integer", Value::Number(_))
        | ("boolean", Value::Bool(_))
        | ("null", Value::Null) => true,
        _ => false,
    };
    match types.items() {
        None if is(types) => Ok(Parts::new()),
        Some(several) if several.iter().any(is) => {
            let found = several.iter().filter(|name| is(name));
            Ok(found.map(|name| format!("{}/type/{name}", here.place)).collect())
        }
        _ => Err(Fault::new(here.field, format!("{} is not of type {types}", here.value))),
    }
}

/// A keyword that has no schemas inside.
fn plain(here: Here, keyword: &str, wanted: &Value) -> Result<(), Fault> {
    let Here { value, field, .. } = here;
    let limit = wanted.number().unwrap_or_default();
    let number = value.number();
    let length = value.items().map(|items| items.len() as i128);
    let wrong = match keyword {
        "const" if value != wanted => {
            let what = format!("{value} is not {wanted}");
            return Err(Fault { field: field.to_string(), what, constant: true });
        }
        "minimum" if number.is_some_and(|number| number < limit) => format!("is below {limit}"),
        "maximum" if number.is_some_and(|number| number > limit) => format!("is above {limit}"),
        "minItems" if length.is_some_and(|length| length < limit) => {
            format!("has less than {limit}")
        }
        "maxItems" if length.is_some_and(|length| length > limit) => {
            format!("has more than {limit}")
        }
        "format" if value.text().is_some_and(|text| !is_date(text)) => "is no date".to_string(),
        "required" => return required(here, wanted),
        "additionalProperties" => return closed(here),
        _ => return Ok(()),
    };
    Err(Fault::new(field, wrong))
}

/// Fields that an object has.
fn required(here: Here, names: &Value) -> Result<(), Fault> {
    let has = |name: &Value| here.value.get(name.text().unwrap_or_default()).is_some();
    let object = here.value.fields().is_some();
    match names.items().unwrap_or_default().iter().find(|name| object && !has(name)) {
        Some(name) => Err(Fault::new(here.field, format!("has no field {name}"))),
        None => Ok(()),
    }
}

/// No field but those of the schema.
fn closed(here: Here) -> Result<(), Fault> {
    let known = |name: &str| here.schema.get("properties").and_then(|fields| fields.get(name));
    let fields = here.value.fields().unwrap_or_default();
    match fields.iter().find(|(name, _)| known(name).is_none()) {
        Some((name, _)) => Err(Fault::new(here.field, format!("has a field {name:?} too many"))),
        None => Ok(()),
    }
}

/// Is a text a date, YYYY-MM-DD?
fn is_date(text: &str) -> bool {
    let parts: Vec<&str> = text.split('-').collect();
    let digits = |part: &str| part.bytes().all(|byte| byte.is_ascii_digit());
    let within = |part: &str, most: u32| part.parse().is_ok_and(|n: u32| (1..=most).contains(&n));
    match parts.as_slice() {
        [year, month, day] => {
            (year.len(), month.len(), day.len()) == (4, 2, 2)
                && parts.iter().all(|part| digits(part))
                && within(month, 12)
                && within(day, 31)
        }
        _ => false,
    }
}

#[cfg(test)]
mod tests {
    use super::*;
    use crate::shown::shown;

    /// A schema with an alternative of two fields and one of others; two of its alternatives are alike.
    const SMALL: &str = r##"{
        "oneOf": [{ "$ref": "#/$defs/trade" }, { "$ref": "#/$defs/day" }, { "$ref": "#/$defs/again" }],
        "$defs": {
            "lots": { "type": "integer", "minimum": 1, "maximum": 20 },
            "trade": {
                "type": "object",
                "properties": {
                    "fact": { "const": "trade" },
                    "lots": { "$ref": "#/$defs/lots" },
                    "kind": { "enum": ["a", "b"] },
                    "date": { "type": "string", "format": "date" },
                    "list": { "type": "array", "items": { "$ref": "#/$defs/lots" }, "minItems": 1, "maxItems": 2 },
                    "none": { "type": ["integer", "null"] },
                    "why": { "type": "string" }
                },
                "required": ["fact", "lots"],
                "additionalProperties": false,
                "allOf": [{ "oneOf": [{ "required": ["why"] }, { "properties": { "why": false } }] }]
            },
            "day": {
                "type": "object",
                "properties": { "fact": { "const": "day" } },
                "required": ["fact"]
            },
            "again": {
                "type": "object",
                "properties": { "fact": { "const": "day" }, "day": { "const": 1 } },
                "required": ["fact", "day"]
            }
        }
    }"##;

    fn schema() -> Schema {
        Schema::read(SMALL).unwrap()
    }

    fn document() -> Schema {
        Schema::read(include_str!("../../docs/settlement-day.schema.json")).unwrap()
    }

    fn checked(text: &str) -> Result<Parts, String> {
        schema().check(&json::read(text).unwrap())
    }

    #[test]
    fn what_the_schema_says_is_taken_and_told() {
        for right in [
            r#"{"fact":"trade","lots":1}"#,
            r#"{"fact":"trade","lots":20,"kind":"b","date":"2026-11-17","list":[1,20],"none":null}"#,
            r#"{"fact":"trade","lots":20,"none":7,"why":"x"}"#,
            r#"{"fact":"day","more":1}"#,
        ] {
            assert!(checked(right).is_ok(), "{right}: {:?}", checked(right));
        }
        let trade = "#/$defs/trade";
        let met = checked(r#"{"fact":"trade","lots":20,"kind":"b","none":null}"#).unwrap();
        let expected = [
            trade.to_string(),
            format!("{trade}/allOf/0/oneOf/1"),
            format!("{trade}/properties/fact"),
            format!("{trade}/properties/kind"),
            format!("{trade}/properties/kind/enum/\"b\""),
            format!("{trade}/properties/lots"),
            format!("{trade}/properties/none"),
            format!("{trade}/properties/none/type/\"null\""),
        ];
        assert_eq!(met, Parts::from(expected));
        let parts = schema().parts();
        assert!(met.is_subset(&parts), "{parts:?}");
        for part in ["#/$defs/day", "#/$defs/trade/properties/kind/enum/\"a\""] {
            assert!(parts.contains(part), "{part}");
        }
        assert!(!parts.iter().any(|part| part.ends_with("oneOf/1/properties/why")), "{parts:?}");
    }

    #[test]
    fn what_the_schema_does_not_say_is_refused() {
        for (wrong, told) in [
            (r#"{"fact":"trade","lots":1,"more":1}"#, "has a field \"more\" too many"),
            (r#"{"fact":"trade"}"#, "has no field \"lots\""),
            (r#"{"lots":1}"#, "has no field \"fact\""),
            (r#"{"fact":"trade","lots":"1"}"#, "lots: \"1\" is not of type \"integer\""),
            (r#"{"fact":"trade","lots":0}"#, "lots: is below 1"),
            (r#"{"fact":"trade","lots":21}"#, "lots: is above 20"),
            (r#"{"fact":"trade","lots":1,"kind":"c"}"#, "kind: \"c\" is none of [\"a\",\"b\"]"),
            (r#"{"fact":"trade","lots":1,"date":"2026-13-01"}"#, "date: is no date"),
            (r#"{"fact":"trade","lots":1,"date":"2026-1-01"}"#, "date: is no date"),
            (r#"{"fact":"trade","lots":1,"list":[]}"#, "list: has less than 1"),
            (r#"{"fact":"trade","lots":1,"list":[1,2,3]}"#, "list: has more than 2"),
            (r#"{"fact":"trade","lots":1,"list":[1,99]}"#, "list[1]: is above 20"),
            (r#"{"fact":"trade","lots":1,"none":"x"}"#, "none: \"x\" is not of type"),
            (r#"{"fact":"sale","lots":1}"#, "is as no alternative says, by its constants"),
            (r#"{"fact":"day","day":1}"#, "is as several say: #/$defs/day, #/$defs/again"),
            ("[1]", "the object: is as no alternative says: the object: [1] is not of type"),
        ] {
            let error = checked(wrong).unwrap_err();
            assert!(error.contains(told), "{wrong}: {error}");
        }
    }

    #[test]
    fn a_wrong_schema_is_told() {
        let read = |text: &str| Schema::read(text).map(|_| ()).unwrap_err();
        assert_eq!(read(r#"{"anyOf":[]}"#), "#: the keyword anyOf is not known");
        let inside = read(r#"{"oneOf":[{"properties":{"a":{"pattern":"x"}}}]}"#);
        assert_eq!(inside, "#/oneOf/0/properties/a: the keyword pattern is not known");
        assert_eq!(read(r##"{"$ref":"#/$defs/a","$defs":{}}"##), "#: there is no #/$defs/a");
        assert_eq!(read(r#"{"$defs":{"a":true}}"#), "nothing refers to #/$defs/a");
    }

    #[test]
    fn the_version_is_the_first_field() {
        let line = r#"{"fact":"checked","schema":1,"instructions":1,"refused":0}"#;
        assert!(document().check_line(line).unwrap_err().starts_with("the first field is not the"));
        let line = r#"{"schema":2,"fact":"checked","instructions":1,"refused":0}"#;
        assert!(document().check_line(line).unwrap_err().ends_with("version of the schema, 1"));
        let line = r#"{"schema":1,"fact":"checked","instructions":1,"refused":0}"#;
        assert!(document().check_line(line).is_ok());
    }

    /// The example lines of docs/JSON.md.
    fn examples() -> Vec<String> {
        let examples = shown(include_str!("../../docs/JSON.md"));
        examples.into_iter().flat_map(|example| example.lines).collect()
    }

    #[test]
    fn every_alternative_has_an_example_in_the_document() {
        let schema = document();
        let mut met = Parts::new();
        for line in examples() {
            met.extend(schema.check_line(&line).unwrap_or_else(|what| panic!("{line}: {what}")));
        }
        let alternatives = schema.root.get("oneOf").and_then(Value::items).unwrap();
        for (one, at) in alternatives.iter().zip(0..) {
            let alternative = part("#", one, at);
            assert!(met.contains(&alternative), "docs/JSON.md has no example of {alternative}");
        }
    }

    #[test]
    fn an_example_that_is_changed_is_refused() {
        let schema = document();
        for line in examples() {
            let value = json::read(&line).unwrap();
            let fields = value.fields().unwrap();
            let refused = |fields: Vec<(String, Value)>| {
                let changed = Value::Object(fields);
                assert!(schema.check(&changed).is_err(), "{changed}");
            };
            refused([fields, &[("more".to_string(), Value::Number(1))]].concat());
            for (at, (name, _)) in fields.iter().enumerate() {
                let mut changed = fields.to_vec();
                // No field is true or false.
                changed[at].1 = Value::Bool(true);
                refused(changed);
                if ["schema", "fact", "answer"].contains(&name.as_str()) {
                    refused([&fields[..at], &fields[at + 1..]].concat());
                }
            }
        }
    }
}
