//! The pieces that every page is written with: its style, tables that become cards on a phone, sections, a state as
//! a word and as a part of a bar.

use super::parts::State;
use crate::measure::Grouped;
use crate::names::Called;
use std::io::{self, Write};

/// A kind of table: its class, its heads, the columns that are numbers, and those of issues, accounts and
/// days, which are names and dates where they are known.
pub struct Kind {
    class: &'static str,
    heads: &'static [&'static str],
    numbers: &'static [usize],
    named: &'static [usize],
}

pub const DAYS: Kind = Kind {
    class: "days",
    heads: &["Day", "Order", "Issues", "Trades", "Refused", "Fails", "Roll"],
    numbers: &[3, 4, 5],
    named: &[0, 2],
};
pub const ORDER: Kind = Kind {
    class: "order",
    heads: &["Units", "Account", "Lots", "State", "Place"],
    numbers: &[2],
    named: &[1],
};
pub const HANDED: Kind = Kind {
    class: "handed-over",
    heads: &["When", "Account", "Delivers, lots", "Handed", "Waits", "Still owes, lots"],
    numbers: &[2, 5],
    named: &[1],
};
pub const FAILS: Kind = Kind {
    class: "fails",
    heads: &["From account", "To account", "Lots", "Yen face", "Of", "What became of it"],
    numbers: &[0, 1, 2, 3],
    named: &[0, 1],
};
pub const LATER: Kind =
    Kind { class: "later", heads: &["When", "What", "What came of it"], numbers: &[], named: &[] };
pub const CHARGES: Kind = Kind {
    class: "charges",
    heads: &[
        "Issue",
        "From account",
        "To account",
        "Lots",
        "Price",
        "Accrued",
        "Value, yen",
        "Charge, yen",
    ],
    numbers: &[0, 1, 2, 3, 4, 5, 6, 7],
    named: &[0, 1, 2],
};
pub const LEDGER: Kind = Kind {
    class: "ledger",
    heads: &["Issue", "From account", "To account", "Lots", "Yen face", "Since day"],
    numbers: &[0, 1, 2, 3, 4, 5],
    named: &[0, 1, 2, 5],
};
pub const CHARGED: Kind =
    Kind { class: "charged", heads: &["Account", "Yen"], numbers: &[0, 1], named: &[0] };
pub const RECEIVES: Kind = Kind {
    class: "receives",
    heads: &[
        "Day",
        "Issue",
        "Due",
        "Received",
        "Failed",
        "Resolved",
        "Paired off",
        "Still open",
        "Given, yen",
    ],
    numbers: &[0, 1, 2, 3, 5, 6, 7, 8],
    named: &[0, 1],
};
pub const DELIVERS: Kind = Kind {
    class: "delivers",
    heads: &[
        "Day",
        "Issue",
        "Owed",
        "Delivered",
        "Failed",
        "Resolved",
        "Paired off",
        "Still open",
        "Charged, yen",
    ],
    numbers: &[0, 1, 2, 3, 5, 6, 7, 8],
    named: &[0, 1],
};
/// The kinds of tables that the page of a tape has.
pub const KINDS: &[&Kind] =
    &[&DAYS, &ORDER, &HANDED, &FAILS, &LATER, &CHARGES, &LEDGER, &CHARGED, &RECEIVES, &DELIVERS];
pub const STATEMENT: Kind = Kind {
    class: "statement",
    heads: &[
        "Issue",
        "Account",
        "Due",
        "Delivered",
        "Failed",
        "Resolved",
        "Failed over due",
        "Delivered of due",
    ],
    numbers: &[0, 1, 2, 3, 4, 5],
    named: &[0, 1],
};
pub const UNIT_SIZES: Kind = Kind {
    class: "sizes",
    heads: &["Unit size", "Rounds", "Deliveries", "Lots still owed", "Delivered of owed"],
    numbers: &[0, 1, 2, 3],
    named: &[],
};

/// How a state looks: its class in the style, the word for it, and what it means.
#[derive(Clone, Copy, Debug, PartialEq, Eq)]
pub struct Look {
    pub class: &'static str,
    pub word: &'static str,
    pub meaning: &'static str,
}

impl From<State> for Look {
    fn from(state: State) -> Look {
        Look { class: state.class(), word: state.word(), meaning: state.meaning() }
    }
}

/// A page of a title: its style, with tables of these kinds, with names or without, and what stands in it.
pub fn framed<W: Write>(
    out: &mut W,
    title: &str,
    kinds: &[&Kind],
    named: bool,
    inside: impl FnOnce(&mut W) -> io::Result<()>,
) -> io::Result<()> {
    writeln!(out, "<!DOCTYPE html>\n<html lang=\"en\">\n<head>\n<meta charset=\"utf-8\">")?;
    writeln!(out, "<meta name=\"viewport\" content=\"width=device-width, initial-scale=1\">")?;
    writeln!(out, "<title>{title}</title>\n<style>")?;
    style(out, kinds, named)?;
    writeln!(out, "</style>\n</head>\n<body>")?;
    inside(out)?;
    writeln!(out, "</body>\n</html>")
}

/// A page of its own with one table: its title, sentences about it, how states look, and the rows.
pub fn page_of(
    title: &str,
    sentences: &[&str],
    looks: &[Look],
    kind: &Kind,
    rows: &[Vec<String>],
    named: bool,
) -> String {
    let mut page = Vec::new();
    // A write to memory does not fail.
    let _ = framed(&mut page, title, &[kind], named, |out| {
        writeln!(out, "<header>\n<h1>{title}</h1>")?;
        sentences.iter().try_for_each(|one| writeln!(out, "<p>{}</p>", escaped(one)))?;
        writeln!(out, "</header>")?;
        legend(out, looks, "A bar shows how much of all is in which state.")?;
        table(out, kind, rows)
    });
    String::from_utf8_lossy(&page).to_string()
}

/// The style of a page: colours, patterns and layout, and the heads that stand before each cell on a
/// narrow screen; of a page with names, that these stand to the left and are broken where they are long.
fn style(out: &mut impl Write, kinds: &[&Kind], named: bool) -> io::Result<()> {
    out.write_all(include_bytes!("page.css"))?;
    writeln!(out, "@media print, (min-width: 701px) {{")?;
    for Kind { class, numbers, .. } in kinds {
        for column in *numbers {
            let at = column + 1;
            writeln!(out, ".{class} tr > :nth-child({at}) {{ text-align: right; }}")?;
            writeln!(out, ".{class} tr > td:nth-child({at}) {{ white-space: nowrap; }}")?;
        }
    }
    writeln!(out, "}}")?;
    writeln!(out, "@media screen and (max-width: 700px) {{")?;
    for Kind { class, heads, .. } in kinds {
        for (at, head) in (1..).zip(*heads) {
            writeln!(out, ".{class} tr > td:nth-child({at})::before {{ content: \"{head}\"; }}")?;
        }
    }
    writeln!(out, "}}")?;
    if named {
        style_of_names(out, kinds)?;
    }
    Ok(())
}

/// What the style of a page with names has more.
fn style_of_names(out: &mut impl Write, kinds: &[&Kind]) -> io::Result<()> {
    writeln!(out, "td, li {{ overflow-wrap: anywhere; }}")?;
    writeln!(out, "@media print, (min-width: 701px) {{")?;
    for Kind { class, named, .. } in kinds {
        for column in *named {
            let at = column + 1;
            writeln!(out, ".{class} tr > :nth-child({at}) {{ text-align: left; }}")?;
            let wide = "white-space: normal; min-width: 4.6rem;";
            writeln!(out, ".{class} tr > td:nth-child({at}) {{ {wide} }}")?;
        }
    }
    writeln!(out, "}}")
}

/// A table, if it has rows.
pub fn table(out: &mut impl Write, kind: &Kind, rows: &[Vec<String>]) -> io::Result<()> {
    if rows.is_empty() {
        return writeln!(out, "<p>None.</p>");
    }
    writeln!(out, "<table class=\"{}\">\n<thead><tr>", kind.class)?;
    kind.heads.iter().try_for_each(|head| write!(out, "<th scope=\"col\">{head}</th>"))?;
    writeln!(out, "</tr></thead>\n<tbody>")?;
    for row in rows {
        write!(out, "<tr>")?;
        row.iter().try_for_each(|cell| write!(out, "<td>{cell}</td>"))?;
        writeln!(out, "</tr>")?;
    }
    writeln!(out, "</tbody>\n</table>")
}

/// A section with a heading that can be linked to.
pub fn section_of<W: Write>(
    out: &mut W,
    id: &str,
    title: &str,
    inside: impl FnOnce(&mut W) -> io::Result<()>,
) -> io::Result<()> {
    writeln!(out, "<section id=\"{id}\">\n<h2>{title}</h2>")?;
    inside(out)?;
    writeln!(out, "</section>")
}

/// Sentences as a list, if there are any.
pub fn list(out: &mut impl Write, class: &str, sentences: &[String]) -> io::Result<()> {
    if sentences.is_empty() {
        return Ok(());
    }
    writeln!(out, "<ul class=\"{class}\">")?;
    sentences.iter().try_for_each(|one| writeln!(out, "<li>{}</li>", escaped(one)))?;
    writeln!(out, "</ul>")
}

/// Sentences as a list inside a cell.
pub fn cell_of(sentences: &[String]) -> String {
    match sentences {
        [] => String::new(),
        [one] => escaped(one),
        all => {
            let all: String = all.iter().map(|one| format!("<li>{}</li>", escaped(one))).collect();
            format!("<ul>{all}</ul>")
        }
    }
}

/// What each state looks like, with a sample of it, and how to read a bar.
pub fn legend(out: &mut impl Write, looks: &[Look], bars: &str) -> io::Result<()> {
    section_of(out, "legend", "How to read it", |out| {
        writeln!(out, "<ul class=\"legend\">")?;
        for look in looks {
            let (sample, meaning) = (bar(4, &[(*look, 1, 2)]), look.meaning);
            writeln!(out, "<li>{}{sample}<span>{meaning}</span></li>", badge(*look))?;
        }
        writeln!(out, "</ul>\n<p>{bars}</p>")
    })
}

/// A state as a word on its colour.
pub fn badge(look: impl Into<Look>) -> String {
    let Look { class, word, .. } = look.into();
    format!("<b class=\"badge {class}\">{word}</b>")
}

/// Lots in their states: each state as a word with its part of all, and a bar of them.
pub fn shares(all: u64, parts: &[(Look, u64)]) -> String {
    let (mut words, mut drawn, mut from) = (String::new(), Vec::new(), 0);
    for &(look, lots) in parts.iter().filter(|(_, lots)| *lots > 0) {
        words.push_str(&format!("{} {:.1}&nbsp;% ", badge(look), percent(lots, all)));
        drawn.push((look, from, lots));
        from += lots;
    }
    words + &bar(all, &drawn)
}

/// Lots of all in percent.
fn percent(lots: u64, all: u64) -> f64 {
    lots as f64 * 100.0 / all.max(1) as f64
}

/// A bar of so many lots, with parts in their states: each from so many lots on, so many long.
pub fn bar<L: Copy + Into<Look>>(all: u64, parts: &[(L, u64, u64)]) -> String {
    let part = |&(look, from, lots): &(L, u64, u64)| {
        let (left, width) = (percent(from, all), percent(lots, all));
        let Look { class, .. } = look.into();
        format!("<i class=\"{class}\" style=\"left:{left:.2}%;width:{width:.2}%\"></i>")
    };
    let parts: String = parts.iter().map(part).collect();
    format!("<span class=\"bar\" aria-hidden=\"true\">{parts}</span>")
}

/// A number with a comma before every three digits.
pub fn number(number: impl Into<i128>) -> String {
    Grouped(number.into()).to_string()
}

/// An issue or an account as it is told.
pub fn name(called: Called) -> String {
    escaped(&called.to_string())
}

/// Lots as their face in yen, 50,000 a lot.
pub fn face(lots: impl Into<i128>) -> String {
    number(lots.into() * 50_000)
}

/// Units from one to another.
pub fn range(first: u32, last: u32) -> String {
    if first == last {
        return first.to_string();
    }
    format!("{first}–{last}")
}

/// Text with the letters that HTML has a use for.
pub fn escaped(text: &str) -> String {
    text.replace('&', "&amp;").replace('<', "&lt;").replace('>', "&gt;")
}
