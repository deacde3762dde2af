//! The facts of a tape told: as text for people, as JSON for programs, as one page of HTML.

pub mod json;
pub(crate) mod page;
pub mod text;

use crate::block::Block;
use crate::facts::{Fact, Told};
use crate::input::Day;
use crate::story;
use page::Page;
use std::io::{self, Write};

pub use crate::output::Untold;
pub use text::failed_units;

/// The form in which facts are told.
#[derive(Clone, Copy, Debug, Default, PartialEq, Eq)]
pub enum Form {
    #[default]
    Text,
    Json,
    Html,
}

/// Which facts are told: those of an issue, of an account, of a day. Facts of the whole book are of
/// every issue and account.
#[derive(Clone, Copy, Debug, Default, PartialEq, Eq)]
pub struct Only {
    pub issue: Option<u32>,
    pub account: Option<u32>,
    pub day: Option<u16>,
}

impl Only {
    /// Is this a fact that is told?
    fn has(&self, told: &Told) -> bool {
        let Told { day, fact, .. } = *told;
        let issue = self.issue.zip(fact.issue()).is_none_or(|(one, other)| one == other);
        let account = self.account.is_none_or(|account| {
            let accounts = fact.accounts();
            accounts.is_empty() || accounts.contains(&account)
        });
        issue && account && self.day.is_none_or(|wanted| wanted == day)
    }
}

/// Runs a tape and tells its facts, those that are wanted. An instruction is told also where it is not
/// wanted itself but something that it did is. Answers the day on which the tape ends.
fn tell<'a>(day: &'a Day, only: Only, sink: &'a mut story::Sink<'a>) -> Result<u16, Untold> {
    if only == Only::default() {
        return story::tell(day, sink);
    }
    let mut held: Option<(u16, Option<usize>, Fact)> = None;
    let mut narrowed = |told: &Told| {
        if !only.has(told) {
            if let Fact::Instruction { .. } = told.fact {
                held = Some((told.day, told.word, told.fact.clone()));
            }
            return Ok(());
        }
        if let Some((day, word, fact)) = held.take().filter(|(_, word, _)| *word == told.word) {
            sink(&Told { day, word, fact: &fact, ..*told })?;
        }
        sink(told)
    };
    story::tell(day, &mut narrowed)
}

/// Runs a day and tells its facts in a form; answers the day on which it ends.
pub fn explain(day: &Day, form: Form, only: Only, output: &mut dyn Write) -> Result<u16, Untold> {
    let mut output = Block::before(output);
    let out = &mut output;
    let last = match form {
        Form::Text => {
            let mut begun = false;
            let mut tell_one = |told: &Told| {
                // A line between two days.
                if begun && matches!(told.fact, Fact::Day { .. }) {
                    writeln!(out)?;
                }
                begun = true;
                text::tell(out, told, day.shown(told.stands))
            };
            tell(day, only, &mut tell_one)?
        }
        Form::Json => tell(day, only, &mut |told| json::tell(out, told, day.shown(told.stands)))?,
        Form::Html => {
            let mut page = Page::new(only, day.files());
            let mut note = |told: &Told| match page.note(told, day.shown(told.stands)) {
                true => Ok(()),
                false => Err(io::ErrorKind::OutOfMemory.into()),
            };
            let last = story::tell(day, &mut note);
            if let Some(what) = page.too_long() {
                return Err(Untold::Long(what));
            }
            page.write(out)?;
            last?
        }
    };
    output.flush()?;
    Ok(last)
}

/// The text of a day for people.
pub fn explained(day: &Day) -> String {
    let mut text = Vec::new();
    // A write to memory does not fail.
    let _ = explain(day, Form::Text, Only::default(), &mut text);
    String::from_utf8_lossy(&text).to_string()
}
