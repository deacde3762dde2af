//! A case: steps on a book, put to both engines as they come; a mismatch is shrunk.

use crate::engines::{Answer, Engines};
use crate::report::Mismatch;
use crate::shrink::shrink;
use crate::steps::{steps_to, text_of, Call, Edit, Step};
use reference::book::Book;

/// Steps on a book, and both engines after them.
pub struct Case {
    start: Book,
    steps: Vec<Step>,
    pub engines: Engines,
}

impl Case {
    /// A case on this book.
    pub fn of(start: Book) -> Case {
        let engines = Engines::of(&start);
        Case { start, steps: Vec::new(), engines }
    }

    /// A case on a fresh book.
    pub fn fresh() -> Case {
        Case::of(Book::fresh())
    }

    /// The book as it stands.
    pub fn book(&self) -> &Book {
        &self.engines.reference
    }

    /// Makes a step; a difference gives a shrunk case.
    pub fn step(&mut self, step: Step) -> Result<Answer, Mismatch> {
        self.steps.push(step);
        let last = self.steps.last().expect("the step just pushed");
        self.engines.run(last).map_err(|told| self.mismatch(told))
    }

    /// Makes a call or asks a question.
    pub fn call(&mut self, call: Call) -> Result<Answer, Mismatch> {
        self.step(Step::Call(call))
    }

    /// Sets a field of the book.
    pub fn set(&mut self, edit: Edit) -> Result<Answer, Mismatch> {
        self.step(Step::Set(edit))
    }

    /// Makes a call that must answer this number by the paper.
    pub fn expect(&mut self, call: Call, number: u32) -> Result<Answer, Mismatch> {
        let answer = self.call(call)?;
        if answer.number == number {
            return Ok(answer);
        }
        let told = |engine| format!("number {}, by the paper {number} ({engine})", answer.number);
        let case = text_of(&self.all_steps());
        Err(Mismatch { case, reference: told("second engine"), library: told("library") })
    }

    /// The shrunk case of a difference.
    fn mismatch(&self, told: [String; 2]) -> Mismatch {
        let steps = shrink(self.all_steps(), |steps| difference(steps).is_some());
        let [reference, library] = difference(&steps).unwrap_or(told);
        Mismatch { case: text_of(&steps), reference, library }
    }

    /// All steps from a fresh book.
    fn all_steps(&self) -> Vec<Step> {
        let mut steps = if self.start == Book::fresh() { vec![] } else { steps_to(&self.start) };
        steps.extend_from_slice(&self.steps);
        steps
    }
}

/// What the engines answer differently in these steps on a fresh book, if anything.
pub fn difference(steps: &[Step]) -> Option<[String; 2]> {
    let mut engines = Engines::new();
    steps.iter().find_map(|step| engines.run(step).err())
}
