//! What is run, and what came of it.

use crate::numbers;
use crate::page::Section;
use crate::problem::{on_one_line, Problem};
use crate::statement::Statement;
use crate::told::Told;

/// A recording, or a piece of one, as it is spoken of.
pub struct Subject {
    pub name: String,
    pub rate: f64,
    pub hint: f64,
    /// The first sample that is run, counted from the recording's first.
    pub first: u64,
    /// How many are run.
    pub samples: usize,
    /// The piece's number, from 1.
    pub piece: Option<usize>,
    pub told: Told,
    /// Is it to be explained why the sender was taken off, or the recording kept?
    pub explain: bool,
    pub statement: Statement,
    /// Is the statement asked for in the report?
    pub stated: bool,
}

impl Subject {
    /// A place among the samples that are run, in seconds from the recording's beginning.
    pub fn seconds(&self, sample: f64) -> f64 {
        (self.first as f64 + sample) / self.rate
    }

    /// The statement, where one is asked for.
    pub fn stated(&self) -> Option<&Statement> {
        Some(&self.statement).filter(|_| self.stated)
    }

    /// Its name, on one line, and where it stands if it is a piece.
    pub fn title(&self) -> String {
        let (name, place) = (on_one_line(&self.name), |sample: usize| numbers::plain(self.seconds(sample as f64)));
        match self.piece {
            None => name,
            Some(_) => format!("{name} [{} s to {} s]", place(0), place(self.samples)),
        }
    }
}

/// What came of a recording or a piece.
#[derive(Default)]
pub struct Outcome {
    /// What is said of it.
    pub said: String,
    /// What is left of it, for standard output.
    pub left: Option<Vec<u8>>,
    /// What went wrong.
    pub problem: Option<Problem>,
    /// What a page has of it, where one is asked for.
    pub section: Option<Section>,
}
