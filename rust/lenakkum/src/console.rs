//! Standard output and standard error. A reader that goes away is no error.

use crate::outcome::Outcome;
use crate::page::Section;
use crate::problem::{self, Problem};
use indicatif::{ProgressBar, ProgressStyle};
use std::io::{self, ErrorKind, Write};
use std::process::ExitCode;

/// Takes what came of each recording, in their order.
pub struct Console {
    bar: ProgressBar,
    /// Do samples go to standard output? Then what is said goes to standard error.
    samples: bool,
    /// Has the reader of standard output gone away?
    gone: bool,
    outcomes: usize,
    problems: Vec<Problem>,
    /// What a page has of each.
    pub sections: Vec<Section>,
}

impl Console {
    /// For so many files.
    pub fn new(files: usize, samples: bool) -> Console {
        let bar = if files > 1 { ProgressBar::new(files as u64) } else { ProgressBar::hidden() };
        bar.set_style(ProgressStyle::with_template("{bar:40} {pos}/{len} {msg}").expect("a template that is right"));
        Console { bar, samples, gone: false, outcomes: 0, problems: vec![], sections: vec![] }
    }

    /// Says something of no recording in particular.
    pub fn say(&mut self, text: &str) -> Result<(), Problem> {
        let bar = self.bar.clone();
        if self.samples {
            bar.suspend(|| error(text));
            return Ok(());
        }
        bar.suspend(|| self.write(text.as_bytes()))
    }

    /// Says what came of a recording. Is there anyone left who reads it?
    pub fn take(&mut self, outcome: Outcome) -> Result<bool, Problem> {
        self.outcomes += 1;
        self.say(&outcome.said)?;
        if let Some(left) = &outcome.left {
            self.write(left)?;
        }
        self.problems.extend(outcome.problem);
        self.sections.extend(outcome.section);
        Ok(!self.gone)
    }

    /// A file is done.
    pub fn step(&mut self, name: &str) {
        self.bar.set_message(problem::on_one_line(name));
        self.bar.inc(1);
    }

    /// Says at the end what went wrong.
    pub fn end(self) -> ExitCode {
        self.bar.finish_and_clear();
        if self.outcomes > 1 && !self.problems.is_empty() {
            error(&format!("lenakkum: {} of {} went wrong:\n", self.problems.len(), self.outcomes));
        }
        self.problems.iter().for_each(complain);
        problem::status(&self.problems)
    }

    fn write(&mut self, bytes: &[u8]) -> Result<(), Problem> {
        if self.gone {
            return Ok(());
        }
        let mut out = io::stdout().lock();
        match out.write_all(bytes).and_then(|()| out.flush()) {
            Err(e) if e.kind() == ErrorKind::BrokenPipe => {
                self.gone = true;
                Ok(())
            }
            written => written.map_err(|e| Problem::with("standard output", e)),
        }
    }
}

/// One line on standard error.
pub fn complain(problem: &Problem) {
    error(&format!("lenakkum: {problem}\n"));
}

/// Onto standard error, where there is nobody to tell if it cannot be written.
fn error(text: &str) {
    let _ = io::stderr().lock().write_all(text.as_bytes());
}
