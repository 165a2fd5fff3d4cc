//! Runs as data: a line of JSON or a row of CSV for every recording, run, refused or not read.

mod csv;
mod json;

pub use self::csv::{csv, csv_header, csv_of_problem};
pub use self::json::{json, json_of_problem};

use crate::numbers;
use crate::outcome::Subject;
use cancel::{Hypothesis, RunFigures};
use serde::Serialize;
use std::collections::BTreeMap;

/// Numbers for columns: one that is not finite is left out, and kept by its name here.
#[derive(Default, Serialize)]
#[serde(transparent)]
struct NotFinite(BTreeMap<String, &'static str>);

impl NotFinite {
    fn or(&mut self, name: impl Into<String>, x: f64) -> Option<f64> {
        match numbers::not_finite(x) {
            None => Some(x),
            Some(word) => {
                self.0.insert(name.into(), word);
                None
            }
        }
    }

    /// As a text for one field of a row.
    fn text(&self) -> Option<String> {
        let words: Vec<String> = self.0.iter().map(|(name, word)| format!("{name} {word}")).collect();
        (!words.is_empty()).then(|| words.join(", "))
    }
}

/// Of a recording that was run or refused: where its samples stand.
#[derive(Serialize)]
struct Place {
    rate_hz: f64,
    hint_hz: f64,
    /// The capture that was chosen. What follows is then counted from its first sample.
    capture: Option<usize>,
    piece: Option<usize>,
    first_sample: u64,
    start_s: Option<f64>,
    /// Of what was run.
    duration_s: Option<f64>,
}

impl Place {
    fn of(subject: &Subject, run: Option<u64>) -> Place {
        let finite = |seconds: f64| seconds.is_finite().then_some(seconds);
        Place {
            rate_hz: subject.rate,
            hint_hz: subject.hint,
            capture: subject.statement.capture,
            piece: subject.piece,
            first_sample: subject.first,
            start_s: finite(subject.seconds(0.0)),
            duration_s: run.filter(|run| *run == 0).and_then(|_| finite(subject.samples as f64 / subject.rate)),
        }
    }
}

#[derive(Serialize)]
struct Residual {
    edge_over_neighbour_db: Option<f64>,
    interior_over_neighbour_db: Option<f64>,
    edge_blocks: usize,
    interior_blocks: usize,
    gap_blocks: usize,
    clean: bool,
}

#[derive(Serialize)]
struct Evidence {
    gap_blocks: usize,
    hot_fraction: Option<f64>,
    offset_hz: Option<f64>,
    coherence: Option<f64>,
}

/// The offset of a second sender, where the hypothesis has one.
fn offset(f: &RunFigures) -> Option<f64> {
    match f.hypothesis {
        Hypothesis::TwoSignalCw { offset_hz } => Some(offset_hz),
        _ => None,
    }
}

fn residual(f: &RunFigures, not: &mut NotFinite) -> Residual {
    let r = &f.residual;
    Residual {
        edge_over_neighbour_db: not.or("edge_over_neighbour_db", r.edge_over_neighbour_db),
        interior_over_neighbour_db: not.or("interior_over_neighbour_db", r.interior_over_neighbour_db),
        edge_blocks: r.edge_blocks,
        interior_blocks: r.interior_blocks,
        gap_blocks: r.gap_blocks,
        clean: r.clean(),
    }
}

fn evidence(f: &RunFigures, not: &mut NotFinite) -> Evidence {
    let e = &f.evidence;
    Evidence {
        gap_blocks: e.gap_blocks,
        hot_fraction: not.or("hot_fraction", e.hot_fraction),
        offset_hz: e.offset_hz.and_then(|offset_hz| not.or("evidence.offset_hz", offset_hz)),
        coherence: not.or("coherence", e.coherence),
    }
}
