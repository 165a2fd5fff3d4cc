//! Which part of a recording is run: all of it, a stretch, or pieces one after another.

use crate::problem::Problem;
use crate::reading::{Source, MOST};
use num_complex::Complex32;
use std::str::FromStr;

/// How long something is.
#[derive(Clone, Copy, Debug, PartialEq)]
pub enum Extent {
    Seconds(f64),
    Samples(u64),
}

impl FromStr for Extent {
    type Err = String;

    /// `12.5` and `12.5s` are seconds, `40000samples` are samples.
    fn from_str(text: &str) -> Result<Extent, String> {
        let not = || "it is neither seconds, as 12.5, nor samples, as 40000samples".to_string();
        if let Some(samples) = text.strip_suffix("samples") {
            return samples.trim().parse().map(Extent::Samples).map_err(|_| not());
        }
        match text.strip_suffix('s').unwrap_or(text).trim().parse::<f64>() {
            Ok(seconds) if seconds.is_finite() && seconds >= 0.0 => Ok(Extent::Seconds(seconds)),
            _ => Err(not()),
        }
    }
}

impl Extent {
    /// In samples, to the nearest.
    fn samples(self, rate: f64) -> u64 {
        match self {
            Extent::Seconds(seconds) => (seconds * rate).round() as u64,
            Extent::Samples(samples) => samples,
        }
    }
}

/// What the command line says about which part is run.
#[derive(Clone, Copy, Default)]
pub struct Choice {
    pub start: Option<Extent>,
    pub length: Option<Extent>,
    pub pieces: Option<Extent>,
}

/// A part of a recording.
pub struct Part {
    /// Its first sample, counted from the recording's.
    pub first: u64,
    /// Its number from 1, if the recording is run in pieces.
    pub piece: Option<usize>,
    pub samples: Vec<Complex32>,
}

/// The parts of a recording that are to be run.
pub struct Parts {
    source: Source,
    first: u64,
    /// Samples that may still be run.
    left: u64,
    /// Samples of a piece, and how many pieces there were.
    pieces: Option<(u64, usize)>,
    ended: bool,
}

impl Parts {
    pub fn new(mut source: Source, choice: &Choice) -> Result<Parts, Problem> {
        let rate = source.rate;
        let pieces = choice.pieces.map(|piece| piece.samples(rate));
        let length = choice.length.map(|length| length.samples(rate));
        match (pieces, length) {
            (Some(0), _) => return Err(Problem::with("--pieces", "it is less than a sample")),
            (_, Some(0)) => return Err(Problem::with("--length", "it is less than a sample")),
            (Some(samples), _) if samples > MOST as u64 => {
                return Err(Problem::with(
                    "--pieces",
                    format!("{samples} samples are more than the {MOST} run at once"),
                ))
            }
            _ => {}
        }
        let start = choice.start.map_or(0, |start| start.samples(rate));
        let there = source.skip(start)?;
        if there < start {
            let seconds = there as f64 / rate;
            let why = format!("--start is beyond its end: it has {there} samples, {seconds} s");
            return Err(Problem::with(&source.name, why));
        }
        let pieces = pieces.map(|samples| (samples, 0));
        Ok(Parts { source, first: start, left: length.unwrap_or(u64::MAX), pieces, ended: false })
    }

    pub fn source(&self) -> &Source {
        &self.source
    }

    /// The next part; none after the last. There is at least one.
    pub fn next(&mut self) -> Result<Option<Part>, Problem> {
        if self.ended {
            return Ok(None);
        }
        // Of a recording that is too long one sample more is read than is run, so that it is refused.
        let most = self.pieces.map_or(MOST as u64 + 1, |(samples, _)| samples).min(self.left);
        let samples = self.source.next(most as usize)?;
        let (first, count) = (self.first, samples.len() as u64);
        self.ended = self.pieces.is_none() || count < most || count == self.left;
        self.first += count;
        self.left -= count;
        let piece = self.pieces.as_mut().map(|(_, number)| {
            *number += 1;
            *number
        });
        match (count, piece) {
            (0, None) | (0, Some(1)) if first == 0 => Err(Problem::with(&self.source.name, "it is empty")),
            (0, None) | (0, Some(1)) => {
                Err(Problem::with(&self.source.name, format!("--start is its end: it has {first} samples")))
            }
            (0, _) => Ok(None),
            _ => Ok(Some(Part { first, piece, samples })),
        }
    }
}
