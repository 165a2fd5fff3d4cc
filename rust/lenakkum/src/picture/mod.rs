//! The picture of a run: the amplitude row with its threshold, what was found in it, and the neighbour's envelope
//! before and after. All that it shows is the proved library's: figures, lists, amplitude rows and classes.

mod draw;
mod lanes;
mod trace;

use crate::outcome;
use crate::problem::Problem;
use crate::reasons;
use crate::writing::Staged;
use cancel::{amplitude_row, block_classes, AmplitudeRow, KeyDown, Ran, Refusal, RunFigures, StrongEstimate};
use num_complex::Complex32;
use plotters::prelude::{BitMapBackend, IntoDrawingArea, SVGBackend};
use std::path::Path;

/// What a picture is made of.
struct Subject<'a> {
    name: String,
    rate: f64,
    before: &'a [Complex32],
    after: &'a [Complex32],
    figures: RunFigures,
    elements: Vec<KeyDown>,
    estimate: StrongEstimate,
}

/// What it shows.
struct Shown<'a> {
    of: &'a Subject<'a>,
    /// Lines, rather than pixels.
    vectors: bool,
    /// Seconds of the recording.
    seconds: f64,
    /// At the strong sender's carrier.
    row: Vec<f64>,
    threshold: Option<f64>,
    lanes: Vec<lanes::Lane>,
    neighbour: Result<Neighbour, &'static str>,
    /// Lines that say why the recording was kept: none where the sender was taken off.
    reasons: Vec<String>,
}

/// The amplitude row at the neighbour's offset.
struct Neighbour {
    offset_hz: f64,
    before: AmplitudeRow,
    after: AmplitudeRow,
}

/// A picture's size in pixels; reasons in its title make it higher.
const SIZE: (u32, u32) = (1_500, 1_050);

/// A picture's kinds, by the ending of its name.
#[derive(Clone, Copy, PartialEq)]
enum Kind {
    Svg,
    Png,
}

fn kind(path: &Path) -> Result<Kind, Problem> {
    match path.extension().and_then(|e| e.to_str()) {
        Some("svg") => Ok(Kind::Svg),
        Some("png") => Ok(Kind::Png),
        _ => Err(Problem::with(path.display(), "a picture's name ends in .svg or .png")),
    }
}

/// Is this the name of a picture?
pub fn checked(path: &Path) -> Result<(), Problem> {
    kind(path).map(|_| ())
}

/// Draws the picture of a run beside its place.
pub fn of_run(
    path: &Path,
    subject: &outcome::Subject,
    before: &[Complex32],
    after: &[Complex32],
    ran: &Ran<'_>,
) -> Result<Staged, Problem> {
    let kind = kind(path)?;
    let subject = drawn_of(subject, before, after, ran);
    let (shown, size) = measured(&subject, kind == Kind::Svg)?;
    Staged::new(path, |beside| match kind {
        Kind::Svg => draw::drawn(&SVGBackend::new(beside, size).into_drawing_area(), &shown),
        Kind::Png => draw::drawn(&BitMapBackend::new(beside, size).into_drawing_area(), &shown),
    })
}

/// The picture of a run as a text, to stand in a page.
pub fn svg_of_run(
    subject: &outcome::Subject,
    before: &[Complex32],
    after: &[Complex32],
    ran: &Ran<'_>,
) -> Result<String, Problem> {
    let subject = drawn_of(subject, before, after, ran);
    let (shown, size) = measured(&subject, true)?;
    let mut text = String::new();
    draw::drawn(&SVGBackend::with_string(&mut text, size).into_drawing_area(), &shown)
        .map_err(|why| Problem::with(&subject.name, why))?;
    // A page has its own first line.
    Ok(text.find("<svg").map_or_else(String::new, |at| text.split_off(at)))
}

fn drawn_of<'a>(
    subject: &outcome::Subject,
    before: &'a [Complex32],
    after: &'a [Complex32],
    ran: &Ran<'_>,
) -> Subject<'a> {
    let figures = ran.figures;
    let estimate = StrongEstimate {
        carrier_hz: figures.carrier_hz,
        carrier_step_hz: figures.carrier_step_hz,
        fits: ran.fits().collect(),
        elements: ran.elements().map(|k| k.element).collect(),
    };
    let elements = ran.elements().collect();
    Subject { name: subject.title(), rate: subject.rate, before, after, figures, elements, estimate }
}

/// What is shown, and how large in pixels.
fn measured<'a>(subject: &'a Subject<'a>, vectors: bool) -> Result<(Shown<'a>, (u32, u32)), Problem> {
    let shown = shown(subject, vectors).map_err(|refusal| Problem::Refused(subject.name.clone(), refusal))?;
    let size = (SIZE.0, SIZE.1 + draw::added(shown.reasons.len()));
    Ok((shown, size))
}

fn shown<'a>(subject: &'a Subject<'a>, vectors: bool) -> Result<Shown<'a>, Refusal> {
    let classes = block_classes(subject.before.len(), subject.rate, &subject.estimate)?;
    // A refined carrier may lie beyond half the rate, where a row is refused. There is then none to show.
    let row = row(subject.before, subject.rate, subject.figures.carrier_hz)?;
    let (row, threshold) = row.map_or((vec![], None), |row| (row.amplitudes, row.threshold));
    let lanes = lanes::all(subject, &row, threshold, &classes);
    let seconds = subject.before.len().max(1) as f64 / subject.rate;
    let neighbour = neighbour(subject)?;
    let reasons = reasons::kept_because(&subject.figures);
    let reasons = reasons.iter().flat_map(|reason| draw::lines(&format!("kept because {reason}"))).collect();
    Ok(Shown { of: subject, vectors, seconds, row, threshold, lanes, neighbour, reasons })
}

/// The envelope at the offset that the evidence has, before and after, or why there is none.
fn neighbour(subject: &Subject<'_>) -> Result<Result<Neighbour, &'static str>, Refusal> {
    let offset_hz = match subject.figures.evidence.offset_hz {
        Some(offset_hz) => offset_hz,
        None => {
            return Ok(Err("No second carrier was seen in the gaps, so there is no offset to show an envelope at."))
        }
    };
    let at = subject.figures.carrier_hz + offset_hz;
    let (before, after) = (row(subject.before, subject.rate, at)?, row(subject.after, subject.rate, at)?);
    Ok(match (before, after) {
        (Some(before), Some(after)) => Ok(Neighbour { offset_hz, before, after }),
        (None, _) => Err("The neighbour's offset lies beyond half the rate, where no envelope is computed."),
        (_, None) => Err("What the run left has infinite samples, of which no envelope is computed."),
    })
}

/// The row at a carrier; none where the library takes no such carrier, or no such samples.
fn row(iq: &[Complex32], rate: f64, carrier_hz: f64) -> Result<Option<AmplitudeRow>, Refusal> {
    match amplitude_row(iq, rate, carrier_hz) {
        Ok(row) => Ok(Some(row)),
        Err(Refusal::Hint) | Err(Refusal::Sample) => Ok(None),
        Err(refusal) => Err(refusal),
    }
}
