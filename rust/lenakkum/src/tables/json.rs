//! A line of JSON.

use super::{evidence, offset, residual, Evidence, NotFinite, Place, Residual};
use crate::outcome::Subject;
use crate::problem::Problem;
use crate::statement::Statement;
use crate::{reasons, report};
use cancel::{ElementFit, KeyDown, Ran};
use serde::Serialize;

#[derive(Serialize)]
struct Json<'a> {
    file: &'a str,
    /// 0, the number of a refusal, or nothing of what could not be read.
    run: Option<u64>,
    #[serde(skip_serializing_if = "Option::is_none")]
    problem: Option<String>,
    #[serde(skip_serializing_if = "Option::is_none")]
    refusal: Option<String>,
    #[serde(flatten)]
    place: Option<Place>,
    #[serde(flatten)]
    figures: Option<Figures>,
    #[serde(skip_serializing_if = "Option::is_none")]
    statement: Option<&'a Statement>,
}

#[derive(Serialize)]
struct Figures {
    samples: usize,
    window: usize,
    key_downs: usize,
    listed: usize,
    short: usize,
    fitted: usize,
    skipped: usize,
    airtime: usize,
    airtime_s: f64,
    blocks: usize,
    edge: usize,
    interior: usize,
    gap: usize,
    other: usize,
    carrier_hz: Option<f64>,
    carrier_step_hz: Option<f64>,
    residual: Residual,
    evidence: Evidence,
    hypothesis: &'static str,
    offset_hz: Option<f64>,
    buffer: &'static str,
    kept_because: Vec<String>,
    elements: Vec<Element>,
    fits: Vec<Fit>,
    not_finite: NotFinite,
}

/// A key-down: times in samples of the part that was run, and in seconds of the recording.
#[derive(Serialize)]
struct Element {
    start: Option<f64>,
    end: Option<f64>,
    start_s: Option<f64>,
    end_s: Option<f64>,
    up: usize,
    down: usize,
}

#[derive(Serialize)]
struct Fit {
    start: Option<f64>,
    end: Option<f64>,
    start_s: Option<f64>,
    end_s: Option<f64>,
    gain: [Option<f64>; 2],
    slope_rad_per_sample: Option<f64>,
    ref_sample: Option<f64>,
    ref_s: Option<f64>,
}

/// The run in one line of JSON. An offset that is absent is null.
pub fn json(subject: &Subject, ran: &Ran<'_>) -> String {
    let figures = Some(figures(subject, ran));
    let place = Some(Place::of(subject, Some(0)));
    let statement = subject.stated();
    one_line(&Json { file: &subject.name, run: Some(0), problem: None, refusal: None, place, figures, statement })
}

/// In one line of JSON, what was refused or could not be read. Of the latter nothing is known but its name.
pub fn json_of_problem(name: &str, subject: Option<&Subject>, problem: &Problem) -> String {
    let refused = problem.refusal();
    let run = refused.map(|refusal| refusal.number());
    one_line(&Json {
        file: name,
        run,
        problem: Some(problem.to_string()),
        refusal: refused.map(|refusal| refusal.to_string()),
        place: subject.map(|subject| Place::of(subject, run)),
        figures: None,
        statement: subject.and_then(Subject::stated),
    })
}

fn one_line(json: &Json<'_>) -> String {
    serde_json::to_string(json).expect("a report has only names for keys") + "\n"
}

fn figures(subject: &Subject, ran: &Ran<'_>) -> Figures {
    let f = &ran.figures;
    let mut not = NotFinite::default();
    Figures {
        samples: f.samples,
        window: f.window,
        key_downs: f.key_downs,
        listed: f.listed,
        short: f.short,
        fitted: f.fitted,
        skipped: f.skipped,
        airtime: f.airtime,
        airtime_s: f.airtime as f64 / subject.rate,
        blocks: f.blocks,
        edge: f.edge,
        interior: f.interior,
        gap: f.gap,
        other: f.other,
        carrier_hz: not.or("carrier_hz", f.carrier_hz),
        carrier_step_hz: not.or("carrier_step_hz", f.carrier_step_hz),
        residual: residual(f, &mut not),
        evidence: evidence(f, &mut not),
        hypothesis: report::word(f.hypothesis),
        offset_hz: offset(f).and_then(|offset_hz| not.or("offset_hz", offset_hz)),
        buffer: report::buffer(f.taken),
        kept_because: reasons::kept_because(f),
        elements: ran.elements().enumerate().map(|(i, key)| element(subject, i, &key, &mut not)).collect(),
        fits: ran.fits().enumerate().map(|(i, f)| fit(subject, i, &f, &mut not)).collect(),
        not_finite: not,
    }
}

fn element(subject: &Subject, i: usize, key: &KeyDown, not: &mut NotFinite) -> Element {
    let start = not.or(format!("elements[{i}].start"), key.element.start);
    let end = not.or(format!("elements[{i}].end"), key.element.end);
    let seconds = |sample: Option<f64>| sample.map(|sample| subject.seconds(sample));
    Element { start, end, start_s: seconds(start), end_s: seconds(end), up: key.up, down: key.down }
}

fn fit(subject: &Subject, i: usize, fit: &ElementFit, not: &mut NotFinite) -> Fit {
    let mut number = |name: &str, x| not.or(format!("fits[{i}].{name}"), x);
    let (start, end) = (number("start", fit.element.start), number("end", fit.element.end));
    let ref_sample = number("ref_sample", fit.ref_sample);
    let seconds = |sample: Option<f64>| sample.map(|sample| subject.seconds(sample));
    Fit {
        start,
        end,
        start_s: seconds(start),
        end_s: seconds(end),
        gain: [number("gain.re", fit.gain.re), number("gain.im", fit.gain.im)],
        slope_rad_per_sample: number("slope_rad_per_sample", fit.slope_rad_per_sample),
        ref_sample,
        ref_s: seconds(ref_sample),
    }
}
