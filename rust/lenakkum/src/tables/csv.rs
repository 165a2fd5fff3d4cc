//! A row of CSV.

use super::{evidence, offset, residual, NotFinite, Place};
use crate::outcome::Subject;
use crate::problem::Problem;
use crate::{reasons, report};
use cancel::Ran;
use serde::Serialize;

/// A row of CSV. A field that there is nothing for is empty.
#[derive(Default, Serialize)]
struct Row<'a> {
    file: &'a str,
    run: Option<u64>,
    problem: Option<String>,
    rate_hz: Option<f64>,
    hint_hz: Option<f64>,
    capture: Option<usize>,
    piece: Option<usize>,
    first_sample: Option<u64>,
    start_s: Option<f64>,
    duration_s: Option<f64>,
    samples: Option<usize>,
    window: Option<usize>,
    key_downs: Option<usize>,
    listed: Option<usize>,
    short: Option<usize>,
    fitted: Option<usize>,
    skipped: Option<usize>,
    airtime: Option<usize>,
    airtime_s: Option<f64>,
    blocks: Option<usize>,
    edge: Option<usize>,
    interior: Option<usize>,
    gap: Option<usize>,
    other: Option<usize>,
    carrier_hz: Option<f64>,
    carrier_step_hz: Option<f64>,
    edge_over_neighbour_db: Option<f64>,
    interior_over_neighbour_db: Option<f64>,
    clean: Option<bool>,
    hot_fraction: Option<f64>,
    evidence_offset_hz: Option<f64>,
    coherence: Option<f64>,
    hypothesis: Option<&'static str>,
    offset_hz: Option<f64>,
    buffer: Option<&'static str>,
    kept_because: Option<String>,
    not_finite: Option<String>,
    recording_sha256: Option<&'a str>,
    date: Option<&'a str>,
    format: Option<&'a str>,
    version: Option<&'a str>,
    commit: Option<&'a str>,
    library_sha256: Option<&'a str>,
}

/// The run as a row of CSV.
pub fn csv(subject: &Subject, ran: &Ran<'_>) -> String {
    let f = &ran.figures;
    let mut not = NotFinite::default();
    let (residual, evidence) = (residual(f, &mut not), evidence(f, &mut not));
    let mut row = Row {
        samples: Some(f.samples),
        window: Some(f.window),
        key_downs: Some(f.key_downs),
        listed: Some(f.listed),
        short: Some(f.short),
        fitted: Some(f.fitted),
        skipped: Some(f.skipped),
        airtime: Some(f.airtime),
        airtime_s: Some(f.airtime as f64 / subject.rate),
        blocks: Some(f.blocks),
        edge: Some(f.edge),
        interior: Some(f.interior),
        gap: Some(f.gap),
        other: Some(f.other),
        carrier_hz: not.or("carrier_hz", f.carrier_hz),
        carrier_step_hz: not.or("carrier_step_hz", f.carrier_step_hz),
        edge_over_neighbour_db: residual.edge_over_neighbour_db,
        interior_over_neighbour_db: residual.interior_over_neighbour_db,
        clean: Some(residual.clean),
        hot_fraction: evidence.hot_fraction,
        evidence_offset_hz: evidence.offset_hz,
        coherence: evidence.coherence,
        hypothesis: Some(report::word(f.hypothesis)),
        offset_hz: offset(f).and_then(|offset_hz| not.or("offset_hz", offset_hz)),
        buffer: Some(report::buffer(f.taken)),
        kept_because: Some(reasons::kept_because(f).join("; ")),
        ..of_subject(subject, Some(0))
    };
    row.not_finite = not.text();
    csv_line(&row, false)
}

/// As a row of CSV, what was refused or could not be read.
pub fn csv_of_problem(name: &str, subject: Option<&Subject>, problem: &Problem) -> String {
    let run = problem.refusal().map(|refusal| refusal.number());
    let row = subject.map_or_else(Row::default, |subject| of_subject(subject, run));
    csv_line(&Row { file: name, problem: Some(problem.to_string()), ..row }, false)
}

/// What a row says of a recording before it is run.
fn of_subject(subject: &Subject, run: Option<u64>) -> Row<'_> {
    let place = Place::of(subject, run);
    let statement = subject.stated();
    Row {
        file: &subject.name,
        run,
        rate_hz: Some(place.rate_hz),
        hint_hz: Some(place.hint_hz),
        capture: place.capture,
        piece: place.piece,
        first_sample: Some(place.first_sample),
        start_s: place.start_s,
        duration_s: place.duration_s,
        recording_sha256: statement.and_then(|s| s.recording_sha256.as_deref()),
        date: statement.and_then(|s| s.date.as_deref()),
        format: statement.map(|s| s.format),
        version: statement.map(|s| s.version),
        commit: statement.map(|s| s.commit),
        library_sha256: statement.map(|s| s.library_sha256),
        ..Row::default()
    }
}

/// The line with the columns' names.
pub fn csv_header() -> String {
    let both = csv_line(&Row::default(), true);
    both.lines().next().unwrap_or("").to_string() + "\n"
}

fn csv_line(row: &Row<'_>, header: bool) -> String {
    let mut writer = ::csv::WriterBuilder::new().has_headers(header).from_writer(Vec::new());
    writer.serialize(row).expect("a row has only names and plain values");
    let bytes = writer.into_inner().expect("a list takes every byte");
    String::from_utf8(bytes).expect("fields are text")
}
