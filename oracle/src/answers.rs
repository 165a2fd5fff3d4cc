//! What the oracle answers to each call that the questions accept: figures, lists and buffer.

use crate::by_stand_ins::way_in::{class_counts, class_numbers, edge_window, fit_span};
use crate::by_stand_ins::{self as rust, Hypothesis, ResidualCheck, SecondCarrierEvidence};
use crate::by_stand_ins::{MAX_CARRIER_STEP_HZ, MIN_ELEMENTS};
use crate::records::{self, Estimate};
use crate::scene::Scene;
use crate::{figures, keydowns, run as runs};

/// What an accepted call leaves behind. Lists hold the records up to the count.
#[derive(Debug, Clone, Default)]
pub struct Answer {
    pub figures: Vec<f64>,
    pub elements: Vec<f64>,
    pub fits: Vec<f64>,
    pub row: Vec<f64>,
    pub classes: Vec<f64>,
    /// The buffer, for calls that may write it.
    pub buffer: Option<Vec<f32>>,
    /// Floats of the buffer that the call visits; all others keep every bit.
    pub spans: Vec<(usize, usize)>,
    /// What kind of answer it is, for a tally.
    pub kinds: Vec<&'static str>,
}

/// Those kinds that hold.
fn kinds(all: &[(bool, &'static str)]) -> Vec<&'static str> {
    all.iter().filter(|(holds, _)| *holds).map(|(_, kind)| *kind).collect()
}

/// Key-downs, listed, short, airtime.
fn counts(found: &keydowns::Found) -> [f64; 4] {
    [found.key_downs, found.elements.len(), found.short, found.airtime].map(|n| n as f64)
}

/// How many amplitudes, whether there is a threshold, the threshold; and the row.
pub fn amplitude_row(s: &Scene) -> Answer {
    let rec = &s.recording;
    let row = keydowns::row(&records::samples(&rec.iq), rec.fs, rec.hint_hz);
    let threshold = keydowns::threshold(&row);
    Answer {
        figures: vec![row.len() as f64, threshold.is_some() as u8 as f64, threshold.unwrap_or(0.0)],
        kinds: kinds(&[
            (threshold.is_some(), "with a threshold"),
            (threshold.is_none() && !row.is_empty(), "with a row and no threshold"),
            (row.is_empty(), "with no row"),
            (!row.is_empty() && row.len() == s.row_len, "exactly full"),
        ]),
        row,
        ..Answer::default()
    }
}

pub fn find_elements(s: &Scene) -> Answer {
    let rec = &s.recording;
    let found = keydowns::find(&records::samples(&rec.iq), rec.fs, rec.hint_hz);
    Answer {
        figures: counts(&found).to_vec(),
        elements: records::flat_elements(&found.elements),
        kinds: kinds(&[
            (!found.elements.is_empty(), "with elements"),
            (found.short > 0, "with short ones"),
            (found.elements.windows(2).any(|next| next[0].end == next[1].start), "with neighbours that touch"),
        ]),
        ..Answer::default()
    }
}

pub fn fit_elements(s: &Scene) -> Answer {
    let rec = &s.recording;
    let given = records::elements(&s.given.elements, s.given.element_count);
    let fits = runs::fit(&records::samples(&rec.iq), rec.fs, rec.hint_hz, &given);
    Answer {
        figures: vec![fits.len() as f64],
        fits: records::flat_fits(&fits),
        kinds: kinds(&[
            (!fits.is_empty(), "with fits"),
            (fits.len() < given.len(), "with skipped ones"),
            (!fits.is_empty() && fits.len() * records::FIT == s.places_len, "exactly full"),
        ]),
        ..Answer::default()
    }
}

pub fn estimate_strong(s: &Scene) -> Answer {
    let rec = &s.recording;
    let (found, estimate) = runs::estimate(&records::samples(&rec.iq), rec.fs, rec.hint_hz);
    let mut figures = vec![estimate.carrier_hz, estimate.carrier_step_hz];
    figures.extend(counts(&found));
    figures.push(estimate.fits.len() as f64);
    Answer {
        figures,
        elements: records::flat_elements(&estimate.elements),
        fits: records::flat_fits(&estimate.fits),
        kinds: kinds(&[(!estimate.fits.is_empty(), "with fits"), (estimate.carrier_step_hz != 0.0, "with a step")]),
        ..Answer::default()
    }
}

/// Blocks, and how many are of each class; and the class of each.
pub fn block_classes(s: &Scene) -> Answer {
    let (fs, n, estimate) = (s.recording.fs, s.iq_len() / 2, s.given.estimate().strong());
    let (window, _) = edge_window(fs);
    let blocks = n / window;
    let classes = class_numbers(blocks, window, fs, n, &estimate);
    let [edge, interior, gap, other] = class_counts(blocks, window, fs, n, &estimate);
    Answer {
        figures: [blocks, edge, interior, gap, other].map(|n| n as f64).to_vec(),
        kinds: kinds(&[
            (edge > 0, "with edge blocks"),
            (interior > 0, "with interior blocks"),
            (gap > 0, "with gap blocks"),
            (blocks > 0 && blocks == s.classes_len, "exactly full"),
        ]),
        classes,
        ..Answer::default()
    }
}

pub fn residual_check(s: &Scene) -> Answer {
    let rec = &s.recording;
    let residual = rust::residual_check(&records::samples(&rec.iq), rec.fs, &s.given.estimate().strong());
    Answer {
        figures: residual_figures(&residual).to_vec(),
        kinds: kinds(&[
            (residual.edge_over_neighbour_db.is_finite(), "with an edge ratio"),
            (residual.interior_over_neighbour_db.is_finite(), "with an interior ratio"),
            (residual.clean(), "clean"),
        ]),
        ..Answer::default()
    }
}

fn residual_figures(r: &ResidualCheck) -> [f64; figures::RESIDUAL] {
    let [edge, interior, gap] = [r.edge_blocks, r.interior_blocks, r.gap_blocks].map(|n| n as f64);
    [r.edge_over_neighbour_db, r.interior_over_neighbour_db, edge, interior, gap]
}

pub fn second_carrier_evidence(s: &Scene) -> Answer {
    let rec = &s.recording;
    let evidence = rust::second_carrier_evidence(&records::samples(&rec.iq), rec.fs, &s.given.estimate().strong());
    Answer {
        figures: evidence_figures(&evidence).to_vec(),
        kinds: kinds(&[
            (evidence.hot_fraction > 0.0, "with hot blocks"),
            (evidence.offset_hz.is_some(), "with an offset"),
            (evidence.offset_hz.is_some_and(|f| f.abs() > rec.fs / (2.0 * window(rec.fs))), "with an alias"),
        ]),
        ..Answer::default()
    }
}

fn window(fs: f64) -> f64 {
    rust::way_in::edge_window(fs).0 as f64
}

fn evidence_figures(e: &SecondCarrierEvidence) -> [f64; figures::EVIDENCE] {
    let present = e.offset_hz.is_some() as u8 as f64;
    [e.gap_blocks as f64, e.hot_fraction, present, e.offset_hz.unwrap_or(0.0), e.coherence]
}

pub fn classify(s: &Scene) -> Answer {
    let e = s.evidence;
    let hypothesis = rust::classify(&SecondCarrierEvidence {
        gap_blocks: e.gap_blocks as usize,
        hot_fraction: e.hot_fraction,
        offset_hz: (e.present != 0).then_some(e.offset_hz),
        coherence: e.coherence,
    });
    Answer {
        figures: hypothesis_figures(&hypothesis).to_vec(),
        kinds: vec![hypothesis_name(&hypothesis)],
        ..Answer::default()
    }
}

pub fn clean(s: &Scene) -> Answer {
    let [edge, interior, edge_blocks, interior_blocks, gap_blocks] = s.check;
    let clean = ResidualCheck {
        edge_over_neighbour_db: edge,
        interior_over_neighbour_db: interior,
        edge_blocks: edge_blocks as usize,
        interior_blocks: interior_blocks as usize,
        gap_blocks: gap_blocks as usize,
    }
    .clean();
    Answer {
        figures: vec![clean as u8 as f64],
        kinds: kinds(&[(clean, "clean"), (!clean, "not clean")]),
        ..Answer::default()
    }
}

fn hypothesis_figures(h: &Hypothesis) -> [f64; figures::CLASSIFY] {
    match h {
        Hypothesis::OneSignal => [0.0, 0.0],
        Hypothesis::TwoSignalCw { offset_hz } => [1.0, *offset_hz],
        Hypothesis::NonCw => [2.0, 0.0],
        Hypothesis::Unresolved => [3.0, 0.0],
    }
}

/// As the report program of document 01, part 8, names it.
fn hypothesis_name(h: &Hypothesis) -> &'static str {
    match h {
        Hypothesis::OneSignal => "one",
        Hypothesis::TwoSignalCw { .. } => "two",
        Hypothesis::NonCw => "noncw",
        Hypothesis::Unresolved => "unresolved",
    }
}

/// The floats that the Rust's subtract visits for an estimate's fits.
fn spans(estimate: &Estimate, fs: f64, n: usize) -> Vec<(usize, usize)> {
    let span = |f: &records::Fit| fit_span(&f.fitted(), fs, n);
    estimate.fits.iter().map(span).map(|(lo, hi)| (2 * lo, 2 * hi)).collect()
}

/// Do two spans share a sample?
fn overlap(spans: &[(usize, usize)]) -> bool {
    let mut sorted: Vec<_> = spans.iter().filter(|(lo, hi)| lo < hi).collect();
    sorted.sort();
    sorted.windows(2).any(|w| w[1].0 < w[0].1)
}

pub fn subtract(s: &Scene) -> Answer {
    let rec = &s.recording;
    let (mut samples, estimate) = (records::samples(&rec.iq), s.given.estimate());
    rust::subtract(&mut samples, rec.fs, &estimate.strong());
    let spans = spans(&estimate, rec.fs, samples.len());
    let buffer = records::floats(&samples);
    Answer {
        kinds: kinds(&[
            (spans.iter().any(|(lo, hi)| lo < hi), "with spans"),
            (overlap(&spans), "with overlapping spans"),
            (buffer.iter().any(|x| x.is_nan()), "leaving NaN"),
        ]),
        buffer: Some(buffer),
        spans,
        ..Answer::default()
    }
}

pub fn run(s: &Scene) -> Answer {
    let (fs, hint_hz) = (s.recording.fs, s.recording.hint_hz);
    let mut samples = records::samples(&s.recording.iq);
    let run = runs::run(&mut samples, fs, hint_hz);
    let estimate = &run.estimate;
    let [key_downs, listed, short, airtime] = counts(&run.found);
    let fitted = estimate.fits.len() as f64;
    let mut figures = vec![run.samples as f64, run.window as f64, key_downs, listed, short];
    figures.extend([fitted, listed - fitted, airtime, run.blocks as f64]);
    figures.extend(run.classes.map(|n| n as f64));
    figures.extend([estimate.carrier_hz, estimate.carrier_step_hz]);
    figures.extend(residual_figures(&run.residual));
    figures.extend(evidence_figures(&run.evidence));
    figures.extend(hypothesis_figures(&run.hypothesis));
    figures.push(run.taken as u8 as f64);
    let two = matches!(run.hypothesis, Hypothesis::TwoSignalCw { .. });
    let mut kinds = kinds(&[
        (run.taken, "taken"),
        (!run.taken, "kept"),
        (two && estimate.fits.len() < MIN_ELEMENTS, "two, but few fits"),
        (two && estimate.carrier_step_hz.abs() > MAX_CARRIER_STEP_HZ, "two, but a large step"),
        (two && !run.residual.clean(), "two, but not clean"),
    ]);
    kinds.insert(0, hypothesis_name(&run.hypothesis));
    Answer {
        figures,
        elements: records::flat_elements(&estimate.elements),
        fits: records::flat_fits(&estimate.fits),
        buffer: Some(records::floats(&samples)),
        spans: if run.taken { spans(estimate, fs, run.samples) } else { Vec::new() },
        kinds,
        ..Answer::default()
    }
}
