// A program that was written for the module cancel.rs: it knows the module as `cancel`, makes and changes its values,
// and notes down every number. Included three times: `told!` is nothing over the module.

use crate::note::{self, Note};
use cancel::{
    classify, estimate_strong, find_elements, fit_elements, residual_check, second_carrier_evidence, subtract,
    ElementFit, Hypothesis, KeyedElement, ResidualCheck, SecondCarrierEvidence, StrongEstimate,
};
use num_complex::{Complex32, Complex64};

/// What it found out.
#[allow(dead_code)]
pub struct Outcome {
    pub notes: Vec<Note>,
    pub hypothesis: usize,
    pub taken: bool,
}

#[allow(dead_code)]
pub fn program(iq: &[Complex32], fs: f64, hint_hz: f64) -> Outcome {
    let mut notes = Vec::new();

    let found: Vec<KeyedElement> = told!(find_elements(iq, fs, hint_hz));
    note_elements(&mut notes, &found);
    let mut moved: Vec<KeyedElement> =
        found.iter().map(|e| KeyedElement { start: e.start + 0.7, end: e.end - 1.3 }).collect();
    moved.push(KeyedElement { start: -20.0, end: iq.len() as f64 / 2.0 });
    let fits: Vec<ElementFit> = told!(fit_elements(iq, fs, hint_hz, &moved));
    note_fits(&mut notes, &fits);

    let est: StrongEstimate = told!(estimate_strong(iq, fs, hint_hz));
    note_estimate(&mut notes, &est);
    let residual = told!(residual_check(iq, fs, &est));
    note_residual(&mut notes, &residual);
    let evidence = told!(second_carrier_evidence(iq, fs, &est));
    let hypothesis = classify(&evidence);
    note_evidence(&mut notes, &evidence, hypothesis);

    // An estimate of its own making: a fit more, an element less, another carrier.
    let mut other = est.clone();
    let made = ElementFit {
        element: KeyedElement { start: 400.25, end: 700.5 },
        gain: Complex64::new(0.3, -0.2),
        slope_rad_per_sample: 1e-4,
        ref_sample: 550.0,
    };
    other.fits.insert(other.fits.len() / 2, made);
    other.elements.pop();
    other.carrier_hz += 1.25;
    assert_ne!(est, other);
    note_residual(&mut notes, &told!(residual_check(iq, fs, &other)));
    let seen = told!(second_carrier_evidence(iq, fs, &other));
    note_evidence(&mut notes, &seen, classify(&SecondCarrierEvidence { coherence: 0.95, ..seen }));
    let mut buf = iq.to_vec();
    told!(subtract(&mut buf, fs, &StrongEstimate { carrier_step_hz: 0.0, ..other }));
    note::samples(&mut notes, &buf);

    // The run: taken where all four conditions hold.
    let taken = matches!(hypothesis, Hypothesis::TwoSignalCw { .. })
        && est.fits.len() >= cancel::MIN_ELEMENTS
        && est.carrier_step_hz.abs() <= cancel::MAX_CARRIER_STEP_HZ
        && residual.clean();
    let mut buf = iq.to_vec();
    if taken {
        told!(subtract(&mut buf, fs, &est));
    }
    note::samples(&mut notes, &buf);
    let hypothesis = match hypothesis {
        Hypothesis::OneSignal => 0,
        Hypothesis::TwoSignalCw { .. } => 1,
        Hypothesis::NonCw => 2,
        Hypothesis::Unresolved => 3,
        #[allow(unreachable_patterns)]
        _ => panic!("a hypothesis that the module does not have"),
    };
    Outcome { notes, hypothesis, taken }
}

fn note_elements(notes: &mut Vec<Note>, elements: &[KeyedElement]) {
    notes.push(Note::count("elements", elements.len()));
    for e in elements {
        notes.push(Note::number("start", e.start));
        notes.push(Note::number("end", e.end));
    }
}

fn note_fits(notes: &mut Vec<Note>, fits: &[ElementFit]) {
    notes.push(Note::count("fits", fits.len()));
    for f in fits {
        note_elements(notes, &[f.element]);
        notes.push(Note::number("gain, real", f.gain.re));
        notes.push(Note::number("gain, imaginary", f.gain.im));
        notes.push(Note::number("slope", f.slope_rad_per_sample));
        notes.push(Note::number("reference", f.ref_sample));
    }
}

fn note_estimate(notes: &mut Vec<Note>, est: &StrongEstimate) {
    notes.push(Note::number("carrier", est.carrier_hz));
    notes.push(Note::number("carrier step", est.carrier_step_hz));
    note_elements(notes, &est.elements);
    note_fits(notes, &est.fits);
}

fn note_residual(notes: &mut Vec<Note>, r: &ResidualCheck) {
    notes.push(Note::number("edge over neighbour", r.edge_over_neighbour_db));
    notes.push(Note::number("interior over neighbour", r.interior_over_neighbour_db));
    for n in [r.edge_blocks, r.interior_blocks, r.gap_blocks, r.clean() as usize] {
        notes.push(Note::count("residual", n));
    }
}

fn note_evidence(notes: &mut Vec<Note>, e: &SecondCarrierEvidence, hypothesis: Hypothesis) {
    notes.push(Note::count("gap blocks", e.gap_blocks));
    notes.push(Note::number("hot fraction", e.hot_fraction));
    notes.push(Note::count("offset present", e.offset_hz.is_some() as usize));
    notes.push(Note::number("offset", e.offset_hz.unwrap_or(0.0)));
    notes.push(Note::number("coherence", e.coherence));
    match hypothesis {
        Hypothesis::OneSignal => notes.push(Note::count("one", 0)),
        Hypothesis::TwoSignalCw { offset_hz } => notes.push(Note::number("two", offset_hz)),
        Hypothesis::NonCw => notes.push(Note::count("no CW", 0)),
        Hypothesis::Unresolved => notes.push(Note::count("unresolved", 0)),
        #[allow(unreachable_patterns)]
        _ => notes.push(Note::count("unknown", 0)),
    }
}

#[allow(dead_code)]
pub fn constants() -> [f64; 20] {
    [
        cancel::EDGE_WINDOW_S,
        cancel::RISE_S,
        cancel::MIN_ELEMENTS as f64,
        cancel::MAX_CARRIER_STEP_HZ,
        cancel::MIN_INTERIOR_S,
        cancel::SLOPE_BLOCK_S,
        cancel::RIM_S,
        cancel::EDGE_ZONE_S,
        cancel::EDGE_PERCENTILE,
        cancel::CLEAN_EDGE_OVER_NEIGHBOUR_DB,
        cancel::CLEAN_INTERIOR_OVER_NEIGHBOUR_DB,
        cancel::NEIGHBOUR_PERCENTILE,
        cancel::ONE_SIGNAL_MAX_HOT,
        cancel::NON_CW_MIN_HOT,
        cancel::MIN_COHERENCE,
        cancel::MIN_OFFSET_HZ,
        cancel::MAX_OFFSET_HZ,
        cancel::HOT_FACTOR,
        cancel::PAIR_FACTOR,
        cancel::REFERENCE_OFFSET_HZ,
    ]
}
