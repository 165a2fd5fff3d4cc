//! Fits and estimate with positions (document 01, part 4), and the run of part 7.

use crate::by_stand_ins::way_in::{class_counts, edge_window};
use crate::by_stand_ins::{
    classify, estimate_strong, fit_elements, residual_check, second_carrier_evidence, subtract, ElementFit, Hypothesis,
    KeyedElement, ResidualCheck, SecondCarrierEvidence, MAX_CARRIER_STEP_HZ, MIN_ELEMENTS,
};
use crate::keydowns::{key_downs_beside, Found};
use crate::records::{Element, Estimate, Fit};
use num_complex::Complex32;

/// The Rust's fits, each with the positions of its element.
pub fn fit(iq: &[Complex32], fs: f64, carrier_hz: f64, elements: &[Element]) -> Vec<Fit> {
    let keyed: Vec<KeyedElement> = elements.iter().map(Element::keyed).collect();
    with_positions(&fit_elements(iq, fs, carrier_hz, &keyed), elements)
}

/// Fits come in the order of their elements, and whether an element gets one hangs on its times alone: a fit belongs to
/// the next element of the same times.
fn with_positions(fits: &[ElementFit], elements: &[Element]) -> Vec<Fit> {
    let mut rest = elements.iter();
    fits.iter()
        .map(|f| Fit {
            element: *rest.find(|e| e.keyed() == f.element).expect("a fit without its element"),
            gain: f.gain,
            slope: f.slope_rad_per_sample,
            reference: f.ref_sample,
        })
        .collect()
}

/// The Rust's estimate with positions, and the key-downs of its second find.
pub fn estimate(iq: &[Complex32], fs: f64, hint_hz: f64) -> (Found, Estimate) {
    let strong = estimate_strong(iq, fs, hint_hz);
    let found = key_downs_beside(iq, fs, strong.carrier_hz, &strong.elements);
    let estimate = Estimate {
        carrier_hz: strong.carrier_hz,
        carrier_step_hz: strong.carrier_step_hz,
        fits: with_positions(&strong.fits, &found.elements),
        elements: found.elements.clone(),
    };
    (found, estimate)
}

/// What a run answers.
pub struct Run {
    pub samples: usize,
    pub window: usize,
    pub found: Found,
    pub estimate: Estimate,
    pub blocks: usize,
    /// Edge, interior, gap, other.
    pub classes: [usize; 4],
    pub residual: ResidualCheck,
    pub evidence: SecondCarrierEvidence,
    pub hypothesis: Hypothesis,
    pub taken: bool,
}

/// Estimate, residual, evidence, hypothesis; then subtracts exactly when all four conditions hold.
pub fn run(buf: &mut [Complex32], fs: f64, hint_hz: f64) -> Run {
    let (window, _) = edge_window(fs);
    let (found, estimate) = estimate(buf, fs, hint_hz);
    let strong = estimate.strong();
    let residual = residual_check(buf, fs, &strong);
    let evidence = second_carrier_evidence(buf, fs, &strong);
    let hypothesis = classify(&evidence);
    let blocks = buf.len() / window;
    let classes = class_counts(blocks, window, fs, buf.len(), &strong);
    let taken = matches!(hypothesis, Hypothesis::TwoSignalCw { .. })
        && estimate.fits.len() >= MIN_ELEMENTS
        && estimate.carrier_step_hz.abs() <= MAX_CARRIER_STEP_HZ
        && residual.clean();
    if taken {
        subtract(buf, fs, &strong);
    }
    Run { samples: buf.len(), window, found, estimate, blocks, classes, residual, evidence, hypothesis, taken }
}
