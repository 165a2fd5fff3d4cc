//! The calls as the module had them: each makes the room it needs and answers values.

use crate::answers::{Hypothesis, ResidualCheck, Run, SecondCarrierEvidence};
use crate::linked;
use crate::records::{ElementFit, KeyedElement, StrongEstimate};
use crate::refusal::Refusal;
use crate::workspace::Workspace;
use num_complex::Complex32;

/// Key-down elements of the carrier at `carrier_hz`, an offset from the recording's centre.
///
/// ```
/// use cancel::{find_elements, Complex32, KeyedElement};
///
/// let mut recording = vec![Complex32::new(0.0, 0.0); 300];
/// recording[100..200].fill(Complex32::new(1.0, 0.0));
/// assert_eq!(find_elements(&recording, 3_000.0, 0.0)?, [KeyedElement { start: 99.5, end: 199.5 }]);
/// # Ok::<(), cancel::Refusal>(())
/// ```
///
/// # Errors
///
/// [`Refusal::Rate`], [`Refusal::Count`], [`Refusal::Sample`] or [`Refusal::Carrier`].
pub fn find_elements(iq: &[Complex32], fs: f64, carrier_hz: f64) -> Result<Vec<KeyedElement>, Refusal> {
    let mut workspace = Workspace::with_room(iq.len(), fs);
    let found = workspace.find_elements(iq, fs, carrier_hz)?;
    Ok(found.elements().map(|e| e.element).collect())
}

/// Gain and phase slope of each given element whose interior is long enough and lies in the recording.
///
/// ```
/// use cancel::{fit_elements, Complex32, KeyedElement};
///
/// let mut recording = vec![Complex32::new(0.0, 0.0); 300];
/// recording[100..200].fill(Complex32::new(1.0, 0.0));
/// let fits = fit_elements(&recording, 3_000.0, 0.0, &[KeyedElement { start: 99.5, end: 199.5 }])?;
/// assert_eq!((fits[0].gain.re, fits[0].slope_rad_per_sample, fits[0].ref_sample), (1.0, 0.0, 149.0));
/// # Ok::<(), cancel::Refusal>(())
/// ```
///
/// # Errors
///
/// [`Refusal::Rate`], [`Refusal::Count`], [`Refusal::Sample`], [`Refusal::Carrier`] or [`Refusal::Given`].
pub fn fit_elements(
    iq: &[Complex32],
    fs: f64,
    carrier_hz: f64,
    els: &[KeyedElement],
) -> Result<Vec<ElementFit>, Refusal> {
    let mut workspace = Workspace::new();
    workspace.make_work(iq.len(), fs);
    Ok(workspace.fit_elements(iq, fs, carrier_hz, els)?.fits().collect())
}

/// Finds, fits, refines the carrier once, finds and fits again at the refined carrier.
///
/// # Errors
///
/// [`Refusal::Rate`], [`Refusal::Count`], [`Refusal::Sample`] or [`Refusal::Carrier`].
pub fn estimate_strong(iq: &[Complex32], fs: f64, carrier_hint_hz: f64) -> Result<StrongEstimate, Refusal> {
    let mut workspace = Workspace::with_room(iq.len(), fs);
    Ok(workspace.estimate_strong(iq, fs, carrier_hint_hz)?.to_strong())
}

/// What taking the estimate off would leave of the strong sender, over the level of its neighbour.
///
/// # Errors
///
/// [`Refusal::Rate`], [`Refusal::Count`], [`Refusal::Sample`] or [`Refusal::Given`].
pub fn residual_check(iq: &[Complex32], fs: f64, est: &StrongEstimate) -> Result<ResidualCheck, Refusal> {
    let mut workspace = Workspace::new();
    workspace.make_work(iq.len(), fs);
    workspace.hold(fs, est).residual_check(iq)
}

/// What a second carrier shows in the gaps of the estimate.
///
/// # Errors
///
/// [`Refusal::Rate`], [`Refusal::Count`], [`Refusal::Sample`] or [`Refusal::Given`].
pub fn second_carrier_evidence(
    iq: &[Complex32],
    fs: f64,
    est: &StrongEstimate,
) -> Result<SecondCarrierEvidence, Refusal> {
    let mut workspace = Workspace::new();
    workspace.make_work(iq.len(), fs);
    workspace.hold(fs, est).second_carrier_evidence(iq)
}

/// What the evidence speaks for. It refuses nothing, and takes any number.
///
/// ```
/// use cancel::{classify, Hypothesis, SecondCarrierEvidence};
///
/// let evidence = SecondCarrierEvidence { gap_blocks: 100, hot_fraction: 0.4, offset_hz: Some(60.0), coherence: 0.9 };
/// assert_eq!(classify(&evidence), Hypothesis::TwoSignalCw { offset_hz: 60.0 });
/// ```
#[must_use]
pub fn classify(e: &SecondCarrierEvidence) -> Hypothesis {
    let (present, offset_hz) = (e.offset_hz.is_some() as u64, e.offset_hz.unwrap_or(0.0));
    Hypothesis::of(&linked::classify(e.gap_blocks as u64, e.hot_fraction, present, offset_hz, e.coherence))
}

/// Takes the estimate off the recording, over the span of each fit.
///
/// ```
/// use cancel::{estimate_strong, subtract, Complex32};
///
/// let mut recording = vec![Complex32::new(0.0, 0.0); 300];
/// recording[100..200].fill(Complex32::new(1.0, 0.0));
/// let estimate = estimate_strong(&recording, 3_000.0, 0.0)?;
/// subtract(&mut recording, 3_000.0, &estimate)?;
/// assert!(recording[150].norm() < 1e-6);
/// # Ok::<(), cancel::Refusal>(())
/// ```
///
/// # Errors
///
/// [`Refusal::Rate`], [`Refusal::Count`], [`Refusal::Sample`] or [`Refusal::Given`].
pub fn subtract(buf: &mut [Complex32], fs: f64, est: &StrongEstimate) -> Result<(), Refusal> {
    Workspace::new().hold(fs, est).subtract(buf)
}

/// Estimates, measures, decides, and takes the strong sender off the recording where the rules allow it. Where they do
/// not, and where it is refused, the recording keeps every bit.
///
/// # Errors
///
/// [`Refusal::Rate`], [`Refusal::Count`], [`Refusal::Sample`] or [`Refusal::Carrier`].
pub fn run(buf: &mut [Complex32], fs: f64, hint_hz: f64) -> Result<Run, Refusal> {
    let mut workspace = Workspace::with_room(buf.len(), fs);
    let ran = workspace.run(buf, fs, hint_hz)?;
    Ok(Run { figures: ran.figures, elements: ran.elements().collect(), fits: ran.fits().collect() })
}
