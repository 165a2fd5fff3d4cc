//! A scene's slices as they are lent to one call, and what they have to hold afterwards.

use crate::answers::Answer;
use crate::calls::{Call, Outcome, Slot};
use crate::lent::{Lent, Zone};
use crate::random::Random;
use crate::records::{ELEMENT, FIT};
use crate::scene::{Evidence, Scene};

/// What a call is handed. A slice that the call is not handed has no numbers.
pub struct Handed {
    /// The recording, as iq or as buf.
    pub recording: Lent<f32>,
    pub iq_len: usize,
    pub fs: f64,
    pub hint_hz: f64,
    pub elements: Lent<f64>,
    pub fits: Lent<f64>,
    pub places: Lent<f64>,
    pub row: Lent<f64>,
    pub classes: Lent<f64>,
    pub work: Lent<f64>,
    pub figures: Lent<f64>,
    pub carrier_hz: f64,
    pub carrier_step_hz: f64,
    pub given_elements: Lent<f64>,
    pub element_count: usize,
    pub given_fits: Lent<f64>,
    pub fit_count: usize,
    pub evidence: Evidence,
    pub check: Lent<f64>,
}

impl Handed {
    /// Lends what the call is handed; lists to be filled, work slice and figures hold anything.
    pub fn lend(call: &Call, s: &Scene, r: &mut Random) -> Handed {
        let handed = |slots: &[Slot]| slots.iter().any(|&slot| call.is_handed(slot));
        let len = |slot: Slot, len: usize| if call.is_handed(slot) { len } else { 0 };
        let recording: &[f32] = if handed(&[Slot::iq, Slot::buf]) { &s.recording.iq } else { &[] };
        let elements: &[f64] = if handed(&[Slot::given, Slot::estimate]) { &s.given.elements } else { &[] };
        let fits: &[f64] = if handed(&[Slot::estimate]) { &s.given.fits } else { &[] };
        let check: &[f64] = if handed(&[Slot::check]) { &s.check } else { &[] };
        Handed {
            recording: Lent::holding("recording", recording, r),
            iq_len: s.iq_len(),
            fs: s.recording.fs,
            hint_hz: s.recording.hint_hz,
            elements: Lent::any("elements", len(Slot::elements, s.elements_len), r),
            fits: Lent::any("fits", len(Slot::fits, s.fits_len), r),
            places: Lent::any("fits", len(Slot::places, s.places_len), r),
            row: Lent::any("row", len(Slot::row, s.row_len), r),
            classes: Lent::any("classes", len(Slot::classes, s.classes_len), r),
            work: Lent::any("work", len(Slot::work, s.work_len), r),
            figures: Lent::any("figures", call.figures, r),
            carrier_hz: s.given.carrier_hz,
            carrier_step_hz: s.given.carrier_step_hz,
            given_elements: Lent::holding("given elements", elements, r),
            element_count: s.given.element_count,
            given_fits: Lent::holding("given fits", fits, r),
            fit_count: s.given.fit_count,
            evidence: s.evidence,
            check: Lent::holding("check", check, r),
        }
    }

    fn zones(&self) -> [&dyn Zone; 11] {
        [
            &self.recording,
            &self.elements,
            &self.fits,
            &self.places,
            &self.row,
            &self.classes,
            &self.work,
            &self.figures,
            &self.given_elements,
            &self.given_fits,
            &self.check,
        ]
    }

    /// On a refusal the same number and nothing written; else the oracle's answer in figures, lists and buffer. Guard
    /// zones, what is only read, and numbers after a list's last whole place are kept either way.
    pub fn judge(&self, call: &Call, status: u64, outcome: &Outcome) -> Result<(), String> {
        let expected = *outcome.as_ref().err().unwrap_or(&0);
        if status != expected {
            return Err(format!("library answers {status}, oracle {expected}"));
        }
        let Ok(answer) = outcome else {
            return self.zones().iter().try_for_each(|zone| zone.untouched("on a refusal"));
        };
        self.zones().iter().try_for_each(|zone| zone.guarded())?;
        self.given_elements.untouched("though only read")?;
        self.given_fits.untouched("though only read")?;
        self.check.untouched("though only read")?;
        self.figures.holds(&answer.figures)?;
        self.elements.holds(&answer.elements)?;
        self.elements.keeps_rest(ELEMENT)?;
        let fits = if call.is_handed(Slot::places) { &self.places } else { &self.fits };
        fits.holds(&answer.fits)?;
        fits.keeps_rest(FIT)?;
        self.row.holds(&answer.row)?;
        self.classes.holds(&answer.classes)?;
        if call.is_handed(Slot::buf) {
            self.buffer_holds(answer)
        } else {
            self.recording.untouched("though only read")
        }
    }

    /// The buffer is the oracle's, and outside of the spans it keeps every bit.
    fn buffer_holds(&self, answer: &Answer) -> Result<(), String> {
        let (buf, expected) = (&self.recording, answer.buffer.as_deref().unwrap_or(&[]));
        assert_eq!(buf.len(), expected.len(), "the oracle's buffer is as long as the one lent");
        buf.holds(expected)?;
        let mut spans = answer.spans.clone();
        spans.sort();
        let mut from = 0;
        for (lo, hi) in spans.into_iter().chain([(buf.len(), buf.len())]) {
            buf.keeps(from, lo.max(from), "outside of every span")?;
            from = from.max(hi);
        }
        Ok(())
    }
}
