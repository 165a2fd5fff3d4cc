//! A scene: a recording with all that the calls are handed beside it.

use crate::figures::CHECK;
use crate::questions::steps;
use crate::random::Random;
use crate::records::{self, ELEMENT, FIT};
use crate::run;

/// A recording, and the hint that goes with it.
#[derive(Clone, Default)]
pub struct Recording {
    pub what: String,
    pub fs: f64,
    pub iq: Vec<f32>,
    pub hint_hz: f64,
}

impl Recording {
    pub fn described(&self) -> String {
        format!("{}, fs {:?}, {} floats, hint {:?}", self.what, self.fs, self.iq.len(), self.hint_hz)
    }
}

/// An estimate's numbers and lists, to be handed in.
#[derive(Clone, Default)]
pub struct Given {
    pub carrier_hz: f64,
    pub carrier_step_hz: f64,
    pub elements: Vec<f64>,
    pub element_count: usize,
    pub fits: Vec<f64>,
    pub fit_count: usize,
}

impl Given {
    /// The estimate that the oracle makes of the recording.
    pub fn own(rec: &Recording) -> Given {
        let (_, est) = run::estimate(&records::samples(&rec.iq), rec.fs, rec.hint_hz);
        Given {
            carrier_hz: est.carrier_hz,
            carrier_step_hz: est.carrier_step_hz,
            element_count: est.elements.len(),
            elements: records::flat_elements(&est.elements),
            fit_count: est.fits.len(),
            fits: records::flat_fits(&est.fits),
        }
    }

    /// As the records that it holds.
    pub fn estimate(&self) -> records::Estimate {
        records::Estimate {
            carrier_hz: self.carrier_hz,
            carrier_step_hz: self.carrier_step_hz,
            elements: records::elements(&self.elements, self.element_count),
            fits: records::fits(&self.fits, self.fit_count),
        }
    }
}

/// Figures of an evidence, to be handed in. Anything but 0 says that the offset is present.
#[derive(Debug, Clone, Copy, Default)]
pub struct Evidence {
    pub gap_blocks: u64,
    pub hot_fraction: f64,
    pub present: u64,
    pub offset_hz: f64,
    pub coherence: f64,
}

#[derive(Clone, Default)]
pub struct Scene {
    pub recording: Recording,
    pub given: Given,
    pub evidence: Evidence,
    /// The figures of a residual check, to be handed in.
    pub check: [f64; CHECK],
    /// Lengths of the lists to be filled, of the list with a place for each given element, and of the work slice.
    pub elements_len: usize,
    pub fits_len: usize,
    pub places_len: usize,
    pub row_len: usize,
    pub classes_len: usize,
    pub work_len: usize,
    /// How many floats a call is told of that is lent no recording; none: as many as the recording has.
    pub told_len: Option<usize>,
    /// The calls that it is for; none named: all.
    pub only: &'static [&'static str],
}

impl Scene {
    /// Lengths just as large as the questions ask.
    pub fn least(recording: Recording, given: Given) -> Scene {
        let b = steps(recording.iq.len(), recording.fs);
        Scene {
            elements_len: b / 2 * ELEMENT,
            fits_len: b / 2 * FIT,
            places_len: given.element_count * FIT,
            row_len: b.saturating_sub(7),
            classes_len: b / 8,
            work_len: 4 * b,
            recording,
            given,
            ..Scene::default()
        }
    }

    /// Lengths just as large as the questions ask, or by a few numbers larger.
    pub fn new(recording: Recording, given: Given, r: &mut Random) -> Scene {
        let mut scene = Scene::least(recording, given);
        let least = (scene.elements_len, scene.work_len);
        for len in [&mut scene.elements_len, &mut scene.fits_len, &mut scene.places_len, &mut scene.work_len] {
            *len += if r.chance(0.5) { 0 } else { r.whole(0, 12) };
        }
        // Lists of single numbers have as many to spare as two of those: no number is drawn for them, so that what is
        // drawn after them, and with it the stored answers, does not hang on them.
        scene.row_len += scene.work_len - least.1;
        scene.classes_len += scene.elements_len - least.0;
        scene
    }

    /// A recording with its own estimate.
    pub fn own(recording: Recording, r: &mut Random) -> Scene {
        let given = Given::own(&recording);
        Scene::new(recording, given, r)
    }

    /// How many floats the recording has, or is said to have.
    pub fn iq_len(&self) -> usize {
        self.told_len.unwrap_or(self.recording.iq.len())
    }

    /// Is this scene for this call?
    pub fn is_for(&self, call: &str) -> bool {
        self.only.is_empty() || self.only.contains(&call)
    }
}
