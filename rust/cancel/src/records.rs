//! The records of key-downs and fits, and how they stand in the flat lists that the library is lent.

use num_complex::Complex64;

/// The places of an element's numbers in its record, and how many they are: struct cancel_element of include/cancel.h.
const START: usize = 0;
const END: usize = 1;
const UP: usize = 2;
const DOWN: usize = 3;
pub(crate) const ELEMENT: usize = 4;

/// The same of a fit, whose record begins with its element's: struct cancel_fit.
const GAIN_RE: usize = ELEMENT;
const GAIN_IM: usize = ELEMENT + 1;
const SLOPE_RAD_PER_SAMPLE: usize = ELEMENT + 2;
const REF_SAMPLE: usize = ELEMENT + 3;
pub(crate) const FIT: usize = ELEMENT + 4;

/// The records' names and widths.
pub const RECORDS: &[(&str, usize)] = &[("ELEMENT", ELEMENT), ("FIT", FIT)];

/// One key-down element: the times of its rise and fall through half the level, in samples.
#[derive(Debug, Clone, Copy, PartialEq)]
#[cfg_attr(feature = "serde", derive(serde::Serialize, serde::Deserialize))]
pub struct KeyedElement {
    /// Time of the rise.
    #[cfg_attr(feature = "serde", serde(with = "crate::numbers::number"))]
    pub start: f64,
    /// Time of the fall.
    #[cfg_attr(feature = "serde", serde(with = "crate::numbers::number"))]
    pub end: f64,
}

/// An element with the positions of its two crossings in the amplitude row.
///
/// The key-downs of every list that is found are in the order of their times, which is proved: each start lies from the
/// centre of the window at `up − 1` to the centre at `up`, ends included, each end likewise for `down`; each start is
/// later than the one before, and no end is later than the next start, so that two neighbours may touch, not overlap.
/// `up` is at least 1 and less than `down`. The centre of the window at `i` is `i × step + (8 × step − 1) / 2.0`, where
/// `step` is `fs / 3000` rounded, halves up.
#[derive(Debug, Clone, Copy, PartialEq)]
#[cfg_attr(feature = "serde", derive(serde::Serialize, serde::Deserialize))]
pub struct KeyDown {
    /// Its times.
    pub element: KeyedElement,
    /// Position of the upward crossing.
    pub up: usize,
    /// Position of the downward crossing.
    pub down: usize,
}

/// An element's fitted gain, at `ref_sample`, and phase slope, both relative to the estimate's carrier.
#[derive(Debug, Clone, Copy, PartialEq)]
#[cfg_attr(feature = "serde", derive(serde::Serialize, serde::Deserialize))]
pub struct ElementFit {
    /// The element that was fitted.
    pub element: KeyedElement,
    /// Amplitude and phase at the reference sample.
    #[cfg_attr(feature = "serde", serde(with = "crate::numbers::complex"))]
    pub gain: Complex64,
    /// Radians a sample.
    #[cfg_attr(feature = "serde", serde(with = "crate::numbers::number"))]
    pub slope_rad_per_sample: f64,
    /// The sample that the gain holds for; a half where it lies between two.
    #[cfg_attr(feature = "serde", serde(with = "crate::numbers::number"))]
    pub ref_sample: f64,
}

/// A strong keyed sender as it was received.
#[derive(Debug, Clone, PartialEq)]
#[cfg_attr(feature = "serde", derive(serde::Serialize, serde::Deserialize))]
pub struct StrongEstimate {
    /// Offset from the recording's centre, refined once.
    #[cfg_attr(feature = "serde", serde(with = "crate::numbers::number"))]
    pub carrier_hz: f64,
    /// The refined carrier less the hint.
    #[cfg_attr(feature = "serde", serde(with = "crate::numbers::number"))]
    pub carrier_step_hz: f64,
    /// The fits of those elements that are long enough, in their order.
    pub fits: Vec<ElementFit>,
    /// Every element found at the refined carrier, fitted or not.
    pub elements: Vec<KeyedElement>,
}

impl KeyedElement {
    /// Positions say nothing to a call that is given elements, so they go in as 0.
    pub(crate) fn write(&self, place: &mut [f64]) {
        place[START] = self.start;
        place[END] = self.end;
        place[UP] = 0.0;
        place[DOWN] = 0.0;
    }

    fn read(place: &[f64]) -> KeyedElement {
        KeyedElement { start: place[START], end: place[END] }
    }
}

impl KeyDown {
    pub(crate) fn read(place: &[f64]) -> KeyDown {
        KeyDown { element: KeyedElement::read(place), up: place[UP] as usize, down: place[DOWN] as usize }
    }
}

impl ElementFit {
    pub(crate) fn write(&self, place: &mut [f64]) {
        self.element.write(place);
        place[GAIN_RE] = self.gain.re;
        place[GAIN_IM] = self.gain.im;
        place[SLOPE_RAD_PER_SAMPLE] = self.slope_rad_per_sample;
        place[REF_SAMPLE] = self.ref_sample;
    }

    pub(crate) fn read(place: &[f64]) -> ElementFit {
        ElementFit {
            element: KeyedElement::read(place),
            gain: Complex64::new(place[GAIN_RE], place[GAIN_IM]),
            slope_rad_per_sample: place[SLOPE_RAD_PER_SAMPLE],
            ref_sample: place[REF_SAMPLE],
        }
    }
}

/// The first `count` key-downs of a flat list.
pub(crate) fn key_downs(list: &[f64], count: usize) -> impl ExactSizeIterator<Item = KeyDown> + '_ {
    list.chunks_exact(ELEMENT).take(count).map(KeyDown::read)
}

/// The first `count` fits of a flat list.
pub(crate) fn fits(list: &[f64], count: usize) -> impl ExactSizeIterator<Item = ElementFit> + '_ {
    list.chunks_exact(FIT).take(count).map(ElementFit::read)
}
