//! Records with what document 01 adds to the Rust's (up, down), and as flat numbers: a fit's are those of its element and
//! four more.

use crate::by_stand_ins::{ElementFit, KeyedElement, StrongEstimate};
use num_complex::{Complex32, Complex64};

/// The places of an element's numbers in its record, and how many they are.
pub const START: usize = 0;
pub const END: usize = 1;
pub const UP: usize = 2;
pub const DOWN: usize = 3;
pub const ELEMENT: usize = 4;

/// The same of a fit, whose record begins with its element's.
pub const GAIN_RE: usize = ELEMENT;
pub const GAIN_IM: usize = ELEMENT + 1;
pub const SLOPE: usize = ELEMENT + 2;
pub const REFERENCE: usize = ELEMENT + 3;
pub const FIT: usize = ELEMENT + 4;

#[derive(Debug, Clone, Copy)]
pub struct Element {
    pub start: f64,
    pub end: f64,
    pub up: f64,
    pub down: f64,
}

impl Element {
    pub fn read(flat: &[f64]) -> Element {
        Element { start: flat[START], end: flat[END], up: flat[UP], down: flat[DOWN] }
    }

    pub fn flat(&self) -> [f64; ELEMENT] {
        let mut flat = [0.0; ELEMENT];
        flat[START] = self.start;
        flat[END] = self.end;
        flat[UP] = self.up;
        flat[DOWN] = self.down;
        flat
    }

    /// The Rust's record of it.
    pub fn keyed(&self) -> KeyedElement {
        KeyedElement { start: self.start, end: self.end }
    }
}

#[derive(Debug, Clone, Copy)]
pub struct Fit {
    pub element: Element,
    pub gain: Complex64,
    pub slope: f64,
    pub reference: f64,
}

impl Fit {
    pub fn read(flat: &[f64]) -> Fit {
        let gain = Complex64::new(flat[GAIN_RE], flat[GAIN_IM]);
        Fit { element: Element::read(flat), gain, slope: flat[SLOPE], reference: flat[REFERENCE] }
    }

    pub fn flat(&self) -> [f64; FIT] {
        let mut flat = [0.0; FIT];
        flat[..ELEMENT].copy_from_slice(&self.element.flat());
        flat[GAIN_RE] = self.gain.re;
        flat[GAIN_IM] = self.gain.im;
        flat[SLOPE] = self.slope;
        flat[REFERENCE] = self.reference;
        flat
    }

    pub fn fitted(&self) -> ElementFit {
        ElementFit {
            element: self.element.keyed(),
            gain: self.gain,
            slope_rad_per_sample: self.slope,
            ref_sample: self.reference,
        }
    }
}

#[derive(Debug, Clone)]
pub struct Estimate {
    pub carrier_hz: f64,
    pub carrier_step_hz: f64,
    pub elements: Vec<Element>,
    pub fits: Vec<Fit>,
}

impl Estimate {
    pub fn strong(&self) -> StrongEstimate {
        StrongEstimate {
            carrier_hz: self.carrier_hz,
            carrier_step_hz: self.carrier_step_hz,
            fits: self.fits.iter().map(Fit::fitted).collect(),
            elements: self.elements.iter().map(Element::keyed).collect(),
        }
    }
}

pub fn elements(flat: &[f64], count: usize) -> Vec<Element> {
    flat.chunks_exact(ELEMENT).take(count).map(Element::read).collect()
}

pub fn fits(flat: &[f64], count: usize) -> Vec<Fit> {
    flat.chunks_exact(FIT).take(count).map(Fit::read).collect()
}

pub fn flat_elements(list: &[Element]) -> Vec<f64> {
    list.iter().flat_map(Element::flat).collect()
}

pub fn flat_fits(list: &[Fit]) -> Vec<f64> {
    list.iter().flat_map(Fit::flat).collect()
}

/// The samples of a recording lent as floats.
pub fn samples(iq: &[f32]) -> Vec<Complex32> {
    iq.chunks_exact(2).map(|p| Complex32::new(p[0], p[1])).collect()
}

pub fn floats(samples: &[Complex32]) -> Vec<f32> {
    samples.iter().flat_map(|x| [x.re, x.im]).collect()
}
