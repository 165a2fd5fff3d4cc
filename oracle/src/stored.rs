//! The file of stored answers, which the program `replay` (crates/replay) reads: a list of records of 32-bit units, the
//! least byte first. crates/replay/README.md lays it down.
//!
//! A record either puts numbers into what is kept from record to record (the recording, what a call leaves of it, a
//! list of elements, a list of fits), or asks a call of what is kept and says what the Rust answers. A list serves both
//! as what a call is given and as what it has to answer, so that a number is seldom stored twice.

use crate::answers::Answer;
use crate::calls::{Call, Slot};
use crate::lent::Bits;
use crate::records::{ELEMENT, FIT};
use crate::scene::{Evidence, Scene};

/// The most numbers that the program keeps or lends of each kind.
pub const FLOATS: usize = 4_096;
pub const ELEMENTS: usize = ELEMENT * 1_024 + 16;
pub const FITS: usize = FIT * 1_024 + 16;
pub const WORK: usize = 4 * 2_048 + 16;

/// The kinds of record. The calls follow from CALL on, in the order of calls.rs.
const RECORDING: u32 = 1;
const SAMPLES: u32 = 2;
const AS_IT_WAS: u32 = 3;
const LEFT: u32 = 4;
const ELEMENT_LIST: u32 = 5;
const FIT_LIST: u32 = 6;
const END: u32 = 7;
const CALL: u32 = 16;

/// What the kind of a call is raised by whose stored answer is meant to differ.
const MEANT: u32 = 64;

/// Half the range of a sample's part, so that the stored number is not negative.
const MIDDLE: f32 = 32_768.0;

/// A recording as whole numbers from -32,768 to 32,767, times a power of two. No part of it is -0.0.
pub fn whole(iq: &[f32], scale: f32) -> Vec<f32> {
    iq.iter().map(|x| (x / scale).round().clamp(-MIDDLE, MIDDLE - 1.0) * scale + 0.0).collect()
}

/// The file so far, and what the program keeps after it.
pub struct Stored {
    units: Vec<u32>,
    iq: Vec<f32>,
    left: Vec<f32>,
    elements: Vec<f64>,
    fits: Vec<f64>,
}

impl Default for Stored {
    fn default() -> Stored {
        Stored {
            units: Vec::new(),
            iq: vec![0.0; FLOATS],
            left: vec![0.0; FLOATS],
            elements: vec![0.0; ELEMENTS],
            fits: vec![0.0; FITS],
        }
    }
}

/// Are these the first numbers that are kept, bit for bit?
fn kept<T: Bits>(kept: &[T], wanted: &[T]) -> bool {
    wanted.iter().zip(kept).all(|(a, b)| a.bits() == b.bits())
}

/// The stretches in which two rows of equal length differ; some equal numbers between them are taken in.
fn stretches(a: &[f32], b: &[f32]) -> Vec<(usize, usize)> {
    let mut all: Vec<(usize, usize)> = Vec::new();
    for at in (0..a.len()).filter(|&i| a[i].to_bits() != b[i].to_bits()) {
        match all.last_mut() {
            Some((_, end)) if at < *end + 4 => *end = at + 1,
            _ => all.push((at, at + 1)),
        }
    }
    all
}

/// What is wrong in an answer that is meant to differ: one bit of the first or the last figure, of the last number of the
/// last element or fit, of the last float of the buffer, of the refusal's number, which is 0 where the call is accepted,
/// or the one that says whether the buffer is changed.
#[derive(Debug, Clone, Copy, PartialEq)]
pub enum Wrong {
    First,
    Figure,
    Element,
    Fit,
    Sample,
    Number,
    Kept,
}

/// Changes a number by one bit, to another one.
fn one_bit<T: Bits>(x: Option<&mut T>) {
    let x = x.expect("the answer has such a number");
    let was = *x;
    *x = T::of(was.bits() ^ 1);
    assert!(!x.same(was), "one bit makes another number of it");
}

fn halves(x: u64) -> [u32; 2] {
    [x as u32, (x >> 32) as u32]
}

impl Stored {
    /// Its kind, its length in units, then what it holds.
    fn record(&mut self, kind: u32, body: &[u32]) {
        self.units.extend([kind, body.len() as u32 + 2]);
        self.units.extend(body);
    }

    /// A new recording: whole numbers from -32,768 to 32,767 times `scale`, one unit a sample.
    pub fn recording(&mut self, iq: &[f32], scale: f32) {
        let part = |x: f32| (x / scale + MIDDLE) as u32;
        let mut body = vec![iq.len() as u32, scale.to_bits()];
        for p in iq.chunks_exact(2) {
            body.push(part(p[0]) | part(p[1]) << 16);
        }
        assert!(iq.len() % 2 == 0 && kept(&whole(iq, scale), iq), "samples are whole numbers times the scale");
        self.record(RECORDING, &body);
        self.iq[..iq.len()].copy_from_slice(iq);
    }

    /// Makes the program's recording begin with these floats, of any bits.
    pub fn samples(&mut self, iq: &[f32]) {
        for (lo, hi) in stretches(iq, &self.iq[..iq.len()]) {
            let mut body = vec![lo as u32];
            body.extend(iq[lo..hi].iter().map(|x| x.to_bits()));
            self.record(SAMPLES, &body);
        }
        self.iq[..iq.len()].copy_from_slice(iq);
    }

    /// Makes what a call has to leave of the recording begin with these floats.
    fn left(&mut self, buffer: &[f32]) {
        if kept(&self.left, buffer) {
            return;
        }
        self.record(AS_IT_WAS, &[]);
        self.left = self.iq.clone();
        for (lo, hi) in stretches(buffer, &self.iq[..buffer.len()]) {
            let mut body = vec![lo as u32];
            body.extend(buffer[lo..hi].iter().map(|x| x.to_bits()));
            self.record(LEFT, &body);
        }
        self.left[..buffer.len()].copy_from_slice(buffer);
    }

    fn list(&mut self, kind: u32, numbers: &[f64]) {
        let body: Vec<u32> = numbers.iter().flat_map(|x| halves(x.to_bits())).collect();
        self.record(kind, &body);
    }

    fn elements(&mut self, numbers: &[f64]) {
        if !kept(&self.elements, numbers) {
            self.list(ELEMENT_LIST, numbers);
            self.elements[..numbers.len()].copy_from_slice(numbers);
        }
    }

    fn fits(&mut self, numbers: &[f64]) {
        if !kept(&self.fits, numbers) {
            self.list(FIT_LIST, numbers);
            self.fits[..numbers.len()].copy_from_slice(numbers);
        }
    }

    /// A call on a scene, and what the Rust answers, or one bit else.
    pub fn ask(&mut self, call: &Call, number: usize, s: &Scene, wrong: Option<Wrong>) {
        let (mut status, mut answer) = match call.outcome(s) {
            Ok(answer) => (0, answer),
            Err(no) => (no, Answer::default()),
        };
        match wrong {
            Some(Wrong::First) => one_bit(answer.figures.first_mut()),
            Some(Wrong::Figure) => one_bit(answer.figures.last_mut()),
            Some(Wrong::Element) => one_bit(answer.elements.last_mut()),
            Some(Wrong::Fit) => one_bit(answer.fits.last_mut()),
            Some(Wrong::Sample) => one_bit(answer.buffer.as_mut().and_then(|b| b.last_mut())),
            Some(Wrong::Number) => status ^= 1,
            Some(Wrong::Kept) | None => {}
        }
        let mut body = Vec::new();
        if call.is_handed(Slot::evidence) {
            body.extend(evidence(&s.evidence));
        } else {
            self.samples(&s.recording.iq);
            let mut changed = 0;
            if let Some(buffer) = &answer.buffer {
                if !kept(&self.iq, buffer) {
                    changed = 1;
                    self.left(buffer);
                }
            }
            if wrong == Some(Wrong::Kept) {
                changed ^= 1;
            }
            let g = &s.given;
            let estimate = call.is_handed(Slot::estimate);
            let given_elements: &[f64] = if estimate || call.is_handed(Slot::given) { &g.elements } else { &[] };
            let given_fits: &[f64] = if estimate { &g.fits } else { &[] };
            self.elements(if given_elements.is_empty() { &answer.elements } else { given_elements });
            self.fits(if given_fits.is_empty() { &answer.fits } else { given_fits });
            let fits_len = if call.is_handed(Slot::places) { s.places_len } else { s.fits_len };
            body.extend(halves(s.recording.fs.to_bits()));
            body.extend(halves(s.recording.hint_hz.to_bits()));
            body.extend([s.recording.iq.len(), s.elements_len, fits_len, s.work_len].map(|n| n as u32));
            body.extend(halves(g.carrier_hz.to_bits()));
            body.extend(halves(g.carrier_step_hz.to_bits()));
            body.push(given_elements.len() as u32);
            body.extend(halves(g.element_count as u64));
            body.push(given_fits.len() as u32);
            body.extend(halves(g.fit_count as u64));
            body.extend([status as u32, changed, answer.elements.len() as u32, answer.fits.len() as u32]);
        }
        body.extend(answer.figures.iter().flat_map(|x| halves(x.to_bits())));
        self.record(CALL + number as u32 + if wrong.is_some() { MEANT } else { 0 }, &body);
    }

    /// The file, with its last record.
    pub fn bytes(mut self) -> Vec<u8> {
        self.record(END, &[]);
        self.units.iter().flat_map(|u| u.to_le_bytes()).collect()
    }
}

fn evidence(e: &Evidence) -> Vec<u32> {
    [e.gap_blocks, e.hot_fraction.to_bits(), e.present, e.offset_hz.to_bits(), e.coherence.to_bits()]
        .into_iter()
        .flat_map(halves)
        .collect()
}

/// Does the program replay this call? Those that fill lists of single numbers, and clean, came after it.
pub fn is_stored(call: &Call) -> bool {
    ![Slot::row, Slot::classes, Slot::check].iter().any(|&slot| call.is_handed(slot))
}

/// Has the program room for all that the scene lends and gives?
pub fn has_room(s: &Scene) -> bool {
    s.recording.iq.len() <= FLOATS
        && s.elements_len.max(s.given.elements.len()) <= ELEMENTS
        && s.fits_len.max(s.places_len).max(s.given.fits.len()) <= FITS
        && s.work_len <= WORK
}
