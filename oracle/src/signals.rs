//! Made-up recordings: keyed senders with ramps, drift and noise, and rows that are hard on a threshold or a selection.

use crate::random::Random;
use crate::stand_ins::{cos, sin};
use std::f64::consts::{PI, TAU};

/// A keyed sender: where it stands, how fast it drifts, how strong it is, and how long its key unit is.
#[derive(Clone, Copy)]
pub struct Sender {
    pub hz: f64,
    pub drift_hz_s: f64,
    pub amplitude: f64,
    pub unit_s: f64,
}

/// Raised-cosine ramp, 0 to 100 %.
const RAMP_S: f64 = 5e-3;

/// A key unit that no recording is as long as.
const STEADY_S: f64 = 1e4;

impl Sender {
    pub fn keyed(hz: f64, amplitude: f64, unit_s: f64) -> Sender {
        Sender { hz, drift_hz_s: 0.0, amplitude, unit_s }
    }

    /// A sender that is never keyed up.
    pub fn steady(hz: f64, amplitude: f64) -> Sender {
        Sender::keyed(hz, amplitude, STEADY_S)
    }

    pub fn drifting(self, drift_hz_s: f64) -> Sender {
        Sender { drift_hz_s, ..self }
    }

    /// Adds the sender's samples with its key down at just these times, in samples.
    pub fn add_at(&self, sum: &mut [(f64, f64)], fs: f64, marks: &[(f64, f64)], r: &mut Random) {
        let phase = r.between(0.0, TAU);
        marks.iter().for_each(|&(start, end)| self.mark(sum, fs, start, end, phase));
    }

    /// Adds the sender's samples: marks of one or three units, spaces of one, three or seven.
    fn add(&self, sum: &mut [(f64, f64)], fs: f64, r: &mut Random) {
        let phase = r.between(0.0, TAU);
        let mut at = r.between(0.0, 0.3) * fs;
        while at < sum.len() as f64 {
            let mark = r.pick(&[1.0, 1.0, 3.0]) * self.unit_s * fs;
            self.mark(sum, fs, at, at + mark, phase);
            at += mark + r.pick(&[1.0, 1.0, 3.0, 7.0]) * self.unit_s * fs;
        }
    }

    fn mark(&self, sum: &mut [(f64, f64)], fs: f64, start: f64, end: f64, phase: f64) {
        let pad = RAMP_S * fs;
        let lo = (start - pad).max(0.0) as usize;
        let hi = ((end + pad) as usize).min(sum.len());
        for (k, z) in sum.iter_mut().enumerate().take(hi).skip(lo) {
            let t = k as f64;
            let strength = self.amplitude * (ramp((t - start) / fs) - ramp((t - end) / fs));
            let cycles = (self.hz + self.drift_hz_s / 2.0 * (t / fs)) / fs * t;
            let angle = (cycles.rem_euclid(1.0) * TAU + phase).rem_euclid(TAU);
            z.0 += strength * cos(angle);
            z.1 += strength * sin(angle);
        }
    }
}

fn ramp(t: f64) -> f64 {
    if t <= -RAMP_S / 2.0 {
        0.0
    } else if t >= RAMP_S / 2.0 {
        1.0
    } else {
        0.5 + 0.5 * sin(PI * t / RAMP_S)
    }
}

/// n samples of all senders and noise of this size in each part.
pub fn senders(n: usize, fs: f64, all: &[Sender], noise: f64, r: &mut Random) -> Vec<f32> {
    let mut sum = vec![(0.0, 0.0); n];
    for sender in all {
        sender.add(&mut sum, fs, r);
    }
    with_noise(&sum, noise, r)
}

/// These samples and noise of this size in each part.
pub fn with_noise(sum: &[(f64, f64)], noise: f64, r: &mut Random) -> Vec<f32> {
    sum.iter().flat_map(|z| [(z.0 + noise * r.noise()) as f32, (z.1 + noise * r.noise()) as f32]).collect()
}

/// n samples, each by its number, the imaginary part 0.
pub fn real(n: usize, value: impl Fn(usize) -> f32) -> Vec<f32> {
    (0..n).flat_map(|k| [value(k), 0.0]).collect()
}

/// n samples whose amplitude row at carrier 0 holds just these levels, if they are small whole numbers, so that every
/// sum is exact. The blocks of a row differ from those eight before by what the row changes.
pub fn leading_to(n: usize, step: usize, level: impl Fn(usize) -> f64) -> Vec<f32> {
    let mut blocks = vec![level(0); 8.min(n / step)];
    for i in blocks.len()..n / step {
        blocks.push(blocks[i - 8] + 8.0 * (level(i - 7) - level(i - 8)));
    }
    real(n, |k| blocks.get(k / step).map_or(0.0, |&b| b as f32))
}
