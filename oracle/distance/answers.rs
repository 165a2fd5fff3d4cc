//! cancel.rs with the stand-ins beside cancel.rs with the platform's functions, on recordings of two senders.

use oracle::random::Random;
use oracle::signals::{senders, Sender};
use oracle::{by_platform, by_stand_ins, records};

pub const RECORDINGS: u64 = 60;

/// The largest differences of each figure.
#[derive(Default)]
struct Apart {
    recordings: u64,
    /// Runs whose lists, counts or hypotheses are not alike.
    unlike: u64,
    time: f64,
    gain: f64,
    slope: f64,
    carrier_hz: f64,
    residual_db: f64,
    offset_hz: f64,
    coherence: f64,
}

fn widen(largest: &mut f64, a: f64, b: f64) {
    if a.is_finite() && b.is_finite() {
        *largest = largest.max((a - b).abs());
    }
}

impl Apart {
    fn see(&mut self, iq: &[f32], fs: f64, hint: f64) {
        let iq = records::samples(iq);
        let ours = by_stand_ins::estimate_strong(&iq, fs, hint);
        let theirs = by_platform::estimate_strong(&iq, fs, hint);
        let (r, q) = (by_stand_ins::residual_check(&iq, fs, &ours), by_platform::residual_check(&iq, fs, &theirs));
        let e = by_stand_ins::second_carrier_evidence(&iq, fs, &ours);
        let f = by_platform::second_carrier_evidence(&iq, fs, &theirs);
        let hypotheses = (by_stand_ins::classify(&e), by_platform::classify(&f));
        self.recordings += 1;
        let named = |debug: String| debug.split_whitespace().next().map(str::to_string);
        let alike = ours.elements.len() == theirs.elements.len()
            && ours.fits.len() == theirs.fits.len()
            && (r.edge_blocks, r.interior_blocks, r.gap_blocks) == (q.edge_blocks, q.interior_blocks, q.gap_blocks)
            && e.hot_fraction == f.hot_fraction
            && named(format!("{:?}", hypotheses.0)) == named(format!("{:?}", hypotheses.1));
        if !alike {
            self.unlike += 1;
            return;
        }
        for (a, b) in ours.elements.iter().zip(&theirs.elements) {
            widen(&mut self.time, a.start, b.start);
            widen(&mut self.time, a.end, b.end);
        }
        for (a, b) in ours.fits.iter().zip(&theirs.fits) {
            widen(&mut self.gain, a.gain.re, b.gain.re);
            widen(&mut self.gain, a.gain.im, b.gain.im);
            widen(&mut self.slope, a.slope_rad_per_sample, b.slope_rad_per_sample);
        }
        widen(&mut self.carrier_hz, ours.carrier_hz, theirs.carrier_hz);
        widen(&mut self.residual_db, r.edge_over_neighbour_db, q.edge_over_neighbour_db);
        widen(&mut self.residual_db, r.interior_over_neighbour_db, q.interior_over_neighbour_db);
        widen(&mut self.offset_hz, e.offset_hz.unwrap_or(0.0), f.offset_hz.unwrap_or(0.0));
        widen(&mut self.coherence, e.coherence, f.coherence);
    }
}

/// A recording of two senders, its rate and a hint that is 0.4 Hz off.
pub fn recording(seed: u64) -> (Vec<f32>, f64, f64) {
    let mut r = Random::new(seed);
    let fs = r.between(2_000.0, 12_000.0);
    let hz = r.between(-500.0, 500.0);
    let strong = Sender::keyed(hz, 1.0, r.between(0.04, 0.08));
    let weak = Sender::keyed(hz + r.between(15.0, 145.0), r.between(0.05, 0.4), 0.08);
    let iq = senders((5.0 * fs) as usize, fs, &[strong, weak], 0.002, &mut r);
    (iq, fs, hz + 0.4)
}

pub fn print() {
    let mut apart = Apart::default();
    for seed in 0..RECORDINGS {
        let (iq, fs, hint) = recording(seed);
        apart.see(&iq, fs, hint);
    }
    println!(
        "cancel.rs with the stand-ins beside cancel.rs with the platform's functions: {} recordings",
        apart.recordings
    );
    println!("of two senders of amplitude 1 and 0.05 to 0.4, 5 s long, at 2,000 to 12,000 samples a second.");
    println!("  lists, block counts, hot fraction or hypothesis not alike: {} of {}", apart.unlike, apart.recordings);
    println!("  largest difference of a time         {:9.3e} samples", apart.time);
    println!("  largest difference of a gain's part  {:9.3e}", apart.gain);
    println!("  largest difference of a slope        {:9.3e} radians a sample", apart.slope);
    println!("  largest difference of the carrier    {:9.3e} Hz", apart.carrier_hz);
    println!("  largest difference of a ratio        {:9.3e} dB", apart.residual_db);
    println!("  largest difference of the offset     {:9.3e} Hz", apart.offset_hz);
    println!("  largest difference of the coherence  {:9.3e}", apart.coherence);
}
