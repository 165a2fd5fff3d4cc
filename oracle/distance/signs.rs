//! Inputs on which the sign of a zero that arg is handed decides an answer of cancel.rs: 01's arg has one zero, the
//! platform's two.

use crate::answers::{recording, RECORDINGS};
use num_complex::Complex32;
use oracle::random::Random;
use oracle::{by_platform, by_stand_ins, records};

/// Slope of the first fit at the hint, then step and carrier of the estimate.
macro_rules! estimated {
    ($module:ident, $iq:expr, $fs:expr, $hint:expr) => {{
        let elements = oracle::$module::find_elements($iq, $fs, $hint);
        let fits = oracle::$module::fit_elements($iq, $fs, $hint, &elements);
        let estimate = oracle::$module::estimate_strong($iq, $fs, $hint);
        let slope = fits.first().map_or(f64::NAN, |f| f.slope_rad_per_sample);
        [slope, estimate.carrier_step_hz, estimate.carrier_hz]
    }};
}

pub fn print() {
    println!("The sign of a zero, in cancel.rs with the stand-ins beside cancel.rs with the platform's functions.");
    let turned = |k: usize| if (115..117).contains(&k) { -1.0 } else { on(k) };
    show("1. 300 samples, 3,000 a second, hint 0: (1, 0) at 100 to 199, but (-1, 0) at 115 and 116.", &turned, 0.0);
    let turned = |k: usize| if (131..133).contains(&k) { -1.0 } else { on(k) };
    show("2. The same, but (-1, 0) at 131 and 132.", &turned, 0.0);
    let dropped = |k: usize| if (133..135).contains(&k) { 0.0 } else { -on(k) };
    show("3. (-1, -1) at 100 to 199, but (0, 0) at 133 and 134.", &dropped, 1.0);
    drop_outs();
}

fn on(k: usize) -> f32 {
    if (100..200).contains(&k) {
        1.0
    } else {
        0.0
    }
}

fn show(what: &str, value: &dyn Fn(usize) -> f32, tilt: f32) {
    let iq: Vec<Complex32> = (0..300).map(|k| Complex32::new(value(k), tilt * value(k))).collect();
    let ours = estimated!(by_stand_ins, &iq, 3_000.0, 0.0);
    let theirs = estimated!(by_platform, &iq, 3_000.0, 0.0);
    println!("  {what}");
    for (name, [slope, step, carrier]) in [("stand-ins", ours), ("platform", theirs)] {
        println!(
            "     {name:9}  slope {slope:12.5e} radians a sample, step {step:12.5e} Hz, carrier {carrier:12.5e} Hz"
        );
    }
}

/// Drop-outs of 1 ms, zeros in place of samples: longer than a slope block, too short to end a key-down.
const DROP_OUT_S: f64 = 1e-3;

/// The recordings of two senders, with drop-outs in each.
fn drop_outs() {
    let (mut apart, mut largest, mut fits, mut taken) = (0, 0.0f64, 0, 0);
    for seed in 0..RECORDINGS {
        let (mut iq, fs, hint) = recording(seed);
        let mut r = Random::new(seed);
        for _ in 0..20 {
            let lo = r.whole(0, iq.len() / 2);
            let hi = (lo + (DROP_OUT_S * fs) as usize).min(iq.len() / 2);
            iq[2 * lo..2 * hi].fill(0.0);
        }
        let iq = records::samples(&iq);
        let ours = by_stand_ins::estimate_strong(&iq, fs, hint);
        let theirs = by_platform::estimate_strong(&iq, fs, hint);
        let away = (ours.carrier_hz - theirs.carrier_hz).abs();
        apart += (away > 1e-6) as u32;
        largest = largest.max(away);
        fits += (ours.fits.len() != theirs.fits.len()) as u32;
        let took = |run: fn(&mut [Complex32], f64, f64) -> bool| run(&mut iq.clone(), fs, hint);
        taken += (took(by_stand_ins::way_in::run) != took(by_platform::way_in::run)) as u32;
    }
    println!("  4. The recordings of two senders below, each with 20 drop-outs of 1 ms (zeros in place of samples):");
    println!("     carriers more than 1e-6 Hz apart in {apart} of {RECORDINGS}, by at most {largest:.3e} Hz;");
    println!("     numbers of fits not alike in {fits}, taken or kept not alike in {taken}.");
}
