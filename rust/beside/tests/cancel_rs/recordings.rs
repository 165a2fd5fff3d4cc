//! Recordings of keyed senders that lead to each hypothesis.

use num_complex::Complex32;
use std::f64::consts::{PI, TAU};

pub struct Recording {
    pub what: String,
    pub iq: Vec<Complex32>,
    pub fs: f64,
    pub hint_hz: f64,
}

/// A sender: its carrier, its amplitude, its key unit in seconds, and how many units its spaces last.
#[derive(Clone, Copy)]
struct Sender {
    hz: f64,
    amplitude: f64,
    unit_s: f64,
    spaces: [f64; 3],
}

/// A strong sender with nothing beside it, a keyed neighbour, a steady carrier, a neighbour too close; at four rates.
pub fn all() -> Vec<Recording> {
    let neighbours = [("alone", None), ("a keyed neighbour", Some(60.0)), ("too close", Some(4.0))];
    let mut out = Vec::new();
    for (seed, &fs) in [3_000.0, 2_345.6, 8_000.0, 12_000.0].iter().enumerate() {
        let strong = Sender { hz: 0.11 * fs, amplitude: 1.0, unit_s: 0.06, spaces: [1.0, 3.0, 3.0] };
        let mut add = |what: &str, weak: Option<Sender>, away: f64| {
            let mut chance = Chance(seed as u64 + 1);
            let senders: Vec<Sender> = [strong].into_iter().chain(weak).collect();
            let iq = samples((9.0 * fs) as usize, fs, &senders, &mut chance);
            out.push(Recording { what: format!("{what}, {fs} a second"), iq, fs, hint_hz: strong.hz + away });
        };
        let weak =
            |offset: f64, unit_s| Sender { hz: strong.hz + offset, amplitude: 0.25, unit_s, spaces: [3.0, 3.0, 5.0] };
        for (what, offset) in neighbours {
            add(what, offset.map(|o| weak(o, 0.09)), 0.3);
        }
        add("a steady carrier", Some(weak(-70.0, 1e3)), -0.4);
        add("a hint far off", Some(weak(60.0, 0.09)), 8.0);
    }
    out
}

fn samples(n: usize, fs: f64, senders: &[Sender], chance: &mut Chance) -> Vec<Complex32> {
    let mut sum = vec![(0.0, 0.0); n];
    for sender in senders {
        let mut at = 0.1 * fs;
        while at < n as f64 {
            let mark = chance.pick([1.0, 1.0, 3.0]) * sender.unit_s * fs;
            let (lo, hi) = ((at - 0.01 * fs) as usize, (at + mark + 0.01 * fs) as usize);
            for (k, z) in sum.iter_mut().enumerate().take(hi).skip(lo) {
                let t = k as f64;
                let level = sender.amplitude * (ramp((t - at) / fs) - ramp((t - at - mark) / fs));
                let angle = TAU * (sender.hz / fs * t) + 0.3;
                z.0 += level * angle.cos();
                z.1 += level * angle.sin();
            }
            at += mark + chance.pick(sender.spaces) * sender.unit_s * fs;
        }
    }
    let mut noise = || 0.003 * ((0..12).map(|_| chance.unit()).sum::<f64>() - 6.0);
    sum.iter().map(|z| Complex32::new((z.0 + noise()) as f32, (z.1 + noise()) as f32)).collect()
}

/// Raised-cosine ramp of 5 ms.
fn ramp(t: f64) -> f64 {
    if t <= -2.5e-3 {
        0.0
    } else if t >= 2.5e-3 {
        1.0
    } else {
        0.5 + 0.5 * (PI * t / 5e-3).sin()
    }
}

/// Numbers by a seed (splitmix64).
struct Chance(u64);

impl Chance {
    fn bits(&mut self) -> u64 {
        self.0 = self.0.wrapping_add(0x9e37_79b9_7f4a_7c15);
        let mut z = self.0;
        z = (z ^ z >> 30).wrapping_mul(0xbf58_476d_1ce4_e5b9);
        z = (z ^ z >> 27).wrapping_mul(0x94d0_49bb_1331_11eb);
        z ^ z >> 31
    }

    fn unit(&mut self) -> f64 {
        (self.bits() >> 11) as f64 / (1u64 << 53) as f64
    }

    fn pick(&mut self, from: [f64; 3]) -> f64 {
        from[(self.bits() % 3) as usize]
    }
}
