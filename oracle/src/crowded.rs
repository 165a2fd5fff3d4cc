//! Recordings of at most 2,048 samples in which a strong sender keys as many as twenty elements, so that a run can take
//! it off: about a second at 2,000 samples a second, with a neighbour in the gaps.

use crate::random::Random;
use crate::recordings::Aim;
use crate::scene::Recording;
use crate::signals::{with_noise, Sender};
use crate::stored::{whole, FLOATS};

/// The most samples.
const MOST: usize = FLOATS / 2;

/// Every sample is a whole number times this.
pub const SCALE: f32 = 1.0 / 16_384.0;

/// When the strong sender's key is down, in seconds: short marks close together within 0.2 s of either end, where no
/// block is classified, and longer ones with some long gaps between those. With `few`, marks and gaps of any length.
fn strong_marks(seconds: f64, few: bool, r: &mut Random) -> Vec<(f64, f64)> {
    let mut marks = Vec::new();
    let mut at = r.between(0.004, 0.008);
    while at < seconds {
        let middle = at > 0.18 && at < seconds - 0.22;
        let (mark, space) = match (few, middle) {
            (true, _) => (r.between(0.015, 0.08), r.between(0.01, 0.12)),
            (false, true) => (r.between(0.024, 0.036), r.pick(&[0.013, 0.013, 0.055, 0.07])),
            (false, false) => (r.between(0.0225, 0.0235), r.between(0.0125, 0.0135)),
        };
        marks.push((at, at + mark));
        at += mark + space;
    }
    marks
}

/// When a neighbour's key is down: marks and gaps of some tens of milliseconds.
fn weak_marks(seconds: f64, r: &mut Random) -> Vec<(f64, f64)> {
    let mut marks = Vec::new();
    let mut at = r.between(0.0, 0.2);
    while at < seconds {
        let mark = r.between(0.03, 0.09);
        marks.push((at, at + mark));
        at += mark + r.between(0.04, 0.12);
    }
    marks
}

/// A recording that is to lead a run to what the aim says.
pub fn recording(aim: Aim, r: &mut Random) -> Recording {
    let few = !matches!(aim, Aim::Neighbour | Aim::FarHint | Aim::Rough) && r.chance(0.7);
    let fs = if few { r.between(2_000.0, 3_600.0) } else { r.pick(&[2_000.0, 2_000.0, 2_010.0, 2_031.25]) };
    let n = if few { r.whole(1_400, MOST) } else { MOST };
    let seconds = n as f64 / fs;
    let hz = r.pick(&[0.0, 1.0, 1.0]) * r.between(-700.0, 700.0);
    let side = r.pick(&[-1.0, 1.0]);
    let offset = side
        * match aim {
            Aim::Unclear => r.pick(&[5.0, 158.0, 175.0]),
            _ => r.between(15.0, 145.0),
        };
    let samples = |marks: Vec<(f64, f64)>| -> Vec<(f64, f64)> {
        marks.into_iter().map(|(start, end)| (start * fs, end * fs)).collect()
    };
    let mut sum = vec![(0.0, 0.0); n];
    let drift = if aim == Aim::Rough { r.between(20.0, 60.0) } else { r.pick(&[0.0, 0.0, 0.3]) };
    let strong = Sender::keyed(hz, 1.0, 0.03).drifting(drift);
    strong.add_at(&mut sum, fs, &samples(strong_marks(seconds, few || aim == Aim::Few, r)), r);
    let weak = Sender::keyed(hz + offset, r.between(0.1, 0.35), 0.05);
    match aim {
        Aim::Alone => {}
        Aim::Steady => weak.add_at(&mut sum, fs, &[(-fs, 2.0 * seconds * fs)], r),
        _ => weak.add_at(&mut sum, fs, &samples(weak_marks(seconds, r)), r),
    }
    let iq = whole(&with_noise(&sum, r.pick(&[0.0005, 0.002]), r), SCALE);
    let away = if aim == Aim::FarHint { side * r.between(5.5, 9.0) } else { r.pick(&[0.0, 0.3, -0.4]) };
    Recording { what: format!("{aim:?}, crowded"), fs, iq, hint_hz: hz + away }
}
