//! Scenes that a question answers with no, one or several at once.

use crate::questions::{
    steps, CARRIER, COUNT, GIVEN, LARGEST, LAST, MOST_FLOATS, PLACES, POSITIONS, RATE, SAMPLE, WORK,
};
use crate::random::Random;
use crate::records::{DOWN, ELEMENT, FIT, UP};
use crate::scene::Scene;

/// Makes one to three of the questions answer no, wherever that can be done; most often one, and most often that about
/// what is given, which has the most ways to be answered so.
pub fn refused(scene: &Scene, r: &mut Random) -> Scene {
    let mut s = scene.clone();
    let many = r.pick(&[1, 1, 1, 2, 3]);
    let numbers: Vec<u64> = (RATE..=LAST).chain([GIVEN; 3]).collect();
    let mut noes: Vec<u64> = (0..many).map(|_| r.pick(&numbers)).collect();
    // Sizes are made wrong while the rate and the recording still say what is right.
    noes.sort_by(|a, b| b.cmp(a));
    noes.dedup();
    for no in &noes {
        answer_no(&mut s, *no, r);
    }
    s.recording.what = format!("{}, no to {noes:?}", s.recording.what);
    s
}

pub fn answer_no(s: &mut Scene, question: u64, r: &mut Random) {
    match question {
        RATE => s.recording.fs = wrong_rate(r),
        COUNT => wrong_size(s, r),
        SAMPLE => wrong_sample(s, r),
        CARRIER => wrong_hint(s, r),
        PLACES => too_few_places(s, r),
        WORK => s.work_len = (4 * steps(s.recording.iq.len(), s.recording.fs)).saturating_sub(1 + r.whole(0, 2)),
        GIVEN => wrong_given(s, r),
        _ => panic!("no question {question}"),
    }
}

fn wrong_rate(r: &mut Random) -> f64 {
    let below = 2_000f64.next_down();
    let above = 192_000f64.next_up();
    r.pick(&[below, above, f64::NAN, f64::INFINITY, f64::NEG_INFINITY, 0.0, -3_000.0, 1e300, 5e-324])
}

fn wrong_size(s: &mut Scene, r: &mut Random) {
    let iq = &mut s.recording.iq;
    if r.chance(0.95) {
        if iq.pop().is_none() {
            iq.push(0.0);
        }
    } else {
        iq.resize(MOST_FLOATS + 1 + r.whole(0, 2), 0.0);
    }
}

fn wrong_sample(s: &mut Scene, r: &mut Random) {
    let iq = &mut s.recording.iq;
    if !iq.is_empty() {
        let last = iq.len() - 1;
        let any = r.whole(0, iq.len());
        let at = r.pick(&[0, last, any]);
        iq[at] = r.pick(&[f32::NAN, f32::INFINITY, f32::NEG_INFINITY]);
    }
}

fn wrong_hint(s: &mut Scene, r: &mut Random) {
    let beyond = (s.recording.fs / 2.0).next_up();
    s.recording.hint_hz = r.pick(&[beyond, -beyond, f64::NAN, f64::INFINITY, f64::NEG_INFINITY, 1e300]);
}

fn too_few_places(s: &mut Scene, r: &mut Random) {
    let b = steps(s.recording.iq.len(), s.recording.fs);
    let places = b / 2;
    if r.chance(0.7) {
        s.elements_len = (places * ELEMENT).saturating_sub(1);
    }
    if r.chance(0.7) {
        s.fits_len = (places * FIT).saturating_sub(1);
    }
    // A count beyond any list has no list that is one number short of it.
    let numbers = s.given.element_count.checked_mul(FIT).unwrap_or(FIT).min(1 << 20);
    s.places_len = numbers.saturating_sub(1);
    s.row_len = b.saturating_sub(8);
    s.classes_len = (b / 8).saturating_sub(1);
}

fn wrong_given(s: &mut Scene, r: &mut Random) {
    let g = &mut s.given;
    let wrong = r.pick(&[LARGEST.next_up(), -LARGEST.next_up(), f64::NAN, f64::INFINITY, f64::NEG_INFINITY, f64::MAX]);
    match r.whole(0, 6) {
        0 => {
            // Beyond the list, with places enough for the fits; or beyond any list.
            g.element_count = g.elements.len() / ELEMENT + 1 + r.whole(0, 3);
            s.places_len = g.element_count * FIT;
            if r.chance(0.2) {
                g.element_count = r.pick(&[usize::MAX, usize::MAX / ELEMENT + 1, usize::MAX / FIT + 1]);
            }
        }
        1 => g.fit_count = r.pick(&[g.fits.len() / FIT + 1, usize::MAX, usize::MAX / FIT + 1]),
        2 => {
            wrong_number(&mut g.elements, g.element_count, ELEMENT, wrong, r);
        }
        3 => {
            wrong_number(&mut g.fits, g.fit_count, FIT, wrong, r);
        }
        4 => {
            wrong_position(&mut g.elements, g.element_count, ELEMENT, r);
            wrong_position(&mut g.fits, g.fit_count, FIT, r);
        }
        _ => {
            if r.chance(0.5) {
                g.carrier_hz = wrong;
            } else {
                g.carrier_step_hz = wrong;
            }
        }
    }
}

fn wrong_number(list: &mut [f64], count: usize, record: usize, wrong: f64, r: &mut Random) {
    if count > 0 && list.len() >= count * record {
        let at = r.whole(0, count * record);
        list[at] = wrong;
    }
}

fn wrong_position(list: &mut [f64], count: usize, record: usize, r: &mut Random) {
    if count > 0 && list.len() >= count * record {
        let at = r.whole(0, count) * record + r.pick(&[UP, DOWN]);
        list[at] = r.pick(&[POSITIONS, 0.5, -1.0, -5e-324, POSITIONS - 0.5, 1e30]);
    }
}
