//! Estimates to be handed in: the recording's own, one pulled about, or one of any numbers that are admitted.

use crate::questions::{LARGEST, POSITIONS};
use crate::random::Random;
use crate::records::{Element, Fit, DOWN, ELEMENT, END, FIT, GAIN_IM, GAIN_RE, REFERENCE, SLOPE, START, UP};
use crate::scene::{Given, Recording};
use num_complex::Complex64;

/// The recording's own estimate or one made from it, in lists that may be longer than the count.
pub fn estimate(rec: &Recording, r: &mut Random) -> Given {
    let mut est = Given::own(rec);
    match r.whole(0, 8) {
        0 | 1 => pulled(&mut est, rec, r),
        2 => made_up(&mut est, rec, r),
        3 => counted_down(&mut est, r),
        _ => {}
    }
    pad(&mut est.elements, r);
    pad(&mut est.fits, r);
    est
}

/// Counts below what the lists hold, often none at all.
fn counted_down(est: &mut Given, r: &mut Random) {
    let fewer = |count: usize, r: &mut Random| if r.chance(0.5) { 0 } else { r.whole(0, count + 1) };
    est.element_count = fewer(est.element_count, r);
    est.fit_count = fewer(est.fit_count, r);
}

/// Places past the count, and a rest that is no place. They are not read, so they may hold anything.
fn pad(list: &mut Vec<f64>, r: &mut Random) {
    if r.chance(0.5) {
        list.extend((0..r.whole(0, 20)).map(|_| f64::from_bits(r.bits())));
    }
}

/// Few records, so that huge spans stay cheap.
const MOST: usize = 12;

fn pulled(est: &mut Given, rec: &Recording, r: &mut Random) {
    est.element_count = est.element_count.min(MOST);
    est.elements.truncate(est.element_count * ELEMENT);
    est.fit_count = est.fit_count.min(MOST);
    est.fits.truncate(est.fit_count * FIT);
    for record in est.elements.chunks_exact_mut(ELEMENT) {
        pull_element(record, rec, r);
    }
    for record in est.fits.chunks_exact_mut(FIT) {
        pull_element(record, rec, r);
        pull_fit(record, r);
    }
    if r.chance(0.3) {
        est.carrier_hz = number(r);
        est.carrier_step_hz = number(r);
    }
}

fn made_up(est: &mut Given, rec: &Recording, r: &mut Random) {
    let n = rec.iq.len() as f64 / 2.0;
    est.element_count = r.whole(0, MOST);
    est.fit_count = r.whole(0, MOST);
    let element = |r: &mut Random| {
        let start = r.between(-0.2 * n, 1.1 * n);
        let end = start + r.between(-0.05, 0.4) * n;
        let (up, down) = (position(r), position(r));
        Element { start, end, up, down }
    };
    est.elements = (0..est.element_count).flat_map(|_| element(r).flat()).collect();
    est.fits.clear();
    for _ in 0..est.fit_count {
        let element = element(r);
        let gain = Complex64::new(r.between(-1.0, 1.0), r.between(-1.0, 1.0));
        let slope = r.between(-0.1, 0.1);
        let reference = r.between(0.0, n);
        est.fits.extend(Fit { element, gain, slope, reference }.flat());
    }
    est.carrier_hz = r.between(-1.0, 1.0) * rec.fs;
}

/// The recording's own estimate with its fits made hard in one way at a time: what was done, and the estimate.
pub fn hard(rec: &Recording) -> Vec<(&'static str, Given)> {
    let own = Given::own(rec);
    let n = (rec.iq.len() / 2) as f64;
    let each = |what: &'static str, change: &dyn Fn(&mut [f64])| {
        let mut est = own.clone();
        est.fits.chunks_exact_mut(FIT).for_each(change);
        (what, est)
    };
    let few = |what: &'static str, change: &dyn Fn(&mut [f64])| {
        let mut est = own.clone();
        est.fit_count = est.fit_count.min(3);
        est.fits.chunks_exact_mut(FIT).take(3).for_each(change);
        (what, est)
    };
    let mut twice = own.clone();
    twice.fits.extend_from_within(..);
    twice.fit_count *= 2;
    let mut backwards = own.clone();
    backwards.fits = own.fits.rchunks_exact(FIT).flatten().copied().collect();
    vec![
        ("each twice", twice),
        ("from the last to the first", backwards),
        each("before the recording", &|f| (f[START], f[END]) = (f[START] - n, f[END] - n)),
        each("after the recording", &|f| (f[START], f[END]) = (f[START] + n, f[END] + n)),
        each("ending at the last sample", &|f| (f[START], f[END]) = (f[START] - f[END] + n - 1.0, n - 1.0)),
        each("ending where the blocks end", &|f| f[END] = n - 13.0),
        each("ended before it starts", &|f| f.swap(START, END)),
        each("of no length", &|f| f[END] = f[START]),
        few("from the least number on", &|f| f[START] = -LARGEST),
        few("to the largest number", &|f| f[END] = LARGEST),
        few("from the least to the largest number", &|f| (f[START], f[END]) = (-LARGEST, LARGEST)),
        few("of the largest gain", &|f| (f[GAIN_RE], f[GAIN_IM]) = (LARGEST, -LARGEST)),
        few("of the least gain", &|f| (f[GAIN_RE], f[GAIN_IM]) = (5e-324, -0.0)),
        few("of the largest slope", &|f| f[SLOPE] = LARGEST),
        few("of the largest reference", &|f| f[REFERENCE] = -LARGEST),
        few("of the largest slope and reference", &|f| (f[SLOPE], f[REFERENCE]) = (-LARGEST, LARGEST)),
        ("at the largest carrier", Given { carrier_hz: LARGEST, carrier_step_hz: -LARGEST, ..own.clone() }),
        ("at a carrier past the rate", Given { carrier_hz: -1.5 * rec.fs, ..own.clone() }),
    ]
}

/// Moves an element: overlapping, outside, backwards or huge.
fn pull_element(record: &mut [f64], rec: &Recording, r: &mut Random) {
    let n = rec.iq.len() as f64 / 2.0;
    match r.whole(0, 9) {
        0 => record.swap(START, END),
        1 => record[START] -= r.between(0.0, n),
        2 => record[END] += r.between(0.0, n),
        3 => record[START] = number(r),
        4 => record[END] = number(r),
        5 => {
            record[START] += 2.0 * n;
            record[END] += 2.0 * n;
        }
        6 => record[END] = record[START],
        7 => {
            record[START] = record[START].round();
            record[END] = record[END].round() + 0.5;
        }
        _ => {}
    }
    if r.chance(0.3) {
        record[UP] = position(r);
        record[DOWN] = position(r);
    }
}

fn pull_fit(record: &mut [f64], r: &mut Random) {
    if r.chance(0.5) {
        let at = r.whole(ELEMENT, FIT);
        record[at] = number(r);
    }
}

/// Any number that the seventh question admits.
fn number(r: &mut Random) -> f64 {
    let sign = if r.chance(0.5) { 1.0 } else { -1.0 };
    sign * match r.whole(0, 6) {
        0 => LARGEST,
        1 => 0.0,
        2 => f64::from_bits(r.bits() % LARGEST.to_bits()),
        3 => r.between(0.0, 1e6).round(),
        4 => 5e-324,
        _ => r.between(0.0, 3_000.0),
    }
}

fn position(r: &mut Random) -> f64 {
    match r.whole(0, 5) {
        0 => -0.0,
        1 => POSITIONS - 1.0,
        _ => r.whole(0, POSITIONS as usize) as f64,
    }
}
