//! Key-downs by document 01, parts 2 and 3, beside the Rust's find_elements: positions, counts and airtime. The listed
//! ones are held against the Rust's own list, and their times are to be in order (document 02, N8).

use crate::by_stand_ins::way_in::{block_means, edge_window, percentile};
use crate::by_stand_ins::{find_elements, KeyedElement, EDGE_PERCENTILE, RISE_S};
use crate::records::Element;
use crate::stand_ins::norm;
use crate::times::in_order;
use num_complex::{Complex32, Complex64};

/// What a find answers: counts, airtime, and the listed elements.
pub struct Found {
    pub key_downs: usize,
    pub short: usize,
    pub airtime: usize,
    pub elements: Vec<Element>,
}

/// The row of B − 7 amplitudes, by the running sum from left to right; none if n < window.
pub fn row(iq: &[Complex32], fs: f64, carrier_hz: f64) -> Vec<f64> {
    let (window, step) = edge_window(fs);
    if iq.len() < window {
        return Vec::new();
    }
    let means = block_means(iq, fs, carrier_hz, step);
    let mut run = means[..8].iter().fold(Complex64::new(0.0, 0.0), |sum, z| sum + z);
    let amplitude = |run: Complex64| norm(run.re / 8.0, run.im / 8.0);
    let mut row = vec![amplitude(run)];
    for i in 8..means.len() {
        run += means[i] - means[i - 8];
        row.push(amplitude(run));
    }
    row
}

/// Half the 98th percentile, where it is positive.
pub fn threshold(row: &[f64]) -> Option<f64> {
    let top = percentile(&mut row.to_vec(), EDGE_PERCENTILE)?;
    Some(0.5 * top).filter(|&t| t > 0.0)
}

/// Each upward crossing with the next downward one.
pub fn key_downs(row: &[f64], threshold: f64) -> Vec<(usize, usize)> {
    let upward = |i: usize| row[i - 1] < threshold && threshold <= row[i];
    let downward = |i: usize| row[i - 1] >= threshold && threshold > row[i];
    (1..row.len())
        .filter(|&up| upward(up))
        .filter_map(|up| (up + 1..row.len()).find(|&i| downward(i)).map(|down| (up, down)))
        .collect()
}

/// The key-downs of a recording. The listed ones must be those that the Rust lists.
pub fn find(iq: &[Complex32], fs: f64, carrier_hz: f64) -> Found {
    key_downs_beside(iq, fs, carrier_hz, &find_elements(iq, fs, carrier_hz))
}

/// The key-downs beside the list that the Rust made at the same carrier.
pub fn key_downs_beside(iq: &[Complex32], fs: f64, carrier_hz: f64, listed: &[KeyedElement]) -> Found {
    let (window, step) = edge_window(fs);
    let row = row(iq, fs, carrier_hz);
    let threshold = threshold(&row);
    let pairs = threshold.map_or_else(Vec::new, |t| key_downs(&row, t));
    let time = |i: usize| {
        let (a0, a1, t) = (row[i - 1], row[i], threshold.unwrap_or(0.0));
        let centre = ((i - 1) * step) as f64 + (window as f64 - 1.0) / 2.0;
        centre + (t - a0) / (a1 - a0) * step as f64
    };
    let mut found = Found { key_downs: pairs.len(), short: 0, airtime: 0, elements: Vec::new() };
    for (up, down) in pairs {
        let (start, end) = (time(up), time(down));
        if end - start >= RISE_S * fs {
            found.airtime += (down - up) * step;
            found.elements.push(Element { start, end, up: up as f64, down: down as f64 });
        } else {
            found.short += 1;
        }
    }
    let mine: Vec<KeyedElement> = found.elements.iter().map(Element::keyed).collect();
    assert_eq!(mine, listed, "key-downs beside the Rust's list");
    assert_eq!(in_order(&found.elements, step), Ok(()), "times in their order");
    found
}
