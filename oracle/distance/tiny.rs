//! Inputs on which the square of a number that norm is handed is 0 in f64: 01's norm is its root, the platform's is not
//! made from it.

use num_complex::{Complex32, Complex64};
use oracle::{by_platform, by_stand_ins, stand_ins};
use std::f64::consts::TAU;

const FS: f64 = 3_000.0;
const HINT: f64 = 1e-200;

pub fn print() {
    println!(
        "A norm whose square is 0, in cancel.rs with the stand-ins beside cancel.rs with the platform's functions:"
    );
    println!(
        "3,000 a second, hint 1e-200, samples (0, 1) and (0, -1) in turn, which cancel each other in each window."
    );
    let sum: Complex64 = (0..8)
        .map(|k| {
            let angle = (HINT / FS * k as f64).rem_euclid(1.0) * TAU;
            Complex64::new(0.0, turned(k) as f64) * Complex64::new(angle.cos(), angle.sin()).conj()
        })
        .sum();
    let mean = sum / 8.0;
    println!("  1. All samples are so: the first amplitude.");
    println!("     stand-ins  {:?}", stand_ins::norm(mean.re, mean.im));
    println!("     platform   {:?}", mean.norm());
    println!("  2. 3,000 samples, those at 1000 to 1999 are so, all others (0, 0): how many elements are listed.");
    let keyed = |k: usize| if (1_000..2_000).contains(&k) { turned(k) } else { 0.0 };
    let iq: Vec<Complex32> = (0..3_000).map(|k| Complex32::new(0.0, keyed(k))).collect();
    println!("     stand-ins  {}", by_stand_ins::find_elements(&iq, FS, HINT).len());
    let theirs = by_platform::find_elements(&iq, FS, HINT);
    let times: Vec<_> = theirs.iter().map(|e| (e.start, e.end)).collect();
    println!("     platform   {}, from and to {times:?}", times.len());
}

fn turned(k: usize) -> f32 {
    if k % 2 == 0 {
        1.0
    } else {
        -1.0
    }
}
