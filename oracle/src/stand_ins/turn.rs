//! sin and cos, by a table of a quarter turn.

use super::round;
use std::f64::consts::PI;

/// 1,025 sines over 2^52.
static SINE: [u64; 1025] = include!(concat!(env!("OUT_DIR"), "/sine.rs"));

/// S(i), the sine of i/4096 turn, by quarter symmetry.
fn sine_at(i: i64) -> f64 {
    let i = i.rem_euclid(4096) as usize;
    let half = i % 2048;
    let entry = SINE[if half <= 1024 { half } else { 2048 - half }] as f64 / (1u64 << 52) as f64;
    if i < 2048 {
        entry
    } else {
        -entry
    }
}

/// S(i), C(i), s and c for the place i nearest to x and the rest r.
fn parts(x: f64) -> (f64, f64, f64, f64) {
    let i = round(x * (2048.0 / PI));
    let r = x - i * (PI / 2048.0);
    let s = r - r * r * r / 6.0;
    let c = 1.0 - r * r / 2.0 + r * r * r * r / 24.0;
    (sine_at(i as i64), sine_at(i as i64 + 1024), s, c)
}

pub fn sin(x: f64) -> f64 {
    if x.abs() <= 7.0 {
        let (sine, cosine, s, c) = parts(x);
        sine * c + cosine * s
    } else {
        0.0
    }
}

pub fn cos(x: f64) -> f64 {
    if x.abs() <= 7.0 {
        let (sine, cosine, s, c) = parts(x);
        cosine * c - sine * s
    } else {
        0.0
    }
}

#[cfg(test)]
mod tests {
    use super::*;

    #[test]
    fn table() {
        assert_eq!((SINE[0], SINE[1024]), (0, 1 << 52));
        for (i, &entry) in SINE.iter().enumerate() {
            let exact = (i as f64 * (PI / 2048.0)).sin() * (1u64 << 52) as f64;
            assert!((entry as f64 - exact).abs() <= 1.0, "entry {i}");
        }
    }

    #[test]
    fn edge_table() {
        assert_eq!((sin(0.0), cos(0.0)), (0.0, 1.0));
        assert_eq!((sin(7.1), cos(-7.1), sin(f64::NAN)), (0.0, 0.0, 0.0));
    }
}
