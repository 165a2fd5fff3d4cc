//! arg, by a table of 65 arctangents.

use super::round;
use std::f64::consts::PI;

/// 65 arctangents of j/64, over 2^52.
static ARCTAN: [u64; 65] = include!(concat!(env!("OUT_DIR"), "/arctan.rs"));

/// The arctangent of t from 0 to 1. A t that is no number stays none.
fn arctan(t: f64) -> f64 {
    let j = round(64.0 * t);
    let c = j / 64.0;
    let u = (t - c) / (1.0 + t * c);
    let entry = ARCTAN[j as usize] as f64 / (1u64 << 52) as f64;
    entry + (u - u * u * u / 3.0 + u * u * u * u * u / 5.0 - u * u * u * u * u * u * u / 7.0)
}

pub fn arg(re: f64, im: f64) -> f64 {
    if re == 0.0 && im == 0.0 {
        return 0.0;
    }
    let (x, y) = (re.abs(), im.abs());
    let mut a = arctan(if y > x { x / y } else { y / x });
    if y > x {
        a = PI / 2.0 - a;
    }
    if re < 0.0 {
        a = PI - a;
    }
    if im < 0.0 {
        a = -a;
    }
    a
}

#[cfg(test)]
mod tests {
    use super::*;

    #[test]
    fn table() {
        for (j, &entry) in ARCTAN.iter().enumerate() {
            let exact = (j as f64 / 64.0).atan() * (1u64 << 52) as f64;
            assert!((entry as f64 - exact).abs() <= 1.0, "entry {j}");
        }
    }

    #[test]
    fn quadrants() {
        for (re, im) in [(1.0, 0.5), (-1.0, 0.5), (-1.0, -0.5), (1.0, -0.5), (0.1, 3.0), (-0.1, -3.0), (0.0, -2.0)] {
            assert!((arg(re, im) - f64::atan2(im, re)).abs() < 1e-15, "({re}, {im})");
        }
        assert!(arg(f64::NAN, 1.0).is_nan() && arg(f64::INFINITY, f64::INFINITY).is_nan());
    }
}
