//! log10, by the series of the logarithm around 1.

use std::f64::consts::{LN_10, LN_2};

/// m and e with y = m·2^e and 0.75 ≤ m < 1.5, for a positive finite y.
fn parts(y: f64) -> (f64, f64) {
    let (y, shift) = if y < f64::MIN_POSITIVE { (y * (1u64 << 54) as f64, 54.0) } else { (y, 0.0) };
    let bits = y.to_bits();
    let m = f64::from_bits(bits & ((1 << 52) - 1) | 1023 << 52);
    let e = (bits >> 52) as f64 - 1023.0 - shift;
    if m < 1.5 {
        (m, e)
    } else {
        (m / 2.0, e + 1.0)
    }
}

/// q, q³, .. q²³, multiplied left to right.
fn odd_powers(q: f64) -> [f64; 12] {
    let mut powers = [q; 12];
    for k in 1..12 {
        powers[k] = powers[k - 1] * q * q;
    }
    powers
}

pub fn log10(y: f64) -> f64 {
    if y == 0.0 {
        return f64::NEG_INFINITY;
    }
    if y.is_nan() || y < 0.0 {
        return f64::NAN;
    }
    if y == f64::INFINITY {
        return y;
    }
    let (m, e) = parts(y);
    let q = (m - 1.0) / (m + 1.0);
    let mut sum = 0.0;
    for (k, power) in odd_powers(q).into_iter().enumerate().rev() {
        sum += power / (2 * k + 1) as f64;
    }
    (e * LN_2 + 2.0 * sum) / LN_10
}

#[cfg(test)]
mod tests {
    use super::*;

    #[test]
    fn parts_are_those() {
        let mut state = 1u64;
        for _ in 0..100_000 {
            state = state.wrapping_mul(6364136223846793005).wrapping_add(1442695040888963407);
            let y = f64::from_bits(state >> 1);
            if y.is_finite() && y > 0.0 {
                let (m, e) = parts(y);
                let half = (e / 2.0).trunc();
                assert!((0.75..1.5).contains(&m), "{y:e}");
                assert_eq!(m * 2f64.powi(half as i32) * 2f64.powi((e - half) as i32), y);
            }
        }
    }

    #[test]
    fn near_the_platform() {
        for y in [1.0, 10.0, 1e-300, f64::MIN_POSITIVE, 5e-324, f64::MAX, 0.75, 1.4999999999999998, 1.5] {
            assert!((log10(y) - y.log10()).abs() <= 1e-13, "{y:e}");
        }
        assert_eq!(log10(1.0), 0.0);
        assert_eq!(
            (log10(0.0), log10(-0.0), log10(f64::INFINITY)),
            (f64::NEG_INFINITY, f64::NEG_INFINITY, f64::INFINITY)
        );
        assert!(log10(-1.0).is_nan() && log10(f64::NAN).is_nan());
    }
}
