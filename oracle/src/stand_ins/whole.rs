//! Floor, ceil, round and `rem_euclid`.

/// The number without its digits after the point.
fn cut(x: f64) -> f64 {
    let bits = x.to_bits();
    let exponent = (bits >> 52 & 0x7ff) as i64 - 1023;
    if exponent >= 52 {
        x // whole already, infinite, or no number
    } else if exponent < 0 {
        f64::from_bits(bits & 1 << 63)
    } else {
        f64::from_bits(bits & !((1 << (52 - exponent)) - 1))
    }
}

pub fn floor(x: f64) -> f64 {
    let t = cut(x);
    if t > x {
        t - 1.0
    } else {
        t
    }
}

pub fn ceil(x: f64) -> f64 {
    let t = cut(x);
    if t < x {
        t + 1.0
    } else {
        t
    }
}

/// Half away from zero.
pub fn round(x: f64) -> f64 {
    let t = cut(x);
    if x - t >= 0.5 {
        t + 1.0
    } else if t - x >= 0.5 {
        t - 1.0
    } else {
        t
    }
}

/// a % b, plus |b| if that is negative.
pub fn rem_euclid(a: f64, b: f64) -> f64 {
    let r = a % b;
    if r < 0.0 {
        r + b.abs()
    } else {
        r
    }
}

#[cfg(test)]
mod tests {
    use super::*;

    #[test]
    fn as_the_platform_has_them() {
        let mut state = 1u64;
        for _ in 0..1_000_000 {
            state = state.wrapping_mul(6364136223846793005).wrapping_add(1442695040888963407);
            for x in [f64::from_bits(state), (state >> 40) as f64 / 4.0 - 2e6] {
                assert!(same(floor(x), x.floor()), "floor {x:e}");
                assert!(same(ceil(x), x.ceil()), "ceil {x:e}");
                assert!(same(round(x), x.round()), "round {x:e}");
                assert!(same(rem_euclid(x, 1.0), x.rem_euclid(1.0)), "rem_euclid {x:e}");
            }
        }
    }

    fn same(a: f64, b: f64) -> bool {
        a == b || a.is_nan() && b.is_nan()
    }

    #[test]
    fn edge_table() {
        assert_eq!((round(1.5), round(-2.5)), (2.0, -3.0));
        assert_eq!(rem_euclid(-(2f64.powi(-60)), 1.0), 1.0);
    }
}
