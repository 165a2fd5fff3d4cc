//! Signed zeros, infinities, NaN and sizes at the ends of the format: the stand-ins beside the platform's functions.
//! Here both zeros are two.

use num_complex::Complex64;
use oracle::stand_ins;

const ONE: [f64; 14] = [
    0.0,
    -0.0,
    1.0,
    -1.0,
    7.0,
    -7.0,
    7.000000000000001,
    -7.000000000000001,
    f64::INFINITY,
    f64::NEG_INFINITY,
    f64::NAN,
    5e-324,
    -5e-324,
    f64::MAX,
];

/// Each part of a pair.
const PART: [f64; 7] = [0.0, -0.0, 1.0, -1.0, f64::INFINITY, f64::NEG_INFINITY, f64::NAN];

/// Pairs at the ends of the format.
const ENDS: [(f64, f64); 6] =
    [(5e-324, 5e-324), (5e-324, 0.0), (1e-200, -1e-200), (1e200, 0.0), (f64::MAX, f64::MAX), (f64::MAX, 5e-324)];

pub fn print() {
    println!(
        "Special points: signed zeros, infinities, NaN, the ends of the format. Of the points asked, those where the"
    );
    println!(
        "stand-in answers something else than the platform, beyond the last places (all NaNs are one, both zeros two)."
    );
    println!("{:6} {:44} {:>22} {:>22}", "", "of", "stand-in", "platform");
    one("sin", stand_ins::sin, f64::sin);
    one("cos", stand_ins::cos, f64::cos);
    one("log10", stand_ins::log10, f64::log10);
    two("arg", stand_ins::arg, |z| z.arg());
    two("norm", stand_ins::norm, |z| z.norm());
}

fn one(name: &str, ours: fn(f64) -> f64, platform: fn(f64) -> f64) {
    let points: Vec<_> = ONE.iter().map(|&x| (format!("{x:?}"), ours(x), platform(x))).collect();
    list(name, &points);
}

fn two(name: &str, ours: fn(f64, f64) -> f64, platform: fn(Complex64) -> f64) {
    let pairs = PART.iter().flat_map(|&re| PART.map(|im| (re, im))).chain(ENDS);
    let points: Vec<_> =
        pairs.map(|(re, im)| (format!("({re:?}, {im:?})"), ours(re, im), platform(Complex64::new(re, im)))).collect();
    list(name, &points);
}

fn list(name: &str, points: &[(String, f64, f64)]) {
    let unlike: Vec<_> = points.iter().filter(|(_, a, b)| !alike(*a, *b)).collect();
    println!("{name}: {} points asked, {} not alike", points.len(), unlike.len());
    for (at, ours, platform) in unlike {
        println!("{:6} {at:44} {:>22} {:>22}", "", format!("{ours:?}"), format!("{platform:?}"));
    }
}

/// The same number with the same sign, or both NaN, or so near that only last places are apart.
fn alike(a: f64, b: f64) -> bool {
    let near = a.is_finite() && b.is_finite() && (a - b).abs() <= 1e-12 * b.abs() && b != 0.0;
    a.to_bits() == b.to_bits() || a.is_nan() && b.is_nan() || near
}
