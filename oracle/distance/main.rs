//! How far document 01's stand-ins are from the platform's functions: the largest error of each, in units of the last
//! place of the platform's answer and absolute; and how far the answers of cancel.rs with either are apart.

mod answers;
mod signs;
mod special;
mod tiny;

use num_complex::Complex64;
use oracle::random::Random;
use oracle::stand_ins;
use std::f64::consts::{PI, TAU};

/// Numbers asked of each function.
const TIMES: usize = 4_000_000;

/// The largest errors seen, and where.
#[derive(Default)]
struct Worst {
    ulps: (f64, String),
    absolute: (f64, String),
    different: u64,
    asked: u64,
}

impl Worst {
    fn see(&mut self, ours: f64, platform: f64, at: impl Fn() -> String) {
        self.asked += 1;
        if ours == platform || ours.is_nan() && platform.is_nan() {
            return;
        }
        self.different += 1;
        let error = (ours - platform).abs();
        let ulps = error / ulp(platform);
        if ulps > self.ulps.0 {
            self.ulps = (ulps, at());
        }
        if error > self.absolute.0 {
            self.absolute = (error, at());
        }
    }

    fn print(&self, name: &str) {
        let share = 100.0 * self.different as f64 / self.asked as f64;
        print!("{name:34} {share:7.3} %");
        if self.different == 0 {
            println!("  equal everywhere");
        } else {
            println!("  {:9.3e} ulp  at {}", self.ulps.0, self.ulps.1);
            println!("{:46}{:9.3e}      at {}", "", self.absolute.0, self.absolute.1);
        }
    }
}

/// The distance from |x| to the next f64 above.
fn ulp(x: f64) -> f64 {
    let x = x.abs();
    x.next_up() - x
}

fn main() {
    println!("Stand-ins of document 01, part 1, beside the platform's functions.");
    println!("Of each, {TIMES} numbers; how many answers differ, and the largest errors: in ulps, then absolute.");
    let mut r = Random::new(1);
    angles("sin, 0 to a turn", stand_ins::sin, f64::sin, || r.between(0.0, TAU));
    angles("cos, 0 to a turn", stand_ins::cos, f64::cos, || r.between(0.0, TAU));
    angles("sin, -7 to 7", stand_ins::sin, f64::sin, || r.between(-7.0, 7.0));
    angles("cos, -7 to 7", stand_ins::cos, f64::cos, || r.between(-7.0, 7.0));
    angles("sin, away from whole half turns", stand_ins::sin, f64::sin, || r.between(0.1, PI - 0.1));
    angles("cos, away from odd quarter turns", stand_ins::cos, f64::cos, || r.between(-PI / 2.0 + 0.1, PI / 2.0 - 0.1));
    angles("log10, any positive number", stand_ins::log10, f64::log10, || f64::from_bits(r.bits() % (2047 << 52)));
    angles("log10, 0.001 to 1000", stand_ins::log10, f64::log10, || r.between(1e-3, 1e3));
    angles("log10, 0.99 to 1.01", stand_ins::log10, f64::log10, || r.between(0.99, 1.01));
    angles("floor, any bits", stand_ins::floor, f64::floor, || f64::from_bits(r.bits()));
    angles("ceil, any bits", stand_ins::ceil, f64::ceil, || f64::from_bits(r.bits()));
    angles("round, any bits", stand_ins::round, f64::round, || f64::from_bits(r.bits()));
    angles(
        "rem_euclid(x, 1), any bits",
        |x| stand_ins::rem_euclid(x, 1.0),
        |x| x.rem_euclid(1.0),
        || f64::from_bits(r.bits()),
    );
    angles(
        "rem_euclid(x, TAU), any bits",
        |x| stand_ins::rem_euclid(x, TAU),
        |x| x.rem_euclid(TAU),
        || f64::from_bits(r.bits()),
    );
    let unit = |r: &mut Random| (r.between(-1.0, 1.0), r.between(-1.0, 1.0));
    let any = |r: &mut Random| {
        let size = |r: &mut Random| r.between(-1.0, 1.0) * 2f64.powf(r.between(-400.0, 400.0));
        (size(r), size(r))
    };
    let arg = |z: Complex64| z.arg();
    let norm = |z: Complex64| z.norm();
    pairs("arg, parts -1 to 1", stand_ins::arg, arg, || unit(&mut r));
    pairs("arg, parts to 2^400", stand_ins::arg, arg, || any(&mut r));
    pairs("norm, parts -1 to 1", stand_ins::norm, norm, || unit(&mut r));
    pairs("norm, parts to 2^400", stand_ins::norm, norm, || any(&mut r));
    println!();
    special::print();
    println!();
    signs::print();
    println!();
    tiny::print();
    println!();
    answers::print();
}

fn angles(name: &str, ours: fn(f64) -> f64, platform: fn(f64) -> f64, mut next: impl FnMut() -> f64) {
    let mut worst = Worst::default();
    for _ in 0..TIMES {
        let x = next();
        worst.see(ours(x), platform(x), || format!("{x:?}"));
    }
    worst.print(name);
}

fn pairs(name: &str, ours: fn(f64, f64) -> f64, platform: fn(Complex64) -> f64, mut next: impl FnMut() -> (f64, f64)) {
    let mut worst = Worst::default();
    for _ in 0..TIMES {
        let (re, im) = next();
        worst.see(ours(re, im), platform(Complex64::new(re, im)), || format!("({re:?}, {im:?})"));
    }
    worst.print(name);
}
