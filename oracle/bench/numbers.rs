//! sin with cos, norm and log10 on arrays of numbers, each by a call that is not inlined.

use crate::clock::{least, Contender};
use crate::library;
use crate::table::{line, RUST};
use num_complex::Complex64;
use oracle::random::Random;
use oracle::stand_ins;
use std::f64::consts::TAU;
use std::hint::black_box;

const COUNT: usize = 1 << 16;

pub fn print(rounds: usize) {
    let mut r = Random::new(1);
    let angles: Vec<f64> = (0..COUNT).map(|_| r.between(0.0, TAU)).collect();
    let parts: Vec<(f64, f64)> = (0..COUNT).map(|_| (r.between(-1.0, 1.0), r.between(-1.0, 1.0))).collect();
    let powers: Vec<f64> = (0..COUNT).map(|_| r.between(1e-6, 1e3)).collect();
    println!("Single numbers, ns each, least of {rounds} rounds");
    crate::table::head("", &["library", RUST[0], RUST[1]]);
    if library::present("cancel_sin") && library::present("cancel_cos") {
        let library = over(&angles, |&x| library::sin(x) + library::cos(x));
        let platform = over(&angles, |&x| platform_sin(x) + platform_cos(x));
        let stood_in = over(&angles, |&x| stand_in_sin(x) + stand_in_cos(x));
        line("sin and cos, a call each", COUNT, &least(rounds, &mut [library, platform, stood_in]));
    }
    if library::present("cancel_cos_sin") {
        let mut out = vec![0.0; 2 * COUNT];
        let library: Contender = Box::new(|| {
            black_box(library::cos_sin(angles.as_ptr(), COUNT, out.as_mut_ptr(), 2 * COUNT));
        });
        let platform = over(&angles, |&x| platform_sin(x) + platform_cos(x));
        let stood_in = over(&angles, |&x| stand_in_sin(x) + stand_in_cos(x));
        line("sin and cos, one call for all", COUNT, &least(rounds, &mut [library, platform, stood_in]));
    }
    if library::present("cancel_norm") {
        let library = over(&parts, |&(re, im)| library::norm(re, im));
        let platform = over(&parts, |&(re, im)| platform_norm(re, im));
        let stood_in = over(&parts, |&(re, im)| stand_in_norm(re, im));
        line("norm", COUNT, &least(rounds, &mut [library, platform, stood_in]));
    }
    if library::present("cancel_log10") {
        let library = over(&powers, |&x| library::log10(x));
        let platform = over(&powers, |&x| platform_log10(x));
        let stood_in = over(&powers, |&x| stand_in_log10(x));
        line("log10", COUNT, &least(rounds, &mut [library, platform, stood_in]));
    }
    println!();
}

/// Sums a function over all numbers, so that no answer is left out.
fn over<'a, T>(numbers: &'a [T], f: impl Fn(&T) -> f64 + 'a) -> Contender<'a> {
    Box::new(move || {
        black_box(numbers.iter().map(&f).sum::<f64>());
    })
}

macro_rules! not_inlined {
    ($($name:ident($($x:ident),*) = $body:expr;)*) => {
        $(#[inline(never)] fn $name($($x: f64),*) -> f64 { $body })*
    };
}

not_inlined! {
    platform_sin(x) = x.sin();
    platform_cos(x) = x.cos();
    platform_norm(re, im) = Complex64::new(re, im).norm();
    platform_log10(x) = x.log10();
    stand_in_sin(x) = stand_ins::sin(x);
    stand_in_cos(x) = stand_ins::cos(x);
    stand_in_norm(re, im) = stand_ins::norm(re, im);
    stand_in_log10(x) = stand_ins::log10(x);
}
