//! Document 01, part 1: the stand-ins for functions whose bodies aren't listed, written from its text.

mod arctan;
mod log;
mod turn;
mod whole;

use num_complex::Complex64;

pub use arctan::arg;
pub use log::log10;
pub use turn::{cos, sin};
pub use whole::{ceil, floor, rem_euclid, round};

/// `norm_sqr`'s correctly rounded square root.
pub fn norm(re: f64, im: f64) -> f64 {
    (re * re + im * im).sqrt()
}

/// An f64 as f32, ties to even.
pub fn narrow(x: f64) -> f32 {
    x as f32
}

/// The redirected methods of f64.
pub trait StandIn: Sized {
    fn stand_in_sin(self) -> f64;
    fn stand_in_cos(self) -> f64;
    fn stand_in_log10(self) -> f64;
    fn stand_in_floor(self) -> f64;
    fn stand_in_ceil(self) -> f64;
    fn stand_in_round(self) -> f64;
    fn stand_in_rem_euclid(self, b: f64) -> f64;
}

impl StandIn for f64 {
    fn stand_in_sin(self) -> f64 {
        sin(self)
    }
    fn stand_in_cos(self) -> f64 {
        cos(self)
    }
    fn stand_in_log10(self) -> f64 {
        log10(self)
    }
    fn stand_in_floor(self) -> f64 {
        floor(self)
    }
    fn stand_in_ceil(self) -> f64 {
        ceil(self)
    }
    fn stand_in_round(self) -> f64 {
        round(self)
    }
    fn stand_in_rem_euclid(self, b: f64) -> f64 {
        rem_euclid(self, b)
    }
}

/// The redirected functions of Complex64. Its product, its quotient by a real number and `norm_sqr` are num_complex's
/// own, which do what document 01 says.
pub trait StandInComplex: Sized {
    fn stand_in_norm(self) -> f64;
    fn stand_in_arg(self) -> f64;
    fn stand_in_from_polar(w: f64, t: f64) -> Self;
}

impl StandInComplex for Complex64 {
    fn stand_in_norm(self) -> f64 {
        norm(self.re, self.im)
    }
    fn stand_in_arg(self) -> f64 {
        arg(self.re, self.im)
    }
    fn stand_in_from_polar(w: f64, t: f64) -> Complex64 {
        Complex64::new(w * cos(t), w * sin(t))
    }
}
