//! What a program notes down of its answers, to be compared.

use num_complex::Complex32;

/// A count or a number, by the name of what it is.
#[derive(Debug, Clone, Copy)]
pub enum Note {
    Count(&'static str, usize),
    Number(&'static str, f64),
}

impl Note {
    pub fn count(what: &'static str, n: usize) -> Note {
        Note::Count(what, n)
    }

    pub fn number(what: &'static str, x: f64) -> Note {
        Note::Number(what, x)
    }

    /// The same count, or numbers that differ by less than a millionth of 1 or of themselves.
    pub fn near(&self, other: &Note) -> bool {
        match (self, other) {
            (Note::Number(a, x), Note::Number(b, y)) => {
                a == b && (self == other || (x - y).abs() <= 1e-6 * x.abs().max(1.0))
            }
            _ => self == other,
        }
    }
}

/// By bits, but that all that is no number is one, and both zeros are one.
impl PartialEq for Note {
    fn eq(&self, other: &Note) -> bool {
        match (self, other) {
            (Note::Count(a, x), Note::Count(b, y)) => (a, x) == (b, y),
            (Note::Number(a, x), Note::Number(b, y)) => a == b && (x == y || x.is_nan() && y.is_nan()),
            _ => false,
        }
    }
}

/// Notes every number of a recording.
pub fn samples(notes: &mut Vec<Note>, buf: &[Complex32]) {
    for x in buf {
        notes.push(Note::number("real part", f64::from(x.re)));
        notes.push(Note::number("imaginary part", f64::from(x.im)));
    }
}
