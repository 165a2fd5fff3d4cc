//! The types of complex samples that SigMF names, and their samples as numbers.

use num_complex::Complex32;
use std::str::FromStr;

/// A sample is two numbers of one kind, real then imaginary, each with its bytes in one order.
#[derive(Clone, Copy, Debug, PartialEq)]
pub struct Datatype {
    name: &'static str,
    number: Number,
    bits: u32,
    big_endian: bool,
}

#[derive(Clone, Copy, Debug, PartialEq)]
enum Number {
    Float,
    Signed,
    Unsigned,
}

const fn of(name: &'static str, number: Number, bits: u32, big_endian: bool) -> Datatype {
    Datatype { name, number, bits, big_endian }
}

/// All of them. Numbers of one byte have no order.
const ALL: [Datatype; 14] = [
    Datatype::CF32_LE,
    of("cf32_be", Number::Float, 32, true),
    of("cf64_le", Number::Float, 64, false),
    of("cf64_be", Number::Float, 64, true),
    of("ci8", Number::Signed, 8, false),
    of("cu8", Number::Unsigned, 8, false),
    of("ci16_le", Number::Signed, 16, false),
    of("ci16_be", Number::Signed, 16, true),
    of("cu16_le", Number::Unsigned, 16, false),
    of("cu16_be", Number::Unsigned, 16, true),
    of("ci32_le", Number::Signed, 32, false),
    of("ci32_be", Number::Signed, 32, true),
    of("cu32_le", Number::Unsigned, 32, false),
    of("cu32_be", Number::Unsigned, 32, true),
];

impl Datatype {
    /// What is read where nothing says otherwise, and what is written.
    pub const CF32_LE: Datatype = of("cf32_le", Number::Float, 32, false);

    /// The type that SigMF calls so.
    pub fn named(name: &str) -> Option<Datatype> {
        ALL.into_iter().find(|kind| kind.name == name)
    }

    /// The type that the ending of a file's name is used for, with its byte order left open.
    pub fn of_ending(ending: &str) -> Option<&'static str> {
        const ENDINGS: [&str; 8] = ["cf32", "cf64", "ci8", "cu8", "ci16", "cu16", "ci32", "cu32"];
        // Some write signed numbers so.
        let ending = ending.to_ascii_lowercase().replace("cs", "ci");
        ENDINGS.into_iter().find(|known| *known == ending)
    }

    pub fn name(self) -> &'static str {
        self.name
    }

    /// Bytes of a sample.
    pub fn size(self) -> usize {
        self.bits as usize / 4
    }

    /// Whole samples as pairs of f32. Whole numbers are divided by 2^(bits - 1), unsigned ones after as much is taken
    /// off, so that full scale is 1. What an f32 cannot hold is rounded to the nearest, ties to even.
    pub fn samples(self, bytes: &[u8]) -> Vec<Complex32> {
        let sample = |bytes: &[u8]| {
            let (re, im) = bytes.split_at(self.size() / 2);
            Complex32::new(self.part(re), self.part(im))
        };
        bytes.chunks_exact(self.size()).map(sample).collect()
    }

    fn part(self, bytes: &[u8]) -> f32 {
        let word = if self.big_endian { word(bytes.iter()) } else { word(bytes.iter().rev()) };
        let unused = 64 - self.bits;
        let full = (1_i64 << (self.bits - 1)) as f64;
        match (self.number, self.bits) {
            (Number::Float, 32) => f32::from_bits(word as u32),
            (Number::Float, _) => f64::from_bits(word) as f32,
            (Number::Signed, _) => (((word << unused) as i64 >> unused) as f64 / full) as f32,
            (Number::Unsigned, _) => ((word as f64 - full) / full) as f32,
        }
    }

    /// Are its numbers single bytes? Then a text cannot be told from samples.
    pub fn is_of_bytes(self) -> bool {
        self.bits == 8
    }
}

/// The whole number of these bytes, the highest first.
fn word<'a>(bytes: impl Iterator<Item = &'a u8>) -> u64 {
    bytes.fold(0, |word, &byte| word << 8 | u64::from(byte))
}

impl FromStr for Datatype {
    type Err = String;

    /// On the command line the order may be left out, and is then little-endian.
    fn from_str(name: &str) -> Result<Datatype, String> {
        Datatype::named(name).or_else(|| Datatype::named(&format!("{name}_le"))).ok_or_else(|| known("it is not known"))
    }
}

/// A sentence, and the names that are known.
pub fn known(said: &str) -> String {
    let names: Vec<&str> = ALL.iter().map(|kind| kind.name).collect();
    format!("{said}; {} are", names.join(", "))
}
