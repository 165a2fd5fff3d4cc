//! How serde writes an f64: as a number. A format that people read, such as JSON, may have none for what is not finite:
//! there it is "infinity", "-infinity" or "nan", so that what is read back is what was written. Of a NaN the bits are
//! not kept there. (The command `lenakkum` writes null for such a number, and these names in a field of their own.)

use serde::de::{Error, Visitor};
use serde::{Deserialize, Deserializer, Serialize, Serializer};
use std::fmt;

/// What is not finite, by its name.
const NAMED: [(&str, f64); 3] = [("infinity", f64::INFINITY), ("-infinity", f64::NEG_INFINITY), ("nan", f64::NAN)];

struct Number(f64);

impl Serialize for Number {
    fn serialize<S: Serializer>(&self, serializer: S) -> Result<S::Ok, S::Error> {
        let same = |x: f64| x == self.0 || x.is_nan() && self.0.is_nan();
        match NAMED.into_iter().find(|(_, x)| same(*x)) {
            Some((name, _)) if serializer.is_human_readable() => serializer.serialize_str(name),
            _ => serializer.serialize_f64(self.0),
        }
    }
}

impl<'de> Deserialize<'de> for Number {
    fn deserialize<D: Deserializer<'de>>(deserializer: D) -> Result<Number, D::Error> {
        if deserializer.is_human_readable() {
            deserializer.deserialize_any(Reading)
        } else {
            f64::deserialize(deserializer).map(Number)
        }
    }
}

struct Reading;

impl Visitor<'_> for Reading {
    type Value = Number;

    fn expecting(&self, f: &mut fmt::Formatter) -> fmt::Result {
        f.write_str("a number, \"infinity\", \"-infinity\" or \"nan\"")
    }

    fn visit_f64<E: Error>(self, x: f64) -> Result<Number, E> {
        Ok(Number(x))
    }

    fn visit_i64<E: Error>(self, x: i64) -> Result<Number, E> {
        Ok(Number(x as f64))
    }

    fn visit_u64<E: Error>(self, x: u64) -> Result<Number, E> {
        Ok(Number(x as f64))
    }

    fn visit_str<E: Error>(self, name: &str) -> Result<Number, E> {
        let named = NAMED.into_iter().find(|(n, _)| *n == name);
        named.map(|(_, x)| Number(x)).ok_or_else(|| E::invalid_value(serde::de::Unexpected::Str(name), &self))
    }
}

/// A number.
pub(crate) mod number {
    use super::*;

    pub(crate) fn serialize<S: Serializer>(x: &f64, serializer: S) -> Result<S::Ok, S::Error> {
        Number(*x).serialize(serializer)
    }

    pub(crate) fn deserialize<'de, D: Deserializer<'de>>(deserializer: D) -> Result<f64, D::Error> {
        Number::deserialize(deserializer).map(|x| x.0)
    }
}

/// A number that may be absent.
pub(crate) mod optional {
    use super::*;

    pub(crate) fn serialize<S: Serializer>(x: &Option<f64>, serializer: S) -> Result<S::Ok, S::Error> {
        x.map(Number).serialize(serializer)
    }

    pub(crate) fn deserialize<'de, D: Deserializer<'de>>(deserializer: D) -> Result<Option<f64>, D::Error> {
        Ok(Option::<Number>::deserialize(deserializer)?.map(|x| x.0))
    }
}

/// A complex number, as its two parts.
pub(crate) mod complex {
    use super::*;
    use num_complex::Complex64;

    pub(crate) fn serialize<S: Serializer>(z: &Complex64, serializer: S) -> Result<S::Ok, S::Error> {
        (Number(z.re), Number(z.im)).serialize(serializer)
    }

    pub(crate) fn deserialize<'de, D: Deserializer<'de>>(deserializer: D) -> Result<Complex64, D::Error> {
        <(Number, Number)>::deserialize(deserializer).map(|(re, im)| Complex64::new(re.0, im.0))
    }
}
