//! Numbers in words.

/// What a number that is not finite is called.
pub fn not_finite(x: f64) -> Option<&'static str> {
    match x {
        x if x.is_finite() => None,
        x if x.is_nan() => Some("nan"),
        x if x > 0.0 => Some("infinity"),
        _ => Some("-infinity"),
    }
}

/// A number to so many places. What rounds to nothing has no sign.
pub fn rounded(x: f64, places: usize) -> String {
    let text = not_finite(x).map_or_else(|| format!("{x:.places$}"), str::to_string);
    match text.strip_prefix('-') {
        Some(size) if size.bytes().all(|b| matches!(b, b'0' | b'.')) => size.to_string(),
        _ => text,
    }
}

/// A number of seconds or the like, to the millionth, without zeros at its end.
pub fn plain(x: f64) -> String {
    ((x * 1e6).round() / 1e6).to_string()
}

#[cfg(test)]
mod tests {
    use super::*;

    #[test]
    fn what_is_not_finite_has_its_name() {
        let numbers = [0.0, -1e300, f64::NAN, f64::INFINITY, f64::NEG_INFINITY];
        assert_eq!(numbers.map(not_finite), [None, None, Some("nan"), Some("infinity"), Some("-infinity")]);
        assert_eq!(numbers.map(|x| rounded(x, 1))[2..], ["nan", "infinity", "-infinity"]);
    }

    #[test]
    fn rounded_and_plain() {
        assert_eq!([-0.04, -0.06, 12.345, -12.0].map(|x| rounded(x, 1)), ["0.0", "-0.1", "12.3", "-12.0"]);
        assert_eq!([0.1 + 0.2, 10.0, 1.0 / 3.0].map(plain), ["0.3", "10", "0.333333"]);
    }
}
