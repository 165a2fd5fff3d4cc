//! The redirection of cancel.rs's unlisted functions to the stand-ins of document 01, part 1.
//!
//! Only the called name changes. Each name has to occur just as often as in the file that was read when this was
//! written; any other count stops the build, since then the text is another one.

/// A called name, the name of its stand-in, and how often the text calls it.
struct Redirection {
    from: &'static str,
    to: &'static str,
    times: usize,
}

const fn redirection(from: &'static str, to: &'static str, times: usize) -> Redirection {
    Redirection { from, to, times }
}

const REDIRECTIONS: [Redirection; 10] = [
    redirection(".sin()", ".stand_in_sin()", 2),
    redirection(".cos()", ".stand_in_cos()", 2),
    redirection(".log10()", ".stand_in_log10()", 1),
    redirection(".rem_euclid(", ".stand_in_rem_euclid(", 3),
    redirection(".floor()", ".stand_in_floor()", 3),
    redirection(".ceil()", ".stand_in_ceil()", 4),
    redirection(".round()", ".stand_in_round()", 3),
    redirection(".norm()", ".stand_in_norm()", 6),
    redirection(".arg()", ".stand_in_arg()", 3),
    redirection("Complex64::from_polar(", "Complex64::stand_in_from_polar(", 2),
];

/// What the redirected names need in scope.
pub const IMPORTS: &str = "use crate::stand_ins::{StandIn as _, StandInComplex as _};";

/// Functions of the platform that the text must not call, since no stand-in is named for them.
const NONE: [&str; 11] =
    [".sqrt(", ".hypot(", ".atan(", ".atan2(", ".tan(", ".sin_cos(", ".exp(", ".ln(", ".powi(", ".powf(", ".mul_add("];

pub fn redirected(text: &str) -> Result<String, String> {
    let mut out = text.to_string();
    for r in &REDIRECTIONS {
        counted(text, r.from, r.times)?;
        out = out.replace(r.from, r.to);
    }
    for name in NONE {
        counted(text, name, 0)?;
    }
    Ok(out)
}

fn counted(text: &str, name: &str, times: usize) -> Result<(), String> {
    match text.matches(name).count() {
        found if found == times => Ok(()),
        found => Err(format!(
            "cancel.rs calls {name} {found} times, and {times} was expected: \
             not the text that this redirection was written for"
        )),
    }
}
