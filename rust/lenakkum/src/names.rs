//! Names of files that are written, made from the recording's.

use crate::problem::Problem;
use crate::reading;
use std::path::{Path, PathBuf};

/// What a name is made from.
#[derive(Clone, Copy)]
pub struct Of<'a> {
    /// The recording.
    pub path: &'a Path,
    /// Its number on the command line, from 1.
    pub number: usize,
    /// The piece's number, from 1.
    pub piece: usize,
}

/// The recording's name without folders and ending.
pub fn stem(path: &Path) -> String {
    if reading::is_standard(path) {
        return "stdin".to_string();
    }
    path.file_stem().map_or_else(String::new, |stem| stem.to_string_lossy().into_owned())
}

/// The file that a pattern names.
pub fn named(pattern: &Path, of: Of<'_>) -> PathBuf {
    match pattern.to_str() {
        None => pattern.to_path_buf(),
        Some(text) => {
            let text = text.replace("{number}", &of.number.to_string()).replace("{piece}", &of.piece.to_string());
            text.replace("{name}", &stem(of.path)).into()
        }
    }
}

/// Stops at a pattern that would name one file for several recordings or pieces.
pub fn checked(flag: &str, pattern: &Path, several: bool, pieces: bool) -> Result<(), Problem> {
    let ending = pattern.extension().map_or_else(String::new, |e| format!(".{}", e.to_string_lossy()));
    let text = pattern.to_string_lossy();
    let has = |word: &str| text.contains(word);
    let known = ["{name}", "{number}", "{piece}"].iter().fold(text.to_string(), |text, word| text.replace(word, ""));
    if known.contains('{') || known.contains('}') {
        return Err(Problem::with(flag, "in braces {name}, {number} and {piece} are known"));
    }
    if several && !has("{name}") && !has("{number}") {
        let why = "there are several recordings: name a file for each, as in";
        return Err(Problem::with(flag, format!("{why} {{name}}-left{ending}")));
    }
    if pieces && !has("{piece}") {
        let why = "there may be several pieces: name a file for each, as in";
        return Err(Problem::with(flag, format!("{why} left-{{piece}}{ending}")));
    }
    if !pieces && has("{piece}") {
        return Err(Problem::with(flag, "{piece} is for --pieces"));
    }
    if several && run_together(&text) {
        let why = "piece 11 of one recording and piece 1 of another would have one name: set {piece} apart, as in";
        return Err(Problem::with(flag, format!("{why} {{name}}-{{piece}}{ending}")));
    }
    Ok(())
}

/// Does nothing but digits stand between a piece's number and a recording's number or name? Then two recordings may
/// have pieces of one name.
fn run_together(pattern: &str) -> bool {
    let words: Vec<&str> = pattern.split(&['{', '}']).collect();
    // Every second one stood in braces.
    (1..words.len()).step_by(2).any(|at| {
        let next = words.get(at + 2);
        let digits = words.get(at + 1).map_or(false, |between| between.chars().all(|c| c.is_ascii_digit()));
        digits && next.map_or(false, |next| (*next == "piece") != (words[at] == "piece"))
    })
}

#[cfg(test)]
mod tests {
    use super::*;

    #[test]
    fn pieces_that_run_together() {
        for pattern in
            ["{name}{piece}.cf32", "{piece}{name}", "{number}{piece}", "a/{name}0{piece}", "{name}-{number}{piece}"]
        {
            assert!(run_together(pattern), "{pattern}");
        }
        for pattern in
            ["{name}-{piece}.cf32", "{piece}/{name}", "{number}.{piece}", "{name}{number}-{piece}", "{name}", "x"]
        {
            assert!(!run_together(pattern), "{pattern}");
        }
    }
}
