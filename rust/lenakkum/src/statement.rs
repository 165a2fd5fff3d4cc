//! What a statement adds to a report: of what it is a report, and by what it was made.

use crate::reading::Source;
use cancel::LIBRARY;
use serde::Serialize;
use std::fmt::Write;

#[derive(Clone, Serialize)]
pub struct Statement {
    pub file: String,
    /// Of the recording's file of samples.
    pub recording_sha256: Option<String>,
    /// When the first of the samples that were run was taken.
    pub date: Option<String>,
    /// The type of its samples, as SigMF names it.
    pub format: &'static str,
    /// The capture that was chosen.
    pub capture: Option<usize>,
    /// The first sample that was run, counted from the recording's, or the chosen capture's.
    pub first_sample: u64,
    pub rate_hz: f64,
    pub hint_hz: f64,
    pub version: &'static str,
    pub commit: &'static str,
    pub library_sha256: &'static str,
}

/// The command's own version.
pub const VERSION: &str = env!("CARGO_PKG_VERSION");

impl Statement {
    /// Of a recording from this sample on.
    pub fn new(source: &Source, first_sample: u64, hint_hz: f64) -> Statement {
        Statement {
            file: source.name.clone(),
            recording_sha256: source.sha256.clone(),
            date: source.told.date(first_sample, source.rate),
            format: source.datatype.name(),
            capture: source.capture,
            first_sample,
            rate_hz: source.rate,
            hint_hz,
            version: VERSION,
            commit: LIBRARY.commit,
            library_sha256: LIBRARY.sha256,
        }
    }

    /// Names and values, those that there are.
    fn values(&self) -> Vec<(&'static str, String)> {
        let some = [
            ("recording", self.recording_sha256.clone()),
            ("date", self.date.clone()),
            ("capture", self.capture.map(|number| number.to_string())),
            ("first", Some(self.first_sample.to_string()).filter(|_| self.first_sample > 0)),
        ];
        let some = some.into_iter().filter_map(|(name, value)| value.map(|value| (name, value)));
        let all = [
            ("format", self.format.to_string()),
            ("rate", self.rate_hz.to_string()),
            ("hint", self.hint_hz.to_string()),
            ("version", self.version.to_string()),
            ("commit", self.commit.to_string()),
            ("library", self.library_sha256.to_string()),
        ];
        some.chain(all).collect()
    }

    /// As a text, to stand after a report.
    pub fn text(&self) -> String {
        // In double quotes, with a backslash before quotes and backslashes, and no line end inside.
        let mut text = format!("(statement\n(file {:?})", self.file);
        for (name, value) in self.values() {
            let _ = write!(text, "\n({name} {value})");
        }
        text + ")\n"
    }

    /// To stand at the end of a line.
    pub fn on_a_line(&self) -> String {
        self.values().iter().map(|(name, value)| format!(", {name} {value}")).collect()
    }
}
