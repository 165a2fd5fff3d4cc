//! What is told of a recording beside its samples, and the SigMF metadata of what a run leaves of it.

use crate::datatype::Datatype;
use cancel::KeyDown;
use chrono::{DateTime, Duration, SecondsFormat};
use serde_json::{json, Map, Value};

/// From this sample on, the receiver stood so.
#[derive(Clone, Debug, PartialEq)]
pub struct Capture {
    /// The first sample, counted from the first in the file.
    pub start: u64,
    pub header_bytes: u64,
    pub global_index: Option<u64>,
    pub frequency: Option<f64>,
    pub date: Option<String>,
}

/// What is told of a recording beside its samples: nothing where it has no metadata.
#[derive(Clone, Debug, Default)]
pub struct Told {
    pub global: Map<String, Value>,
    pub captures: Vec<Capture>,
}

/// Of the global object, what goes with a recording wherever it goes.
const DESCRIPTION: [&str; 5] = ["core:description", "core:author", "core:license", "core:hw", "core:geolocation"];

impl Told {
    /// When the receiver took this sample.
    pub fn date(&self, sample: u64, rate: f64) -> Option<String> {
        let capture = self.captures.iter().rev().find(|c| c.start <= sample)?;
        later(capture.date.as_deref()?, sample - capture.start, rate)
    }

    /// The metadata of `count` samples from this one on, as a run left them, with its key-downs.
    pub fn metadata(&self, first: u64, count: usize, rate: f64, sha512: &str, key_downs: &[KeyDown]) -> String {
        let mut global = json!({
            "core:datatype": Datatype::CF32_LE.name(),
            "core:sample_rate": rate,
            "core:sha512": sha512,
            "core:version": "1.0.0",
        });
        for name in DESCRIPTION {
            if let Some(value) = self.global.get(name) {
                global[name] = value.clone();
            }
        }
        let annotations: Vec<Value> = key_downs.iter().map(|key| annotation(key, count)).collect();
        let captures = self.captures_from(first, count, rate);
        format!("{:#}\n", json!({ "global": global, "captures": captures, "annotations": annotations }))
    }

    /// The captures of these samples, counted from the first of them.
    fn captures_from(&self, first: u64, count: usize, rate: f64) -> Vec<Value> {
        let mut captures = Vec::new();
        for (i, capture) in self.captures.iter().enumerate() {
            let from = capture.start.max(first);
            let ends = self.captures.get(i + 1).map_or(false, |next| next.start <= first);
            if ends || from >= first + count as u64 {
                continue;
            }
            let mut fields = json!({ "core:sample_start": from - first });
            if let Some(frequency) = capture.frequency {
                fields["core:frequency"] = frequency.into();
            }
            if let Some(date) = capture.date.as_deref().and_then(|date| later(date, from - capture.start, rate)) {
                fields["core:datetime"] = date.into();
            }
            captures.push(fields);
        }
        if captures.is_empty() {
            captures.push(json!({ "core:sample_start": 0 }));
        }
        captures
    }
}

/// The whole samples that a key-down covers.
fn annotation(key: &KeyDown, count: usize) -> Value {
    let (start, end) = (key.element.start.floor().max(0.0), key.element.end.ceil().min(count as f64));
    json!({
        "core:sample_start": start as u64,
        "core:sample_count": (end - start).max(0.0) as u64,
        "core:label": "key-down",
        "core:comment": format!("of the strong sender, from {} to {} samples", key.element.start, key.element.end),
        "core:generator": concat!("lenakkum ", env!("CARGO_PKG_VERSION")),
    })
}

/// A date so many samples later. One that cannot be read is kept for its own sample only.
fn later(date: &str, samples: u64, rate: f64) -> Option<String> {
    if samples == 0 {
        return Some(date.to_string());
    }
    let nanoseconds = Duration::nanoseconds((samples as f64 / rate * 1e9).round() as i64);
    let then = DateTime::parse_from_rfc3339(date).ok()?.checked_add_signed(nanoseconds)?;
    Some(then.to_rfc3339_opts(SecondsFormat::AutoSi, true))
}
