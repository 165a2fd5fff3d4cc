//! Runs as data: JSON and CSV.

mod common;

use common::*;
use serde_json::Value;
use std::fs;
use std::path::{Path, PathBuf};

/// A folder with a recording of one sender, one of two, one that is refused; `none.cf32` is not there.
fn recordings(name: &str) -> PathBuf {
    let folder = folder(name);
    fs::write(folder.join("one.cf32"), one()).unwrap();
    fs::write(folder.join("two.cf32"), two()).unwrap();
    fs::write(folder.join("wild.cf32"), bytes([(f64::NAN, 0.0)])).unwrap();
    folder
}

const ALL: &str = "one.cf32 none.cf32 wild.cf32 two.cf32";

/// Columns that are not numbers.
const WORDS: [&str; 13] = [
    "file",
    "problem",
    "clean",
    "hypothesis",
    "buffer",
    "kept_because",
    "not_finite",
    "recording_sha256",
    "date",
    "format",
    "version",
    "commit",
    "library_sha256",
];

/// The columns' names, and each row's fields.
fn rows(folder: &Path, words: &str) -> (Vec<String>, Vec<Vec<String>>) {
    let said = lenakkum(folder, &format!("run {words} --csv"));
    let mut reader = csv::Reader::from_reader(&said.stdout[..]);
    let fields = |record: &csv::StringRecord| record.iter().map(str::to_string).collect::<Vec<_>>();
    let header = fields(reader.headers().unwrap());
    let rows = reader.records().map(|record| fields(&record.unwrap())).collect();
    (header, rows)
}

#[test]
fn csv_has_a_row_for_every_file() {
    let folder = recordings("csv");
    let (header, rows) = rows(&folder, &format!("{ALL} --rate 3000 --statement"));
    let at = |row: usize, name: &str| rows[row][header.iter().position(|n| n == name).unwrap()].as_str();
    let column = |name: &str| (0..4).map(|row| at(row, name)).collect::<Vec<_>>();
    assert_eq!(column("file"), ["one.cf32", "none.cf32", "wild.cf32", "two.cf32"]);
    assert_eq!(column("run"), ["0", "", "3", "0"]);
    assert_eq!(column("buffer"), ["kept", "", "", "taken"]);
    assert_eq!(column("fitted"), ["1", "", "", "21"]);
    assert!(at(1, "problem").starts_with("none.cf32: No such file") && at(2, "problem").contains("refused (3)"));
    let seconds: Vec<f64> = [0, 3].iter().map(|&row| at(row, "airtime_s").parse().unwrap()).collect();
    let airtime: Vec<f64> = [0, 3].iter().map(|&row| at(row, "airtime").parse().unwrap()).collect();
    assert!(airtime[0] == 101.0 && seconds == [airtime[0] / 3e3, airtime[1] / 3e3], "{seconds:?}");
    assert_eq!((at(0, "duration_s"), at(0, "start_s"), at(2, "rate_hz")), ("0.1", "0.0", "3000.0"));
    assert!(at(0, "kept_because").contains("1 key-down was fitted (at least 20 are needed); "));
    assert_eq!((at(3, "kept_because"), at(3, "recording_sha256").len()), ("", 64));
    // Without an edge block there is no ratio.
    assert_eq!((at(0, "edge_over_neighbour_db"), at(1, "not_finite")), ("", ""));
    assert_eq!(at(0, "not_finite"), "edge_over_neighbour_db infinity, interior_over_neighbour_db infinity");
}

#[test]
fn every_column_of_numbers_has_numbers_only() {
    let folder = recordings("columns");
    for words in [format!("{ALL} --rate 3000"), format!("{ALL} --rate 0"), "two.cf32 --rate 3000 --hint 1499".into()] {
        let (header, rows) = rows(&folder, &words);
        assert_eq!(rows.len(), words.matches(".cf32").count());
        for (name, field) in rows.iter().flat_map(|row| header.iter().zip(row)) {
            let number = field.is_empty() || field.parse().map_or(false, f64::is_finite);
            assert!(number || WORDS.contains(&name.as_str()), "{words}: {name}: {field}");
        }
    }
    assert_wrong(&lenakkum(&folder, "run one.cf32 --rate 3000 --csv --json"), "--csv", "both");
}

#[test]
fn json_has_a_line_for_every_file() {
    let folder = recordings("json");
    let said = lenakkum(&folder, &format!("run {ALL} --rate 3000 --json"));
    assert_eq!(said.status.code(), Some(2));
    assert!(text(&said.stderr).starts_with("lenakkum: 2 of 4 went wrong:\n"));
    let lines = json_lines(&said);
    let column = |name: &str| lines.iter().map(|line| line[name].clone()).collect::<Vec<_>>();
    assert_eq!(column("file"), ["one.cf32", "none.cf32", "wild.cf32", "two.cf32"]);
    assert_eq!(column("run"), [0.into(), Value::Null, 3.into(), 0.into()]);
    assert!(lines[1]["problem"].as_str().unwrap().starts_with("none.cf32: No such file"));
    assert!(lines[2]["refusal"].as_str().unwrap().starts_with("a sample is infinite or not a number"));
    assert_eq!((&lines[3]["hypothesis"], &lines[3]["buffer"]), (&"two".into(), &"taken".into()));
    // One that cannot be read has its line too when it is the only one.
    let said = lenakkum(&folder, "run none.cf32 --rate 3000 --json");
    assert_eq!((said.status.code(), json_lines(&said)[0]["run"].clone()), (Some(2), Value::Null));
}

#[test]
fn json_has_seconds_beside_positions_and_null_for_what_is_no_number() {
    let folder = recordings("seconds");
    let lines = json_lines(&lenakkum(&folder, "run one.cf32 two.cf32 --rate 3000 --json"));
    for line in &lines {
        let lists = ["elements", "fits"].map(|name| line[name].as_array().unwrap().clone());
        for record in lists.iter().flatten() {
            for (samples, seconds) in [("start", "start_s"), ("end", "end_s")] {
                let at = |name: &str| record[name].as_f64().unwrap();
                assert!((at(samples) / 3e3 - at(seconds)).abs() < 1e-12, "{record}");
            }
        }
        let (samples, seconds) = (line["airtime"].as_f64().unwrap(), line["airtime_s"].as_f64().unwrap());
        assert!(samples > 0.0 && (samples / 3e3 - seconds).abs() < 1e-12);
    }
    assert_eq!((&lines[0]["elements"][0]["start"], &lines[0]["duration_s"]), (&99.5.into(), &0.1.into()));
    let offset = lines[1]["evidence"]["offset_hz"].as_f64().unwrap();
    assert!((offset - 60.0).abs() < 2.0, "{offset}");
    assert_eq!(lines[0]["residual"]["edge_over_neighbour_db"], Value::Null);
    assert_eq!(lines[0]["not_finite"]["edge_over_neighbour_db"], "infinity");
    assert!(lines[1]["residual"]["edge_over_neighbour_db"].is_f64() && lines[1]["not_finite"] == serde_json::json!({}));
}

/// Rows of one file are told apart by the capture that was chosen, from whose beginning samples are counted.
#[test]
fn captures_have_rows_of_their_own() {
    let folder = folder("captures");
    let captures = serde_json::json!([
        { "core:sample_start": 0, "core:frequency": 7e6 },
        { "core:sample_start": 300, "core:frequency": 14e6 }
    ]);
    sigmf(&folder, "two", serde_json::json!({}), captures, &[one(), two()].concat());
    for (number, samples) in [("0", "100"), ("1", "1848")] {
        let words = format!("two.sigmf-meta --capture {number} --start 200samples");
        let fields = |words: &str| {
            let (header, rows) = rows(&folder, words);
            ["capture", "first_sample", "samples", "format"]
                .map(|name| rows[0][header.iter().position(|n| n == name).unwrap()].clone())
        };
        assert_eq!(fields(&format!("{words} --statement")), [number, "200", samples, "cf32_le"]);
        assert_eq!(fields(&words), [number, "200", samples, ""]);
        let line = json_lines(&lenakkum(&folder, &format!("run {words} --json --statement"))).remove(0);
        let number: usize = number.parse().unwrap();
        assert_eq!((&line["capture"], &line["statement"]["capture"]), (&number.into(), &number.into()));
        assert_eq!((&line["first_sample"], &line["start_s"]), (&200.into(), &(200.0 / 3e3).into()));
    }
}
