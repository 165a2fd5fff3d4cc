//! What the tests of the command share: folders, recordings, and the command run as a person runs it.
#![allow(dead_code)]

use assert_cmd::Command;
use serde_json::{json, Value};
use std::f64::consts::{PI, TAU};
use std::fs;
use std::path::{Path, PathBuf};
use std::process::Output;
use std::time::Duration;

/// An empty folder of this test.
pub fn folder(name: &str) -> PathBuf {
    let folder = Path::new(env!("CARGO_TARGET_TMPDIR")).join(name);
    let _ = fs::remove_dir_all(&folder);
    fs::create_dir_all(&folder).unwrap();
    folder
}

/// The command, with its words; one that does not end is stopped.
pub fn command(folder: &Path, words: &str) -> Command {
    let mut command = Command::cargo_bin("lenakkum").unwrap();
    command.current_dir(folder).args(words.split_whitespace()).timeout(Duration::from_secs(300));
    command
}

pub fn lenakkum(folder: &Path, words: &str) -> Output {
    command(folder, words).output().unwrap()
}

/// With these bytes on standard input.
pub fn fed(folder: &Path, words: &str, input: Vec<u8>) -> Output {
    command(folder, words).write_stdin(input).output().unwrap()
}

/// A line of bash in which the command is known by its name. A pipe's status is that of the first part that failed.
pub fn bash(folder: &Path, line: &str) -> Output {
    let bin = Path::new(env!("CARGO_BIN_EXE_lenakkum")).parent().unwrap();
    let path = format!("{}:{}", bin.display(), std::env::var("PATH").unwrap());
    let mut command = Command::new("bash");
    command.current_dir(folder).args(["-c", &format!("set -o pipefail; {line}")]).env("PATH", path);
    command.timeout(Duration::from_secs(300)).output().unwrap()
}

/// It was wrong: status 2, one line on standard error that has these words, nothing on standard output.
pub fn assert_wrong(said: &Output, words: &str, asked: &str) {
    let complaint = text(&said.stderr);
    assert_eq!((said.status.code(), text(&said.stdout)), (Some(2), String::new()), "{asked}: {complaint}");
    assert!(complaint.lines().count() == 1 && complaint.contains(words), "{asked}: {complaint}");
}

pub fn file_name(path: &Path) -> String {
    path.file_name().unwrap().to_str().unwrap().to_string()
}

pub fn text(bytes: &[u8]) -> String {
    String::from_utf8(bytes.to_vec()).unwrap()
}

pub fn names(folder: &Path) -> Vec<String> {
    let mut names: Vec<String> =
        fs::read_dir(folder).unwrap().map(|e| e.unwrap().file_name().into_string().unwrap()).collect();
    names.sort();
    names
}

pub fn bytes(samples: impl IntoIterator<Item = (f64, f64)>) -> Vec<u8> {
    samples.into_iter().flat_map(|(re, im)| [re as f32, im as f32]).flat_map(f32::to_le_bytes).collect()
}

/// 300 samples with one key-down: document 01's example.
pub fn one() -> Vec<u8> {
    bytes((0..300).map(|k| (if (100..200).contains(&k) { 1.0 } else { 0.0 }, 0.0)))
}

pub const ONE: &str = "(run 0\n(size 300 8 37)\n(keys 1 1 0 1 0)\n(air 101)\n(blocks 0 0 0 37)\n(key 96 197)\n\
                   (hypothesis one)\n(buffer kept))\n";

/// A strong sender of 21 key-downs with a gap in the middle, in which a weak one 60 Hz away keys twice: it is taken.
pub fn two() -> Vec<u8> {
    bytes(valley(21, 60.0, 5e-3))
}

/// The samples of a strong sender of so many key-downs, with ramps of so many seconds, and of a weak one so many Hz
/// away that keys twice in its widest gap.
pub fn valley(key_downs: usize, offset_hz: f64, rise: f64) -> Vec<(f64, f64)> {
    let fs = 3_000.0;
    let marks: Vec<f64> = (0..key_downs).map(|i| 12.0 + 78.5 * i as f64 + if i > 9 { 384.0 } else { 0.0 }).collect();
    let level = |k: f64, starts: &[f64], length: f64, rise: f64| -> f64 {
        starts.iter().map(|s| ramp((k - s) / fs, rise) - ramp((k - s - length) / fs, rise)).sum()
    };
    let sample = |k: f64| {
        let (strong, weak) = (level(k, &marks, 62.5, rise), 0.25 * level(k, &[850.0, 1_010.0], 85.0, 5e-3));
        let angle = TAU * offset_hz * k / fs + 1.0;
        // A little of a tone far away in place of noise.
        let far = 0.002 * (TAU * 0.37 * k).cos();
        (strong + weak * angle.cos() + far, weak * angle.sin())
    };
    (0..2_048).map(|k| sample(k as f64)).collect()
}

/// Numbers from -1 to 1 without a pattern, the same ones each time.
pub struct Chance(pub u64);

impl Chance {
    pub fn next(&mut self) -> f64 {
        self.0 = self.0.wrapping_mul(6_364_136_223_846_793_005).wrapping_add(1_442_695_040_888_963_407);
        (self.0 >> 33) as f64 / (1u64 << 30) as f64 - 1.0
    }
}

/// What is in the gaps of a strong sender: how far from its carrier, how strong, and whether it keys or is steady.
#[derive(Clone, Copy)]
pub struct Other {
    pub offset_hz: f64,
    pub level: f64,
    pub keys: bool,
}

/// A strong sender near 31 Hz with so many key-downs, some of them too short to be fitted and a few too short to be
/// listed, and what else is in its gaps, with a little noise: no two of its counts are the same.
pub fn mixed(rate: f64, key_downs: usize, other: Other) -> Vec<(f64, f64)> {
    let mut chance = Chance(key_downs as u64);
    let (mut at, mut strong, mut weak) = (0.01, Vec::new(), Vec::new());
    for i in 0..key_downs {
        let seconds = match i % 17 {
            3 | 8 => 12e-3,
            14 => 3.5e-3,
            _ => 30e-3 + 5e-3 * chance.next(),
        };
        strong.push((at, at + seconds));
        at += seconds + 20e-3 + 4e-3 * chance.next();
        if i % 9 == 4 {
            weak.extend([(at + 20e-3, at + 90e-3), (at + 130e-3, at + 200e-3)]);
            at += 220e-3;
        }
    }
    let weak = if other.keys { weak } else { vec![(-1.0, at + 1.0)] };
    let sample = |k: usize| {
        let t = k as f64 / rate;
        let sent = [(1.0, 30.8, &strong), (other.level, 30.8 + other.offset_hz, &weak)];
        let noise = (2e-3 * chance.next(), 2e-3 * chance.next());
        sent.iter().fold(noise, |(re, im), (level, hz, marks)| {
            let key = |&(from, to): &(f64, f64)| ramp(t - from, 5e-3) - ramp(t - to, 5e-3);
            let (level, angle) = (level * marks.iter().map(key).sum::<f64>(), TAU * hz * t + 0.7);
            (re + level * angle.cos(), im + level * angle.sin())
        })
    };
    (0..((at + 0.013) * rate) as usize).map(sample).collect()
}

fn ramp(t: f64, rise: f64) -> f64 {
    if t <= -rise / 2.0 {
        0.0
    } else if t >= rise / 2.0 {
        1.0
    } else {
        0.5 + 0.5 * (PI * t / rise).sin()
    }
}

/// Writes a SigMF pair: what its global object has beside the type and the rate, its captures, its samples.
pub fn sigmf(folder: &Path, name: &str, global: Value, captures: Value, data: &[u8]) {
    let mut all = json!({ "core:datatype": "cf32_le", "core:sample_rate": 3000 });
    all.as_object_mut().unwrap().extend(global.as_object().unwrap().clone());
    let meta = json!({ "global": all, "captures": captures, "annotations": [] });
    fs::write(folder.join(format!("{name}.sigmf-meta")), meta.to_string()).unwrap();
    fs::write(folder.join(format!("{name}.sigmf-data")), data).unwrap();
}

/// The repository's example recordings that are whole samples, and not too many for tankair.
pub fn examples() -> Vec<PathBuf> {
    let folder = Path::new(env!("CARGO_MANIFEST_DIR")).join("../../examples");
    let recordings = fs::read_dir(folder).unwrap().map(|e| e.unwrap().path());
    let whole = |path: &PathBuf| {
        let size = fs::metadata(path).unwrap().len();
        path.extension().map_or(false, |e| e == "iq") && size > 0 && size % 8 == 0 && size <= 16_384
    };
    let mut found: Vec<PathBuf> = recordings.filter(whole).collect();
    found.sort();
    assert!(found.len() >= 6, "{found:?}");
    found
}

/// Each line as JSON.
pub fn json_lines(said: &Output) -> Vec<Value> {
    text(&said.stdout).lines().map(|line| serde_json::from_str(line).unwrap()).collect()
}
