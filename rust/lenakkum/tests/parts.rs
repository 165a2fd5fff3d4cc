//! Long recordings: parts and pieces.

mod common;

use common::*;
use serde_json::Value;
use std::fs;
use std::path::{Path, PathBuf};

/// A folder with a recording of three times 2,048 samples: two senders, nothing, two senders.
fn long(name: &str) -> PathBuf {
    let folder = folder(name);
    fs::write(folder.join("two.cf32"), two()).unwrap();
    fs::write(folder.join("long.cf32"), [two(), vec![0; two().len()], two()].concat()).unwrap();
    folder
}

fn report(folder: &Path, words: &str) -> String {
    let said = lenakkum(folder, &format!("run {words} --rate 3000"));
    assert_eq!((said.status.code(), text(&said.stderr)), (Some(0), String::new()), "{words}");
    text(&said.stdout)
}

#[test]
fn a_part_is_run_as_a_recording_of_its_own() {
    let folder = long("part");
    let alone = report(&folder, "two.cf32");
    assert_eq!(report(&folder, "long.cf32 --start 4096samples"), alone);
    assert_eq!(report(&folder, "long.cf32 --length 2048samples"), alone);
    assert_eq!(report(&folder, "long.cf32 --length 0.6827"), alone, "rounded to the nearest sample");
    let said = fed(&folder, "run - --rate 3000 --start 4096samples", fs::read(folder.join("long.cf32")).unwrap());
    assert_eq!(text(&said.stdout), alone);
    let run = json_lines(&lenakkum(&folder, "run long.cf32 --rate 3000 --start 0.5 --length 0.25s --json")).remove(0);
    assert_eq!((&run["first_sample"], &run["samples"]), (&1500.into(), &750.into()));
    assert_eq!((&run["start_s"], &run["duration_s"]), (&0.5.into(), &0.25.into()));
}

#[test]
fn pieces_have_a_report_each_with_its_place() {
    let folder = long("pieces");
    let alone = report(&folder, "two.cf32");
    let nothing = report(&folder, "long.cf32 --start 2048samples --length 2048samples");
    let place = |n: usize, first: usize| format!("(piece {n} {first} 2048 {} {})\n", first as f64 / 3e3, 2048.0 / 3e3);
    let all = [place(1, 0), alone.clone(), place(2, 2048), nothing, place(3, 4096), alone].concat();
    assert_eq!(report(&folder, "long.cf32 --pieces 2048samples"), all);
    let input = fs::read(folder.join("long.cf32")).unwrap();
    assert_eq!(text(&fed(&folder, "run - --rate 3000 --pieces 2048samples", input).stdout), all);
    // The last is what is left; none is empty.
    let sizes = |words: &str| -> Vec<Value> {
        let said = lenakkum(&folder, &format!("run long.cf32 --rate 3000 --json {words}"));
        json_lines(&said).iter().map(|run| run["samples"].clone()).collect()
    };
    assert_eq!(sizes("--pieces 1s"), [3000, 3000, 144]);
    assert_eq!(sizes("--pieces 3072samples"), [3072, 3072]);
    assert_eq!(sizes("--pieces 1 --start 1 --length 1.5"), [3000, 144]);
    assert_eq!(sizes("--pieces 1000samples --length 2000samples"), [1000, 1000]);
    // Positions count from the piece, seconds from the recording.
    let runs = json_lines(&lenakkum(&folder, "run long.cf32 --rate 3000 --pieces 2048samples --json"));
    let at = |run: &Value, name: &str| run["elements"][0][name].as_f64().unwrap();
    assert_eq!((at(&runs[2], "start"), &runs[2]["piece"]), (at(&runs[0], "start"), &3.into()));
    assert!((at(&runs[2], "start_s") - (4096.0 + at(&runs[0], "start")) / 3e3).abs() < 1e-12);
    // Among several files each piece has a line.
    let said = report(&folder, "two.cf32 long.cf32 --pieces 2s");
    let lines: Vec<&str> = said.lines().map(|line| line.split(": ").next().unwrap()).collect();
    assert_eq!(lines, ["two.cf32 [0 s to 0.682667 s]", "long.cf32 [0 s to 2 s]", "long.cf32 [2 s to 2.048 s]"]);
}

#[test]
fn what_is_left_of_pieces() {
    let folder = long("left");
    report(&folder, "two.cf32 --out left.cf32");
    let left = fs::read(folder.join("left.cf32")).unwrap();
    report(&folder, "long.cf32 --pieces 2048samples --out left-{piece}.cf32");
    assert!(fs::read(folder.join("left-3.cf32")).unwrap() == left);
    let said = lenakkum(&folder, "run long.cf32 --rate 3000 --pieces 2048samples --out -");
    assert!(said.stdout == [&left[..], &vec![0; left.len()], &left].concat());
    assert_eq!(text(&said.stderr).matches("(piece ").count(), 3);
    // Each piece is looked at: one that is there is not replaced, and the others are written.
    fs::remove_file(folder.join("left-1.cf32")).unwrap();
    fs::remove_file(folder.join("left-3.cf32")).unwrap();
    let said = lenakkum(&folder, "run long.cf32 --rate 3000 --pieces 2048samples --out left-{piece}.cf32");
    assert_eq!((said.status.code(), text(&said.stdout).matches("(piece ").count()), (Some(2), 2));
    assert!(
        text(&said.stderr).contains("1 of 3 went wrong") && text(&said.stderr).contains("left-2.cf32: it is there")
    );
    assert!(fs::read(folder.join("left-3.cf32")).unwrap() == left);
    // A piece that is refused goes on as it came, and the others are run.
    let mut wild = fs::read(folder.join("long.cf32")).unwrap();
    wild[8 * 2048..][..4].copy_from_slice(&f32::INFINITY.to_le_bytes());
    let said = fed(&folder, "run - --rate 3000 --pieces 2048samples --out -", wild.clone());
    assert!(said.stdout == [&left[..], &wild[left.len()..2 * left.len()], &left].concat());
    assert_eq!(said.status.code(), Some(1));
    assert!(text(&said.stderr).contains("(piece 2 2048 2048 0.6826666666666666 0.6826666666666666)\n(run 3)\n"));
}

#[test]
fn one_that_is_too_long_is_refused_and_told_what_to_do() {
    let folder = folder("long");
    fs::write(folder.join("long.cf32"), vec![0; 8 * ((1 << 20) + 1_000)]).unwrap();
    for words in ["", "--length 400"] {
        let said = lenakkum(&folder, &format!("run long.cf32 --rate 3000 {words}"));
        assert_eq!((said.status.code(), text(&said.stdout)), (Some(1), "(run 2)\n".to_string()));
        let line = text(&said.stderr);
        let why =
            "refused (2): it has more than the 1048576 samples that are run at once: --start and --length choose \
                   a part, --pieces SECONDS runs all of it part by part";
        assert_eq!(line, format!("lenakkum: long.cf32: {why}\n"));
    }
    let said = lenakkum(&folder, "run long.cf32 --rate 3000 --pieces 300 --json");
    let sizes: Vec<Value> = json_lines(&said).iter().map(|run| run["samples"].clone()).collect();
    assert_eq!((said.status.code(), sizes), (Some(0), vec![900_000.into(), 149_576.into()]));
    let said = lenakkum(&folder, "run long.cf32 --rate 3000 --length 1048576samples --json");
    assert_eq!((said.status.code(), &json_lines(&said)[0]["samples"]), (Some(0), &1_048_576.into()));
}

#[test]
fn parts_that_are_wrong() {
    let folder = long("wrong_parts");
    for (words, line) in [
        ("--pieces 0", "--pieces: it is less than a sample"),
        ("--length 0.0001", "--length: it is less than a sample"),
        ("--pieces 400", "--pieces: 1200000 samples are more than the 1048576 run at once"),
        ("--start 3", "long.cf32: --start is beyond its end: it has 6144 samples, 2.048 s"),
        ("--start 6144samples", "long.cf32: --start is its end: it has 6144 samples"),
        ("--start soon", "'soon' for '--start <EXTENT>': it is neither seconds, as 12.5, nor samples"),
        ("--start nan", "it is neither seconds"),
        ("--start 1.5samples", "it is neither seconds"),
        (
            "--pieces 1 --out left.cf32",
            "--out: there may be several pieces: name a file for each, as in left-{piece}.cf32",
        ),
        ("--out left-{piece}.cf32", "--out: {piece} is for --pieces"),
        ("--out left-{place}.cf32", "--out: in braces {name}, {number} and {piece} are known"),
    ] {
        assert_wrong(&lenakkum(&folder, &format!("run long.cf32 --rate 3000 {words}")), line, words);
    }
    assert_eq!(names(&folder), ["long.cf32", "two.cf32"]);
}
