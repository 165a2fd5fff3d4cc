//! The command, run as a person runs it.

mod common;

use common::*;
use std::fs;

#[test]
fn the_report_of_document_01() {
    let folder = folder("report");
    fs::write(folder.join("one.cf32"), one()).unwrap();
    let said = lenakkum(&folder, "run one.cf32 --rate 3000");
    assert_eq!((said.status.code(), text(&said.stdout), text(&said.stderr)), (Some(0), ONE.into(), String::new()));
    let said = fed(&folder, "run - --rate 3000 --hint 0", one());
    assert_eq!((said.status.code(), text(&said.stdout)), (Some(0), ONE.into()));
}

/// The stored reports of the repository's example recordings, which tankair prints too. It takes no more than 16,384
/// bytes and answers `(run 2)` to half a sample; here the one is no limit and the other is named, as is an empty file.
#[test]
fn the_examples() {
    for path in examples() {
        let said = lenakkum(path.parent().unwrap(), &format!("run {} --rate 3000", file_name(&path)));
        assert_eq!(text(&said.stdout), fs::read_to_string(path.with_extension("report")).unwrap(), "{path:?}");
    }
}

#[test]
fn what_the_run_leaves() {
    let folder = folder("out");
    fs::write(folder.join("two.cf32"), two()).unwrap();
    fs::write(folder.join("one.cf32"), one()).unwrap();
    let said = lenakkum(&folder, "run two.cf32 --rate 3000 --out left.cf32");
    assert!(text(&said.stdout).ends_with("(hypothesis two)\n(buffer taken))\n"), "{}", text(&said.stdout));
    let left = fs::read(folder.join("left.cf32")).unwrap();
    assert!(left.len() == 8 * 2_048 && left != two());
    lenakkum(&folder, "run one.cf32 --rate 3000 --out kept.cf32");
    assert_eq!(fs::read(folder.join("kept.cf32")).unwrap(), one());
    assert_eq!(names(&folder), ["kept.cf32", "left.cf32", "one.cf32", "two.cf32"]);
}

#[test]
fn version_and_statement() {
    let folder = folder("version");
    fs::write(folder.join("one.cf32"), one()).unwrap();
    let said = text(&lenakkum(&folder, "--version").stdout);
    let digest = said.lines().find_map(|l| l.strip_prefix("library ")).unwrap();
    assert!(digest.len() == 64 && said.contains("\ncommit "));
    let report = text(&lenakkum(&folder, "run one.cf32 --rate 3000 --statement").stdout);
    assert!(report.starts_with(ONE) && report.contains(digest) && report.contains("(file \"one.cf32\")"));
}

#[test]
fn help_has_the_statuses() {
    for words in ["--help", "run --help", "help run"] {
        let said = lenakkum(&folder("help"), words);
        let help = text(&said.stdout);
        assert_eq!(said.status.code(), Some(0));
        let status = help.split("\nStatus:\n").nth(1).unwrap();
        let numbers: Vec<&str> = status.lines().map(|line| line.split_whitespace().next().unwrap()).collect();
        assert_eq!(numbers, ["0", "1", "2"], "{help}");
    }
}

#[test]
fn several_files() {
    let folder = folder("several");
    fs::write(folder.join("one.cf32"), one()).unwrap();
    fs::write(folder.join("two.cf32"), two()).unwrap();
    fs::write(folder.join("wild.cf32"), bytes([(f64::NAN, 0.0)])).unwrap();
    let said = lenakkum(&folder, "run one.cf32 wild.cf32 two.cf32 --rate 3000");
    let lines = text(&said.stdout);
    assert_eq!(lines.lines().count(), 2);
    assert!(lines.starts_with("one.cf32: one, kept") && lines.contains("\ntwo.cf32: two ("), "{lines}");
    assert!(text(&said.stderr).starts_with("lenakkum: 1 of 3 went wrong:\n"));
    assert!(text(&said.stderr).contains("lenakkum: wild.cf32: refused (3): a sample is infinite or not a number"));
    assert_eq!(said.status.code(), Some(1));
}

#[test]
fn refused() {
    let folder = folder("refused");
    fs::write(folder.join("one.cf32"), one()).unwrap();
    fs::write(folder.join("long.cf32"), vec![0; 8 * ((1 << 20) + 5) + 3]).unwrap();
    let cases = [
        ("one.cf32 --rate 100", 1, "or resample it\n"),
        ("long.cf32 --rate 3000", 2, "--pieces SECONDS runs all of it part by part\n"),
        ("one.cf32 --rate 3000 --hint -1501", 4, "give it in Hz from the recording's centre (--hint HZ)\n"),
    ];
    for (words, number, end) in cases {
        let said = lenakkum(&folder, &format!("run {words} --out left.cf32"));
        assert_eq!((said.status.code(), text(&said.stdout)), (Some(1), format!("(run {number})\n")), "{words}");
        let line = text(&said.stderr);
        assert!(line.lines().count() == 1 && line.contains(&format!(": refused ({number}): ")), "{line}");
        assert!(line.ends_with(end), "{line}");
    }
    assert_eq!(names(&folder), ["long.cf32", "one.cf32"]);
}

/// Each is one line that names what is wrong, status 2, nothing on standard output and nothing written.
#[test]
fn wrong_input() {
    let folder = folder("wrong");
    fs::write(folder.join("one.cf32"), one()).unwrap();
    fs::write(folder.join("empty.cf32"), "").unwrap();
    fs::write(folder.join("odd.cf32"), &one()[..13]).unwrap();
    fs::create_dir(folder.join("folder")).unwrap();
    let before = names(&folder);
    let cases = [
        ("run none.cf32 --rate 3000", "none.cf32: No such file"),
        ("run empty.cf32 --rate 3000", "empty.cf32: it is empty"),
        ("run - --rate 3000", "standard input: it is empty"),
        ("run odd.cf32 --rate 3000", "odd.cf32: its 13 bytes"),
        ("run folder --rate 3000", "folder: Is a directory"),
        ("run one.cf32", "--rate HZ is needed"),
        ("run one.cf32 --rate fast", "'fast' for '--rate <HZ>': it is not a number"),
        ("run one.cf32 --rate nan", "'nan' for '--rate <HZ>': it is not a number"),
        ("run one.cf32 --rate 3000 --hint -x", "'-x' for '--hint <HZ>': it is not a number"),
        ("run one.cf32 --rate 3000 --out folder", "folder: it is a folder"),
        ("run one.cf32 --rate 3000 --out /dev/null", "/dev/null: it is not a regular file"),
        ("run one.cf32 --rate 3000 --out none/left.cf32", "none/left.cf32: No such file"),
        ("run one.cf32 one.cf32 --rate 3000 --out left.cf32", "--out: there are several recordings"),
        ("run one.cf32 --rate 3000 --loud", "'--loud'"),
        ("run - - --rate 3000", "-: it is there twice, and standard input can be read once"),
        ("run - one.cf32 ./one.cf32 - --rate 3000", "-: it is there twice"),
        ("run", "<FILE>"),
        ("walk", "'walk'"),
        ("", "`run` is known"),
    ];
    for (words, line) in cases {
        assert_wrong(&lenakkum(&folder, words), line, words);
    }
    assert_eq!(names(&folder), before);
}

/// A picture is written whole, by the library's own rows, or not at all.
#[cfg(feature = "pictures")]
#[test]
fn pictures() {
    let folder = folder("pictures");
    fs::write(folder.join("one.cf32"), one()).unwrap();
    fs::write(folder.join("two.cf32"), two()).unwrap();
    let said = lenakkum(&folder, "run two.cf32 --rate 3000 --picture two.svg --out left.cf32");
    assert_eq!(said.status.code(), Some(0), "{}", text(&said.stderr));
    let drawn = fs::read_to_string(folder.join("two.svg")).unwrap();
    for word in ["threshold", "listed 21", "short 0", "fitted 21", "skipped 0", "taken off", "before (light)", "</svg>"]
    {
        assert!(drawn.contains(word), "{word}");
    }
    lenakkum(&folder, "run one.cf32 --rate 3000 --picture one.png");
    assert!(fs::read(folder.join("one.png")).unwrap().starts_with(b"\x89PNG"));
    assert_eq!(names(&folder), ["left.cf32", "one.cf32", "one.png", "two.cf32", "two.svg"]);
    let cases = [
        ("run one.cf32 --rate 3000 --picture one.jpg", "one.jpg: a picture's name ends in .svg or .png"),
        ("run one.cf32 --rate 3000 --picture none/one.svg", "none/one.svg: "),
        ("run one.cf32 --rate 3000 --picture none/one.png --out kept.cf32", "none/one.png: "),
        ("run one.cf32 two.cf32 --rate 3000 --picture one.svg", "--picture: there are several recordings"),
    ];
    for (words, line) in cases {
        assert_wrong(&lenakkum(&folder, words), line, words);
    }
    assert_eq!(lenakkum(&folder, "run one.cf32 --rate 100 --picture no.svg").status.code(), Some(1));
    assert_eq!(names(&folder), ["left.cf32", "one.cf32", "one.png", "two.cf32", "two.svg"]);
}
