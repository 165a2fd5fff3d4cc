//! The command among others: samples on standard output, readers that go away, files that are there already.

mod common;

use common::*;
use std::fs;
use std::os::unix::fs::symlink;

/// The report that goes with `two()`.
fn report(folder: &std::path::Path) -> String {
    text(&lenakkum(folder, "run two.cf32 --rate 3000").stdout)
}

#[test]
fn samples_go_to_standard_output_and_the_report_to_standard_error() {
    let folder = folder("stdout");
    fs::write(folder.join("two.cf32"), two()).unwrap();
    let report = report(&folder);
    lenakkum(&folder, "run two.cf32 --rate 3000 --out left.cf32");
    let left = fs::read(folder.join("left.cf32")).unwrap();
    let said = lenakkum(&folder, "run two.cf32 --rate 3000 --out -");
    assert_eq!((said.status.code(), said.stdout == left, text(&said.stderr)), (Some(0), true, report.clone()));
    let said = bash(&folder, "cat two.cf32 | lenakkum run - --rate 3000 --out - 2>report | cat >again.cf32");
    assert_eq!((said.status.code(), fs::read(folder.join("again.cf32")).unwrap() == left), (Some(0), true));
    assert_eq!(fs::read_to_string(folder.join("report")).unwrap(), report);
    // A refusal leaves nothing to pass on.
    let said = lenakkum(&folder, "run two.cf32 --rate 100 --out -");
    assert_eq!((said.status.code(), said.stdout.len()), (Some(1), 0));
    assert!(text(&said.stderr).starts_with("(run 1)\nlenakkum: two.cf32: refused (1): "));
    assert_wrong(
        &lenakkum(&folder, "run two.cf32 left.cf32 --rate 3000 --out -"),
        "--out -: it is for one recording",
        "two",
    );
}

#[test]
fn a_reader_that_goes_away_is_no_error() {
    let folder = folder("gone");
    fs::write(folder.join("two.cf32"), two()).unwrap();
    fs::write(folder.join("long.cf32"), vec![0; 8 * 300_000]).unwrap();
    let many = "two.cf32 ".repeat(60);
    for line in [
        format!("lenakkum run {many} --rate 3000 --json | head -1"),
        "lenakkum run long.cf32 --rate 3000 --pieces 100samples | head -1".to_string(),
        "lenakkum run long.cf32 --rate 3000 --out - 2>/dev/null | head -c 8".to_string(),
        "lenakkum --help | true".to_string(),
    ] {
        let said = bash(&folder, &line);
        assert_eq!((said.status.code(), text(&said.stderr)), (Some(0), String::new()), "{line}");
    }
    // Files are written all the same.
    let said = bash(&folder, "lenakkum run two.cf32 two.cf32 --rate 3000 --out left-{number}.cf32 | true");
    assert_eq!((said.status.code(), names(&folder).len()), (Some(0), 4));
    // What cannot be written is one.
    let said = bash(&folder, "lenakkum run two.cf32 --rate 3000 >/dev/full");
    assert_wrong(&said, "standard output: No space left", "full");
    // What was written before it stays.
    let said = bash(&folder, "lenakkum run two.cf32 --rate 3000 --out full.cf32 >/dev/full");
    assert_eq!((said.status.code(), fs::metadata(folder.join("full.cf32")).unwrap().len()), (Some(2), 8 * 2_048));
}

#[test]
fn what_is_there_is_replaced_with_force_only() {
    let folder = folder("force");
    fs::write(folder.join("two.cf32"), two()).unwrap();
    sigmf(&folder, "pair", serde_json::json!({}), serde_json::json!([]), &two());
    fs::write(folder.join("there.cf32"), "there").unwrap();
    fs::write(folder.join("half.sigmf-data"), "there").unwrap();
    symlink("two.cf32", folder.join("link.cf32")).unwrap();
    let before = names(&folder);
    for (words, line) in [
        ("two.cf32 --rate 3000 --out two.cf32", "two.cf32: it is the recording itself: --force replaces it"),
        ("two.cf32 --rate 3000 --out ./link.cf32", "link.cf32: it is the recording itself: --force replaces it"),
        ("two.cf32 --rate 3000 --out there.cf32", "there.cf32: it is there already: --force replaces it"),
        ("pair.sigmf-meta --out pair.sigmf-data", "pair.sigmf-data: it is the recording itself"),
        ("two.cf32 --rate 3000 --out half.sigmf-meta", "half.sigmf-data: it is there already"),
    ] {
        assert_wrong(&lenakkum(&folder, &format!("run {words}")), line, words);
    }
    assert_eq!((names(&folder), fs::read(folder.join("two.cf32")).unwrap() == two()), (before.clone(), true));
    assert_eq!(fs::read_to_string(folder.join("there.cf32")).unwrap(), "there");
    for words in ["two.cf32 --rate 3000 --out there.cf32 --force", "two.cf32 --rate 3000 --out link.cf32 --force"] {
        assert_eq!(lenakkum(&folder, &format!("run {words}")).status.code(), Some(0), "{words}");
    }
    let left = fs::read(folder.join("there.cf32")).unwrap();
    assert!(left.len() == two().len() && left != two() && fs::read(folder.join("two.cf32")).unwrap() == left);
    assert_eq!(names(&folder), before);
}

/// Several are run at a time: what one leaves might take another's place before that is read.
#[test]
fn no_output_takes_another_recordings_place() {
    let folder = folder("another");
    for name in ["1.cf32", "2.cf32", "11.cf32", "1-1.cf32", "far-2.cf32"] {
        fs::write(folder.join(name), two()).unwrap();
    }
    symlink("11.cf32", folder.join("far-1.cf32")).unwrap();
    sigmf(&folder, "3", serde_json::json!({ "core:dataset": "far-2.cf32" }), serde_json::json!([]), &two());
    let (before, meta) = (names(&folder), fs::read(folder.join("3.sigmf-meta")).unwrap());
    for (words, file) in [
        ("2.cf32 1.cf32 --out {number}.cf32 --force", "1.cf32"),
        ("2.cf32 1.cf32 --out ./{number}.cf32", "./1.cf32"),
        // It is the recording itself, and the other too.
        ("1.cf32 ./1.cf32 --out {number}.cf32 --force", "1.cf32"),
        ("1.cf32 11.cf32 --out far-{number}.cf32 --force", "far-1.cf32"),
        ("3.sigmf-meta 2.cf32 --out far-{number}.cf32 --force", "far-2.cf32"),
        ("1.cf32 2.cf32 11.cf32 3.sigmf-meta --out {number}.sigmf-meta --force", "3.sigmf-data"),
    ] {
        let line = format!("{file}: it is another recording of this command, and is not replaced: name another file");
        assert_wrong(&lenakkum(&folder, &format!("run {words} --rate 3000")), &format!("lenakkum: {line}\n"), words);
    }
    // Of pieces each is looked at, and the others are written.
    let words = "run 2.cf32 1-1.cf32 --rate 3000 --pieces 2048samples --out {number}-{piece}.cf32 --force";
    let said = lenakkum(&folder, words);
    assert!(text(&said.stderr).contains("lenakkum: 1-1.cf32: it is another recording of this command, and is not"));
    assert_eq!((said.status.code(), fs::remove_file(folder.join("2-1.cf32")).is_ok()), (Some(2), true));
    assert_eq!((names(&folder), fs::read(folder.join("3.sigmf-meta")).unwrap()), (before, meta));
    for name in ["1.cf32", "2.cf32", "11.cf32", "1-1.cf32", "far-2.cf32", "3.sigmf-data"] {
        assert!(fs::read(folder.join(name)).unwrap() == two(), "{name}");
    }
    // Each in its own place is what --force is for.
    let said = lenakkum(&folder, "run 1.cf32 2.cf32 --rate 3000 --out {number}.cf32 --force");
    assert_eq!(said.status.code(), Some(0), "{}", text(&said.stderr));
    assert!(["1.cf32", "2.cf32"].iter().all(|name| fs::read(folder.join(name)).unwrap() != two()));
}

/// By two names one file would be written twice, and what was first in it lost.
#[test]
fn no_file_is_written_twice() {
    let folder = folder("twice");
    fs::write(folder.join("two.cf32"), two()).unwrap();
    fs::create_dir(folder.join("a")).unwrap();
    symlink("a", folder.join("b")).unwrap();
    fs::write(folder.join("there.html"), "there").unwrap();
    symlink("there.html", folder.join("link.html")).unwrap();
    let before = names(&folder);
    let mut cases = vec![
        ("--out x.html --page ./x.html", "x.html"),
        ("--out a/../x.html --page x.html", "a/../x.html"),
        ("--out b/x.html --page a/x.html", "b/x.html"),
        ("--out there.html --page link.html --force", "there.html"),
    ];
    if cfg!(feature = "pictures") {
        cases.extend([("--out x.svg --picture ./x.svg", "./x.svg"), ("--out ./x.svg --picture x.svg", "x.svg")]);
    }
    for (words, file) in cases {
        let said = lenakkum(&folder, &format!("run two.cf32 --rate 3000 {words}"));
        assert_wrong(&said, &format!("lenakkum: {file}: it would be written twice; name another file\n"), words);
    }
    assert_eq!((names(&folder), names(&folder.join("a"))), (before, vec![]));
    // The same name in another folder is another file.
    let said = lenakkum(&folder, "run two.cf32 --rate 3000 --out a/x.html --page x.html");
    assert_eq!(said.status.code(), Some(0), "{}", text(&said.stderr));
}

/// Of pieces each is looked at when its turn comes: neither the page nor another piece takes its place.
#[test]
fn no_piece_takes_the_place_of_another() {
    let folder = folder("twice_of_pieces");
    fs::write(folder.join("long.cf32"), [two(), two(), two()].concat()).unwrap();
    fs::write(folder.join("long1.cf32"), two()).unwrap();
    let said = lenakkum(&folder, "run long.cf32 --rate 3000 --pieces 2048samples --out {piece}.html --page 2.html");
    assert_eq!((said.status.code(), text(&said.stdout).matches("(piece ").count()), (Some(2), 2));
    let line = "lenakkum: 2.html: it would be written twice; name another file\n";
    assert!(text(&said.stderr).contains(line), "{}", text(&said.stderr));
    let page = fs::read_to_string(folder.join("2.html")).unwrap();
    assert!(page.contains("could not be written: 2.html: it would be written twice"));
    assert!(["1.html", "3.html"].iter().all(|name| fs::read(folder.join(name)).unwrap().len() == two().len()));
    // Of several recordings piece 11 of one and piece 1 of another would be one file, whichever is run first.
    let before = names(&folder);
    let apart = "piece 11 of one recording and piece 1 of another would have one name: set {piece} apart, as in {name}-{piece}.iq\n";
    for pattern in ["{name}{piece}.iq", "{piece}{number}.iq"] {
        let words = format!("run long.cf32 long1.cf32 --rate 3000 --pieces 512samples --out {pattern}");
        assert_wrong(&lenakkum(&folder, &words), &format!("lenakkum: --out: {apart}"), pattern);
    }
    assert_eq!(names(&folder), before);
    // Of one recording alone the pieces differ.
    let said = lenakkum(&folder, "run long1.cf32 --rate 3000 --pieces 1024samples --out {name}{piece}.iq");
    assert_eq!((said.status.code(), text(&said.stderr)), (Some(0), String::new()));
    assert!(["long11.iq", "long12.iq"].iter().all(|name| fs::remove_file(folder.join(name)).is_ok()));
    let said = lenakkum(&folder, "run long.cf32 long1.cf32 --rate 3000 --pieces 512samples --out {name}-{piece}.iq");
    assert_eq!((said.status.code(), names(&folder).len()), (Some(0), before.len() + 12 + 4), "{}", text(&said.stderr));
}

/// What is written is f32 pairs, and would be read as something else by these names.
#[test]
fn names_that_do_not_fit_what_is_written() {
    let folder = folder("unfit");
    fs::write(folder.join("two.cf32"), two()).unwrap();
    fs::write(folder.join("one.cf32"), one()).unwrap();
    for (words, line) in [
        ("--out left.sigmf", "left.sigmf: an archive is not written: left.sigmf-meta writes a SigMF pair"),
        ("--out left.ci16", "left.ci16: by its name it is of type ci16, and cf32 is written: name it left.cf32"),
        ("--out left.CS8 --force", "left.CS8: by its name it is of type ci8, and cf32 is written: name it left.cf32"),
        (
            "--pieces 1 --out {piece}.cf64",
            "1.cf64: by its name it is of type cf64, and cf32 is written: name it 1.cf32",
        ),
        ("one.cf32 --out {name}.cu8", "two.cu8: by its name it is of type cu8"),
    ] {
        assert_wrong(&lenakkum(&folder, &format!("run two.cf32 --rate 3000 {words}")), line, words);
    }
    assert_eq!(names(&folder), ["one.cf32", "two.cf32"]);
    for name in ["left.cf32", "left.iq", "left.raw", "left"] {
        assert_eq!(lenakkum(&folder, &format!("run two.cf32 --rate 3000 --out {name}")).status.code(), Some(0));
    }
}

/// A recording may have any name, also one for pictures and pages.
#[test]
fn no_picture_or_page_takes_a_recordings_place() {
    let folder = folder("place");
    for name in ["two.svg", "two.png", "two.html", "1.svg"] {
        fs::write(folder.join(name), two()).unwrap();
    }
    symlink("two.svg", folder.join("link.svg")).unwrap();
    sigmf(&folder, "far", serde_json::json!({ "core:dataset": "two.svg" }), serde_json::json!([]), &[]);
    sigmf(&folder, "out", serde_json::json!({ "core:dataset": "far.cf32" }), serde_json::json!([]), &[]);
    fs::write(folder.join("far.cf32"), two()).unwrap();
    let before = names(&folder);
    let mut cases = vec![
        ("two.html --rate 3000 --page two.html", "two.html: it is the recording itself, and is not replaced"),
        ("1.svg two.html --rate 3000 --page ./two.html --force", "./two.html: it is the recording itself, and is not"),
        ("out.sigmf-meta --out far.cf32", "far.cf32: it is the recording itself: --force replaces it"),
    ];
    if cfg!(feature = "pictures") {
        cases.extend([
            ("two.svg --rate 3000 --picture two.svg", "two.svg: it is the recording itself, and is not replaced"),
            (
                "two.png --rate 3000 --picture two.png --force",
                "two.png: it is the recording itself, and is not replaced",
            ),
            ("two.svg --rate 3000 --picture link.svg", "link.svg: it is the recording itself, and is not replaced"),
            ("two.html 1.svg --rate 3000 --picture {number}.svg", "1.svg: it is the recording itself, and is not"),
            ("far.sigmf-meta --picture two.svg", "two.svg: it is the recording itself, and is not replaced"),
            (
                "1.svg --rate 3000 --pieces 2048samples --picture {piece}.svg",
                "1.svg: it is the recording itself, and is",
            ),
        ]);
    }
    for (words, line) in cases {
        assert_wrong(&lenakkum(&folder, &format!("run {words}")), line, words);
    }
    assert_eq!(names(&folder), before);
    for name in ["two.svg", "two.png", "two.html", "1.svg", "far.cf32"] {
        assert!(fs::read(folder.join(name)).unwrap() == two(), "{name}");
    }
}
