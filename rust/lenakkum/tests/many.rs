//! Many files: on all processors, in the order given, each with files of its own.

mod common;

use common::*;
use std::fs;
use std::io::Write;
use std::thread;

#[test]
fn lines_come_in_the_order_given() {
    let folder = folder("order");
    // Long ones first, so that those after them are done before them.
    let sizes: Vec<usize> = (0..24).map(|i| if i % 5 == 0 { 200_000 } else { 300 + i }).collect();
    for (i, size) in sizes.iter().enumerate() {
        fs::write(folder.join(format!("{i}.cf32")), vec![0; 8 * size]).unwrap();
    }
    let files: Vec<String> = (0..24).map(|i| format!("{i}.cf32")).collect();
    let run = |threads: &str| {
        let mut command = command(&folder, &format!("run {} --rate 3000 --json", files.join(" ")));
        command.env("RAYON_NUM_THREADS", threads).output().unwrap()
    };
    let (one, eight) = (run("1"), run("8"));
    let samples: Vec<usize> = json_lines(&eight).iter().map(|run| run["samples"].as_u64().unwrap() as usize).collect();
    assert_eq!(samples, sizes);
    assert!(one.stdout == eight.stdout && one.status.code() == Some(0));
}

/// The first file is a pipe that nothing comes through until the second has been read.
#[test]
fn several_are_run_at_a_time() {
    let folder = folder("at_a_time");
    assert_eq!(bash(&folder, "mkfifo first second").status.code(), Some(0));
    let (first, second) = (folder.join("first"), folder.join("second"));
    let feeder = thread::spawn(move || {
        fs::OpenOptions::new().write(true).open(second).unwrap().write_all(&two()).unwrap();
        fs::OpenOptions::new().write(true).open(first).unwrap().write_all(&one()).unwrap();
    });
    let mut command = command(&folder, "run first second --rate 3000");
    let said = command.env("RAYON_NUM_THREADS", "2").timeout(std::time::Duration::from_secs(60)).output().unwrap();
    let lines = text(&said.stdout);
    assert!(lines.starts_with("first: one, kept") && lines.contains("\nsecond: two ("), "{lines}");
    feeder.join().unwrap();
}

#[test]
fn each_has_files_of_its_own() {
    let folder = folder("each");
    fs::create_dir(folder.join("a")).unwrap();
    for name in ["one.cf32", "a/one.cf32"] {
        fs::write(folder.join(name), one()).unwrap();
    }
    sigmf(&folder, "two", serde_json::json!({}), serde_json::json!([]), &two());
    let said = lenakkum(&folder, "run one.cf32 two.sigmf-meta --rate 3000 --out {name}-left.sigmf-meta");
    assert_eq!(said.status.code(), Some(0), "{}", text(&said.stderr));
    assert_eq!(fs::read(folder.join("one-left.sigmf-data")).unwrap(), one());
    assert!(fs::read(folder.join("two-left.sigmf-data")).unwrap() != two());
    let twice = "left-one.cf32: it would be written twice; {number} in its name tells recordings apart";
    assert_wrong(&lenakkum(&folder, "run one.cf32 a/one.cf32 --rate 3000 --out left-{name}.cf32"), twice, "twice");
    let said = lenakkum(&folder, "run one.cf32 a/one.cf32 --rate 3000 --out left-{name}-{number}.cf32");
    assert_eq!(said.status.code(), Some(0), "{}", text(&said.stderr));
    // One that cannot be read keeps none of the others from being written.
    let said = lenakkum(&folder, "run none.cf32 one.cf32 --rate 3000 --out {number}.cf32");
    assert_eq!(said.status.code(), Some(2));
    let left = ["2.cf32", "left-one-1.cf32", "left-one-2.cf32", "one-left.sigmf-data", "one-left.sigmf-meta"];
    assert!(left.iter().all(|name| names(&folder).contains(&name.to_string())), "{:?}", names(&folder));
    assert!(!folder.join("1.cf32").exists());
}

#[cfg(feature = "pictures")]
#[test]
fn each_has_a_picture_of_its_own() {
    let folder = folder("drawn");
    fs::write(folder.join("one.cf32"), one()).unwrap();
    fs::write(folder.join("two.cf32"), two()).unwrap();
    let said = lenakkum(&folder, "run one.cf32 two.cf32 --rate 3000 --picture {name}.svg");
    assert_eq!(said.status.code(), Some(0), "{}", text(&said.stderr));
    let drawn = |name: &str| fs::read_to_string(folder.join(name)).unwrap();
    assert!(drawn("one.svg").contains("one.cf32: one signal") && drawn("two.svg").contains("two.cf32: two signals"));
    assert_eq!(names(&folder), ["one.cf32", "one.svg", "two.cf32", "two.svg"]);
}
