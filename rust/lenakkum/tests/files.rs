//! Recordings as people have them: SigMF, other sample types, and what is no recording.

mod common;

use common::*;
use serde_json::{json, Value};
use sha2::{Digest, Sha512};
use std::fs;
use std::path::Path;

/// Two samples that every type can hold: -1 + 0.5 i, 0 + 0.25 i.
const PARTS: [f64; 4] = [-1.0, 0.5, 0.0, 0.25];

/// The bytes of a part in a type of this name: `c`, the kind of number, its bits, its order.
fn encoded(kind: &str, x: f64) -> Vec<u8> {
    let (number, big) = (kind.split('_').next().unwrap(), kind.ends_with("_be"));
    let mut little = match number {
        "cf32" => (x as f32).to_le_bytes().to_vec(),
        "cf64" => x.to_le_bytes().to_vec(),
        "ci8" => ((x * 128.0) as i8).to_le_bytes().to_vec(),
        "cu8" => ((x * 128.0) as i64 + 128).to_le_bytes()[..1].to_vec(),
        "ci16" => ((x * 32_768.0) as i16).to_le_bytes().to_vec(),
        "cu16" => ((x * 32_768.0) as i64 + 32_768).to_le_bytes()[..2].to_vec(),
        "ci32" => ((x * 2_147_483_648.0) as i32).to_le_bytes().to_vec(),
        "cu32" => ((x * 2_147_483_648.0) as i64 + 2_147_483_648).to_le_bytes()[..4].to_vec(),
        _ => panic!("{kind}"),
    };
    if big {
        little.reverse();
    }
    little
}

fn all_types() -> Vec<String> {
    let orders = |number: &str| ["_le", "_be"].map(|order| format!("{number}{order}"));
    let mut all: Vec<String> =
        ["cf32", "cf64", "ci16", "cu16", "ci32", "cu32"].iter().flat_map(|number| orders(number)).collect();
    all.extend(["ci8".to_string(), "cu8".to_string()]);
    all
}

/// The samples as they were read: what a run leaves that keeps the recording.
fn as_read(folder: &Path, words: &str) -> Vec<u8> {
    let said = lenakkum(folder, &format!("run {words} --out read.cf32 --force"));
    assert_eq!(said.status.code(), Some(0), "{words}: {}", text(&said.stderr));
    assert!(text(&said.stdout).ends_with("(buffer kept))\n"));
    fs::read(folder.join("read.cf32")).unwrap()
}

#[test]
fn every_complex_type_is_read_to_full_scale_1() {
    let folder = folder("types");
    let expected = bytes([(PARTS[0], PARTS[1]), (PARTS[2], PARTS[3])]);
    for kind in all_types() {
        let data: Vec<u8> = PARTS.iter().flat_map(|&x| encoded(&kind, x)).collect();
        sigmf(&folder, "typed", json!({ "core:datatype": kind }), json!([]), &data);
        assert_eq!(as_read(&folder, "typed.sigmf-meta"), expected, "{kind}");
        assert_eq!(as_read(&folder, &format!("typed.sigmf-data --format {kind}")), expected, "{kind}");
        fs::write(folder.join("bare.iq"), &data).unwrap();
        assert_eq!(as_read(&folder, &format!("bare.iq --rate 3000 --format {kind}")), expected, "{kind}");
        // On the command line little-endian needs no saying.
        if let Some(number) = kind.strip_suffix("_le") {
            assert_eq!(as_read(&folder, &format!("bare.iq --rate 3000 --format {number}")), expected, "{kind}");
        }
    }
}

/// Numbers that an f32 cannot hold, or only after they were brought to full scale: each goes to the nearest, ties to
/// even.
#[test]
fn numbers_are_rounded_to_the_nearest() {
    let folder = folder("rounded");
    let (half, step) = (2_f64.powi(-24), 2_f32.powi(-23));
    let cases = [
        ("cf64", (1.0 + 1.5 * half).to_le_bytes().to_vec(), 1.0 + step),
        ("cf64", (-1.0 - 1.5 * half).to_le_bytes().to_vec(), -1.0 - step),
        ("cf64", (1.0 + half).to_le_bytes().to_vec(), 1.0),
        ("cf64", (1.0 + 3.0 * half).to_le_bytes().to_vec(), 1.0 + 2.0 * step),
        ("cf64", (1.0 + 0.9 * half).to_le_bytes().to_vec(), 1.0),
        // The smallest step off the middle, and the largest number.
        ("cu32", 2_147_483_649_u32.to_le_bytes().to_vec(), 2_f32.powi(-31)),
        ("cu32", 2_147_483_647_u32.to_le_bytes().to_vec(), -(2_f32.powi(-31))),
        ("cu32", u32::MAX.to_le_bytes().to_vec(), 1.0),
        ("ci32", 1_i32.to_le_bytes().to_vec(), 2_f32.powi(-31)),
        ("ci32", 16_777_217_i32.to_le_bytes().to_vec(), 2_f32.powi(-7)),
        ("ci32", 16_777_219_i32.to_le_bytes().to_vec(), 16_777_220.0 * 2_f32.powi(-31)),
    ];
    for (kind, part, expected) in cases {
        fs::write(folder.join("part.iq"), [&part[..], &part].concat()).unwrap();
        let read = as_read(&folder, &format!("part.iq --rate 3000 --format {kind}"));
        assert_eq!(read, [expected.to_le_bytes(), expected.to_le_bytes()].concat(), "{kind} {part:?}");
    }
}

/// Samples are not taken for f32 where the file's name speaks of others.
#[test]
fn endings_that_name_a_type() {
    let folder = folder("endings");
    for (ending, kind) in [("cu8", "cu8"), ("cs16", "ci16"), ("ci16", "ci16"), ("CF64", "cf64")] {
        fs::write(folder.join(format!("tank.{ending}")), PARTS.map(|x| encoded(kind, x)).concat()).unwrap();
        let said = lenakkum(&folder, &format!("run tank.{ending} --rate 3000"));
        assert_wrong(&said, &format!("by its name it is of another type: --format {kind}"), ending);
        let expected = bytes([(PARTS[0], PARTS[1]), (PARTS[2], PARTS[3])]);
        assert_eq!(as_read(&folder, &format!("tank.{ending} --rate 3000 --format {kind}")), expected);
    }
    fs::write(folder.join("tank.iq"), one()).unwrap();
    assert_eq!(text(&lenakkum(&folder, "run tank.iq --rate 3000").stdout), ONE);
}

/// A sender is found alike in every type, as fine as the type is.
#[test]
fn the_sender_is_taken_off_in_every_type() {
    let folder = folder("types_taken");
    for kind in all_types() {
        let data: Vec<u8> = valley(21, 60.0, 5e-3)
            .iter()
            .flat_map(|&(re, im)| [re, im])
            .flat_map(|x| encoded(&kind, 0.7 * x))
            .collect();
        sigmf(&folder, "two", json!({ "core:datatype": kind }), json!([]), &data);
        let run = json_lines(&lenakkum(&folder, "run two.sigmf-meta --json")).remove(0);
        assert_eq!((&run["fitted"], &run["hypothesis"], &run["buffer"]), (&21.into(), &"two".into(), &"taken".into()));
    }
}

#[test]
fn bytes_that_are_no_samples_are_passed_over() {
    let folder = folder("heads");
    let (head, tail) = (vec![7; 44], vec![9; 13]);
    let whole = bytes([(0.5, 0.25), (0.125, 1.0), (0.75, 0.0), (0.0625, 0.5)]);
    let data = [&head[..], &whole[..16], &head[..], &whole[16..], &tail[..]].concat();
    let captures = json!([
        { "core:sample_start": 0, "core:header_bytes": 44 },
        { "core:sample_start": 2, "core:header_bytes": 44 },
    ]);
    sigmf(&folder, "two", json!({ "core:trailing_bytes": 13 }), captures, &data);
    assert_eq!(as_read(&folder, "two.sigmf-meta"), whole);
    assert_eq!(as_read(&folder, "two.sigmf-meta --capture 1"), &whole[16..]);
    assert_eq!(as_read(&folder, "two.sigmf-meta --start 1samples --length 2samples"), &whole[8..24]);
}

#[test]
fn captures_at_different_frequencies_are_run_one_at_a_time() {
    let folder = folder("captures");
    let data = bytes([(0.5, 0.25), (0.125, 1.0), (0.75, 0.0)]);
    let at = |hz: &[f64]| -> Value {
        hz.iter().enumerate().map(|(i, hz)| json!({ "core:sample_start": i, "core:frequency": hz })).collect()
    };
    sigmf(&folder, "far", json!({}), at(&[7e6, 7e6, 10e6]), &data);
    assert_wrong(
        &lenakkum(&folder, "run far.sigmf-meta"),
        "it has 3 captures at different frequencies: --capture N names one, from 0 to 2",
        "far",
    );
    assert_eq!(as_read(&folder, "far.sigmf-meta --capture 0"), &data[..8]);
    assert_eq!(as_read(&folder, "far.sigmf-meta --capture 2"), &data[16..]);
    assert_wrong(&lenakkum(&folder, "run far.sigmf-meta --capture 3"), "--capture 3: it has 3, from 0", "none");
    sigmf(&folder, "same", json!({}), at(&[7e6, 7e6]), &data);
    assert_eq!(as_read(&folder, "same.sigmf-meta"), data);
    let captures = json!([
        { "core:sample_start": 0, "core:global_index": 100 },
        { "core:sample_start": 1, "core:global_index": 107 },
    ]);
    sigmf(&folder, "gap", json!({}), captures, &data);
    assert_wrong(&lenakkum(&folder, "run gap.sigmf-meta"), "samples are missing between its 2 captures", "gap");
    // A capture without an index between two that have one hides nothing.
    for (last, whole) in [(102, true), (107, false), (101, false), (99, false)] {
        let captures = json!([
            { "core:sample_start": 0, "core:global_index": 100 },
            { "core:sample_start": 1 },
            { "core:sample_start": 2, "core:global_index": last },
        ]);
        sigmf(&folder, "between", json!({}), captures, &data);
        if whole {
            assert_eq!(as_read(&folder, "between.sigmf-meta"), data);
        } else {
            let said = lenakkum(&folder, "run between.sigmf-meta");
            assert_wrong(&said, "samples are missing between its 3 captures: --capture N", "between");
        }
    }
    fs::write(folder.join("bare.cf32"), &data).unwrap();
    assert_wrong(&lenakkum(&folder, "run bare.cf32 --rate 3000 --capture 0"), "--capture is for files with", "bare");
}

/// Where the samples are the later ones of a longer recording, captures count from its beginning.
#[test]
fn captures_count_from_the_offset() {
    let folder = folder("offset");
    let data = bytes([(0.5, 0.25), (0.125, 1.0), (0.75, 0.0)]);
    let captures = |first: u64| json!([{ "core:sample_start": first }, { "core:sample_start": first + 2 }]);
    sigmf(&folder, "later", json!({ "core:offset": 1_000 }), captures(1_000), &data);
    assert_eq!(as_read(&folder, "later.sigmf-meta"), data);
    assert_eq!(as_read(&folder, "later.sigmf-meta --capture 0"), &data[..16]);
    assert_eq!(as_read(&folder, "later.sigmf-meta --capture 1"), &data[16..]);
    sigmf(&folder, "before", json!({ "core:offset": 1_000 }), captures(999), &data);
    assert_wrong(&lenakkum(&folder, "run before.sigmf-meta"), "it begins before core:offset", "before");
}

#[test]
fn the_digest_of_the_samples_is_checked() {
    let folder = folder("sha512");
    let sum: String = Sha512::digest(one()).iter().map(|byte| format!("{byte:02X}")).collect();
    sigmf(&folder, "right", json!({ "core:sha512": sum }), json!([]), &one());
    assert_eq!(text(&lenakkum(&folder, "run right.sigmf-meta").stdout), ONE);
    sigmf(&folder, "wrong", json!({ "core:sha512": sum }), json!([]), &two());
    assert_wrong(&lenakkum(&folder, "run wrong.sigmf-data"), "SHA-512 is another than core:sha512 says", "wrong");
    for sum in [json!(7), json!(null), json!([sum])] {
        sigmf(&folder, "none", json!({ "core:sha512": sum }), json!([]), &one());
        assert_wrong(&lenakkum(&folder, "run none.sigmf-meta"), "core:sha512 is not a text", "no text");
    }
}

#[test]
fn rates_and_types_that_contradict_each_other_are_refused() {
    let folder = folder("rates");
    sigmf(&folder, "one", json!({}), json!([]), &one());
    assert_eq!(text(&lenakkum(&folder, "run one.sigmf-meta --rate 3000 --format cf32").stdout), ONE);
    let said = lenakkum(&folder, "run one.sigmf-meta --rate 48000");
    assert_wrong(&said, "one.sigmf-meta: its rate is 3000, and --rate says otherwise: leave it out", "rate");
    let said = lenakkum(&folder, "run one.sigmf-meta --format ci16");
    assert_wrong(&said, "its samples are cf32_le, and --format says otherwise: leave it out", "format");
    let meta = r#"{"global": {"core:datatype": "cf32_le"}}"#;
    fs::write(folder.join("one.sigmf-meta"), meta).unwrap();
    assert_wrong(&lenakkum(&folder, "run one.sigmf-meta"), "(core:sample_rate): --rate HZ says it", "none");
    assert_eq!(text(&lenakkum(&folder, "run one.sigmf-meta --rate 3000").stdout), ONE);
}

#[test]
fn the_file_of_samples_may_have_another_name() {
    let folder = folder("dataset");
    sigmf(&folder, "one", json!({ "core:dataset": "tank 7.raw" }), json!([]), &two());
    fs::write(folder.join("tank 7.raw"), one()).unwrap();
    assert_eq!(text(&lenakkum(&folder, "run one.sigmf-meta").stdout), ONE);
    assert_wrong(&lenakkum(&folder, "run one.sigmf-data"), "its samples are in another file: tank 7.raw", "data");
    sigmf(&folder, "only", json!({ "core:metadata_only": true }), json!([]), &one());
    assert_wrong(&lenakkum(&folder, "run only.sigmf-meta"), "it is metadata only", "only");
}

/// A type on the command line is no way out where metadata say one.
#[test]
fn half_a_sample() {
    let folder = folder("half");
    fs::write(folder.join("half.cf32"), &one()[..13]).unwrap();
    let words = "its 13 bytes are not a whole number of samples (cf32_le: 8 bytes each): see that";
    let said = lenakkum(&folder, "run half.cf32 --rate 3000");
    assert_wrong(&said, &format!("{words} it is whole and of that type (--format names another)"), "bare");
    sigmf(&folder, "half", json!({}), json!([]), &one()[..13]);
    let said = lenakkum(&folder, "run half.sigmf-meta");
    assert_wrong(&said, &format!("{words} its file of samples is whole, and core:datatype, "), "SigMF");
    assert!(!text(&said.stderr).contains("--format"));
}

#[test]
fn metadata_that_are_wrong() {
    let folder = folder("metadata");
    let cases = [
        (json!({ "core:datatype": "cf16_le" }), json!([]), "\"cf16_le\" is not known; cf32_le, "),
        (json!({ "core:datatype": "ri16_le" }), json!([]), "its samples are real (ri16_le)"),
        (json!({ "core:datatype": 7 }), json!([]), "does not say the sample type"),
        (json!({ "core:sample_rate": "fast" }), json!([]), "core:sample_rate"),
        (json!({ "core:num_channels": 2 }), json!([]), "it has 2 channels"),
        (json!({ "core:trailing_bytes": 1e9 as u64 }), json!([]), "core:trailing_bytes are more bytes"),
        (json!({ "core:trailing_bytes": -1 }), json!([]), "core:trailing_bytes is not a whole number"),
        (json!({ "core:dataset": "../one.raw" }), json!([]), "core:dataset is not the name of a file"),
        (json!({}), json!([{ "core:sample_start": 0 }, { "core:sample_start": 999 }]), "after the end of the samples"),
        (json!({}), json!([{ "core:sample_start": 9 }, { "core:sample_start": 1 }]), "not in the order"),
        (json!({}), json!([{ "core:sample_start": 9 }]), "first capture does not begin"),
    ];
    for (global, captures, words) in cases {
        sigmf(&folder, "wrong", global, captures, &one());
        assert_wrong(&lenakkum(&folder, "run wrong.sigmf-meta"), words, words);
    }
    fs::write(folder.join("wrong.sigmf-meta"), "{").unwrap();
    assert_wrong(&lenakkum(&folder, "run wrong.sigmf-meta"), "wrong.sigmf-meta: it is not JSON", "json");
    fs::remove_file(folder.join("wrong.sigmf-meta")).unwrap();
    assert_wrong(&lenakkum(&folder, "run wrong.sigmf-data"), "wrong.sigmf-meta: No such file", "alone");
}

/// An archive with these files.
fn archive(path: &Path, files: &[(&str, &[u8])]) {
    let mut archive = tar::Builder::new(fs::File::create(path).unwrap());
    for (name, data) in files {
        let mut header = tar::Header::new_gnu();
        header.set_size(data.len() as u64);
        header.set_mode(0o644);
        archive.append_data(&mut header, name, *data).unwrap();
    }
    archive.finish().unwrap();
}

#[test]
fn archives_are_read() {
    let folder = folder("archives");
    let sum: String = Sha512::digest(one()).iter().map(|byte| format!("{byte:02x}")).collect();
    sigmf(&folder, "tank", json!({ "core:sha512": sum }), json!([]), &one());
    let meta = fs::read(folder.join("tank.sigmf-meta")).unwrap();
    let data: (&str, &[u8]) = ("tank/tank.sigmf-data", &one());
    archive(&folder.join("tank.sigmf"), &[data, ("tank/tank.sigmf-meta", &meta)]);
    assert_eq!(text(&lenakkum(&folder, "run tank.sigmf").stdout), ONE);
    let said = text(&lenakkum(&folder, "run tank.sigmf --statement").stdout);
    let sum = bash(&folder, "sha256sum tank.sigmf-data");
    assert!(said.contains(&format!("(recording {})", &text(&sum.stdout)[..64])), "{said}");
    archive(&folder.join("two.sigmf"), &[("a.sigmf-meta", &meta), ("b.sigmf-meta", &meta)]);
    archive(&folder.join("none.sigmf"), &[data]);
    archive(&folder.join("half.sigmf"), &[("tank.sigmf-meta", &meta)]);
    fs::write(folder.join("no.sigmf"), two()).unwrap();
    let mut whole = fs::read(folder.join("tank.sigmf")).unwrap();
    archive(&folder.join("cut.sigmf"), &[("tank.sigmf-meta", &meta), ("tank.sigmf-data", &one())]);
    fs::OpenOptions::new().write(true).open(folder.join("cut.sigmf")).unwrap().set_len(2_000).unwrap();
    // The head of the second file, after the first and its own head.
    whole[512 + (one().len() + 511) / 512 * 512] ^= 7;
    fs::write(folder.join("bent.sigmf"), whole).unwrap();
    for (file, words) in [
        ("two.sigmf", "it has 2 recordings: `tar -xf` unpacks them"),
        ("none.sigmf", "there are no metadata (.sigmf-meta) in the archive"),
        ("half.sigmf", "there are no samples (tank.sigmf-data) in the archive"),
        ("no.sigmf", "it is not a tar archive"),
        ("cut.sigmf", "its tar archive is damaged or cut: see that it was copied whole"),
        ("bent.sigmf", "its tar archive is damaged or cut: see that it was copied whole"),
    ] {
        assert_wrong(&lenakkum(&folder, &format!("run {file}")), words, file);
    }
}

#[test]
fn a_pair_that_is_written_keeps_what_is_known() {
    let folder = folder("kept");
    let described = json!({
        "core:description": "mast 3",
        "core:author": "Ada",
        "core:license": "https://creativecommons.org/licenses/by/4.0/",
        "core:hw": "a loop and a receiver",
        "core:geolocation": { "type": "Point", "coordinates": [13.4, 52.5, 34] },
    });
    let mut global = described.clone();
    global["core:recorder"] = "rx".into();
    let captures =
        json!([{ "core:sample_start": 0, "core:frequency": 7.03e6, "core:datetime": "2026-11-16T10:00:00Z" }]);
    sigmf(&folder, "two", global, captures, &[two(), two()].concat());
    let said = lenakkum(&folder, "run two.sigmf-meta --start 2048samples --out left.sigmf-meta");
    assert!(text(&said.stdout).ends_with("(buffer taken))\n"), "{}", text(&said.stderr));
    let meta: Value = serde_json::from_slice(&fs::read(folder.join("left.sigmf-meta")).unwrap()).unwrap();
    for (name, value) in described.as_object().unwrap() {
        assert_eq!(&meta["global"][name], value, "{name}");
    }
    assert_eq!(meta["global"]["core:recorder"], Value::Null);
    // 2,048 samples later.
    let capture = &meta["captures"][0];
    assert_eq!((&capture["core:sample_start"], &capture["core:frequency"]), (&0.into(), &7.03e6.into()));
    assert_eq!(capture["core:datetime"], "2026-11-16T10:00:00.682666667Z");
    let run = json_lines(&lenakkum(&folder, "run two.sigmf-meta --start 2048samples --json")).remove(0);
    let (keys, notes) = (run["elements"].as_array().unwrap(), meta["annotations"].as_array().unwrap());
    assert_eq!((keys.len(), notes.len()), (21, 21));
    for (key, note) in keys.iter().zip(notes) {
        let (start, end) = (key["start"].as_f64().unwrap().floor(), key["end"].as_f64().unwrap().ceil());
        assert_eq!(note["core:label"], "key-down");
        assert_eq!(note["core:sample_start"].as_f64(), Some(start));
        assert_eq!(note["core:sample_count"].as_f64(), Some(end - start));
    }
    // What is written is read, and its digest is right.
    let said = lenakkum(&folder, "run left.sigmf-data");
    assert!(text(&said.stdout).starts_with("(run 0\n(size 2048 8 256)\n"), "{}", text(&said.stderr));
    fs::write(folder.join("left.sigmf-data"), two()).unwrap();
    assert_wrong(&lenakkum(&folder, "run left.sigmf-data"), "core:sha512", "changed");
}

/// Each capture that has samples in what is written, with the date of its first of them.
#[test]
fn a_pair_that_is_written_keeps_its_captures() {
    let folder = folder("kept_captures");
    let at = |start: u64, seconds: u64| {
        let date = format!("2026-11-16T10:00:{seconds:02}Z");
        json!({ "core:sample_start": start, "core:frequency": 7.03e6, "core:datetime": date })
    };
    // The receiver stood still between them: dates do not follow from the first.
    let captures = json!([at(0, 0), at(3_000, 10), at(6_000, 30)]);
    sigmf(&folder, "three", json!({}), captures.clone(), &bytes(vec![(0.5, 0.25); 7_000]));
    let written = |words: &str| -> Vec<(u64, String)> {
        let said = lenakkum(&folder, &format!("run three.sigmf-meta {words} --out left.sigmf-meta --force"));
        assert_eq!(said.status.code(), Some(0), "{words}: {}", text(&said.stderr));
        let meta: Value = serde_json::from_slice(&fs::read(folder.join("left.sigmf-meta")).unwrap()).unwrap();
        let field = |c: &Value| {
            assert_eq!(c["core:frequency"], 7.03e6);
            (c["core:sample_start"].as_u64().unwrap(), c["core:datetime"].as_str().unwrap().to_string())
        };
        meta["captures"].as_array().unwrap().iter().map(field).collect()
    };
    let expected = |all: &[(u64, &str)]| -> Vec<(u64, String)> {
        all.iter().map(|(start, seconds)| (*start, format!("2026-11-16T10:00:{seconds}Z"))).collect()
    };
    assert_eq!(written(""), expected(&[(0, "00"), (3_000, "10"), (6_000, "30")]));
    assert_eq!(written("--start 4500samples"), expected(&[(0, "10.500"), (1_500, "30")]));
    assert_eq!(written("--start 3000samples --length 10samples"), expected(&[(0, "10")]));
    assert_eq!(written("--capture 2"), expected(&[(0, "30")]));
    // So does a statement.
    let said = text(&lenakkum(&folder, "run three.sigmf-meta --start 4500samples --statement").stdout);
    assert!(said.contains("\n(date 2026-11-16T10:00:10.500Z)\n"), "{said}");
}
