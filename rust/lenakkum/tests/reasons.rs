//! Why a recording was kept: the four conditions in words, held to what the run did.

mod common;

use common::*;
use serde_json::Value;
use std::fs;
use std::path::Path;

/// How the words of each condition begin, where it fails.
const FAILS: [&[&str]; 4] = [
    &[
        "the gaps hold no second sender: ",
        "there are no gap blocks ",
        "the gaps hold something that does not key: ",
        "it cannot be told what",
    ],
    &[" fitted (at least 20 are needed)"],
    &["the carrier was found at "],
    &["the sender's rest, over the neighbour's level, is "],
];

/// The run in JSON, and which of the four conditions it says failed.
fn kept_because(folder: &Path, words: &str) -> (Value, Vec<usize>) {
    let said = lenakkum(folder, &format!("run {words} --rate 3000 --json"));
    let json = json_lines(&said).remove(0);
    let which = |reason: &Value| {
        let reason = reason.as_str().unwrap();
        FAILS.iter().position(|words| words.iter().any(|w| reason.contains(w))).unwrap()
    };
    let failed = json["kept_because"].as_array().unwrap().iter().map(which).collect();
    (json, failed)
}

/// Recordings of which one condition fails and no other, and one of which none does.
fn alone(folder: &Path) -> [(&'static str, Option<usize>); 8] {
    fs::write(folder.join("two.cf32"), two()).unwrap();
    fs::write(folder.join("near.cf32"), bytes(valley(21, 4.0, 5e-3))).unwrap();
    fs::write(folder.join("few.cf32"), bytes(valley(19, 60.0, 5e-3))).unwrap();
    fs::write(folder.join("enough.cf32"), bytes(valley(20, 60.0, 5e-3))).unwrap();
    fs::write(folder.join("hard.cf32"), bytes(valley(21, 60.0, 1e-4))).unwrap();
    [
        ("two.cf32", None),
        ("near.cf32", Some(0)),
        ("few.cf32", Some(1)),
        ("enough.cf32", None),
        ("two.cf32 --hint 700", Some(2)),
        ("two.cf32 --hint -5.2", Some(2)),
        ("two.cf32 --hint -4.8", None),
        ("hard.cf32", Some(3)),
    ]
}

#[test]
fn each_condition_alone() {
    let folder = folder("alone");
    for (words, expected) in alone(&folder) {
        let (json, failed) = kept_because(&folder, words);
        assert_eq!(failed, expected.into_iter().collect::<Vec<_>>(), "{words}: {}", json["kept_because"]);
        assert_eq!(json["buffer"] == "taken", failed.is_empty(), "{words}");
    }
}

/// Over every stored recording that is run, at several hints.
#[test]
fn reasons_are_there_exactly_where_a_recording_was_kept() {
    let (mut taken, mut kept) = (0, 0);
    for path in examples().iter().filter(|p| !p.ends_with("not_a_number.iq")) {
        for hint in ["0", "4.9", "5.2", "60", "-700", "1499"] {
            let words = format!("{} --hint {hint}", file_name(path));
            let (json, failed) = kept_because(path.parent().unwrap(), &words);
            assert_eq!(json["buffer"] == "taken", failed.is_empty(), "{words}");
            *if failed.is_empty() { &mut taken } else { &mut kept } += 1;
            let fails = |condition| failed.contains(&condition);
            assert_eq!(fails(0), json["hypothesis"] != "two", "{words}");
            assert_eq!(fails(1), json["fitted"].as_u64().unwrap() < 20, "{words}");
            assert_eq!(fails(2), json["carrier_step_hz"].as_f64().unwrap().abs() > 5.0, "{words}");
            assert_eq!(fails(3), json["residual"]["clean"] == false, "{words}");
        }
    }
    assert!(taken >= 2 && kept >= 20, "{taken} taken, {kept} kept");
}

/// However near a value lies to its limit, what is said of it lies on the same side.
#[test]
fn values_are_said_on_their_side_of_the_limit() {
    let folder = folder("side");
    fs::write(folder.join("two.cf32"), two()).unwrap();
    let mut sides = Vec::new();
    for hint in ["-5.1", "-5.004", "-5.0004", "-4.996", "-4.9996", "5.0000001", "4.9999999"] {
        let said = text(&lenakkum(&folder, &format!("run two.cf32 --rate 3000 --hint {hint} --explain")).stdout);
        let line = said.lines().find(|line| line.contains("the carrier was found at")).unwrap();
        let step: f64 = line.split(" Hz, ").nth(1).unwrap().split(' ').next().unwrap().parse().unwrap();
        assert_eq!(step > 5.0, line.starts_with("  fails: "), "{line}");
        assert!((step - 5.0).abs() < 0.2, "{line}");
        sides.push(step > 5.0);
    }
    assert!(sides.contains(&true) && sides.contains(&false));
}

#[test]
fn in_words_after_the_report_and_on_the_line() {
    let folder = folder("words");
    fs::write(folder.join("one.cf32"), one()).unwrap();
    fs::write(folder.join("two.cf32"), two()).unwrap();
    let far = "the carrier was found at 0.00 Hz, 700.00 Hz from the hint (at most 5 Hz is allowed)";
    let said = text(&lenakkum(&folder, "run two.cf32 --rate 3000 --hint 700 --explain").stdout);
    let after: Vec<&str> = said.lines().skip_while(|l| !l.starts_with("(buffer")).collect();
    assert_eq!(after[..2], ["(buffer kept))", "kept, since not all conditions hold:"]);
    let told: Vec<bool> = after[2..].iter().map(|l| l.starts_with("  holds: ")).collect();
    assert_eq!((told, after[4]), (vec![true, true, false, true], format!("  fails: {far}").as_str()));
    let said = text(&lenakkum(&folder, "run two.cf32 --rate 3000 --explain").stdout);
    assert!(said.contains("taken off, since all four conditions hold:\n") && !said.contains("fails"), "{said}");
    let said = text(&lenakkum(&folder, "run one.cf32 two.cf32 --rate 3000 --hint 700").stdout);
    let lines: Vec<&str> = said.lines().collect();
    assert!(lines[0].contains("; kept because there are no gap blocks to look for a second sender in: the recording "));
    assert!(lines[0].contains("; 1 key-down was fitted (at least 20 are needed); "), "{}", lines[0]);
    assert!(lines[1].ends_with(&format!("; kept because {far}")), "{}", lines[1]);
    let said = text(&lenakkum(&folder, "run one.cf32 two.cf32 --rate 3000").stdout);
    assert!(!said.lines().last().unwrap().contains("because"), "{said}");
}

/// A recording of which nothing was fitted, or without a gap block, is not said to hold what was not looked at.
#[test]
fn what_was_not_found_is_not_said_to_be_there() {
    let folder = folder("nothing");
    fs::write(folder.join("zeros.cf32"), vec![0; 8 * 3_000]).unwrap();
    fs::write(folder.join("one.cf32"), one()).unwrap();
    fs::copy(examples().iter().find(|p| p.ends_with("noise.iq")).unwrap(), folder.join("noise.cf32")).unwrap();
    let explained = |words: &str| text(&lenakkum(&folder, &format!("run {words} --rate 3000 --explain")).stdout);
    for (words, hint) in [("zeros.cf32", "0.00"), ("noise.cf32", "0.00"), ("zeros.cf32 --hint -41.257", "-41.26")] {
        let said = explained(words);
        let carrier = format!("  holds: nothing was fitted, so that the carrier is the hint, {hint} Hz (at most 5 Hz ");
        assert!(said.contains(&carrier) && !said.contains("was found"), "{words}: {said}");
        assert!(said.contains("  fails: the gaps hold no second sender: "), "{words}: {said}");
    }
    let said = explained("one.cf32");
    assert!(
        said.contains("  fails: there are no gap blocks to look for a second sender in: ") && !said.contains("0 %")
    );
    assert!(said.contains("  holds: the carrier was found at 0.00 Hz, 0.00 Hz from the hint"), "{said}");
    lenakkum(&folder, "run zeros.cf32 one.cf32 --rate 3000 --hint 7 --page all.html");
    let page = fs::read_to_string(folder.join("all.html")).unwrap();
    let count = |words: &str| page.matches(words).count();
    // In the table of contents and in the recording's own.
    assert_eq!((count("nothing but noise in the gaps"), count("no gaps to look at")), (2, 2));
    assert_eq!(count("<th>Carrier</th><td>the hint, 7 Hz, since nothing was fitted</td>"), 1);
    assert_eq!(count("<th>Seen in the gaps</th><td>there are no gap blocks to look for a second sender in: "), 1);
}

#[cfg(feature = "pictures")]
#[test]
fn in_the_title_of_a_picture() {
    let folder = folder("titles");
    fs::write(folder.join("two.cf32"), two()).unwrap();
    let drawn = |hint: &str| {
        lenakkum(&folder, &format!("run two.cf32 --rate 3000 --hint {hint} --picture {hint}.svg"));
        fs::read_to_string(folder.join(format!("{hint}.svg"))).unwrap()
    };
    assert!(drawn("700").contains("kept because the carrier was found at 0.00 Hz, 700.00 Hz from the hint (at most"));
    assert!(!drawn("0").contains("because"));
    let steady = examples().into_iter().find(|p| p.ends_with("steady_carrier.iq")).unwrap();
    fs::copy(steady, folder.join("steady.cf32")).unwrap();
    lenakkum(&folder, "run steady.cf32 --rate 3000 --picture steady.svg");
    let drawn = fs::read_to_string(folder.join("steady.svg")).unwrap();
    assert!(drawn.contains("steady.cf32: something fills the gaps, kept   (2048 samples at 3000 a second"));
}
