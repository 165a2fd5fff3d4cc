//! Every figure, wherever it is written, is the one that the library answers for the same samples.

mod common;

use cancel::{Complex32, Hypothesis, RunFigures};
use common::*;
use serde_json::{json, Map, Value};
use std::collections::BTreeSet;
use std::fs;
use std::path::Path;

const RATE: f64 = 6_000.0;
const HINT: f64 = 30.0;
/// Samples of each file before those that are run.
const BEFORE: usize = 417;
const WORDS: &str = "--rate 6000 --hint 30";

/// A part of a file that the command runs, and what the library answers for it.
struct Part {
    file: String,
    first: usize,
    piece: Option<usize>,
    run: cancel::Run,
}

fn part(file: &str, piece: Option<usize>, samples: &[Complex32], first: usize, end: usize) -> Part {
    let run = cancel::run(&mut samples[first..end].to_vec(), RATE, HINT).unwrap();
    Part { file: file.to_string(), first, piece, run }
}

/// Writes a recording, behind samples that are not run.
fn written(folder: &Path, file: &str, recording: Vec<(f64, f64)>) -> Vec<Complex32> {
    let all: Vec<(f64, f64)> = vec![(0.3, -0.2); BEFORE].into_iter().chain(recording).collect();
    fs::write(folder.join(file), bytes(all.iter().copied())).unwrap();
    all.iter().map(|&(re, im)| Complex32::new(re as f32, im as f32)).collect()
}

/// A recording of each hypothesis, with a second sender on either side; of the last nothing is fitted, and it has no
/// gap blocks.
fn parts(folder: &Path) -> Vec<Part> {
    let other = |offset_hz: f64, level: f64, keys: bool| Other { offset_hz, level, keys };
    let recordings = [
        ("below.cf32", mixed(RATE, 62, other(-47.3, 0.15, true))),
        ("above.cf32", mixed(RATE, 70, other(47.3, 0.15, true))),
        ("one.cf32", mixed(RATE, 73, other(0.0, 0.0, true))),
        ("steady.cf32", mixed(RATE, 66, other(60.0, 0.03, false))),
        ("near.cf32", mixed(RATE, 81, other(5.0, 0.04, true))),
        ("short.cf32", (0..300).map(|k| (if (100..200).contains(&k) { 1.0 } else { 0.0 }, 0.0)).collect()),
    ];
    let run = |(file, recording)| {
        let samples = written(folder, file, recording);
        part(file, None, &samples, BEFORE, samples.len())
    };
    recordings.into_iter().map(run).collect()
}

/// Files and words of a command that runs these parts.
fn asked(parts: &[Part]) -> String {
    let files: Vec<&str> = parts.iter().map(|part| part.file.as_str()).collect();
    format!("run {} {WORDS} --start {BEFORE}samples", files.join(" "))
}

fn hypothesis(f: &RunFigures) -> (&'static str, Option<f64>) {
    match f.hypothesis {
        Hypothesis::OneSignal => ("one", None),
        Hypothesis::TwoSignalCw { offset_hz } => ("two", Some(offset_hz)),
        Hypothesis::NonCw => ("noncw", None),
        _ => ("unresolved", None),
    }
}

fn buffer(f: &RunFigures) -> &'static str {
    ["kept", "taken"][usize::from(f.taken)]
}

/// A test over these recordings sees a figure in the place of another: there is each hypothesis, the sender is taken
/// off and kept, and of no recording with fits two counts, or two other numbers, are the same.
#[test]
fn no_two_figures_are_the_same() {
    let parts = parts(&folder("different"));
    let hypotheses: BTreeSet<&str> = parts.iter().map(|part| hypothesis(&part.run.figures).0).collect();
    assert_eq!(hypotheses, BTreeSet::from(["noncw", "one", "two", "unresolved"]));
    assert_eq!(
        parts.iter().map(|part| part.run.figures.taken).collect::<Vec<_>>(),
        [true, true, false, false, false, false]
    );
    for f in parts[..5].iter().map(|part| &part.run.figures) {
        let keys = [f.samples, f.window, f.key_downs, f.listed, f.short, f.fitted, f.skipped, f.airtime];
        let all: Vec<usize> = keys.into_iter().chain([f.blocks, f.edge, f.interior, f.gap, f.other]).collect();
        assert_eq!(all.iter().collect::<BTreeSet<_>>().len(), all.len(), "{f:?}");
        let (r, e) = (&f.residual, &f.evidence);
        let numbers = [f.carrier_hz, f.carrier_step_hz, r.edge_over_neighbour_db, r.interior_over_neighbour_db];
        let numbers = numbers.into_iter().chain([e.hot_fraction, e.offset_hz.unwrap(), e.coherence]);
        // Also as they are rounded in words.
        assert_eq!(numbers.map(|x| format!("{x:.2}")).collect::<BTreeSet<_>>().len(), 7, "{f:?}");
    }
    let f = &parts[5].run.figures;
    assert_eq!((f.fitted, f.gap, f.residual.edge_over_neighbour_db), (0, 0, f64::INFINITY));
}

/// As JSON has them: what is not finite is null.
fn number(x: f64) -> Value {
    if x.is_finite() {
        json!(x)
    } else {
        Value::Null
    }
}

/// What JSON has of a part, as it is read from a text.
fn json_of(part: &Part, kept_because: &[String]) -> Value {
    let (f, first) = (&part.run.figures, part.first as f64);
    let (r, e) = (&f.residual, &f.evidence);
    let ratios = [
        ("edge_over_neighbour_db", r.edge_over_neighbour_db),
        ("interior_over_neighbour_db", r.interior_over_neighbour_db),
    ];
    let infinite = ratios.iter().filter(|(_, x)| *x == f64::INFINITY);
    let not_finite: Map<String, Value> = infinite.map(|(name, _)| (name.to_string(), json!("infinity"))).collect();
    let elements = part.run.elements.iter().map(|key| {
        let (start, end) = (key.element.start, key.element.end);
        json!({
            "start": start, "end": end, "start_s": (first + start) / RATE, "end_s": (first + end) / RATE,
            "up": key.up, "down": key.down,
        })
    });
    let fits = part.run.fits.iter().map(|fit| {
        let (start, end) = (fit.element.start, fit.element.end);
        json!({
            "start": start, "end": end, "start_s": (first + start) / RATE, "end_s": (first + end) / RATE,
            "gain": [fit.gain.re, fit.gain.im], "slope_rad_per_sample": fit.slope_rad_per_sample,
            "ref_sample": fit.ref_sample, "ref_s": (first + fit.ref_sample) / RATE,
        })
    });
    let mut all = json!({
        "file": part.file, "run": 0, "rate_hz": RATE, "hint_hz": HINT, "capture": null, "piece": part.piece,
        "first_sample": part.first, "start_s": first / RATE, "duration_s": f.samples as f64 / RATE,
        "samples": f.samples, "window": f.window, "key_downs": f.key_downs, "listed": f.listed, "short": f.short,
        "fitted": f.fitted, "skipped": f.skipped, "airtime": f.airtime, "airtime_s": f.airtime as f64 / RATE,
        "blocks": f.blocks, "edge": f.edge, "interior": f.interior, "gap": f.gap, "other": f.other,
        "carrier_hz": f.carrier_hz, "carrier_step_hz": f.carrier_step_hz,
        "residual": {
            "edge_over_neighbour_db": number(r.edge_over_neighbour_db),
            "interior_over_neighbour_db": number(r.interior_over_neighbour_db),
            "edge_blocks": r.edge_blocks, "interior_blocks": r.interior_blocks, "gap_blocks": r.gap_blocks,
            "clean": r.clean(),
        },
        "evidence": {
            "gap_blocks": e.gap_blocks, "hot_fraction": e.hot_fraction, "offset_hz": e.offset_hz,
            "coherence": e.coherence,
        },
    });
    let rest = json!({
        "hypothesis": hypothesis(f).0, "offset_hz": hypothesis(f).1, "buffer": buffer(f),
        "kept_because": kept_because, "elements": elements.collect::<Vec<_>>(), "fits": fits.collect::<Vec<_>>(),
        "not_finite": not_finite,
    });
    all.as_object_mut().unwrap().extend(rest.as_object().unwrap().clone());
    serde_json::from_str(&all.to_string()).unwrap()
}

/// The columns of CSV that are not empty, and what is in them.
fn csv_of(part: &Part, kept_because: &[String]) -> Vec<(&'static str, String)> {
    let f = &part.run.figures;
    let (r, e) = (&f.residual, &f.evidence);
    let infinite = r.edge_over_neighbour_db == f64::INFINITY && r.interior_over_neighbour_db == f64::INFINITY;
    let not_finite = "edge_over_neighbour_db infinity, interior_over_neighbour_db infinity";
    let optional = |x: Option<f64>| x.map_or_else(String::new, |x| x.to_string());
    let ratio = |x: f64| optional(Some(x).filter(|x| x.is_finite()));
    let columns = vec![
        ("file", part.file.clone()),
        ("run", "0".to_string()),
        ("rate_hz", RATE.to_string()),
        ("hint_hz", HINT.to_string()),
        ("piece", part.piece.map_or_else(String::new, |piece| piece.to_string())),
        ("first_sample", part.first.to_string()),
        ("start_s", (part.first as f64 / RATE).to_string()),
        ("duration_s", (f.samples as f64 / RATE).to_string()),
        ("samples", f.samples.to_string()),
        ("window", f.window.to_string()),
        ("key_downs", f.key_downs.to_string()),
        ("listed", f.listed.to_string()),
        ("short", f.short.to_string()),
        ("fitted", f.fitted.to_string()),
        ("skipped", f.skipped.to_string()),
        ("airtime", f.airtime.to_string()),
        ("airtime_s", (f.airtime as f64 / RATE).to_string()),
        ("blocks", f.blocks.to_string()),
        ("edge", f.edge.to_string()),
        ("interior", f.interior.to_string()),
        ("gap", f.gap.to_string()),
        ("other", f.other.to_string()),
        ("carrier_hz", f.carrier_hz.to_string()),
        ("carrier_step_hz", f.carrier_step_hz.to_string()),
        ("edge_over_neighbour_db", ratio(r.edge_over_neighbour_db)),
        ("interior_over_neighbour_db", ratio(r.interior_over_neighbour_db)),
        ("clean", r.clean().to_string()),
        ("hot_fraction", e.hot_fraction.to_string()),
        ("evidence_offset_hz", optional(e.offset_hz)),
        ("coherence", e.coherence.to_string()),
        ("hypothesis", hypothesis(f).0.to_string()),
        ("offset_hz", optional(hypothesis(f).1)),
        ("buffer", buffer(f).to_string()),
        ("kept_because", kept_because.join("; ")),
        ("not_finite", if infinite { not_finite.to_string() } else { String::new() }),
    ];
    columns.into_iter().filter(|(_, value)| !value.is_empty()).collect()
}

/// Each row of CSV as the columns that are not empty, numbers as short as they can be written.
fn rows(csv: &[u8]) -> Vec<Vec<(String, String)>> {
    let mut reader = csv::Reader::from_reader(csv);
    let header = reader.headers().unwrap().clone();
    let plain = |field: &str| field.parse::<f64>().map_or_else(|_| field.to_string(), |x| x.to_string());
    let row = |record: csv::StringRecord| {
        let fields = header.iter().zip(record.iter()).filter(|(_, field)| !field.is_empty());
        fields.map(|(name, field)| (name.to_string(), plain(field))).collect()
    };
    reader.records().map(|record| row(record.unwrap())).collect()
}

/// The report, and the four conditions after it: whether each holds, and its words.
fn explained(folder: &Path, part: &Part) -> (String, Vec<(bool, String)>) {
    let (file, first, count) = (&part.file, part.first, part.run.figures.samples);
    let said =
        lenakkum(folder, &format!("run {file} {WORDS} --start {first}samples --length {count}samples --explain"));
    let all = text(&said.stdout);
    let (report, after) = all.split_at(all.find("))\n").unwrap() + 3);
    let conditions = after.lines().skip(1).map(|line| match line.strip_prefix("  holds: ") {
        Some(words) => (true, words.to_string()),
        None => (false, line.strip_prefix("  fails: ").unwrap().to_string()),
    });
    (report.to_string(), conditions.collect())
}

fn kept_because(conditions: &[(bool, String)]) -> Vec<String> {
    conditions.iter().filter(|(holds, _)| !holds).map(|(_, words)| words.clone()).collect()
}

/// What the words of each condition have to say of these figures, none of which lies near its limit.
fn values(f: &RunFigures) -> [String; 4] {
    let (r, e) = (&f.residual, &f.evidence);
    let hot = format!(": {:.0} % of the gap blocks are hot (", 100.0 * e.hot_fraction);
    let second = |hz: f64| {
        let side = if hz < 0.0 { "below" } else { "above" };
        let carrier = format!("its carrier is {:.1} Hz {side} (10 to 150 Hz away is needed)", hz.abs());
        format!("{hot}15 % to 75 % is needed), {carrier}, its coherence is {:.2} (at least 0.8 is needed)", e.coherence)
    };
    let gaps = match f.hypothesis {
        _ if e.gap_blocks == 0 => "there are no gap blocks to look for a second sender in".to_string(),
        Hypothesis::OneSignal => format!("no second sender{hot}at least 15 % is needed)"),
        Hypothesis::NonCw => format!("something that does not key{hot}at most 75 % is allowed)"),
        _ => second(e.offset_hz.unwrap()),
    };
    let carrier = match f.fitted {
        0 => "nothing was fitted, so that the carrier is the hint, 30.00 Hz (at most 5 Hz from it is allowed)".into(),
        _ => format!("at {:.2} Hz, {:.2} Hz from the hint (at most 5 Hz is ", f.carrier_hz, f.carrier_step_hz.abs()),
    };
    let rest = |x: f64| if x.is_finite() { format!("{x:.1} dB") } else { "infinity dB, for want of blocks,".into() };
    let edge = format!("{} at the edges (at most -7 dB is allowed)", rest(r.edge_over_neighbour_db));
    let inside = format!("{} inside (at most -10 dB is allowed)", rest(r.interior_over_neighbour_db));
    [gaps, format!("{} key-downs were fitted (at least 20 are ", f.fitted), carrier, format!("is {edge} and {inside}")]
}

#[test]
fn in_the_report_and_in_words() {
    let folder = folder("figures_report");
    for part in parts(&folder) {
        let f = &part.run.figures;
        let (report, conditions) = explained(&folder, &part);
        let mut lines = vec![
            "(run 0".to_string(),
            format!("(size {} {} {})", f.samples, f.window, f.blocks),
            format!("(keys {} {} {} {} {})", f.key_downs, f.listed, f.short, f.fitted, f.skipped),
            format!("(air {})", f.airtime),
            format!("(blocks {} {} {} {})", f.edge, f.interior, f.gap, f.other),
        ];
        lines.extend(part.run.elements.iter().map(|key| format!("(key {} {})", key.up, key.down)));
        lines.extend([format!("(hypothesis {})", hypothesis(f).0), format!("(buffer {}))\n", buffer(f))]);
        assert_eq!(report, lines.join("\n"));
        let holds = [hypothesis(f).0 == "two", f.fitted >= 20, f.carrier_step_hz.abs() <= 5.0, f.residual.clean()];
        assert_eq!(conditions.iter().map(|c| c.0).collect::<Vec<_>>(), holds);
        for ((_, words), value) in conditions.iter().zip(values(f)) {
            assert!(words.contains(&value), "{}: {words}: {value}", part.file);
        }
    }
}

#[test]
fn on_the_line_of_several() {
    let folder = folder("figures_line");
    let parts = parts(&folder);
    let said = text(&lenakkum(&folder, &asked(&parts)).stdout);
    assert_eq!(said.lines().count(), parts.len());
    for (part, line) in parts.iter().zip(said.lines()) {
        let f = &part.run.figures;
        let (word, offset) = hypothesis(f);
        let offset = offset.map_or_else(String::new, |hz| format!(" ({hz:+.1} Hz)"));
        let begin = format!("{}: {word}{offset}, {}, carrier {:.2} Hz, ", part.file, buffer(f), f.carrier_hz);
        let counts = format!("key-downs {}, listed {}, fitted {}", f.key_downs, f.listed, f.fitted);
        let why = kept_because(&explained(&folder, part).1).join("; ");
        let why = if why.is_empty() { why } else { format!("; kept because {why}") };
        assert_eq!(line, begin + &counts + &why);
    }
}

#[test]
fn in_tables() {
    let folder = folder("figures_tables");
    let parts = parts(&folder);
    let lines = json_lines(&lenakkum(&folder, &format!("{} --json", asked(&parts))));
    let rows = rows(&lenakkum(&folder, &format!("{} --csv", asked(&parts))).stdout);
    assert_eq!((lines.len(), rows.len()), (parts.len(), parts.len()));
    for (part, (line, row)) in parts.iter().zip(lines.iter().zip(&rows)) {
        let why = kept_because(&explained(&folder, part).1);
        same_json(line, &json_of(part, &why), &part.file);
        let row: Vec<(&str, String)> = row.iter().map(|(name, field)| (name.as_str(), field.clone())).collect();
        assert_eq!(row, csv_of(part, &why));
    }
}

/// Field by field, so that what differs is seen.
fn same_json(line: &Value, expected: &Value, what: &str) {
    let (line, expected) = (line.as_object().unwrap(), expected.as_object().unwrap());
    let names = |fields: &Map<String, Value>| fields.keys().cloned().collect::<BTreeSet<_>>();
    assert_eq!(names(line), names(expected), "{what}");
    for (name, value) in line {
        assert_eq!(value, &expected[name], "{what}: {name}");
    }
}

/// Each piece has its own number, place and figures.
#[test]
fn of_pieces() {
    let folder = folder("figures_pieces");
    let samples = written(&folder, "two.cf32", mixed(RATE, 62, Other { offset_hz: 47.3, level: 0.15, keys: true }));
    let cut = 20_000;
    let parts = [part("two.cf32", Some(1), &samples, 0, cut), part("two.cf32", Some(2), &samples, cut, samples.len())];
    // Of one there is something to say on why it was kept.
    assert_eq!(parts.iter().map(|part| part.run.figures.taken).collect::<Vec<_>>(), [true, false]);
    let words = format!("run two.cf32 {WORDS} --pieces {cut}samples");
    let lines = json_lines(&lenakkum(&folder, &format!("{words} --json")));
    let rows = rows(&lenakkum(&folder, &format!("{words} --csv")).stdout);
    let said = text(&lenakkum(&folder, &words).stdout);
    assert_eq!((lines.len(), rows.len()), (2, 2));
    for (part, (line, row)) in parts.iter().zip(lines.iter().zip(&rows)) {
        let why = kept_because(&explained(&folder, part).1);
        same_json(line, &json_of(part, &why), "a piece");
        let row: Vec<(&str, String)> = row.iter().map(|(name, field)| (name.as_str(), field.clone())).collect();
        assert_eq!(row, csv_of(part, &why));
        let (first, count) = (part.first, part.run.figures.samples);
        let seconds = |samples: usize| samples as f64 / RATE;
        let (number, from, long) = (part.piece.unwrap(), seconds(first), seconds(count));
        assert!(said.contains(&format!("(piece {number} {first} {count} {from} {long})\n(run 0\n(size {count} ")));
    }
}

/// The part of a page between these two, of which the first comes once.
fn between<'a>(page: &'a str, from: &str, to: &str) -> &'a str {
    let rest = page.split(from).nth(1).unwrap_or_else(|| panic!("{from}"));
    rest.split(to).next().unwrap()
}

/// What a page's tables say, by the words on their left.
fn told(html: &str) -> Vec<(&str, &str)> {
    let rows = html.split("<tr><th>").skip(1).map(|row| row.split("</td></tr>").next().unwrap());
    rows.map(|row| row.split_once("</th><td>").unwrap()).collect()
}

#[test]
fn on_a_page() {
    let folder = folder("figures_page");
    let parts = parts(&folder);
    lenakkum(&folder, &format!("{} --page all.html", asked(&parts)));
    let page = fs::read_to_string(folder.join("all.html")).unwrap();
    let seconds = |samples: usize| ((samples as f64 / RATE * 1e6).round() / 1e6).to_string();
    for (i, part) in parts.iter().enumerate() {
        let f = &part.run.figures;
        let e = &f.evidence;
        let section = between(&page, &format!("<section id=\"r{i}\">\n"), "</section>");
        assert!(section.starts_with(&format!("<h2>{}</h2>\n", part.file)));
        let verdict = ["The recording was kept: every sample ", "The strong sender was taken off. What is left "];
        assert!(section.contains(&format!("<p class=\"verdict\">{}", verdict[usize::from(f.taken)])));
        let conditions = explained(&folder, part).1.into_iter().map(|(holds, words)| {
            let word = if holds { "holds" } else { "fails" };
            format!("<li class=\"{word}\"><b>{word}</b>: {words}</li>\n")
        });
        assert_eq!(between(section, "<ul>\n", "</ul>"), conditions.collect::<String>());
        let away = |hz: f64| format!("{:.1} Hz {}", hz.abs(), if hz < 0.0 { "below" } else { "above" });
        let gaps = match f.hypothesis {
            _ if f.gap == 0 => "no gaps to look at".to_string(),
            Hypothesis::OneSignal => "nothing but noise in the gaps".to_string(),
            Hypothesis::TwoSignalCw { offset_hz } => {
                format!("a second sender keys in the gaps, {} the strong one", away(offset_hz))
            }
            Hypothesis::NonCw => "something fills the gaps, as a steady carrier does".to_string(),
            _ => "something is in the gaps, and it cannot be told what".to_string(),
        };
        let done = if f.taken { "taken off" } else { "kept" };
        assert!(page.contains(&format!("<a href=\"#r{i}\">{}</a></th><td>{gaps}; {done}</td>", part.file)));
        let seen = e.offset_hz.map(|hz| {
            let (hot, blocks) = (format!("{:.1}", 100.0 * e.hot_fraction), e.gap_blocks);
            format!(
                "{hot} % of {blocks} blocks are hot; a second carrier, {}, of coherence {:.2}",
                away(hz),
                e.coherence
            )
        });
        let short =
            "there are no gap blocks to look for a second sender in: the recording is too short (its first and \
                     last 0.2 s have none), or has no gaps between its key-downs";
        let carrier = match f.fitted {
            0 => "the hint, 30 Hz, since nothing was fitted".to_string(),
            _ => format!("{:.2} Hz, with a hint of 30 Hz", f.carrier_hz),
        };
        let (samples, airtime) = (f.samples, f.airtime);
        let classes = [(f.edge, "at edges of key-downs"), (f.interior, "inside them"), (f.gap, "in the gaps")];
        let classes: String = classes.map(|(count, words)| format!("{count} {words}, ")).concat();
        let expected = [
            ("Hypothesis", gaps),
            ("Seen in the gaps", seen.unwrap_or_else(|| short.to_string())),
            (
                "Recording",
                format!("{samples} samples at 6000 a second: {} s, from {} s on", seconds(samples), seconds(BEFORE)),
            ),
            ("Carrier", carrier),
            ("Key-downs", format!("{}: {} listed, {} too short to list", f.key_downs, f.listed, f.short)),
            ("Of those listed", format!("{} were fitted, {} were not", f.fitted, f.skipped)),
            ("On the air", format!("{} s ({airtime} samples), the listed key-downs together", seconds(airtime))),
            ("Blocks", format!("{} of {} samples: {classes}{} elsewhere", f.blocks, f.window, f.other)),
            ("File", part.file.clone()),
        ];
        let told = told(section);
        let names =
            ["SHA-256 of its samples", "Type of its samples", "Command", "Library's commit", "Library's SHA-256"];
        assert_eq!(told[9..].iter().map(|(name, _)| *name).collect::<Vec<_>>(), names);
        for (told, (name, value)) in told.iter().zip(&expected) {
            assert_eq!(told, &(*name, value.as_str()));
        }
        #[cfg(feature = "pictures")]
        for (name, count) in [
            ("listed", f.listed),
            ("short", f.short),
            ("fitted", f.fitted),
            ("skipped", f.skipped),
            ("edge", f.edge),
            ("interior", f.interior),
            ("gap", f.gap),
            ("other", f.other),
        ] {
            assert!(section.contains(&format!("\n{name} {count}\n</text>")), "{name} {count}");
        }
    }
}
