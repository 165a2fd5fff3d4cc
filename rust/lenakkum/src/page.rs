//! A page in HTML of all recordings: what was found in words, why, the picture, and by what it was made. It has all it
//! shows within itself, and may be printed.

use crate::numbers::{plain, rounded};
use crate::outcome::Subject;
use crate::problem::Problem;
use crate::reasons;
use crate::statement::{Statement, VERSION};
use crate::writing::Staged;
use cancel::{Hypothesis, RunFigures, LIBRARY};
use std::path::Path;

/// What a page has of one recording.
pub struct Section {
    title: String,
    /// In a few words, what came of it.
    brief: String,
    html: String,
}

impl Section {
    /// Of a run, with its picture if there is one.
    pub fn of_run(subject: &Subject, f: &RunFigures, picture: Option<&str>) -> Section {
        let conditions = reasons::conditions(f);
        let conditions = conditions.map(|c| {
            let word = if c.holds { "holds" } else { "fails" };
            format!("<li class=\"{word}\"><b>{word}</b>: {}</li>\n", escaped(&c.words))
        });
        let html = format!(
            "<p class=\"verdict\">{}</p>\n<h3>Why: the four conditions for taking it off</h3>\n<ul>\n{}</ul>\n\
             <h3>What was found</h3>\n{}{}<h3>What this is a statement of</h3>\n{}",
            escaped(verdict(f)),
            conditions.concat(),
            table(&figures(subject, f)),
            picture.map_or_else(String::new, |svg| format!("<figure>\n{svg}</figure>\n")),
            table(&statement(&subject.statement))
        );
        let brief = format!("{}; {}", gaps(f), if f.taken { "taken off" } else { "kept" });
        Section { title: subject.title(), brief, html }
    }

    /// Of what was refused, or could not be read.
    pub fn not_run(title: &str, problem: &Problem) -> Section {
        Section::of_problem(title, "not run", "It was not run", problem)
    }

    /// Of a run that could not be written.
    pub fn not_written(title: &str, problem: &Problem) -> Section {
        let verdict = "It was run, and what came of it could not be written";
        Section::of_problem(title, "run, and could not be written", verdict, problem)
    }

    fn of_problem(title: &str, brief: &str, verdict: &str, problem: &Problem) -> Section {
        let html = format!("<p class=\"verdict\">{verdict}: {}.</p>\n", escaped(&problem.to_string()));
        Section { title: title.to_string(), brief: brief.to_string(), html }
    }
}

/// Is this the name of a page, and is there a folder for it? It is written last, and this is known before.
pub fn checked(path: &Path) -> Result<(), Problem> {
    let wrong = |why: &str| Err(Problem::with(path.display(), why));
    let folder = path.parent().filter(|folder| !folder.as_os_str().is_empty());
    match path.extension().and_then(|e| e.to_str()) {
        Some("html") if folder.map_or(true, Path::is_dir) => Ok(()),
        Some("html") => wrong("there is no such folder"),
        _ => wrong("a page's name ends in .html"),
    }
}

/// Writes the page, also where nothing was run: then it says why, and an older one does not stay in its place.
pub fn written(path: &Path, sections: &[Section]) -> Result<(), Problem> {
    Staged::bytes(path, page(sections).as_bytes())?.put()
}

fn page(sections: &[Section]) -> String {
    let title = match sections {
        [one] => escaped(&one.title),
        _ => format!("{} recordings", sections.len()),
    };
    let parts = sections.iter().enumerate().map(|(i, section)| {
        format!("<section id=\"r{i}\">\n<h2>{}</h2>\n{}</section>\n", escaped(&section.title), section.html)
    });
    format!(
        "{HEAD}<title>{title}</title>\n</head>\n<body>\n<h1>The strong sender of {title}</h1>\n{}{}<footer>lenakkum \
         {VERSION}, library of commit {} with SHA-256 {}</footer>\n</body>\n</html>\n",
        contents(sections),
        parts.collect::<String>(),
        escaped(LIBRARY.commit),
        escaped(LIBRARY.sha256)
    )
}

/// Of several recordings, what came of each.
fn contents(sections: &[Section]) -> String {
    if sections.len() < 2 {
        return String::new();
    }
    let row = |(i, s): (usize, &Section)| {
        format!("<tr><th><a href=\"#r{i}\">{}</a></th><td>{}</td></tr>\n", escaped(&s.title), escaped(&s.brief))
    };
    format!("<table>\n{}</table>\n", sections.iter().enumerate().map(row).collect::<String>())
}

/// What was done, in a sentence.
fn verdict(f: &RunFigures) -> &'static str {
    if f.taken {
        "The strong sender was taken off. What is left is a recording without its fitted key-downs."
    } else {
        "The recording was kept: every sample stays as it was."
    }
}

/// What is in the gaps, in words.
fn gaps(f: &RunFigures) -> String {
    match f.hypothesis {
        Hypothesis::OneSignal if f.evidence.gap_blocks == 0 => "no gaps to look at".to_string(),
        Hypothesis::OneSignal => "nothing but noise in the gaps".to_string(),
        Hypothesis::TwoSignalCw { offset_hz } => {
            format!("a second sender keys in the gaps, {} the strong one", reasons::away(offset_hz))
        }
        Hypothesis::NonCw => "something fills the gaps, as a steady carrier does".to_string(),
        _ => "something is in the gaps, and it cannot be told what".to_string(),
    }
}

/// What the gaps' blocks showed.
fn evidence(f: &RunFigures) -> String {
    let e = &f.evidence;
    if e.gap_blocks == 0 {
        return reasons::no_gap_blocks();
    }
    let carrier = match e.offset_hz {
        None => "no second carrier was seen".to_string(),
        Some(hz) => format!("a second carrier, {}, of coherence {}", reasons::away(hz), rounded(e.coherence, 2)),
    };
    format!("{} % of {} blocks are hot; {carrier}", rounded(100.0 * e.hot_fraction, 1), e.gap_blocks)
}

fn carrier(subject: &Subject, f: &RunFigures) -> String {
    let hint = subject.hint;
    if reasons::carrier_is_hint(f) {
        return format!("the hint, {hint} Hz, since nothing was fitted");
    }
    format!("{} Hz, with a hint of {hint} Hz", rounded(f.carrier_hz, 2))
}

type Rows = Vec<(&'static str, String)>;

fn figures(subject: &Subject, f: &RunFigures) -> Rows {
    let seconds = |samples: usize| plain(samples as f64 / subject.rate);
    vec![
        ("Hypothesis", gaps(f)),
        ("Seen in the gaps", evidence(f)),
        (
            "Recording",
            format!(
                "{} samples at {} a second: {} s, from {} s on",
                f.samples,
                subject.rate,
                seconds(f.samples),
                plain(subject.seconds(0.0))
            ),
        ),
        ("Carrier", carrier(subject, f)),
        ("Key-downs", format!("{}: {} listed, {} too short to list", f.key_downs, f.listed, f.short)),
        ("Of those listed", format!("{} were fitted, {} were not", f.fitted, f.skipped)),
        ("On the air", format!("{} s ({} samples), the listed key-downs together", seconds(f.airtime), f.airtime)),
        (
            "Blocks",
            format!(
                "{} of {} samples: {} at edges of key-downs, {} inside them, {} in the gaps, {} elsewhere",
                f.blocks, f.window, f.edge, f.interior, f.gap, f.other
            ),
        ),
    ]
}

fn statement(s: &Statement) -> Rows {
    let mut rows = vec![("File", s.file.clone())];
    rows.extend(s.recording_sha256.clone().map(|sum| ("SHA-256 of its samples", sum)));
    rows.extend(s.date.clone().map(|date| ("Taken at", date)));
    rows.extend(s.capture.map(|number| ("Capture", number.to_string())));
    rows.extend([
        ("Type of its samples", s.format.to_string()),
        ("Command", format!("lenakkum {}", s.version)),
        ("Library's commit", s.commit.to_string()),
        ("Library's SHA-256", s.library_sha256.to_string()),
    ]);
    rows
}

fn table(rows: &Rows) -> String {
    let row = |(name, value): &(&str, String)| format!("<tr><th>{name}</th><td>{}</td></tr>\n", escaped(value));
    format!("<table>\n{}</table>\n", rows.iter().map(row).collect::<String>())
}

/// A text as HTML has it.
fn escaped(text: &str) -> String {
    let mut html = String::with_capacity(text.len());
    for c in text.chars() {
        match c {
            '&' => html.push_str("&amp;"),
            '<' => html.push_str("&lt;"),
            '>' => html.push_str("&gt;"),
            '"' => html.push_str("&quot;"),
            c => html.push(c),
        }
    }
    html
}

/// Nothing is to be fetched, and on paper each recording begins a new sheet.
const HEAD: &str = r#"<!DOCTYPE html>
<html lang="en">
<head>
<meta charset="utf-8">
<meta http-equiv="Content-Security-Policy" content="default-src 'none'; style-src 'unsafe-inline'">
<meta name="viewport" content="width=device-width">
<style>
body { font: 16px/1.45 sans-serif; color: #141e32; max-width: 62rem; margin: 2rem auto; padding: 0 1rem }
h1 { font-size: 1.5rem } h2 { font-size: 1.25rem; margin-top: 2.5rem } h3 { font-size: 1rem; margin: 1.4rem 0 0.4rem }
h1, h2, td { overflow-wrap: anywhere }
table { border-collapse: collapse; width: 100% }
th, td { text-align: left; vertical-align: top; padding: 0.2rem 0.8rem 0.2rem 0; border-bottom: 1px solid #ccd }
th { font-weight: normal; color: #45506a; width: 14rem }
ul { list-style: none; margin: 0; padding: 0 }
li { margin: 0.3rem 0; padding-left: 0.7rem; border-left: 4px solid #1f4e79 }
li.fails { border-left-color: #c0392b }
.verdict { font-size: 1.1rem; font-weight: bold }
figure { margin: 1.2rem 0 } svg { width: 100%; height: auto }
footer { margin-top: 2.5rem; font-size: 0.8rem; color: #45506a; overflow-wrap: anywhere }
@page { margin: 15mm }
@media print {
  body { font-size: 10.5pt; max-width: none; margin: 0; padding: 0 }
  section + section { break-before: page }
  figure, tr, li { break-inside: avoid }
  h2, h3 { break-after: avoid }
  a { color: inherit; text-decoration: none }
}
</style>
"#;
