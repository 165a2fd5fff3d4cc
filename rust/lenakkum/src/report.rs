//! What is said of a run: document 01's report, or one line.

use crate::outcome::Subject;
use crate::statement::Statement;
use crate::{numbers, reasons};
use cancel::{Hypothesis, Ran, Refusal};
use std::fmt::Write;

/// The report as tankair prints it, after the piece's place if it is one, and before what else is asked for.
pub fn text(subject: &Subject, ran: &Ran<'_>) -> String {
    let f = &ran.figures;
    let mut lines = vec![
        "(run 0".to_string(),
        format!("(size {} {} {})", f.samples, f.window, f.blocks),
        format!("(keys {} {} {} {} {})", f.key_downs, f.listed, f.short, f.fitted, f.skipped),
        format!("(air {})", f.airtime),
        format!("(blocks {} {} {} {})", f.edge, f.interior, f.gap, f.other),
    ];
    lines.extend(ran.elements().map(|key| format!("(key {} {})", key.up, key.down)));
    lines.push(format!("(hypothesis {})", word(f.hypothesis)));
    lines.push(format!("(buffer {}))", buffer(f.taken)));
    piece(subject) + &lines.join("\n") + "\n" + &explained(subject, ran) + &stated(subject)
}

/// The report of a refusal.
pub fn refused(subject: &Subject, refusal: Refusal) -> String {
    piece(subject) + &format!("(run {})\n", refusal.number()) + &stated(subject)
}

/// Where a piece stands: its number, first sample and samples, and both in seconds.
fn piece(subject: &Subject) -> String {
    let (first, samples, rate) = (subject.first, subject.samples, subject.rate);
    let seconds = |samples: f64| samples / rate;
    subject.piece.map_or_else(String::new, |number| {
        format!("(piece {number} {first} {samples} {} {})\n", seconds(first as f64), seconds(samples as f64))
    })
}

fn explained(subject: &Subject, ran: &Ran<'_>) -> String {
    if subject.explain {
        reasons::explained(&ran.figures)
    } else {
        String::new()
    }
}

fn stated(subject: &Subject) -> String {
    subject.stated().map_or_else(String::new, Statement::text)
}

/// The run in one line.
pub fn line(subject: &Subject, ran: &Ran<'_>) -> String {
    let f = &ran.figures;
    let mut said = format!("{}: {}", subject.title(), word(f.hypothesis));
    if let Hypothesis::TwoSignalCw { offset_hz } = f.hypothesis {
        let _ = write!(said, " ({offset_hz:+.1} Hz)");
    }
    let _ = write!(said, ", {}, carrier {} Hz, ", buffer(f.taken), numbers::rounded(f.carrier_hz, 2));
    let _ = write!(said, "key-downs {}, listed {}, fitted {}", f.key_downs, f.listed, f.fitted);
    let why = reasons::kept_because(f);
    if !why.is_empty() {
        let _ = write!(said, "; kept because {}", why.join("; "));
    }
    if let Some(statement) = subject.stated() {
        said += &statement.on_a_line();
    }
    said + "\n" + &explained(subject, ran)
}

/// The report's word for a hypothesis.
pub fn word(hypothesis: Hypothesis) -> &'static str {
    match hypothesis {
        Hypothesis::OneSignal => "one",
        Hypothesis::TwoSignalCw { .. } => "two",
        Hypothesis::NonCw => "noncw",
        Hypothesis::Unresolved => "unresolved",
        _ => "unknown",
    }
}

pub fn buffer(taken: bool) -> &'static str {
    if taken {
        "taken"
    } else {
        "kept"
    }
}
