//! What can be wrong, each in one line.

use crate::reading::MOST;
use cancel::Refusal;
use std::fmt;
use std::process::ExitCode;

/// What kept a recording from being run, or a command from being done.
#[derive(Clone, Debug)]
pub enum Problem {
    /// The command line, a file or an output: what is wrong with it.
    Wrong(String),
    /// The recording of this title was refused.
    Refused(String, Refusal),
}

/// Status of a command with a refused recording.
const REFUSED: u8 = 1;
/// Status of a command with something wrong.
const WRONG: u8 = 2;

impl Problem {
    /// Something wrong with this, and what.
    pub fn with(what: impl fmt::Display, why: impl fmt::Display) -> Problem {
        Problem::Wrong(format!("{what}: {why}"))
    }

    /// Of a recording that was refused, which refusal it was.
    pub fn refusal(&self) -> Option<Refusal> {
        match self {
            Problem::Wrong(_) => None,
            Problem::Refused(_, refusal) => Some(*refusal),
        }
    }

    pub fn status(&self) -> ExitCode {
        ExitCode::from(self.number())
    }

    fn number(&self) -> u8 {
        match self {
            Problem::Wrong(_) => WRONG,
            Problem::Refused(..) => REFUSED,
        }
    }
}

/// The status of a command with all these problems: the largest.
pub fn status(problems: &[Problem]) -> ExitCode {
    ExitCode::from(problems.iter().map(Problem::number).max().unwrap_or(0))
}

/// What is wrong and what to do, in this command's words where it knows more than the library.
fn sentence(refusal: Refusal) -> String {
    match refusal {
        // Files of half samples and empty ones do not come so far.
        Refusal::Count => format!(
            "it has more than the {MOST} samples that are run at once: --start and --length choose a part, --pieces \
             SECONDS runs all of it part by part"
        ),
        Refusal::Carrier => format!("{refusal} (--hint HZ)"),
        _ => refusal.to_string(),
    }
}

/// A text that stays on its line and does nothing to a terminal, whatever a file's name or metadata have: control
/// characters, line ends and what turns the direction of writing are shown by their numbers.
pub fn on_one_line(text: &str) -> String {
    let shown = |c: char| match c {
        '\u{61c}' | '\u{200e}' | '\u{200f}' | '\u{2028}'..='\u{202e}' | '\u{2066}'..='\u{2069}' => {
            c.escape_default().to_string()
        }
        c if c.is_control() => c.escape_default().to_string(),
        c => c.to_string(),
    };
    text.chars().map(shown).collect()
}

impl fmt::Display for Problem {
    fn fmt(&self, f: &mut fmt::Formatter) -> fmt::Result {
        match self {
            Problem::Wrong(line) => f.write_str(&on_one_line(line)),
            Problem::Refused(name, refusal) => {
                write!(f, "{name}: refused ({}): {}", refusal.number(), sentence(*refusal))
            }
        }
    }
}
