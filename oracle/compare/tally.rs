//! How many answers of each call were compared, and of which kinds.

use crate::library;
use oracle::calls::Outcome;

/// How the kind of a refusal begins.
const REFUSED: &str = "refused by";

#[derive(Clone, Default)]
struct Row {
    compared: u64,
    /// Answers by kind, such as lists that are not empty or runs that took, and refusals by number.
    kinds: Vec<(String, u64)>,
}

#[derive(Default)]
pub struct Tally {
    rows: Vec<(&'static str, Row)>,
}

impl Tally {
    fn row(&mut self, call: &'static str) -> &mut Row {
        let at = self.rows.iter().position(|(name, _)| *name == call).unwrap_or_else(|| {
            self.rows.push((call, Row::default()));
            self.rows.len() - 1
        });
        &mut self.rows[at].1
    }

    /// One more answer of the call that was equal.
    pub fn equal(&mut self, call: &'static str, outcome: &Outcome) {
        let row = self.row(call);
        row.compared += 1;
        match outcome {
            Err(number) => row.count(&format!("{REFUSED} {number}")),
            Ok(answer) => answer.kinds.iter().for_each(|kind| row.count(kind)),
        }
    }

    /// One more number of the function that was equal.
    pub fn equal_number(&mut self, function: &'static str) {
        self.row(function).compared += 1;
    }

    /// One line a call: equal of compared, then how many of each kind. `differing` is the call that ended the
    /// comparison, if one did.
    pub fn print(&self, differing: Option<&str>) {
        // What is no call of the library comes last.
        let declared: Vec<_> = library::all().collect();
        let others = self.rows.iter().map(|(name, _)| (*name, true));
        let others: Vec<_> = others.filter(|(name, _)| !declared.iter().any(|(call, _)| call == name)).collect();
        for (call, present) in declared.into_iter().chain(others) {
            let row =
                self.rows.iter().find(|(name, _)| *name == call).map_or_else(Row::default, |(_, row)| row.clone());
            if !present {
                println!("{call:31} not in this library, not compared");
                continue;
            }
            let all = row.compared + (differing == Some(call)) as u64;
            println!("{call:31} {} of {all} equal", row.compared);
            let mut kinds = row.kinds.clone();
            kinds.sort_by_key(|(name, _)| (name.starts_with(REFUSED), place(name), name.clone()));
            for (name, times) in kinds {
                println!("{:31} {times:8} {name}", "");
            }
        }
    }
}

/// Hypotheses come first, then what became of the buffer, then all else.
fn place(kind: &str) -> usize {
    let first = ["one", "two", "noncw", "unresolved", "taken", "kept"];
    first.iter().position(|k| *k == kind).unwrap_or(first.len())
}

impl Row {
    fn count(&mut self, kind: &str) {
        match self.kinds.iter_mut().find(|(name, _)| name == kind) {
            Some((_, times)) => *times += 1,
            None => self.kinds.push((kind.into(), 1)),
        }
    }
}
