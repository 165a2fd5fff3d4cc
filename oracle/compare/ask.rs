//! Makes each call of the library and of the oracle on the same scene and compares what both leave behind.

use crate::library;
use crate::tally::Tally;
use oracle::calls::{Outcome, CALLS};
use oracle::handed::Handed;
use oracle::random::Random;
use oracle::scene::Scene;

/// The first difference of a comparison.
#[derive(Debug)]
pub struct Difference {
    pub call: &'static str,
    pub what: String,
}

pub type Compared = Result<(), Difference>;

/// Compares calls and keeps the tally.
pub struct Asker {
    pub tally: Tally,
    pub random: Random,
    /// The one call that is compared; none named: all.
    pub only: Option<String>,
    /// What the last run that took has left in the buffer.
    pub left: Option<Vec<f32>>,
}

impl Asker {
    /// Compares each call that the scene is for and the library has.
    pub fn all(&mut self, scene: &Scene) -> Compared {
        for call in CALLS.iter().filter(|c| scene.is_for(c.name)) {
            if !self.asks(call.name) {
                continue;
            }
            let Some(ask) = library::ask(call.name) else { continue };
            let mut handed = Handed::lend(call, scene, &mut self.random);
            let status = ask(&mut handed);
            let outcome = call.outcome(scene);
            handed.judge(call, status, &outcome).map_err(|what| Difference { call: call.name, what })?;
            self.tally.equal(call.name, &outcome);
            if call.name == "cancel_run" {
                self.left = taken(outcome);
            }
        }
        Ok(())
    }

    /// Is this call or function compared?
    pub fn asks(&self, name: &str) -> bool {
        self.only.as_deref().is_none_or(|only| only == name)
    }
}

/// The buffer of a run that took.
fn taken(run: Outcome) -> Option<Vec<f32>> {
    run.ok().filter(|answer| answer.kinds.contains(&"taken")).and_then(|answer| answer.buffer)
}
