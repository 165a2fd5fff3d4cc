//! examples/receiver.c, built as C99 and as C++ over the same library: what it prints of a run and what it writes is
//! the oracle's answer, and it says in words what is refused.

use crate::ask::{Compared, Difference};
use crate::tally::Tally;
use oracle::answers::Answer;
use oracle::calls::call;
use oracle::figures::RUN;
use oracle::header;
use oracle::lent::Bits;
use oracle::noes;
use oracle::questions::{CARRIER, RATE};
use oracle::random::Random;
use oracle::recordings::{sent, Aim, AIMS};
use oracle::scene::{Recording, Scene};
use oracle::signals::real;
use std::fs;
use std::path::PathBuf;
use std::process::{Command, Output};

/// What it is called in the tally.
const RECEIVER: &str = "examples/receiver.c";

/// The most floats of a recording that is handed to it, but for one that is too long.
const MOST: usize = 100_000;

/// The program, built one way.
pub struct Receiver {
    program: PathBuf,
}

/// The run's figures in their order, as the program names them.
const NAMES: [&str; RUN] = [
    "samples",
    "window",
    "key_downs",
    "listed",
    "short",
    "fitted",
    "skipped",
    "airtime",
    "blocks",
    "edge",
    "interior",
    "gap",
    "other",
    "carrier_hz",
    "carrier_step_hz",
    "edge_over_neighbour_db",
    "interior_over_neighbour_db",
    "residual_edge_blocks",
    "residual_interior_blocks",
    "residual_gap_blocks",
    "evidence_gap_blocks",
    "hot_fraction",
    "offset_present",
    "offset_hz",
    "coherence",
    "hypothesis",
    "hypothesis_offset_hz",
    "buffer",
];

impl Receiver {
    pub fn new(program: &str) -> Receiver {
        Receiver { program: program.into() }
    }

    pub fn name(&self) -> &str {
        self.program.file_name().and_then(|n| n.to_str()).unwrap_or("receiver")
    }

    /// Runs that are taken, kept and refused.
    pub fn all(&self, seed: u64, tally: &mut Tally) -> Compared {
        let mut r = Random::new(seed);
        let ones = |k: usize| if (100..200).contains(&k) { 1.0 } else { 0.0 };
        let example = Recording { what: "01's example".into(), fs: 3_000.0, iq: real(300, ones), hint_hz: 0.0 };
        let none = Recording { what: "no samples".into(), fs: 3_000.0, ..Recording::default() };
        let mut scenes: Vec<Scene> =
            [example, none].into_iter().map(|rec| Scene::least(rec, Default::default())).collect();
        for aim in AIMS {
            scenes.push(Scene::least(short(aim, &mut r), Default::default()));
        }
        for question in RATE..=CARRIER {
            let mut scene = scenes[2].clone();
            noes::answer_no(&mut scene, question, &mut r);
            scenes.push(scene);
        }
        for scene in &scenes {
            let what = scene.recording.described();
            self.one(scene, tally)
                .map_err(|wrong| Difference { call: "cancel_run", what: format!("{what}: {wrong}") })?;
        }
        self.wrong_words().map_err(|what| Difference { call: "no", what })
    }

    fn one(&self, scene: &Scene, tally: &mut Tally) -> Result<(), String> {
        let rec = &scene.recording;
        let (recording, residual) = (self.beside("cf32"), self.beside("residual.cf32"));
        let bytes: Vec<u8> = rec.iq.iter().flat_map(|x| x.to_le_bytes()).collect();
        fs::write(&recording, bytes).map_err(|e| format!("{}: {e}", recording.display()))?;
        let _ = fs::remove_file(&residual);
        let words = [format!("{:e}", rec.fs), format!("{:e}", rec.hint_hz)];
        let output = Command::new(&self.program).args(words).args([&recording, &residual]).output();
        let output = output.map_err(|e| format!("{}: {e}", self.program.display()))?;
        let outcome = call("cancel_run").outcome(scene);
        match &outcome {
            Err(number) => refused(*number, &output, residual.exists())?,
            Ok(answer) => {
                status(&output, 0)?;
                figures(&output, answer)?;
                let left = fs::read(&residual).map_err(|e| format!("{}: {e}", residual.display()))?;
                let left = left.chunks_exact(4).map(|b| f32::from_le_bytes([b[0], b[1], b[2], b[3]]));
                same_buffer(left.collect(), answer.buffer.as_deref().unwrap_or(&[]))?;
            }
        }
        tally.equal(RECEIVER, &outcome);
        Ok(())
    }

    /// A word that is no number, a file that is not there, one that ends within a number: one line, and status 2.
    fn wrong_words(&self) -> Result<(), String> {
        let broken = self.beside("broken.cf32");
        fs::write(&broken, [0; 6]).map_err(|e| format!("{}: {e}", broken.display()))?;
        let broken = broken.to_string_lossy().into_owned();
        for words in [
            &[][..],
            &["3000", "0"],
            &["fast", "0", &broken],
            &["3000", "0x", &broken],
            &["3000", "0", "/no/such/file"],
            &["3000", "0", &broken],
        ] {
            let output = Command::new(&self.program).args(words).output().map_err(|e| e.to_string())?;
            status(&output, 2).map_err(|wrong| format!("{words:?}: {wrong}"))?;
            if !output.stdout.is_empty() || String::from_utf8_lossy(&output.stderr).lines().count() != 1 {
                return Err(format!("{words:?}: not one line on standard error"));
            }
        }
        Ok(())
    }

    /// A file that stands beside the program.
    fn beside(&self, extension: &str) -> PathBuf {
        let mut path = self.program.clone().into_os_string();
        path.push(".");
        path.push(extension);
        path.into()
    }
}

fn short(aim: Aim, r: &mut Random) -> Recording {
    loop {
        let rec = sent(aim, r);
        if rec.iq.len() <= MOST {
            return rec;
        }
    }
}

fn status(output: &Output, expected: i32) -> Result<(), String> {
    if output.status.code() == Some(expected) {
        return Ok(());
    }
    Err(format!("{}, not {expected}: {}", output.status, String::from_utf8_lossy(&output.stderr).trim()))
}

/// Nothing printed and nothing written; the number and the header's words for it on standard error.
fn refused(number: u64, output: &Output, residual: bool) -> Result<(), String> {
    status(output, 1)?;
    let said = String::from_utf8_lossy(&output.stderr);
    let reason = header::reason(number).ok_or("the header has no reason for it")?;
    let expected = format!("receiver: refused by question {number}: {reason}\n");
    if said != expected {
        return Err(format!("says {said:?}, and {expected:?} is expected"));
    }
    if residual || !output.stdout.is_empty() {
        return Err("prints or writes something on a refusal".into());
    }
    Ok(())
}

/// One line a figure, each by its name and in order.
fn figures(output: &Output, answer: &Answer) -> Result<(), String> {
    let said = String::from_utf8_lossy(&output.stdout);
    let lines: Vec<(&str, &str)> = said.lines().filter_map(|l| l.split_once(' ')).map(|(n, v)| (n, v.trim())).collect();
    if lines.len() != NAMES.len() || said.lines().count() != NAMES.len() {
        return Err(format!("prints {} lines, and {} are expected", said.lines().count(), NAMES.len()));
    }
    for ((expected, &number), (name, value)) in NAMES.iter().zip(&answer.figures).zip(lines) {
        let same = match *expected {
            "hypothesis" => value == answer.kinds[0],
            "buffer" => value == if number != 0.0 { "taken" } else { "kept" },
            _ => value.parse::<f64>().is_ok_and(|x| x.same(number)),
        };
        if name != *expected || !same {
            return Err(format!("prints {name} {value}, and {expected} {number:?} is expected"));
        }
    }
    Ok(())
}

fn same_buffer(left: Vec<f32>, expected: &[f32]) -> Result<(), String> {
    if left.len() != expected.len() {
        return Err(format!("writes {} floats, and {} are expected", left.len(), expected.len()));
    }
    match left.iter().zip(expected).position(|(a, b)| !a.same(*b)) {
        Some(at) => Err(format!("writes {:?} at {at}, and {:?} is expected", left[at], expected[at])),
        None => Ok(()),
    }
}
