//! Compares every call of the linked library with the oracle, on the same inputs: figures, lists and buffers bit for
//! bit (all NaNs one, both zeros one), refusals, and the numbers that must not be written.
//!
//! First come the limits, the same in every run but for the numbers drawn from S. Then for N seconds cases by seed: a
//! case is made from its seed alone, the first from S, the next from S + 1, and so on. How far it is goes to standard
//! error.

mod ask;
mod at_once;
#[path = "../link/library.rs"]
mod library;
mod numbers;
mod receiver;
mod tally;

use ask::{Asker, Compared, Difference};
use oracle::limits::{self, Limit};
use oracle::random::Random;
use oracle::scene::{Recording, Scene};
use oracle::{given, noes, recordings};
use receiver::Receiver;
use std::panic::{catch_unwind, AssertUnwindSafe};
use std::process::ExitCode;
use std::time::{Duration, Instant};

/// Runs of less than this many seconds leave out the recordings of 2^20 samples.
const LONG_RUN: u64 = 20;

/// Seconds between two lines that say how far the cases by seed are.
const TOLD: u64 = 10;

struct Options {
    seconds: u64,
    seed: u64,
    /// The one call that is compared; none named: all.
    call: Option<String>,
    /// The example programs that are linked with the same library.
    receivers: Vec<Receiver>,
}

fn options() -> Result<Options, String> {
    let mut options = Options { seconds: 30, seed: 1, call: None, receivers: Vec::new() };
    let mut words = std::env::args().skip(1);
    while let Some(word) = words.next() {
        let value = words.next().ok_or(format!("{word}: a value is to follow"))?;
        let whole = || value.parse().map_err(|_| format!("{word}: a whole number is to follow"));
        match word.as_str() {
            "--seconds" => options.seconds = whole()?,
            "--seed" => options.seed = whole()?,
            "--call" if library::present(&value) => options.call = Some(value),
            "--call" => return Err(format!("{value}: the library has no such call")),
            "--receiver" => options.receivers.push(Receiver::new(&value)),
            _ => {
                return Err(format!("{word} is not known; --seconds N, --seed S, --call NAME, --receiver PROGRAM are"))
            }
        }
    }
    Ok(options)
}

fn main() -> ExitCode {
    let options = match options() {
        Ok(options) => options,
        Err(message) => {
            eprintln!("compare: {message}");
            return ExitCode::from(2);
        }
    };
    if !library::all().any(|(_, present)| present) {
        eprintln!("compare: no call to compare: linked with no library, or with one that has none of them");
        return ExitCode::from(2);
    }
    if !library::undeclared().is_empty() {
        eprintln!("compare: not declared in oracle/src/calls.rs: {}", library::undeclared().join(", "));
        return ExitCode::from(2);
    }
    let only = options.call.clone();
    let mut asker = Asker { tally: Default::default(), random: Random::new(options.seed), only, left: None };
    let (cases, found) = compare(&mut asker, &options);
    asker.tally.print(found.as_ref().map(|(_, d)| d.call));
    match found {
        None => {
            println!("compare: all equal; {cases} cases from seed {}", options.seed);
            ExitCode::SUCCESS
        }
        Some((at, Difference { call, what })) => {
            println!("compare: DIFFERENT, {at}, call {call}: {what}");
            ExitCode::FAILURE
        }
    }
}

/// The number of cases compared by chance, and the first difference with where it was found.
fn compare(asker: &mut Asker, options: &Options) -> (u64, Option<(String, Difference)>) {
    let seed = options.seed;
    let named = |difference, what: &str| Some((format!("seed {seed}, {what}"), difference));
    asker.random = Random::new(seed);
    eprintln!("compare: special numbers");
    if let Err(difference) = not_stopping(|| asker.special_numbers()) {
        return (0, named(difference, "special numbers"));
    }
    let mut limits: Vec<Limit<Difference>> = limits::limits().to_vec();
    if options.seconds >= LONG_RUN {
        limits.push(("2^20 samples", limits::longest));
    }
    for (what, limit) in limits {
        eprintln!("compare: {what}");
        let mut last = String::new();
        let mut each = |scene: &Scene| {
            last = scene.recording.described();
            asker.all(scene)
        };
        if let Err(difference) = not_stopping(|| limit(&mut Random::new(seed), &mut each)) {
            return (0, named(difference, &format!("{what}: {last}")));
        }
    }
    if options.call.is_none() {
        if let Err((what, difference)) = together(asker, options) {
            return (0, named(difference, &what));
        }
    }
    by_seed(asker, options)
}

/// What is asked of all calls together: two of them at once, and the programs that use them. On a difference, in what.
fn together(asker: &mut Asker, options: &Options) -> Result<(), (String, Difference)> {
    let what = "two calls at once";
    eprintln!("compare: {what}");
    not_stopping(|| at_once::two(options.seed)).map_err(|difference| (what.into(), difference))?;
    for receiver in &options.receivers {
        let what = receiver.name();
        eprintln!("compare: {what}");
        not_stopping(|| receiver.all(options.seed, &mut asker.tally))
            .map_err(|difference| (what.into(), difference))?;
    }
    Ok(())
}

/// Cases by seed, until the time is over.
fn by_seed(asker: &mut Asker, options: &Options) -> (u64, Option<(String, Difference)>) {
    let began = Instant::now();
    let (mut cases, mut told) = (0, 0);
    while cases == 0 || began.elapsed() < Duration::from_secs(options.seconds) {
        let seed = options.seed.wrapping_add(cases);
        let mut what = String::new();
        if let Err(difference) = not_stopping(|| case(asker, seed, &mut what)) {
            return (cases, Some((format!("seed {seed}, {what}"), difference)));
        }
        cases += 1;
        let seconds = began.elapsed().as_secs();
        if seconds / TOLD > told {
            told = seconds / TOLD;
            eprintln!("compare: {cases} cases by seed, {seconds} of {} seconds", options.seconds);
        }
    }
    (cases, None)
}

/// A comparison that stops with a panic counts as a difference, so that its seed is named.
fn not_stopping(compared: impl FnOnce() -> Compared) -> Compared {
    catch_unwind(AssertUnwindSafe(compared)).unwrap_or_else(|_| {
        let what = "the comparison stopped, as said above".into();
        Err(Difference { call: "the oracle's", what })
    })
}

/// All calls on one recording, then on what is refused of it, and on what a run left of it; and some numbers. `what`
/// says what was compared last.
fn case(asker: &mut Asker, seed: u64, what: &mut String) -> Compared {
    let mut r = Random::new(seed);
    let recording = recordings::recording(&mut r);
    *what = recording.described();
    let given = given::estimate(&recording, &mut r);
    let admitted = Scene::new(recording, given, &mut r);
    let refused = [noes::refused(&admitted, &mut r), noes::refused(&admitted, &mut r)];
    asker.random = r.clone();
    *what = admitted.recording.described();
    asker.all(&admitted)?;
    let left = asker.left.take().map(|iq| again(&admitted, iq, &mut r));
    for scene in refused.iter().chain(&left) {
        *what = scene.recording.described();
        asker.all(scene)?;
    }
    *what = "numbers".into();
    asker.numbers(200)?;
    limits::hypotheses(20, &mut r, &mut |scene| asker.all(scene))?;
    limits::checks(20, &mut r, &mut |scene| asker.all(scene))
}

/// The scene with what a run left, and its own estimate.
fn again(scene: &Scene, iq: Vec<f32>, r: &mut Random) -> Scene {
    let what = format!("{}, run again", scene.recording.what);
    let rec = Recording { what, iq, ..scene.recording.clone() };
    // A run can leave infinite samples, of which no estimate can be made.
    if rec.iq.iter().all(|x| x.is_finite()) {
        Scene::own(rec, r)
    } else {
        Scene::new(rec, Default::default(), r)
    }
}
