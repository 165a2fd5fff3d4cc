//! Times the linked library beside cancel.rs, with the platform's functions and with the stand-ins: thread time, in
//! turn, least of many rounds.

mod clock;
#[path = "../link/library.rs"]
mod library;
mod numbers;
mod table;

use clock::{least, Contender};
use num_complex::Complex32;
use oracle::calls::{call, Slot};
use oracle::handed::Handed;
use oracle::limits::LONGEST;
use oracle::random::Random;
use oracle::records;
use oracle::scene::{Recording, Scene};
use oracle::signals::{real, senders, Sender};
use std::hint::black_box;
use std::process::ExitCode;
use table::{head, line, RUST, UNIT};

const HINT_HZ: f64 = 300.0;

/// Rates of the longest recordings: at the first a step is one sample, at the last 64.
const RATES: [f64; 3] = [3_000.0, 96_000.0, 192_000.0];

/// The samples of a short recording, and how many rounds of it are made for one of a long one.
const SHORT: usize = 2_048;
const SHORT_ROUNDS: usize = 50;

fn main() -> ExitCode {
    let words: Vec<String> = std::env::args().skip(1).collect();
    let rounds = match words.iter().map(String::as_str).collect::<Vec<_>>()[..] {
        [] => Ok(7),
        ["--repeats", n] => n.parse().map_err(|_| "--repeats: a whole number is to follow".to_string()),
        ["--repeats"] => Err("--repeats: a whole number is to follow".into()),
        [word, ..] => Err(format!("{word} is not known; --repeats N is")),
    };
    let rounds = match library::ask("cancel_find_elements") {
        None => Err("nothing to time: linked with no library, or with one that has no cancel_find_elements".into()),
        Some(_) => rounds,
    };
    match rounds {
        Ok(rounds) => {
            all(rounds);
            ExitCode::SUCCESS
        }
        Err(message) => {
            eprintln!("bench: {message}");
            ExitCode::from(2)
        }
    }
}

fn all(rounds: usize) {
    numbers::print(100 * rounds);
    for fs in RATES {
        stages(LONGEST, fs, rounds);
    }
    stages(SHORT, 3_000.0, SHORT_ROUNDS * rounds);
    lengths(rounds);
    rows(rounds);
}

/// Times one line, if the library has the call.
fn timed(what: &str, name: &str, scene: &Scene, rounds: usize, rust: [Contender; 2]) {
    eprintln!("bench: {what}, {} samples at {} a second", scene.recording.iq.len() / 2, scene.recording.fs);
    let Some(ask) = library::ask(name) else {
        println!("{what:28} not in this library");
        return;
    };
    // The slices are lent once, so that only the call itself is timed. A buffer starts each time as it was: the copy is
    // a small part of the time, and the same for all.
    let written = call(name).is_handed(Slot::buf);
    let mut handed = Handed::lend(call(name), scene, &mut Random::new(1));
    let library: Contender = Box::new(|| {
        if written {
            handed.recording.again();
        }
        assert_eq!(ask(&mut handed), 0, "{name} refuses");
    });
    let [platform, stood_in] = rust;
    line(what, scene.recording.iq.len() / 2, &least(rounds, &mut [library, platform, stood_in]));
}

/// The same work by cancel.rs with the platform's functions and with the stand-ins: `$rust` stands for either module,
/// `$est` for what it has at hand before the clock starts, `$buf` for a buffer that holds the samples at each start.
macro_rules! either {
    ($rust:ident, $est:ident in $both:expr, $work:expr) => {
        [
            {
                use oracle::by_platform as $rust;
                let $est = &$both.0;
                Box::new(move || {
                    black_box($work);
                }) as Contender
            },
            {
                use oracle::by_stand_ins as $rust;
                let $est = &$both.1;
                Box::new(move || {
                    black_box($work);
                }) as Contender
            },
        ]
    };
    ($rust:ident, $est:ident in $both:expr, $buf:ident = $samples:expr, $work:expr) => {{
        let mut buffers = ($samples.to_vec(), $samples.to_vec());
        [
            {
                use oracle::by_platform as $rust;
                let $est = &$both.0;
                Box::new(move || {
                    let $buf = again(&mut buffers.0, $samples);
                    black_box($work);
                }) as Contender
            },
            {
                use oracle::by_stand_ins as $rust;
                let $est = &$both.1;
                Box::new(move || {
                    let $buf = again(&mut buffers.1, $samples);
                    black_box($work);
                }) as Contender
            },
        ]
    }};
}

/// The buffer, holding the samples again.
fn again<'a>(buffer: &'a mut [Complex32], samples: &[Complex32]) -> &'a mut [Complex32] {
    buffer.copy_from_slice(samples);
    buffer
}

/// Every stage by itself and the whole run, on so many samples of a strong sender, its neighbour and some noise.
fn stages(n: usize, fs: f64, rounds: usize) {
    let iq = two_senders(n, fs);
    let samples = &records::samples(&iq)[..];
    let scene = Scene::own(Recording { what: "2 senders".into(), fs, iq, hint_hz: HINT_HZ }, &mut Random::new(1));
    let (elements, fits) = (scene.given.element_count, scene.given.fit_count);
    let became = if oracle::by_stand_ins::way_in::run(&mut samples.to_vec(), fs, HINT_HZ) { "taken" } else { "kept" };
    println!("{n} samples at {fs} a second, {elements} elements, {fits} fits, {became}: {UNIT}{rounds} rounds");
    head("", &["library", RUST[0], RUST[1]]);
    let est = &(
        oracle::by_platform::estimate_strong(samples, fs, HINT_HZ),
        oracle::by_stand_ins::estimate_strong(samples, fs, HINT_HZ),
    );
    let timed = |what, name, rust| timed(what, name, &scene, rounds, rust);
    timed("find_elements", "cancel_find_elements", either!(rust, _e in est, rust::find_elements(samples, fs, HINT_HZ)));
    timed(
        "fit_elements",
        "cancel_fit_elements",
        either!(rust, e in est, rust::fit_elements(samples, fs, HINT_HZ, &e.elements)),
    );
    timed(
        "estimate_strong",
        "cancel_estimate_strong",
        either!(rust, _e in est, rust::estimate_strong(samples, fs, HINT_HZ)),
    );
    timed("residual_check", "cancel_residual_check", either!(rust, e in est, rust::residual_check(samples, fs, e)));
    timed(
        "second_carrier_evidence",
        "cancel_second_carrier_evidence",
        either!(rust, e in est, rust::second_carrier_evidence(samples, fs, e)),
    );
    timed("subtract", "cancel_subtract", either!(rust, e in est, buf = samples, rust::subtract(buf, fs, e)));
    timed("run", "cancel_run", either!(rust, _e in est, buf = samples, rust::way_in::run(buf, fs, HINT_HZ)));
    println!();
}

fn two_senders(n: usize, fs: f64) -> Vec<f32> {
    let both = [Sender::keyed(HINT_HZ, 1.0, 0.06), Sender::keyed(HINT_HZ + 50.0, 0.3, 0.07)];
    senders(n, fs, &both, 0.001, &mut Random::new(1))
}

/// Find and run beside both Rusts on one recording.
fn find_and_run(what: &str, iq: Vec<f32>, fs: f64, hint_hz: f64, rounds: usize) {
    let samples = &records::samples(&iq)[..];
    let scene = Scene::least(Recording { what: what.into(), fs, iq, hint_hz }, Default::default());
    let found = either!(rust, _e in ((), ()), rust::find_elements(samples, fs, hint_hz));
    timed(&format!("find, {what}"), "cancel_find_elements", &scene, rounds, found);
    let ran = either!(rust, _e in ((), ()), buf = samples, rust::way_in::run(buf, fs, hint_hz));
    timed(&format!("run, {what}"), "cancel_run", &scene, rounds, ran);
}

/// Does the cost grow with the samples alone? At step 1 the row is as long as the recording.
fn lengths(rounds: usize) {
    for fs in RATES {
        println!("By length, {fs} a second: {UNIT}{rounds} rounds");
        head("", &["library", RUST[0], RUST[1]]);
        for power in [16, 18, 20] {
            find_and_run(&format!("2^{power} samples"), two_senders(1 << power, fs), fs, HINT_HZ, rounds);
        }
        println!();
    }
}

/// Rows that are hard on a selection: where all values are equal, none is told from the others before the last digit;
/// where they are sorted, a sort is done at once.
fn rows(rounds: usize) {
    let fs = RATES[0];
    println!("By row, 2^20 samples, {fs} a second (step 1): {UNIT}{rounds} rounds");
    head("", &["library", RUST[0], RUST[1]]);
    let rising = |k: usize| k as f32 / LONGEST as f32;
    let row = |what, iq| find_and_run(what, iq, fs, 0.0, rounds);
    row("zero", real(LONGEST, |_| 0.0));
    row("equal", real(LONGEST, |_| 1.0));
    row("rising", real(LONGEST, rising));
    row("falling", real(LONGEST, |k| 1.0 - rising(k)));
    row("alternating", real(LONGEST, |k| if k / 8 % 2 == 0 { 1.0 } else { 0.25 }));
    // Amplitudes that differ in their last bits alone: every pass of a selection is needed.
    row("nearly equal", real(LONGEST, |k| f32::from_bits(1f32.to_bits() + (k as u32).wrapping_mul(2_654_435_761) % 8)));
    println!();
}
