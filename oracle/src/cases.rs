//! What the stored answers are asked of: each call, each hypothesis, runs that are taken, refusals by each number. The
//! same bytes on every machine.

use crate::calls::{call, Call, Slot, CALLS};
use crate::random::Random;
use crate::recordings::Aim;
use crate::scene::{Given, Recording, Scene};
use crate::signals::{real, senders, Sender};
use crate::stored::{has_room, is_stored, whole, Stored, Wrong};
use crate::{crowded, given, limits, noes, questions};
use std::collections::BTreeSet;

/// How many runs of each kind are stored with all calls about them. The kinds are those of `answers::run`.
const RUNS: [(&str, Aim, usize); 7] = [
    ("taken", Aim::Neighbour, 8),
    ("two, but few fits", Aim::Few, 1),
    ("two, but a large step", Aim::FarHint, 1),
    ("two, but not clean", Aim::Rough, 1),
    ("one", Aim::Alone, 2),
    ("noncw", Aim::Steady, 2),
    ("unresolved", Aim::Unclear, 2),
];

/// The file.
pub fn bytes() -> Vec<u8> {
    let mut stored = Stored::default();
    for (kind, aim, times) in RUNS {
        crowded_runs(&mut stored, kind, aim, times);
    }
    small_ones(&mut stored);
    refusals(&mut stored);
    hypotheses(&mut stored);
    meant_to_differ(&mut stored);
    stored.bytes()
}

/// These calls on this scene.
fn ask(stored: &mut Stored, s: &Scene, calls: &[&str]) {
    assert!(has_room(s), "{}: more than the program has room for", s.recording.described());
    for (number, call) in CALLS.iter().enumerate().filter(|(_, c)| calls.contains(&c.name)) {
        stored.ask(call, number, s, None);
    }
}

/// Calls that are handed a recording alone.
const ALONE: [&str; 3] = ["cancel_find_elements", "cancel_estimate_strong", "cancel_run"];

/// Calls that are given an estimate too, and measure.
const MEASURES: [&str; 2] = ["cancel_residual_check", "cancel_second_carrier_evidence"];

/// Those that fit given elements or take given fits off.
const GIVEN: [&str; 2] = ["cancel_fit_elements", "cancel_subtract"];

/// The first recordings by seed whose run is of this kind, each with its own estimate.
fn crowded_scenes(kind: &str, aim: Aim, times: usize) -> Vec<Scene> {
    let of_kind = |scene: &Scene| call("cancel_run").outcome(scene).is_ok_and(|a| a.kinds.contains(&kind));
    let by_seed = |seed| {
        let mut r = Random::new(seed);
        Scene::own(crowded::recording(aim, &mut r), &mut r)
    };
    let scenes: Vec<Scene> = (1..20_000).map(by_seed).filter(of_kind).take(times).collect();
    assert_eq!(scenes.len(), times, "{kind}: too few recordings by seed");
    scenes
}

/// Of those that are kept nothing is subtracted, since what is left takes as much room as the recording.
fn crowded_runs(stored: &mut Stored, kind: &str, aim: Aim, times: usize) {
    for mut scene in crowded_scenes(kind, aim, times) {
        stored.recording(&scene.recording.iq, crowded::SCALE);
        ask(stored, &scene, &ALONE);
        ask(stored, &scene, &MEASURES);
        if kind == "taken" {
            ask(stored, &scene, &["cancel_subtract"]);
        }
        // The fits at the refined carrier are those of the estimate, which are stored already.
        scene.recording.hint_hz = scene.given.carrier_hz;
        ask(stored, &scene, &["cancel_fit_elements"]);
    }
}

/// A recording with its own estimate, and with others that are made from it.
fn own_and_others(stored: &mut Stored, rec: Recording, others: usize, r: &mut Random) {
    let scene = Scene::own(rec.clone(), r);
    ask(stored, &scene, &ALONE);
    ask(stored, &scene, &MEASURES);
    ask(stored, &scene, &GIVEN);
    for _ in 0..others {
        let given = given::estimate(&rec, r);
        let scene = Scene::new(rec.clone(), given, r);
        ask(stored, &scene, &MEASURES);
        ask(stored, &scene, &GIVEN);
    }
}

/// Short recordings: about a window, 01's edge table, every size of number, many rates.
fn small_ones(stored: &mut Stored) {
    let mut r = Random::new(8);
    let fs = 3_000.0;
    for n in [0, 1, 7, 8, 9, 16] {
        let iq = whole(&real(n, |k| (k + 1) as f32 / 16.0), crowded::SCALE);
        stored.recording(&iq, crowded::SCALE);
        own_and_others(stored, Recording { what: format!("{n} samples"), fs, iq, hint_hz: 0.0 }, 0, &mut r);
    }
    for (n, lo, hi) in [(300, 100, 200), (107, 40, 55), (107, 40, 54), (300, 100, 161), (300, 100, 160)] {
        let iq = real(n, |k| if (lo..hi).contains(&k) { 1.0 } else { 0.0 });
        stored.recording(&iq, crowded::SCALE);
        let what = format!("ones from {lo} to {hi}");
        own_and_others(stored, Recording { what, fs, iq, hint_hz: 0.0 }, 2, &mut r);
    }
    // From subnormal samples to some near the largest f32.
    for scale in [2f32.powi(-140), 2f32.powi(-60), 2f32.powi(60), 2f32.powi(112)] {
        let fs = r.between(2_000.0, 4_400.0);
        let both = [Sender::keyed(90.0, 0.7, 0.03), Sender::keyed(150.0, 0.25, 0.04)];
        let iq = whole(&senders(400, fs, &both, 0.001, &mut r), crowded::SCALE);
        let iq: Vec<f32> = iq.iter().map(|x| x / crowded::SCALE * scale).collect();
        stored.recording(&iq, scale);
        let what = format!("times {scale:e}");
        own_and_others(stored, Recording { what, fs, iq, hint_hz: 90.3 }, 1, &mut r);
    }
    for fs in [2_000.0, 4_500.0, 8_000.0, 11_025.0, 48_000.0, 96_000.0, 192_000.0] {
        let n = r.whole(200, 500);
        let iq = real(n, |k| if (n / 4..3 * n / 4).contains(&k) { 1.0 - k as f32 / 4096.0 } else { 0.0 });
        stored.recording(&iq, crowded::SCALE);
        let hint_hz = r.pick(&[0.0, fs / 2.0, -fs / 2.0, 10.0]);
        own_and_others(stored, Recording { what: "one key-down".into(), fs, iq, hint_hz }, 1, &mut r);
    }
    // Samples of any finite bits.
    for n in [20, 60] {
        let any = |x: f32| if x.is_finite() { x } else { -0.0 };
        let iq: Vec<f32> = (0..2 * n).map(|_| any(f32::from_bits(r.bits() as u32))).collect();
        stored.samples(&iq);
        own_and_others(stored, Recording { what: "any bits".into(), fs, iq, hint_hz: -1.0 }, 1, &mut r);
    }
}

/// Each of 01's questions answered with no alone, and each two of them, asked by every call that then refuses. The last
/// has the most ways to be answered so.
fn refusals(stored: &mut Stored) {
    let mut r = Random::new(9);
    let fs = 3_000.0;
    let iq = real(300, |k| if (100..200).contains(&k) { 1.0 } else { 0.0 });
    stored.recording(&iq, crowded::SCALE);
    let rec = Recording { what: "refused".into(), fs, iq, hint_hz: 0.0 };
    let given = Given::own(&rec);
    let pairs = (questions::RATE..=questions::GIVEN)
        .flat_map(|first| (questions::RATE..=first).map(move |second| (first, second)));
    let mut refused = BTreeSet::new();
    for (first, second) in pairs.chain([(questions::GIVEN, questions::GIVEN); 12]) {
        let mut s = Scene::new(rec.clone(), given.clone(), &mut r);
        noes::answer_no(&mut s, first, &mut r);
        if second != first {
            noes::answer_no(&mut s, second, &mut r);
        }
        if !has_room(&s) {
            continue;
        }
        for call in CALLS.iter().filter(|c| c.is_handed(Slot::fs) && is_stored(c)) {
            if let Err(no) = call.outcome(&s) {
                ask(stored, &s, &[call.name]);
                refused.insert((call.name, no));
            }
        }
    }
    let numbers = |c: &Call| c.questions(&Scene::default()).iter().map(|(no, _)| *no).collect::<BTreeSet<u64>>();
    let asked: usize = CALLS.iter().filter(|c| is_stored(c)).map(|c| numbers(c).len()).sum();
    assert_eq!(refused.len(), asked, "each call refuses by each question that it asks");
}

/// Evidence about the limits of each hypothesis.
fn hypotheses(stored: &mut Stored) {
    let asked: Result<(), ()> = limits::hypotheses(60, &mut Random::new(10), &mut |s| {
        ask(stored, s, &["cancel_classify"]);
        Ok(())
    });
    asked.expect("no call fails");
}

/// What of each call's answer is wrong by one bit, once.
const WRONG: [(&str, &[Wrong]); 8] = [
    ("cancel_find_elements", &[Wrong::Figure, Wrong::Element, Wrong::Number]),
    ("cancel_fit_elements", &[Wrong::Figure, Wrong::Fit, Wrong::Number]),
    ("cancel_estimate_strong", &[Wrong::Figure, Wrong::Element, Wrong::Fit, Wrong::Number]),
    ("cancel_residual_check", &[Wrong::Figure, Wrong::Number]),
    ("cancel_second_carrier_evidence", &[Wrong::Figure, Wrong::Number]),
    ("cancel_classify", &[Wrong::Figure]),
    ("cancel_subtract", &[Wrong::Sample, Wrong::Number]),
    ("cancel_run", &[Wrong::Figure, Wrong::Element, Wrong::Fit, Wrong::Sample, Wrong::Number]),
];

fn ask_wrongly(stored: &mut Stored, s: &Scene, name: &str, wrong: Wrong) {
    assert!(has_room(s), "{}: more than the program has room for", s.recording.described());
    let number = CALLS.iter().position(|c| c.name == name).expect("a call of this name");
    stored.ask(&CALLS[number], number, s, Some(wrong));
}

/// Answers that are wrong by one bit, which the program has to find unequal: about a short recording whose run is kept;
/// the number of a refusal; the buffer of a run that is taken, and that it is changed at all.
fn meant_to_differ(stored: &mut Stored) {
    let mut r = Random::new(11);
    let iq = real(300, |k| if (100..200).contains(&k) { 1.0 } else { 0.0 });
    stored.recording(&iq, crowded::SCALE);
    let mut s = Scene::own(Recording { what: "meant to differ".into(), fs: 3_000.0, iq, hint_hz: 0.0 }, &mut r);
    for (name, all) in WRONG {
        for wrong in all {
            ask_wrongly(stored, &s, name, *wrong);
        }
    }
    noes::answer_no(&mut s, questions::COUNT, &mut r);
    for (name, _) in WRONG.iter().filter(|(_, all)| all.contains(&Wrong::Number)) {
        ask_wrongly(stored, &s, name, Wrong::Number);
    }
    for s in crowded_scenes("taken", Aim::Neighbour, 1) {
        stored.recording(&s.recording.iq, crowded::SCALE);
        ask_wrongly(stored, &s, "cancel_run", Wrong::Sample);
        ask_wrongly(stored, &s, "cancel_run", Wrong::Kept);
        ask_wrongly(stored, &s, "cancel_subtract", Wrong::Kept);
        // A line more than the residual check has, so that the two calls' lines differ.
        ask_wrongly(stored, &s, "cancel_second_carrier_evidence", Wrong::First);
    }
}
