//! That the comparison can fail: a made-up library does what the oracle answers, and is judged equal; then one bit of
//! one number is turned, at a time, and just what document 01 leaves free may differ.

use oracle::calls::{Call, Outcome, Slot, CALLS};
use oracle::figures::RUN_TAKEN;
use oracle::handed::Handed;
use oracle::lent::{Bits, Lent};
use oracle::noes;
use oracle::questions::LAST;
use oracle::random::Random;
use oracle::recordings::{sent, Aim};
use oracle::records::{ELEMENT, FIT};
use oracle::scene::{Evidence, Scene};

/// A recording that a run takes, with its own estimate, and lists with numbers after their last place.
fn scene() -> Scene {
    let evidence = Evidence { gap_blocks: 9, hot_fraction: 0.4, present: 1, offset_hz: 40.0, coherence: 0.9 };
    for seed in 1.. {
        let mut r = Random::new(seed);
        let mut scene = Scene::own(sent(Aim::Neighbour, &mut r), &mut r);
        scene.evidence = evidence;
        let run = oracle::calls::call("cancel_run").outcome(&scene).expect("an accepted run");
        if run.figures[RUN_TAKEN] == 1.0
            && run.figures.iter().all(|x| x.is_finite())
            && scene.recording.iq.len() < 30_000
        {
            for len in [&mut scene.elements_len, &mut scene.fits_len, &mut scene.places_len, &mut scene.work_len] {
                *len += 3;
            }
            scene.row_len += 3;
            scene.classes_len += 3;
            return scene;
        }
    }
    unreachable!()
}

fn put<T: Bits>(slice: &mut Lent<T>, numbers: &[T]) {
    let start = slice.start();
    slice.cells()[start..start + numbers.len()].copy_from_slice(numbers);
}

/// Does what the oracle answers.
fn obey(call: &Call, handed: &mut Handed, outcome: &Outcome) -> u64 {
    match outcome {
        Err(number) => *number,
        Ok(answer) => {
            put(&mut handed.figures, &answer.figures);
            put(&mut handed.elements, &answer.elements);
            put(if call.is_handed(Slot::places) { &mut handed.places } else { &mut handed.fits }, &answer.fits);
            put(&mut handed.row, &answer.row);
            put(&mut handed.classes, &answer.classes);
            if let Some(buffer) = &answer.buffer {
                put(&mut handed.recording, buffer);
            }
            0
        }
    }
}

/// Turns the lowest bit of some of the numbers, one at a time, guards included, and asks the judge each time. `free`
/// says which places of the slice may hold anything.
fn turned<T: Bits>(
    handed: &mut Handed,
    slice: fn(&mut Handed) -> &mut Lent<T>,
    judged: impl Fn(&Handed) -> Result<(), String>,
    free: impl Fn(usize) -> bool,
    what: &str,
) {
    let (start, len, all) = (slice(handed).start(), slice(handed).len(), slice(handed).cells().len());
    let stride = (len / 60).max(1);
    let places = (0..all).filter(|&i| i < start + 9 || i + 24 > all || i % stride == 0);
    for at in places {
        let old = slice(handed).cells()[at];
        slice(handed).cells()[at] = T::of(old.bits() ^ 1);
        let inside = (start..start + len).contains(&at);
        let may = inside && free(at - start);
        assert_eq!(judged(handed).is_ok(), may, "{what}: number {} of {len}", at as i64 - start as i64);
        slice(handed).cells()[at] = old;
    }
}

/// Turns numbers of every slice that is lent.
fn each_slice(call: &Call, handed: &mut Handed, outcome: &Outcome, status: u64) {
    let judged = |h: &Handed| h.judge(call, status, outcome);
    assert_eq!(judged(handed), Ok(()), "{}", call.name);
    assert!(handed.judge(call, status + 1, outcome).is_err(), "{}: another status", call.name);
    let accepted = outcome.as_ref().ok();
    let past = |count: usize, len: usize, record: usize| {
        move |i: usize| accepted.is_some() && i >= count && i < len / record * record
    };
    let what = |slice: &str| format!("{}, {slice}", call.name);
    let (elements, fits) = accepted.map_or((0, 0), |a| (a.elements.len(), a.fits.len()));
    let (row, classes) = accepted.map_or((0, 0), |a| (a.row.len(), a.classes.len()));
    let none = |_: usize| false;
    turned(handed, |h| &mut h.recording, judged, none, &what("recording"));
    turned(handed, |h| &mut h.figures, judged, none, &what("figures"));
    turned(handed, |h| &mut h.given_elements, judged, none, &what("given elements"));
    turned(handed, |h| &mut h.given_fits, judged, none, &what("given fits"));
    turned(handed, |h| &mut h.check, judged, none, &what("check"));
    let free = past(elements, handed.elements.len(), ELEMENT);
    turned(handed, |h| &mut h.elements, judged, free, &what("elements"));
    let free = past(fits, handed.fits.len(), FIT);
    turned(handed, |h| &mut h.fits, judged, free, &what("fits"));
    let free = past(fits, handed.places.len(), FIT);
    turned(handed, |h| &mut h.places, judged, free, &what("places"));
    let free = past(row, handed.row.len(), 1);
    turned(handed, |h| &mut h.row, judged, free, &what("row"));
    let free = past(classes, handed.classes.len(), 1);
    turned(handed, |h| &mut h.classes, judged, free, &what("classes"));
    turned(handed, |h| &mut h.work, judged, |_| accepted.is_some(), &what("work"));
}

#[test]
fn one_bit_of_an_answer() {
    let scene = scene();
    for call in CALLS {
        let outcome = call.outcome(&scene);
        assert!(outcome.is_ok(), "{}", call.name);
        let mut handed = Handed::lend(call, &scene, &mut Random::new(1));
        let status = obey(call, &mut handed, &outcome);
        each_slice(call, &mut handed, &outcome, status);
    }
}

#[test]
fn one_bit_on_a_refusal() {
    let admitted = scene();
    for question in 1..=LAST {
        let mut scene = admitted.clone();
        noes::answer_no(&mut scene, question, &mut Random::new(3));
        for call in CALLS {
            let outcome = call.outcome(&scene);
            if outcome.is_err() {
                let mut handed = Handed::lend(call, &scene, &mut Random::new(1));
                let status = obey(call, &mut handed, &outcome);
                each_slice(call, &mut handed, &outcome, status);
            }
        }
    }
}

/// What a run or a subtraction would leave in the buffer if it did nothing, or all of it twice.
#[test]
fn another_buffer() {
    let scene = scene();
    for call in CALLS.iter().filter(|c| c.is_handed(Slot::buf)) {
        let outcome = call.outcome(&scene);
        let mut handed = Handed::lend(call, &scene, &mut Random::new(1));
        let status = obey(call, &mut handed, &outcome);
        assert_eq!(handed.judge(call, status, &outcome), Ok(()));
        put(&mut handed.recording, &scene.recording.iq);
        assert!(handed.judge(call, status, &outcome).is_err(), "{}: an untouched buffer", call.name);
    }
}
