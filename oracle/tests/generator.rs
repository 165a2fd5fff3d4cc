//! The oracle's whole run over the recordings of the comparison, with no library: how often each hypothesis, kept and
//! taken come, printed (cargo test -- --nocapture), and that each comes in good number.

use oracle::calls::{call, CALLS};
use oracle::questions::LAST;
use oracle::random::Random;
use oracle::scene::Scene;
use oracle::{given, limits, noes, recordings};
use std::collections::BTreeMap;

const CASES: u64 = 400;

fn tallied(kinds: &mut BTreeMap<String, u64>, all: impl Iterator<Item = String>) {
    all.for_each(|kind| *kinds.entry(kind).or_default() += 1);
}

#[test]
fn runs_of_each_kind() {
    let run = call("cancel_run");
    let (mut kinds, mut pairs) = (BTreeMap::new(), BTreeMap::new());
    for seed in 1..=CASES {
        let mut r = Random::new(seed);
        let scene = Scene::least(recordings::recording(&mut r), Default::default());
        let Ok(answer) = run.outcome(&scene) else { continue };
        tallied(&mut kinds, answer.kinds.iter().map(|k| k.to_string()));
        let aim = scene.recording.what.split(',').next().unwrap_or("").to_string();
        tallied(&mut pairs, [format!("{aim:32} {:10} {}", answer.kinds[0], answer.kinds[1])].into_iter());
    }
    println!("of {CASES} recordings by seed, a run answers");
    kinds.iter().for_each(|(kind, times)| println!("{times:6} {kind}"));
    println!("by the kind of recording");
    pairs.iter().for_each(|(pair, times)| println!("{times:6} {pair}"));
    for (kind, least) in [
        ("one", 20),
        ("two", 20),
        ("noncw", 20),
        ("unresolved", 20),
        ("taken", 20),
        ("kept", 20),
        ("two, but few fits", 10),
        ("two, but a large step", 10),
        ("two, but not clean", 10),
    ] {
        assert!(kinds.get(kind).is_some_and(|&times| times >= least), "{kind}: too rare to be compared");
    }
}

/// Every call on every limit and on cases by seed, with estimates of every kind and with refusals: the oracle answers
/// each.
#[test]
fn every_call_answers() {
    let mut kinds = BTreeMap::new();
    let mut ask = |scene: &Scene| -> Result<(), ()> {
        for call in CALLS.iter().filter(|c| scene.is_for(c.name)) {
            let of = |kind: &str| format!("{:31} {kind}", call.name);
            match call.outcome(scene) {
                Err(number) => tallied(&mut kinds, [of(&format!("refused by {number}"))].into_iter()),
                Ok(answer) => tallied(&mut kinds, answer.kinds.iter().map(|kind| of(kind))),
            }
        }
        Ok(())
    };
    for (_, limit) in limits::limits::<()>() {
        limit(&mut Random::new(1), &mut ask).unwrap();
    }
    for seed in 1..=CASES / 4 {
        let mut r = Random::new(seed);
        let recording = recordings::recording(&mut r);
        let given = given::estimate(&recording, &mut r);
        let admitted = Scene::new(recording, given, &mut r);
        ask(&admitted).unwrap();
        ask(&noes::refused(&admitted, &mut r)).unwrap();
    }
    kinds.iter().for_each(|(kind, times)| println!("{times:6} {kind}"));
    let touching = kinds.get(&format!("{:31} with neighbours that touch", "cancel_find_elements"));
    assert!(touching.is_some_and(|&times| times >= 6), "one at each step of the limit, at least");
    // Each call refuses by each question that it asks and by no other.
    for (name, numbers) in [
        ("cancel_find_elements", &[1, 2, 3, 4, 5, 6][..]),
        ("cancel_fit_elements", &[1, 2, 3, 4, 5, 6, 7]),
        ("cancel_estimate_strong", &[1, 2, 3, 4, 5, 6]),
        ("cancel_residual_check", &[1, 2, 3, 6, 7]),
        ("cancel_second_carrier_evidence", &[1, 2, 3, 6, 7]),
        ("cancel_classify", &[]),
        ("cancel_subtract", &[1, 2, 3, 7]),
        ("cancel_run", &[1, 2, 3, 4, 5, 6]),
        ("cancel_amplitude_row", &[1, 2, 3, 4, 5, 6]),
        ("cancel_block_classes", &[1, 2, 5, 7]),
        ("cancel_clean", &[]),
    ] {
        for number in 1..=LAST {
            let seen = kinds.contains_key(&format!("{name:31} refused by {number}"));
            assert_eq!(seen, numbers.contains(&number), "{name} and question {number}");
        }
    }
}
