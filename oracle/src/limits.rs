//! The limits, compared in every run: small recordings around every window, every change of step, each question's edge,
//! the largest counts, hard estimates, samples of every size, evidence at every limit of a hypothesis, checks about both
//! limits of clean, runs about each condition, crossings on centres; and recordings of 2^20 samples. Each scene is
//! handed to `ask` in turn, and the first error ends it.

use crate::by_stand_ins::way_in::edge_window;
use crate::by_stand_ins::{
    CLEAN_EDGE_OVER_NEIGHBOUR_DB, CLEAN_INTERIOR_OVER_NEIGHBOUR_DB, MAX_CARRIER_STEP_HZ, MIN_ELEMENTS,
};
use crate::calls::call;
use crate::figures::CHECK;
use crate::questions::{LAST, MOST_FLOATS};
use crate::random::Random;
use crate::recordings::{change_of_step, on_centres, on_off, sent, Aim};
use crate::scene::{Evidence, Given, Recording, Scene};
use crate::signals::{real, senders, Sender};
use crate::{given, noes};

/// What is done with a scene.
pub type Ask<'a, E> = &'a mut dyn FnMut(&Scene) -> Result<(), E>;

/// Some limits, by what they are.
pub type Limit<E> = (&'static str, fn(&mut Random, Ask<E>) -> Result<(), E>);

/// The longest recordings.
pub const LONGEST: usize = 1 << 20;

/// All that are cheap.
pub fn limits<E>() -> [Limit<E>; 16] {
    [
        ("hypotheses at their limits", |r, ask| hypotheses(4_000, r, ask)),
        ("checks at their limits", |r, ask| checks(2_000, r, ask)),
        ("n around every window", windows),
        ("rates around every change of step", changes_of_step),
        ("edge table", edge_table),
        ("ranks halfway", ranks),
        ("questions, each and in pairs", questions),
        ("largest counts", largest_counts),
        ("float counts with no recording", told_counts),
        ("blocks at the rim", rims),
        ("lists with nothing in them", no_lists),
        ("fits that overlap, lie outside or are huge", hard_fits),
        ("samples of every size", sizes),
        ("pairs of gap blocks", pairs),
        ("runs about each condition", conditions),
        ("crossings on centres", centres),
    ]
}

/// n from none to a little over a window.
fn windows<E>(r: &mut Random, ask: Ask<E>) -> Result<(), E> {
    for k in 1..=64 {
        let fs = (3_000 * k) as f64;
        let (window, step) = edge_window(fs);
        for n in [0, 1, step, window - 1, window, window + 1, window + step - 1, window + step, 3 * window + 1] {
            let iq = (0..2 * n).map(|_| r.between(-1.0, 1.0) as f32).collect();
            let rec = Recording { what: format!("{n} samples"), fs, iq, hint_hz: 0.0 };
            ask(&Scene::own(rec, r))?;
        }
    }
    Ok(())
}

/// Around each change of step, and at both ends of the rates.
fn changes_of_step<E>(r: &mut Random, ask: Ask<E>) -> Result<(), E> {
    let changes = (1..64).map(change_of_step).flat_map(|fs| [fs.next_down(), fs, fs.next_up()]);
    for fs in changes.chain([2_000.0, 2_000f64.next_up(), 192_000f64.next_down(), 192_000.0]) {
        let n = (0.05 * fs) as usize;
        let on = |k: usize| (n / 4..3 * n / 4).contains(&k);
        let iq = real(n, |k| if on(k) { 1.0 } else { 0.0 });
        let hint_hz = r.pick(&[0.0, fs / 2.0, -fs / 2.0]);
        ask(&Scene::own(Recording { what: "one key-down".into(), fs, iq, hint_hz }, r))?;
    }
    Ok(())
}

/// Document 01's edge table: key-downs just long enough to be listed or fitted, and just too short.
fn edge_table<E>(r: &mut Random, ask: Ask<E>) -> Result<(), E> {
    for (n, lo, hi) in
        [(300, 100, 200), (107, 40, 55), (107, 40, 54), (300, 100, 161), (300, 100, 160), (3_000, 1_500, 1_600)]
    {
        let iq = real(n, |k| if (lo..hi).contains(&k) { 1.0 } else { 0.0 });
        ask(&Scene::own(Recording { what: format!("ones from {lo} to {hi}"), fs: 3_000.0, iq, hint_hz: 0.0 }, r))?;
    }
    Ok(())
}

/// Rows whose rank (count − 1) × 0.98 lies halfway between two whole numbers.
fn ranks<E>(r: &mut Random, ask: Ask<E>) -> Result<(), E> {
    for count in [26, 76, 126, 176, 226, 276] {
        for k in 1..=4 {
            let (fs, n) = ((3_000 * k) as f64, k * (count + 7));
            let on = (n / 5, n * 3 / 4);
            let level = |r: &mut Random, k| if (on.0..on.1).contains(&k) { r.between(0.7, 1.3) as f32 } else { 0.0 };
            let iq = (0..n).flat_map(|k| [level(r, k), 0.0]).collect();
            ask(&Scene::own(Recording { what: format!("a row of {count}"), fs, iq, hint_hz: 0.0 }, r))?;
        }
    }
    Ok(())
}

/// Each question with no alone, and each two of them at once.
fn questions<E>(r: &mut Random, ask: Ask<E>) -> Result<(), E> {
    let fs = 3_000.0;
    let iq = senders(3_000, fs, &[Sender::keyed(40.0, 1.0, 0.06)], 0.01, &mut Random::new(7));
    let rec = Recording { what: "questions".into(), fs, iq, hint_hz: 40.0 };
    let given = Given::own(&rec);
    assert!(given.element_count > 0 && given.fit_count > 0, "an estimate to be refused");
    for first in (1..=LAST).rev() {
        for second in (1..=first).rev() {
            for _ in 0..6 {
                let mut scene = Scene::new(rec.clone(), given.clone(), r);
                noes::answer_no(&mut scene, first, r);
                if second != first {
                    noes::answer_no(&mut scene, second, r);
                }
                scene.recording.what = format!("questions, no to {second} and {first}");
                ask(&scene)?;
            }
        }
    }
    Ok(())
}

/// Rows with the most key-downs, the most listed and the most fitted ones, in slices with no number to spare.
fn largest_counts<E>(_: &mut Random, ask: Ask<E>) -> Result<(), E> {
    for fs in [2_000.0, 3_000.0, 4_400.0, 8_000.0] {
        let (_, step) = edge_window(fs);
        let rise = (5e-3 * fs / step as f64).ceil() as usize;
        for on in [1, rise - 1, rise, 4 * rise - 1, 4 * rise, 4 * rise + 1] {
            let rec = on_off(4_000 * step, fs, on, 1);
            let given = Given::own(&rec);
            ask(&Scene::least(rec, given))?;
        }
    }
    Ok(())
}

/// Counts of floats that are told and not lent, about the largest that is accepted and about the largest of all, with a
/// place for each block and with one too few.
fn told_counts<E>(r: &mut Random, ask: Ask<E>) -> Result<(), E> {
    let only = &["cancel_block_classes"][..];
    for fs in [2_000.0, 3_000.0, 192_000.0] {
        let iq = senders((0.5 * fs) as usize, fs, &[Sender::keyed(40.0, 1.0, 0.06)], 0.01, r);
        let given = Given::own(&Recording { what: "own".into(), fs, iq, hint_hz: 40.0 });
        let (window, _) = edge_window(fs);
        let few = [0, 1, 2, 2 * window - 2, 2 * window, 2 * window + 2].into_iter();
        let most = (MOST_FLOATS - 2..=MOST_FLOATS + 2).chain(usize::MAX - 2..=usize::MAX);
        for floats in few.chain(most) {
            let places = (floats / 2 / window).min(LONGEST);
            for places in [places, places.saturating_sub(1), places + 3] {
                let recording = Recording { what: format!("{floats} floats told"), fs, ..Recording::default() };
                let scene = Scene::least(recording, given.clone());
                ask(&Scene { told_len: Some(floats), classes_len: places, only, ..scene })?;
            }
        }
    }
    Ok(())
}

/// Recordings about as long as the two rims together, with a key-down in the middle.
fn rims<E>(r: &mut Random, ask: Ask<E>) -> Result<(), E> {
    for fs in [2_000.0, 3_000.0, 4_499.0, 12_345.6] {
        let (window, _) = edge_window(fs);
        let both = (0.4 * fs) as usize;
        for n in [both - window, both - 1, both, both + 1, both + window, both + 40 * window] {
            let mut iq = senders(n, fs, &[Sender::steady(70.0, 0.2)], 0.01, r);
            let lo = n / 2 - (0.03 * fs) as usize;
            iq[2 * lo..2 * (n - lo)].iter_mut().step_by(2).for_each(|x| *x += 1.0);
            ask(&Scene::own(Recording { what: format!("{n} samples about the rims"), fs, iq, hint_hz: 0.0 }, r))?;
        }
    }
    Ok(())
}

/// A recording of two senders with estimates that hold no element, no fit, or neither; and silence.
fn no_lists<E>(r: &mut Random, ask: Ask<E>) -> Result<(), E> {
    let fs = 3_000.0;
    let both = [Sender::keyed(100.0, 1.0, 0.05), Sender::keyed(140.0, 0.3, 0.07)];
    for iq in [senders(9_000, fs, &both, 0.01, r), real(9_000, |_| 0.0), real(9_000, |_| 1.0)] {
        let rec = Recording { what: "empty lists".into(), fs, iq, hint_hz: 100.0 };
        let own = Given::own(&rec);
        let no_fits = Given { fits: Vec::new(), fit_count: 0, ..own.clone() };
        let no_elements = Given { elements: Vec::new(), element_count: 0, ..own.clone() };
        for given in [own, no_fits, no_elements, Given::default()] {
            ask(&Scene::least(rec.clone(), given))?;
        }
    }
    Ok(())
}

/// Two senders with estimates whose fits overlap, lie outside of the recording, or have numbers of the largest size.
/// The last samples belong to no block.
fn hard_fits<E>(r: &mut Random, ask: Ask<E>) -> Result<(), E> {
    for fs in [3_000.0, 7_654.3] {
        let both = [Sender::keyed(100.0, 1.0, 0.05), Sender::keyed(140.0, 0.3, 0.07)];
        let n = fs as usize / 64 * 64 + 13;
        let rec = Recording { what: "hard fits".into(), fs, iq: senders(n, fs, &both, 0.01, r), hint_hz: 100.0 };
        for (what, given) in given::hard(&rec) {
            let rec = Recording { what: format!("hard fits: {what}"), ..rec.clone() };
            ask(&Scene::new(rec, given, r))?;
        }
    }
    Ok(())
}

/// Two senders whose strong one is of each size that an f32 can have, from the least number above 0 to the largest.
fn sizes<E>(r: &mut Random, ask: Ask<E>) -> Result<(), E> {
    let fs = 3_000.0;
    let both = [Sender::keyed(60.0, 1.0, 0.05), Sender::keyed(100.0, 0.3, 0.07)];
    let iq = senders(6_000, fs, &both, 0.001, r);
    let most = iq.iter().fold(0.0, |a: f64, &x| a.max(x.abs() as f64));
    for power in (-149..=127).step_by(12).chain([126, 127]) {
        let scale = 2f64.powi(power) / most;
        let iq = iq.iter().map(|&x| (x as f64 * scale) as f32).collect();
        ask(&Scene::own(Recording { what: format!("samples of size 2^{power}"), fs, iq, hint_hz: 60.0 }, r))?;
    }
    let iq = iq.iter().map(|&x| if x < 0.0 { f32::MIN } else { f32::MAX }).collect();
    ask(&Scene::own(Recording { what: "largest samples".into(), fs, iq, hint_hz: 60.0 }, r))
}

/// A strong sender with a burst of some blocks in a gap: none, one or several pairs. A burst of one sample a block
/// is as strong at each of the three offsets that are asked, where the first has to win.
fn pairs<E>(r: &mut Random, ask: Ask<E>) -> Result<(), E> {
    let fs = 3_000.0;
    let (window, _) = edge_window(fs);
    let strong = |k: usize| (1_000..1_400).contains(&k) || (1_800..2_200).contains(&k);
    let from = 188 * window;
    for blocks in [0, 1, 2, 3, 4, 10] {
        let in_burst = |k: usize| (from..from + blocks * window).contains(&k);
        let tone = |k: usize| 0.2 * (((k - from) % 12) as f32 / 6.0 - 1.0);
        let single = |k: usize| if k % window == 0 { 0.5 } else { 0.0 };
        for (what, burst) in [("tone", &tone as &dyn Fn(usize) -> f32), ("single samples", &single)] {
            let iq = real(3_000, |k| strong(k) as u8 as f32 + if in_burst(k) { burst(k) } else { 0.0 });
            let what = format!("a burst of {blocks} blocks, {what}");
            ask(&Scene::own(Recording { what, fs, iq, hint_hz: 0.0 }, r))?;
        }
    }
    Ok(())
}

/// Runs of two senders that would be taken, with just as many fits as are needed, one fewer and one more; and with
/// hints about as far off as the carrier may step.
fn conditions<E>(r: &mut Random, ask: Ask<E>) -> Result<(), E> {
    let (rec, shorter) = few_fits(r);
    shorter.iter().try_for_each(&mut *ask)?;
    let own = Given::own(&rec);
    for away in [0.99, 0.999, 1.0, 1.001, 1.01, 1.2] {
        for side in [-1.0, 1.0] {
            let hint_hz = own.carrier_hz + side * away * MAX_CARRIER_STEP_HZ;
            let what = format!("{}, hint {away} of the largest step away", rec.what);
            let rec = Recording { what, hint_hz, ..rec.clone() };
            ask(&Scene { only: &["cancel_run"], ..Scene::least(rec, own.clone()) })?;
        }
    }
    Ok(())
}

/// A recording that a run takes, and it cut short to just as many fits as are needed, one fewer and one more; with just
/// as many it is taken still.
fn few_fits(r: &mut Random) -> (Recording, Vec<Scene>) {
    let only = &["cancel_run"];
    let taken = |s: &Scene| call("cancel_run").outcome(s).is_ok_and(|run| run.kinds.contains(&"taken"));
    loop {
        let rec = sent(Aim::Neighbour, r);
        let small = rec.iq.len() < 40_000 && rec.hint_hz.abs() + 2.0 * MAX_CARRIER_STEP_HZ < rec.fs / 2.0;
        if !small || !taken(&Scene::least(rec.clone(), Given::default())) {
            continue;
        }
        let given = prefixes(&rec).map(|shorter| (Given::own(&shorter), shorter));
        let about = given.filter(|(given, _)| given.fit_count.abs_diff(MIN_ELEMENTS) <= 1);
        let all: Vec<Scene> = about.map(|(given, rec)| Scene { only, ..Scene::least(rec, given) }).collect();
        if all.iter().any(|s| s.given.fit_count == MIN_ELEMENTS && taken(s)) {
            return (rec, all);
        }
    }
}

/// The recording cut short, from a quarter of it on, every 15 ms.
fn prefixes(rec: &Recording) -> impl Iterator<Item = Recording> + '_ {
    let n = rec.iq.len() / 2;
    let cut = |n: usize| Recording {
        what: format!("{}, cut to {n} samples", rec.what),
        iq: rec.iq[..2 * n].to_vec(),
        ..rec.clone()
    };
    (n / 4..n).step_by((0.015 * rec.fs) as usize).map(cut)
}

/// Starts and ends on the centres of windows, and neighbours that touch.
fn centres<E>(r: &mut Random, ask: Ask<E>) -> Result<(), E> {
    for step in [1, 2, 3, 32, 63, 64] {
        ask(&Scene::own(on_centres(step), r))?;
    }
    Ok(())
}

/// Evidence about the limits of each hypothesis.
pub fn hypotheses<E>(times: usize, r: &mut Random, ask: Ask<E>) -> Result<(), E> {
    let about = |r: &mut Random, limits: &[f64]| {
        let x = r.pick(limits);
        r.about(x)
    };
    let mut scene = Scene { only: &["cancel_classify"], ..Scene::default() };
    for _ in 0..times {
        scene.evidence = Evidence {
            gap_blocks: r.pick(&[0, 1, 100, u64::MAX]),
            hot_fraction: about(r, &[0.15, 0.75, 0.3, 0.5, f64::NAN, f64::INFINITY, f64::NEG_INFINITY, 0.0, 1.0]),
            present: r.pick(&[0, 1, 1, 2, u64::MAX]),
            offset_hz: about(r, &[10.0, -10.0, 150.0, -150.0, 50.0, f64::NAN, f64::INFINITY, 0.0, -80.0]),
            coherence: about(r, &[0.8, 0.9, 1.0, f64::NAN, f64::INFINITY, 0.0]),
        };
        scene.recording.what = format!("{:?}", scene.evidence);
        ask(&scene)?;
    }
    Ok(())
}

/// Checks about both limits of clean: each, one bit to either side, NaN, infinities; with counts of any kind.
pub fn checks<E>(times: usize, r: &mut Random, ask: Ask<E>) -> Result<(), E> {
    let limits = [CLEAN_EDGE_OVER_NEIGHBOUR_DB, CLEAN_INTERIOR_OVER_NEIGHBOUR_DB];
    let others = [f64::NAN, f64::INFINITY, f64::NEG_INFINITY, 0.0, -0.0, 7.0, 10.0, -1e9, f64::MIN_POSITIVE];
    let mut scene = Scene { only: &["cancel_clean"], ..Scene::default() };
    for _ in 0..times {
        for ratio in 0..2 {
            scene.check[ratio] = match r.whole(0, 3) {
                0 => r.pick(&others),
                1 => r.about(limits[1 - ratio]),
                _ => r.about(limits[ratio]),
            };
        }
        for count in 2..CHECK {
            scene.check[count] = r.pick(&[0.0, 1.0, 131_072.0, 0.5, -3.0, f64::NAN, f64::INFINITY]);
        }
        scene.recording.what = format!("check {:?}", scene.check);
        ask(&scene)?;
    }
    Ok(())
}

/// 2^20 samples: two senders, rows that are hard on a selection, the largest counts of all. One sample more is refused.
pub fn longest<E>(r: &mut Random, ask: Ask<E>) -> Result<(), E> {
    for (what, fs) in [("equal row", 2_000.0), ("alternating row", 3_000.0), ("rising row", 4_400.0)] {
        let iq = real(LONGEST, |k| match what {
            "equal row" => 1.0,
            "alternating row" => (k % 2) as f32,
            _ => k as f32,
        });
        let rec = Recording { what: what.into(), fs, iq, hint_hz: 0.0 };
        ask(&Scene {
            only: &["cancel_find_elements", "cancel_amplitude_row"],
            ..Scene::new(rec, Given::default(), r)
        })?;
    }
    for (on, only) in [(1, &["cancel_find_elements"][..]), (10, &["cancel_estimate_strong"]), (40, &[])] {
        let rec = on_off(LONGEST, 2_000.0, on, 1);
        let given = if only.is_empty() { Given::own(&rec) } else { Given::default() };
        ask(&Scene { only, ..Scene::least(rec, given) })?;
    }
    for fs in [3_000.0, 192_000.0] {
        let both = [Sender::keyed(300.0, 1.0, 0.06), Sender::keyed(350.0, 0.3, 0.07)];
        let iq = senders(LONGEST, fs, &both, 0.001, r);
        ask(&Scene::own(Recording { what: "2 senders of 2^20 samples".into(), fs, iq, hint_hz: 300.0 }, r))?;
    }
    for more in [1, 2] {
        let iq = vec![0.0; 2 * LONGEST + more];
        let rec = Recording { what: "too long".into(), fs: 96_000.0, iq, hint_hz: 0.0 };
        ask(&Scene::new(rec, Given::default(), r))?;
    }
    Ok(())
}
