//! Document 01's edge table and the example of its part 8, asked of the oracle: fs 3,000, carrier 0.

use oracle::answers::Answer;
use oracle::by_stand_ins::way_in::{classes, edge_window, fit_span, percentile};
use oracle::by_stand_ins::{residual_check, ResidualCheck, SLOPE_BLOCK_S};
use oracle::calls::call;
use oracle::figures::{RUN_CARRIER, RUN_HYPOTHESIS};
use oracle::records::{fits, samples};
use oracle::scene::{Evidence, Given, Recording, Scene};
use oracle::signals::real;
use oracle::stand_ins::{cos, rem_euclid, round, sin};

const FS: f64 = 3_000.0;

/// So many samples, (1, 0) from `lo` up to, not including, `hi` and 0 elsewhere.
fn ones(n: usize, lo: usize, hi: usize) -> Scene {
    let iq = real(n, |k| if (lo..hi).contains(&k) { 1.0 } else { 0.0 });
    let rec = Recording { fs: FS, iq, ..Recording::default() };
    let given = Given::own(&rec);
    Scene::least(rec, given)
}

fn answer(name: &str, scene: &Scene) -> Answer {
    call(name).outcome(scene).expect("an accepted call")
}

#[test]
fn numbers() {
    assert_eq!(edge_window(FS), (8, 1));
    assert_eq!(round(SLOPE_BLOCK_S * FS), 2.0);
    assert_eq!((round(1.5), round(-2.5)), (2.0, -3.0));
    assert_eq!(rem_euclid(-(2f64.powi(-60)), 1.0), 1.0);
    assert_eq!((sin(0.0), cos(0.0)), (0.0, 1.0));
}

#[test]
fn ranks() {
    assert_eq!(percentile(&mut [0.0, 1.0, 2.0, 3.0], 0.5), Some(2.0));
    assert_eq!(percentile(&mut [0.0, 1.0, 2.0, 3.0, 4.0], 0.5), Some(2.0));
    assert_eq!(percentile(&mut [], 0.5), None);
}

#[test]
fn hundred_ones() {
    let scene = ones(300, 100, 200);
    let found = answer("cancel_find_elements", &scene);
    assert_eq!(found.figures, [1.0, 1.0, 0.0, 101.0]);
    assert_eq!(found.elements, [99.5, 199.5, 96.0, 197.0]);
    let fitted = answer("cancel_fit_elements", &scene);
    assert_eq!(fitted.figures, [1.0]);
    assert_eq!(fitted.fits[4..], [1.0, 0.0, 0.0, 149.0]);
    assert_eq!(fit_span(&fits(&fitted.fits, 1)[0].fitted(), FS, 300), (69, 230));
    assert_eq!(answer("cancel_subtract", &scene).spans, [(2 * 69, 2 * 230)]);
}

#[test]
fn report_example() {
    let answer = answer("cancel_run", &ones(300, 100, 200));
    assert_eq!(answer.figures[..RUN_CARRIER], [300.0, 8.0, 1.0, 1.0, 0.0, 1.0, 0.0, 101.0, 37.0, 0.0, 0.0, 0.0, 37.0]);
    assert_eq!(answer.figures[RUN_HYPOTHESIS..], [0.0, 0.0, 0.0]);
    assert_eq!(answer.elements[2..], [96.0, 197.0]);
    assert_eq!(answer.kinds, ["one", "kept"]);
}

#[test]
fn listed_and_short() {
    assert_eq!(answer("cancel_find_elements", &ones(107, 40, 55)).figures[..3], [1.0, 1.0, 0.0]);
    assert_eq!(answer("cancel_find_elements", &ones(107, 40, 54)).figures[..3], [1.0, 0.0, 1.0]);
}

#[test]
fn fitted_and_skipped() {
    for (long, fitted) in [(61, 1.0), (60, 0.0)] {
        let scene = ones(300, 100, 100 + long);
        assert_eq!(answer("cancel_find_elements", &scene).figures[1], 1.0);
        assert_eq!(answer("cancel_fit_elements", &scene).figures, [fitted]);
    }
}

/// n = 3,000 with one fit at 1499.5 to 1599.5.
fn one_fit() -> Scene {
    let mut scene = ones(3_000, 1_500, 1_600);
    assert_eq!((scene.given.element_count, scene.given.fit_count), (1, 1));
    assert_eq!(scene.given.fits[..2], [1499.5, 1599.5]);
    scene.given.elements.clear();
    scene.given.element_count = 0;
    scene
}

#[test]
fn block_classes() {
    let est = one_fit().given.estimate().strong();
    let classes = classes(375, 8, FS, 3_000, &est);
    let of = |class: &str| (0..375).filter(|&b| classes[b] == class).collect::<Vec<_>>();
    assert_eq!(of("Edge"), [187, 199, 200]);
    assert_eq!(of("Interior"), [191, 192, 193, 194, 195]);
    assert_eq!(of("Gap"), (75..=181).chain(206..=299).collect::<Vec<_>>());
    assert_eq!(of("Other").len(), 166);
}

#[test]
fn edge_blocks_empty() {
    let mut scene = one_fit();
    let with = answer("cancel_residual_check", &scene).figures;
    assert_eq!(with[2..], [3.0, 5.0, 201.0]);
    scene.given = Given::default();
    let without = answer("cancel_residual_check", &scene).figures;
    assert_eq!((without[0], without[2]), (f64::INFINITY, 0.0));
    let residual = residual_check(&samples(&scene.recording.iq), FS, &scene.given.estimate().strong());
    assert!(!ResidualCheck { interior_over_neighbour_db: -20.0, ..residual }.clean());
    assert!(ResidualCheck { edge_over_neighbour_db: -7.0, interior_over_neighbour_db: -10.0, ..residual }.clean());
}

#[test]
fn hypotheses() {
    let hypothesis = |hot_fraction, offset_hz, coherence| {
        let evidence = Evidence { gap_blocks: 100, hot_fraction, present: 1, offset_hz, coherence };
        answer("cancel_classify", &Scene { evidence, ..Scene::default() }).figures
    };
    for hot in [0.15, 0.75] {
        for offset in [10.0, -150.0] {
            assert_eq!(hypothesis(hot, offset, 0.8), [1.0, offset]);
        }
    }
    assert_eq!(hypothesis(0.14, 10.0, 0.8), [0.0, 0.0]);
    assert_eq!(hypothesis(0.15, 9.0, 0.8), [3.0, 0.0]);
    assert_eq!(hypothesis(0.15, 10.0, 0.8f64.next_down()), [3.0, 0.0]);
    assert_eq!(hypothesis(0.75f64.next_up(), 10.0, 0.8), [2.0, 0.0]);
    assert_eq!(hypothesis(f64::NAN, 20.0, 0.8), [1.0, 20.0]);
}
