//! A workspace that is used again answers what a new one does, and the two forms of a call answer the same.

use cancel::{BlockClass, Complex32, Refusal, Workspace};

/// A strong keyed sender and a weak one 60 Hz above it, in key units of these lengths.
fn recording(samples: usize, fs: f64, unit_s: f64) -> Vec<Complex32> {
    let on = |k: usize, unit_s: f64| (k as f64 / fs / unit_s) as usize % 3 == 0;
    (0..samples)
        .map(|k| {
            let strong = if on(k, unit_s) { 1.0 } else { 0.0 };
            let weak = if on(k, 0.13) { 0.2 } else { 0.0 };
            let angle = std::f64::consts::TAU * 60.0 * k as f64 / fs;
            Complex32::new((strong + weak * angle.cos()) as f32, (weak * angle.sin()) as f32)
        })
        .collect()
}

#[test]
fn used_again() {
    let mut workspace = Workspace::with_room(16_000, 3_000.0);
    for (samples, fs, unit_s) in
        [(16_000, 3_000.0, 0.03), (5_000, 2_500.0, 0.05), (12_001, 8_000.0, 0.01), (7, 3e3, 1.0)]
    {
        let iq = recording(samples, fs, unit_s);
        let plain = cancel::estimate_strong(&iq, fs, 0.2).unwrap();
        let mut estimate = workspace.estimate_strong(&iq, fs, 0.2).unwrap();
        assert_eq!(estimate.to_strong(), plain);
        assert_eq!((estimate.carrier_hz(), estimate.carrier_step_hz()), (plain.carrier_hz, plain.carrier_step_hz));
        assert_eq!(estimate.counts().unwrap().listed, plain.elements.len());
        assert_eq!(estimate.residual_check(&iq), cancel::residual_check(&iq, fs, &plain));
        assert_eq!(estimate.second_carrier_evidence(&iq), cancel::second_carrier_evidence(&iq, fs, &plain));
        let classes = cancel::block_classes(samples, fs, &plain).unwrap();
        let blocks = estimate.block_classes(samples).unwrap();
        assert_eq!(blocks.classes().collect::<Vec<_>>(), classes);
        let of = |class| classes.iter().filter(|&&c| c == class).count();
        assert_eq!(
            [blocks.counts.edge, blocks.counts.interior, blocks.counts.gap, blocks.counts.other],
            [BlockClass::Edge, BlockClass::Interior, BlockClass::Gap, BlockClass::Other].map(of)
        );
        assert_eq!(blocks.counts.blocks, classes.len());
        let (mut one, mut other) = (iq.clone(), iq.clone());
        estimate.subtract(&mut one).unwrap();
        cancel::subtract(&mut other, fs, &plain).unwrap();
        assert_eq!(one, other);

        assert_eq!(workspace.block_classes(samples, fs, &plain).unwrap().classes().collect::<Vec<_>>(), classes);
        let row = cancel::amplitude_row(&iq, fs, 0.2).unwrap();
        let again = workspace.amplitude_row(&iq, fs, 0.2).unwrap();
        assert_eq!((again.amplitudes, again.threshold), (&row.amplitudes[..], row.threshold));

        let held = workspace.hold(fs, &plain);
        assert!(held.counts().is_none() && held.to_strong() == plain);
        let fitted = workspace.fit_elements(&iq, fs, 0.2, &plain.elements).unwrap();
        assert_eq!(fitted.fits().collect::<Vec<_>>(), cancel::fit_elements(&iq, fs, 0.2, &plain.elements).unwrap());

        let (mut one, mut other) = (iq.clone(), iq);
        let run = cancel::run(&mut one, fs, 0.2).unwrap();
        let ran = workspace.run(&mut other, fs, 0.2).unwrap();
        assert_eq!(
            (ran.figures, ran.elements().collect(), ran.fits().collect()),
            (run.figures, run.elements, run.fits)
        );
        assert_eq!(one, other);
    }
}

#[test]
fn room() {
    let iq = recording(4_001, 3_000.0, 0.05);
    let mut workspace = Workspace::with_room(3_999, 3_000.0);
    assert_eq!(workspace.find_elements(&iq, 3_000.0, 0.0).unwrap_err(), Refusal::Places);
    workspace.make_room(4_000, 3_000.0);
    assert_eq!(workspace.find_elements(&iq, 3_000.0, 0.0).unwrap_err(), Refusal::Work);
    workspace.make_room(4_001, 3_000.0);
    assert!(workspace.find_elements(&iq, 3_000.0, 0.0).is_ok());
    // The most that is accepted has room, and more is refused for itself.
    let mut workspace = Workspace::with_room(usize::MAX, 192_000.0);
    let mut longest = vec![Complex32::new(0.0, 0.0); 1 << 20];
    assert!(workspace.run(&mut longest, 192_000.0, 0.0).is_ok());
    longest.push(Complex32::new(0.0, 0.0));
    assert_eq!(workspace.run(&mut longest, 192_000.0, 0.0).unwrap_err(), Refusal::Count);
}

#[test]
fn room_for_rows_and_classes() {
    let iq = recording(4_000, 3_000.0, 0.05);
    let plain = cancel::estimate_strong(&iq, 3_000.0, 0.0).unwrap();
    let mut workspace = Workspace::with_room(3_999, 3_000.0);
    assert_eq!(workspace.amplitude_row(&iq, 3_000.0, 0.0).unwrap_err(), Refusal::Places);
    assert_eq!(workspace.block_classes(4_000, 3_000.0, &plain).unwrap_err(), Refusal::Places);
    workspace.make_room(4_000, 3_000.0);
    assert_eq!(workspace.amplitude_row(&iq, 3_000.0, 0.0).unwrap().amplitudes.len(), 3_993);
    assert_eq!(workspace.block_classes(4_000, 3_000.0, &plain).unwrap().counts.blocks, 500);
    assert_eq!(workspace.block_classes(usize::MAX, 3_000.0, &plain).unwrap_err(), Refusal::Count);
}
