//! The times of every list that is found are in their order, as the documentation of `KeyDown` promises.

use cancel::{Complex32, KeyDown, Workspace};

/// Twice the centre of the window at a position of the row.
fn twice_centre(step: usize, i: usize) -> f64 {
    (2 * i * step + 8 * step - 1) as f64
}

/// Halves go up.
fn step(fs: f64) -> usize {
    (fs / 3_000.0).round() as usize
}

/// Whether each time is in its place, and they are in turn.
fn in_order(elements: &[KeyDown], step: usize) -> bool {
    let between = |time: f64, i: usize| (twice_centre(step, i - 1)..=twice_centre(step, i)).contains(&(2.0 * time));
    elements
        .iter()
        .all(|e| 1 <= e.up && e.up < e.down && between(e.element.start, e.up) && between(e.element.end, e.down))
        && elements.windows(2).all(|next| {
            let [this, next] = [next[0].element, next[1].element];
            this.start < next.start && this.end <= next.start
        })
}

/// A recording by its real parts.
fn real(samples: impl Iterator<Item = f64>) -> Vec<Complex32> {
    samples.map(|x| Complex32::new(x as f32, 0.0)).collect()
}

/// A sender with 5 ms ramps in key units of this length, turned by its carrier, and some that is no sender.
fn keyed(samples: usize, fs: f64, unit_s: f64, carrier_hz: f64) -> Vec<Complex32> {
    let mut noise = 1u32;
    (0..samples)
        .map(|k| {
            let unit = k as f64 / fs / unit_s;
            let since = unit.fract() * unit_s / 5e-3;
            let before = (1.0 - unit.fract()) * unit_s / 5e-3;
            let level = if unit as usize % 2 == 1 { since.min(before).min(1.0) } else { 0.0 };
            noise = noise.wrapping_mul(1_664_525).wrapping_add(1_013_904_223);
            let other = 0.05 * (f64::from(noise >> 8) / f64::from(1 << 24) - 0.5);
            let angle = std::f64::consts::TAU * carrier_hz * k as f64 / fs;
            Complex32::new((level * angle.cos() + other) as f32, (level * angle.sin() - other) as f32)
        })
        .collect()
}

/// At 3,000 samples a second and carrier 0, a recording whose amplitude row has these levels.
fn leading_to(row: &[f64]) -> Vec<Complex32> {
    let mut samples = vec![row[0]; 8];
    for i in 8..row.len() + 7 {
        samples.push(samples[i - 8] + 8.0 * (row[i - 7] - row[i - 8]));
    }
    real(samples.into_iter())
}

#[test]
fn in_their_order() {
    let mut workspace = Workspace::with_room(120_000, 2_000.0);
    let mut elements = 0;
    for (samples, fs, unit_s, carrier_hz) in [
        (16_000, 3_000.0, 0.06, 40.0),
        (16_000, 2_000.0, 0.02, -999.5),
        (24_001, 4_499.99, 0.013, 0.0),
        (24_001, 4_500.0, 0.013, 0.0),
        (24_001, 7_500.0, 0.013, 0.0),
        (60_000, 44_100.0, 0.03, 12_000.0),
        (120_000, 192_000.0, 0.011, -350.25),
    ] {
        let mut iq = keyed(samples, fs, unit_s, carrier_hz);
        let found: Vec<_> = workspace.find_elements(&iq, fs, carrier_hz).unwrap().elements().collect();
        assert!(in_order(&found, step(fs)), "{fs}: {found:?}");
        let estimated: Vec<_> = workspace.estimate_strong(&iq, fs, carrier_hz).unwrap().elements().collect();
        assert!(in_order(&estimated, step(fs)), "{fs}: {estimated:?}");
        let ran = workspace.run(&mut iq, fs, carrier_hz).unwrap();
        assert_eq!(ran.figures.window, 8 * step(fs));
        assert_eq!(ran.elements().collect::<Vec<_>>(), estimated);
        elements += found.len().min(estimated.len());
    }
    assert!(elements > 100, "{elements}");
}

#[test]
fn neighbours_that_touch() {
    let threshold = 2f64.powi(-60);
    let row = [
        &[0.0, 0.0, threshold][..],
        &[2.0 * threshold; 20],
        &[threshold, 0.0, threshold],
        &[2.0 * threshold; 2_500],
        &[1.0; 20],
        &[0.0],
        &[1.0; 20],
        &[0.0, 0.0],
    ]
    .concat();
    let iq = leading_to(&row);
    let told = cancel::amplitude_row(&iq, 3_000.0, 0.0).unwrap();
    assert_eq!((told.amplitudes, told.threshold), (row, Some(threshold)));
    let mut workspace = Workspace::with_room(iq.len(), 3_000.0);
    let found: Vec<_> = workspace.find_elements(&iq, 3_000.0, 0.0).unwrap().elements().collect();
    let times: Vec<_> = found.iter().map(|e| (e.up, 2.0 * e.element.start, e.down, 2.0 * e.element.end)).collect();
    let at = |i| twice_centre(1, i);
    // A start at the centre at up, an end at the centre at down - 1; an end at the centre at down, and a start there,
    // which is the centre at up - 1.
    assert_eq!(times, [(2, at(2), 24, at(23)), (25, at(25), 2_546, at(2_546)), (2_547, at(2_546), 2_567, at(2_567))]);
    assert!(in_order(&found, 1));
}

#[test]
fn out_of_order_is_told() {
    let at = |up: usize, down: usize| KeyDown {
        element: cancel::KeyedElement { start: twice_centre(2, up - 1) / 2.0, end: twice_centre(2, down) / 2.0 },
        up,
        down,
    };
    let list = [at(2, 9), at(10, 20), at(30, 40)];
    assert!(in_order(&list, 2) && in_order(&[], 2));
    let centre = |i: usize| twice_centre(2, i) / 2.0;
    let bit = |time: f64, more: bool| f64::from_bits(if more { time.to_bits() + 1 } else { time.to_bits() - 1 });
    for place in 0..3 {
        let in_order_with = |change: &dyn Fn(&mut KeyDown)| {
            let mut list = list;
            change(&mut list[place]);
            in_order(&list, 2)
        };
        assert!(in_order_with(&|e| e.element.start = centre(e.up)));
        assert!(in_order_with(&|e| e.element.end = centre(e.down - 1)));
        assert!(!in_order_with(&|e| e.element.start = bit(e.element.start, false)));
        assert!(!in_order_with(&|e| e.element.start = bit(centre(e.up), true)));
        assert!(!in_order_with(&|e| e.element.end = bit(e.element.end, true)));
        assert!(!in_order_with(&|e| e.element.end = bit(centre(e.down - 1), false)));
        assert!(!in_order_with(&|e| (e.up, e.element.start) = (0, centre(0))));
        assert!(!in_order_with(&|e| (e.down, e.element.end) = (e.up, centre(e.up))));
    }
    // Each in its own place, but not in turn; with one before and one behind, which are.
    for (this, next) in [(at(12, 20), at(12, 20)), (at(22, 30), at(12, 20)), (at(12, 20), at(20, 30))] {
        assert!(in_order(&[this], 2) && in_order(&[next], 2));
        assert!(!in_order(&[this, next], 2));
        assert!(!in_order(&[at(2, 9), this, next], 2));
        assert!(!in_order(&[this, next, at(40, 50)], 2));
    }
    // A key-down of one position may start and end on one centre; the next one starts later all the same.
    let of = |start, end, up, down| KeyDown { element: cancel::KeyedElement { start, end }, up, down };
    assert!(in_order(&[of(centre(1), centre(2), 2, 3), of(centre(2), centre(9), 3, 9)], 2));
    assert!(!in_order(&[of(centre(2), centre(2), 2, 3), of(centre(2), centre(9), 3, 9)], 2));
}
