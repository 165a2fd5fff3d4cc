//! What was found, as lanes over time: a lane for each kind, so that no colour has to be told from another.

use super::Subject;
use cancel::BlockClass;

/// Stretches of time under one name.
pub struct Lane {
    pub name: &'static str,
    /// How many the library counts.
    pub count: Option<usize>,
    /// From and to, in samples.
    pub spans: Vec<(f64, f64)>,
}

impl Lane {
    fn new(name: &'static str, count: usize, spans: impl IntoIterator<Item = (f64, f64)>) -> Lane {
        Lane { name, count: Some(count), spans: spans.into_iter().collect() }
    }
}

pub(super) fn all(subject: &Subject<'_>, row: &[f64], threshold: Option<f64>, classes: &[BlockClass]) -> Vec<Lane> {
    let f = &subject.figures;
    let elements = subject.elements.iter().map(|k| (k.element.start, k.element.end));
    let fitted: Vec<(f64, f64)> = subject.estimate.fits.iter().map(|f| (f.element.start, f.element.end)).collect();
    // Fits come in the order of their elements.
    let mut next = fitted.iter().peekable();
    let skipped: Vec<(f64, f64)> = elements.clone().filter(|e| next.next_if_eq(&e).is_none()).collect();
    let class = |name, count, class| Lane::new(name, count, blocks(classes, class, f.window));
    vec![
        Lane::new("listed", f.listed, elements),
        Lane::new("short", f.short, short(subject, row, threshold)),
        Lane::new("fitted", f.fitted, fitted),
        Lane::new("skipped", f.skipped, skipped),
        class("edge", f.edge, BlockClass::Edge),
        class("interior", f.interior, BlockClass::Interior),
        class("gap", f.gap, BlockClass::Gap),
        class("other", f.other, BlockClass::Other),
        taken(subject),
    ]
}

/// The key-downs of the row that are not listed: pairs of an upward crossing and the next downward one.
fn short(subject: &Subject<'_>, row: &[f64], threshold: Option<f64>) -> Vec<(f64, f64)> {
    let threshold = match threshold {
        Some(threshold) if threshold > 0.0 => threshold,
        _ => return vec![],
    };
    let step = subject.figures.window / 8;
    let centre = |i: usize| (i * step) as f64 + (subject.figures.window as f64 - 1.0) / 2.0;
    let mut listed = subject.elements.iter().map(|k| (k.up, k.down)).peekable();
    let (mut spans, mut up) = (Vec::new(), None);
    for i in 1..row.len() {
        if row[i - 1] < threshold && row[i] >= threshold {
            up = Some(i);
        } else if row[i - 1] >= threshold && row[i] < threshold {
            if let Some(up) = up.take() {
                if listed.next_if_eq(&(up, i)).is_none() {
                    spans.push((centre(up - 1), centre(i)));
                }
            }
        }
    }
    spans
}

/// The stretches of blocks of one class.
fn blocks(classes: &[BlockClass], class: BlockClass, window: usize) -> Vec<(f64, f64)> {
    stretches(classes.iter().map(|&c| c == class), 0)
        .map(|(from, to)| ((from * window) as f64, (to * window) as f64))
        .collect()
}

/// Where samples are others than before: what the run took off. A sample or two that happen to be as before do not
/// break a stretch.
fn taken(subject: &Subject<'_>) -> Lane {
    let bits = |x: &num_complex::Complex32| (x.re.to_bits(), x.im.to_bits());
    let changed = subject.before.iter().zip(subject.after).map(|(a, b)| bits(a) != bits(b));
    Lane { name: "taken off", count: None, spans: stretches(changed, 2).map(|(a, b)| (a as f64, b as f64)).collect() }
}

/// From and to of each stretch of yeses, over at most so many noes.
fn stretches(answers: impl Iterator<Item = bool>, over: usize) -> impl Iterator<Item = (usize, usize)> {
    let mut out: Vec<(usize, usize)> = Vec::new();
    for (i, _) in answers.enumerate().filter(|(_, yes)| *yes) {
        match out.last_mut() {
            Some(last) if last.1 + over >= i => last.1 = i + 1,
            _ => out.push((i, i + 1)),
        }
    }
    out.into_iter()
}

#[cfg(test)]
mod tests {
    use super::*;
    use cancel::{Complex32, Complex64, ElementFit, KeyDown, KeyedElement, StrongEstimate};

    /// Three listed key-downs: where they start and end, and where they cross the threshold of `ROW`.
    const LISTED: [KeyDown; 3] = [key(10.25, 30.5, 2, 5), key(100.0, 118.0, 9, 11), key(200.0, 260.75, 13, 16)];

    const fn key(start: f64, end: f64, up: usize, down: usize) -> KeyDown {
        KeyDown { element: KeyedElement { start, end }, up, down }
    }

    /// Above the threshold 1 those listed, and from 7 to 8 one that is not.
    const ROW: [f64; 18] = [0., 0., 2., 2., 1., 0., 0., 2., 0., 2., 2., 0., 0., 2., 2., 2., 0., 0.];

    /// Its figures are counts that are all different; of those listed the second is not fitted.
    fn lanes(changed: &[usize]) -> Vec<Lane> {
        let before = [Complex32::new(0.0, 0.0); 40];
        let mut after = before;
        changed.iter().for_each(|&i| after[i] = Complex32::new(0.0, -1.0));
        let mut figures = cancel::run(&mut [Complex32::new(0.0, 0.0); 40], 3_000.0, 0.0).unwrap().figures;
        (figures.listed, figures.short, figures.fitted, figures.skipped) = (11, 12, 13, 14);
        (figures.edge, figures.interior, figures.gap, figures.other) = (15, 16, 17, 18);
        let fit = |i: usize| ElementFit {
            element: LISTED[i].element,
            gain: Complex64::new(1.0, 0.0),
            slope_rad_per_sample: 0.0,
            ref_sample: 0.0,
        };
        let estimate = StrongEstimate {
            carrier_hz: 0.0,
            carrier_step_hz: 0.0,
            fits: vec![fit(0), fit(2)],
            elements: LISTED.map(|k| k.element).to_vec(),
        };
        let subject = Subject {
            name: String::new(),
            rate: 3_000.0,
            before: &before,
            after: &after,
            figures,
            elements: LISTED.to_vec(),
            estimate,
        };
        use BlockClass::{Edge, Gap, Interior, Other};
        all(&subject, &ROW, Some(1.0), &[Other, Edge, Edge, Interior, Gap, Gap, Gap, Edge, Gap, Other])
    }

    /// A lane's count and spans.
    fn lane(lanes: &[Lane], name: &str) -> (Option<usize>, Vec<(f64, f64)>) {
        let lane = lanes.iter().find(|lane| lane.name == name).unwrap();
        (lane.count, lane.spans.clone())
    }

    #[test]
    fn each_lane_shows_its_own() {
        let lanes = lanes(&[]);
        let expected = [
            ("listed", 11, vec![(10.25, 30.5), (100.0, 118.0), (200.0, 260.75)]),
            // From the middle of the last window below the threshold to that of the next.
            ("short", 12, vec![(9.5, 11.5)]),
            ("fitted", 13, vec![(10.25, 30.5), (200.0, 260.75)]),
            ("skipped", 14, vec![(100.0, 118.0)]),
            ("edge", 15, vec![(8.0, 24.0), (56.0, 64.0)]),
            ("interior", 16, vec![(24.0, 32.0)]),
            ("gap", 17, vec![(32.0, 56.0), (64.0, 72.0)]),
            ("other", 18, vec![(0.0, 8.0), (72.0, 80.0)]),
        ];
        assert_eq!(lanes.len(), expected.len() + 1);
        for (name, count, spans) in expected {
            assert_eq!(lane(&lanes, name), (Some(count), spans), "{name}");
        }
        assert_eq!(lane(&lanes, "taken off"), (None, vec![]));
    }

    #[test]
    fn what_was_taken_off_is_where_samples_changed() {
        let taken = |changed: &[usize]| lane(&lanes(changed), "taken off").1;
        assert_eq!(taken(&[5, 6, 7, 10, 11, 20]), [(5.0, 12.0), (20.0, 21.0)]);
        assert_eq!(taken(&[5, 9]), [(5.0, 6.0), (9.0, 10.0)]);
    }
}
