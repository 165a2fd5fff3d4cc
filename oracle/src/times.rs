//! Times in their order (document 02, N8), asked of every list that is found.

use crate::records::Element;

/// Twice the centre of the window at a position of the row: a whole number.
pub fn twice_centre(step: usize, i: usize) -> f64 {
    (2 * i * step + 8 * step - 1) as f64
}

/// Each start lies from the centre of the window at up − 1 to the centre at up, ends included, each end likewise for
/// down, starts rise strictly, and no end is later than the next start. Twice a time is exact. The first that does not
/// hold is the error.
pub fn in_order(elements: &[Element], step: usize) -> Result<(), String> {
    let between = |time: f64, position: f64| {
        let i = position as usize;
        (twice_centre(step, i - 1)..=twice_centre(step, i)).contains(&(2.0 * time))
    };
    for e in elements {
        let whole = e.up.fract() == 0.0 && e.down.fract() == 0.0;
        if !(whole && e.up >= 1.0 && e.up < e.down) {
            return Err(format!("{e:?}: no positions of a key-down"));
        }
        if !between(e.start, e.up) {
            return Err(format!("{e:?}: the start is not from the centre at up - 1 to the centre at up"));
        }
        if !between(e.end, e.down) {
            return Err(format!("{e:?}: the end is not from the centre at down - 1 to the centre at down"));
        }
    }
    for next in elements.windows(2) {
        if next[0].start.partial_cmp(&next[1].start) != Some(std::cmp::Ordering::Less) {
            return Err(format!("{next:?}: the starts do not rise"));
        }
        if !(..=next[1].start).contains(&next[0].end) {
            return Err(format!("{next:?}: the end is later than the next start"));
        }
    }
    Ok(())
}
