//! Why a run took the strong sender off, or kept the recording: the four conditions of document 01's part 7, each with
//! its value and its limit, in words. All of it follows from the run's figures.

use crate::numbers;
use cancel::{
    Hypothesis, RunFigures, CLEAN_EDGE_OVER_NEIGHBOUR_DB, CLEAN_INTERIOR_OVER_NEIGHBOUR_DB, MAX_CARRIER_STEP_HZ,
    MAX_OFFSET_HZ, MIN_COHERENCE, MIN_ELEMENTS, MIN_OFFSET_HZ, NON_CW_MIN_HOT, ONE_SIGNAL_MAX_HOT, RIM_S,
};

/// One of the four conditions.
pub struct Condition {
    pub holds: bool,
    /// Its value and its limit.
    pub words: String,
}

/// The four, in the order of document 01. The sender is taken off exactly where all hold.
pub fn conditions(f: &RunFigures) -> [Condition; 4] {
    [second_sender(f), enough_fits(f), steady_carrier(f), clean(f)]
}

/// The words of those that do not hold: none where the sender was taken off.
pub fn kept_because(f: &RunFigures) -> Vec<String> {
    conditions(f).into_iter().filter(|c| !c.holds).map(|c| c.words).collect()
}

/// The four, a line each, after what was done.
pub fn explained(f: &RunFigures) -> String {
    let lines = conditions(f).map(|c| format!("  {}: {}\n", if c.holds { "holds" } else { "fails" }, c.words));
    let what =
        if f.taken { "taken off, since all four conditions hold" } else { "kept, since not all conditions hold" };
    format!("{what}:\n{}", lines.concat())
}

/// Is the hypothesis two? Its words say what the evidence was and where its limits lie.
fn second_sender(f: &RunFigures) -> Condition {
    let e = &f.evidence;
    let (least, most) = (percent(ONE_SIGNAL_MAX_HOT, 0), percent(NON_CW_MIN_HOT, 0));
    let hot = format!("{} of the gap blocks are hot", share(e.hot_fraction, &[ONE_SIGNAL_MAX_HOT, NON_CW_MIN_HOT]));
    let words = match f.hypothesis {
        Hypothesis::TwoSignalCw { .. } => {
            format!("the gaps hold a second keyed sender: {hot} ({least} to {most} is needed), {}", carrier(f))
        }
        Hypothesis::OneSignal if e.gap_blocks == 0 => no_gap_blocks(),
        Hypothesis::OneSignal => format!("the gaps hold no second sender: {hot} (at least {least} is needed)"),
        Hypothesis::NonCw => format!("the gaps hold something that does not key: {hot} (at most {most} is allowed)"),
        _ => format!("it cannot be told what the gaps hold: {hot} ({least} to {most} is needed), {}", carrier(f)),
    };
    Condition { holds: matches!(f.hypothesis, Hypothesis::TwoSignalCw { .. }), words }
}

/// Where there are no gap blocks, why: nothing was looked at in which a second sender could show.
pub fn no_gap_blocks() -> String {
    format!(
        "there are no gap blocks to look for a second sender in: the recording is too short (its first and last \
         {RIM_S} s have none), or has no gaps between its key-downs"
    )
}

/// What the evidence says of a second carrier.
fn carrier(f: &RunFigures) -> String {
    let offset_hz = match f.evidence.offset_hz {
        Some(offset_hz) => offset_hz,
        None => return "no two gap blocks in a row are strong enough to show a second carrier".to_string(),
    };
    format!(
        "its carrier is {} ({MIN_OFFSET_HZ} to {MAX_OFFSET_HZ} Hz away is needed), its coherence is {} (at least \
         {MIN_COHERENCE} is needed)",
        away(offset_hz),
        shown(f.evidence.coherence, 2, &[MIN_COHERENCE])
    )
}

/// How far from the strong sender's carrier another lies, and on which side.
pub fn away(offset_hz: f64) -> String {
    let side = match offset_hz {
        hz if hz > 0.0 => "above",
        hz if hz < 0.0 => "below",
        _ => "away",
    };
    format!("{} Hz {side}", shown(offset_hz.abs(), 1, &[MIN_OFFSET_HZ, MAX_OFFSET_HZ]))
}

fn enough_fits(f: &RunFigures) -> Condition {
    let fitted = if f.fitted == 1 { "1 key-down was".to_string() } else { format!("{} key-downs were", f.fitted) };
    Condition {
        holds: f.fitted >= MIN_ELEMENTS,
        words: format!("{fitted} fitted (at least {MIN_ELEMENTS} are needed)"),
    }
}

fn steady_carrier(f: &RunFigures) -> Condition {
    let step = f.carrier_step_hz.abs();
    let carrier = numbers::rounded(f.carrier_hz, 2);
    let words = if carrier_is_hint(f) {
        format!(
            "nothing was fitted, so that the carrier is the hint, {carrier} Hz (at most {MAX_CARRIER_STEP_HZ} Hz from \
             it is allowed)"
        )
    } else {
        format!(
            "the carrier was found at {carrier} Hz, {} Hz from the hint (at most {MAX_CARRIER_STEP_HZ} Hz is allowed)",
            shown(step, 2, &[MAX_CARRIER_STEP_HZ])
        )
    };
    Condition { holds: step <= MAX_CARRIER_STEP_HZ, words }
}

/// Was nothing fitted, neither at the hint nor after? Had something been fitted at the hint, the carrier would have
/// moved, or the same would have been fitted again.
pub fn carrier_is_hint(f: &RunFigures) -> bool {
    f.fitted == 0 && f.carrier_step_hz == 0.0
}

fn clean(f: &RunFigures) -> Condition {
    let r = &f.residual;
    Condition {
        holds: r.clean(),
        words: format!(
            "the sender's rest, over the neighbour's level, is {} at the edges (at most \
             {CLEAN_EDGE_OVER_NEIGHBOUR_DB} dB is allowed) and {} inside (at most {CLEAN_INTERIOR_OVER_NEIGHBOUR_DB} \
             dB is allowed)",
            rest(r.edge_over_neighbour_db, CLEAN_EDGE_OVER_NEIGHBOUR_DB, r.edge_blocks, r.gap_blocks),
            rest(r.interior_over_neighbour_db, CLEAN_INTERIOR_OVER_NEIGHBOUR_DB, r.interior_blocks, r.gap_blocks)
        ),
    }
}

/// A ratio, and where a side of it is missing, which.
fn rest(db: f64, limit: f64, blocks: usize, gap_blocks: usize) -> String {
    let value = format!("{} dB", shown(db, 1, &[limit]));
    match (blocks, gap_blocks) {
        (0, _) => format!("{value}, for want of blocks,"),
        (_, 0) => format!("{value}, for want of gap blocks,"),
        _ => value,
    }
}

/// A number to so many places, or more where its rounding would lie on another side of a limit than the number.
fn shown(x: f64, places: usize, limits: &[f64]) -> String {
    first_as_told(x, (places..=17).map(|places| numbers::rounded(x, places)), 1.0, limits)
}

/// The same of a share, in percent.
fn share(x: f64, limits: &[f64]) -> String {
    first_as_told(x, (0..=17).map(|places| percent(x, places)), 100.0, limits)
}

fn percent(x: f64, places: usize) -> String {
    format!("{:.places$} %", 100.0 * x)
}

/// The first text whose number compares with each limit as the number itself does.
fn first_as_told(x: f64, mut texts: impl Iterator<Item = String>, unit: f64, limits: &[f64]) -> String {
    let told = |text: &String| text.trim_end_matches(" %").parse().unwrap_or(f64::NAN);
    let alike = |told: f64| limits.iter().all(|limit| x.partial_cmp(limit) == told.partial_cmp(&(unit * limit)));
    texts.find(|text| alike(told(text))).unwrap_or_else(|| x.to_string())
}

#[cfg(test)]
mod tests {
    use super::*;
    use cancel::{classify, Complex32, ResidualCheck, SecondCarrierEvidence};

    /// Figures of which all four conditions hold, no two numbers the same.
    fn figures() -> RunFigures {
        let mut f = cancel::run(&mut [Complex32::new(0.0, 0.0); 300], 3_000.0, 0.0).unwrap().figures;
        (f.fitted, f.carrier_hz, f.carrier_step_hz, f.taken) = (23, -311.126, -1.234, true);
        f.residual = ResidualCheck {
            edge_over_neighbour_db: -8.26,
            interior_over_neighbour_db: -13.51,
            edge_blocks: 31,
            interior_blocks: 11,
            gap_blocks: 47,
        };
        seen(f, 0.4, Some(-59.52), 0.934)
    }

    /// The same with this seen in the gaps.
    fn seen(f: RunFigures, hot_fraction: f64, offset_hz: Option<f64>, coherence: f64) -> RunFigures {
        let mut f = f;
        f.evidence = SecondCarrierEvidence { gap_blocks: f.residual.gap_blocks, hot_fraction, offset_hz, coherence };
        f.hypothesis = classify(&f.evidence);
        f
    }

    fn words(f: &RunFigures) -> [String; 4] {
        conditions(f).map(|c| c.words)
    }

    /// The limits are document 01's, written out.
    #[test]
    fn each_value_stands_beside_its_limit() {
        let f = figures();
        let two = "the gaps hold a second keyed sender: 40 % of the gap blocks are hot (15 % to 75 % is needed), its \
                   carrier is 59.5 Hz below (10 to 150 Hz away is needed), its coherence is 0.93 (at least 0.8 is \
                   needed)";
        let clean = "the sender's rest, over the neighbour's level, is -8.3 dB at the edges (at most -7 dB is \
                     allowed) and -13.5 dB inside (at most -10 dB is allowed)";
        let expected = [
            two,
            "23 key-downs were fitted (at least 20 are needed)",
            "the carrier was found at -311.13 Hz, 1.23 Hz from the hint (at most 5 Hz is allowed)",
            clean,
        ];
        assert_eq!(words(&f), expected);
        assert!(conditions(&f).iter().all(|c| c.holds) && kept_because(&f).is_empty());
        let all: String = expected.map(|words| format!("  holds: {words}\n")).concat();
        assert_eq!(explained(&f), format!("taken off, since all four conditions hold:\n{all}"));
        let cases = [
            (
                seen(f, 0.05, None, 0.0),
                "the gaps hold no second sender: 5 % of the gap blocks are hot (at least 15 % is needed)",
            ),
            (
                seen(f, 0.96, Some(60.0), 1.0),
                "the gaps hold something that does not key: 96 % of the gap blocks are hot (at most 75 % is allowed)",
            ),
            (
                seen(f, 0.3, Some(7.04), 0.61),
                "it cannot be told what the gaps hold: 30 % of the gap blocks are hot (15 % to 75 % is needed), its \
                 carrier is 7.0 Hz above (10 to 150 Hz away is needed), its coherence is 0.61 (at least 0.8 is needed)",
            ),
            (
                seen(f, 0.3, None, 0.0),
                "it cannot be told what the gaps hold: 30 % of the gap blocks are hot (15 % to 75 % is needed), no two \
                 gap blocks in a row are strong enough to show a second carrier",
            ),
        ];
        for (f, expected) in cases {
            assert_eq!(kept_because(&f), [expected]);
        }
    }

    /// Each side of every limit: holds or fails as document 01 says, and the value that is said lies on that side too.
    #[test]
    fn no_value_is_rounded_across_its_limit() {
        let hot = [(0.15, "15 %"), (0.1499, "14.99 %"), (0.7501, "75.01 %"), (0.75, "75 %"), (0.155, "16 %")];
        for (hot, said) in hot {
            let f = seen(figures(), hot, Some(60.0), 1.0);
            assert!(words(&f)[0].contains(&format!(": {said} of the gap blocks are hot")), "{}", words(&f)[0]);
            assert_eq!(conditions(&f)[0].holds, (0.15..=0.75).contains(&hot));
        }
        let offsets = [
            (-150.0, "150.0 Hz below"),
            (150.004, "150.004 Hz above"),
            (9.998, "9.998 Hz above"),
            (-9.998, "9.998 Hz below"),
            (10.0, "10.0 Hz above"),
        ];
        for (hz, said) in offsets {
            let f = seen(figures(), 0.5, Some(hz), 1.0);
            assert!(words(&f)[0].contains(&format!("its carrier is {said} (")), "{}", words(&f)[0]);
            assert_eq!(conditions(&f)[0].holds, (10.0..=150.0).contains(&hz.abs()));
        }
        for (coherence, said) in [(0.8, "0.80"), (0.7999, "0.7999"), (0.8001, "0.8001")] {
            let f = seen(figures(), 0.5, Some(60.0), coherence);
            assert!(words(&f)[0].contains(&format!("its coherence is {said} (")), "{}", words(&f)[0]);
            assert_eq!(conditions(&f)[0].holds, coherence >= 0.8);
        }
        for (step, said) in [(5.0, "5.00"), (5.001, "5.001"), (-5.0001, "5.0001"), (-4.9999, "4.9999")] {
            let mut f = figures();
            f.carrier_step_hz = step;
            assert!(words(&f)[2].contains(&format!(", {said} Hz from the hint (")), "{}", words(&f)[2]);
            assert_eq!(conditions(&f)[2].holds, step.abs() <= 5.0);
        }
        let rests = [(-7.0, -10.0, "-7.0", "-10.0"), (-6.99, -10.0, "-6.99", "-10.0"), (-7.0, -9.99, "-7.0", "-9.99")];
        for (edge, inside, said_edge, said_inside) in rests {
            let mut f = figures();
            (f.residual.edge_over_neighbour_db, f.residual.interior_over_neighbour_db) = (edge, inside);
            assert!(words(&f)[3].contains(&format!(" is {said_edge} dB at the edges (")), "{}", words(&f)[3]);
            assert!(words(&f)[3].contains(&format!(" and {said_inside} dB inside (")), "{}", words(&f)[3]);
            assert_eq!(conditions(&f)[3].holds, edge <= -7.0 && inside <= -10.0);
        }
        for fitted in [19, 20] {
            let mut f = figures();
            f.fitted = fitted;
            assert_eq!(conditions(&f)[1].holds, fitted == 20);
        }
    }

    /// Where there is nothing to say a value of, the words say so.
    #[test]
    fn nothing_was_found() {
        let mut f = figures();
        (f.fitted, f.carrier_hz, f.carrier_step_hz) = (0, 37.5, 0.0);
        let hint = "nothing was fitted, so that the carrier is the hint, 37.50 Hz (at most 5 Hz from it is allowed)";
        assert_eq!((words(&f)[2].as_str(), conditions(&f)[2].holds), (hint, true));
        // At the hint something was fitted, and nothing at the carrier that was found by it.
        (f.carrier_hz, f.carrier_step_hz) = (38.5, 1.0);
        assert!(words(&f)[2].starts_with("the carrier was found at 38.50 Hz, 1.00 Hz from the hint ("));
        f.residual = ResidualCheck {
            edge_over_neighbour_db: f64::INFINITY,
            interior_over_neighbour_db: f64::INFINITY,
            edge_blocks: 0,
            interior_blocks: 3,
            gap_blocks: 0,
        };
        let f = seen(f, 0.0, None, 0.0);
        let none = "there are no gap blocks to look for a second sender in: the recording is too short (its first and \
                    last 0.2 s have none), or has no gaps between its key-downs";
        assert_eq!(words(&f)[0], none);
        assert!(words(&f)[3].contains("is infinity dB, for want of blocks, at the edges ("), "{}", words(&f)[3]);
        assert!(words(&f)[3].contains("and infinity dB, for want of gap blocks, inside ("), "{}", words(&f)[3]);
    }
}
