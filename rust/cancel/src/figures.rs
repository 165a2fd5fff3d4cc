//! The figures of each call, by the names that include/cancel.h gives them.

/// A module for each call: the place of each of its figures among them, and how many they are.
macro_rules! figures {
    ($($call:ident: $($figure:ident)*;)*) => {
        $(
            #[allow(dead_code)]
            pub(crate) mod $call {
                #[allow(clippy::upper_case_acronyms, non_camel_case_types)]
                enum Place { $($figure,)* COUNT }
                $(pub(crate) const $figure: usize = Place::$figure as usize;)*
                pub(crate) const COUNT: usize = Place::COUNT as usize;
            }
        )*

        /// Each call with its figures in their order.
        pub const FIGURES: &[(&str, &[&str])] = &[$((stringify!($call), &[$(stringify!($figure)),*])),*];
    };
}

figures! {
    row: AMPLITUDES PRESENT THRESHOLD;
    find: KEY_DOWNS LISTED SHORT AIRTIME;
    fit: FITTED;
    estimate: CARRIER_HZ CARRIER_STEP_HZ KEY_DOWNS LISTED SHORT AIRTIME FITTED;
    classes: BLOCKS EDGE INTERIOR GAP OTHER;
    residual: EDGE_OVER_NEIGHBOUR_DB INTERIOR_OVER_NEIGHBOUR_DB EDGE_BLOCKS INTERIOR_BLOCKS GAP_BLOCKS;
    evidence: GAP_BLOCKS HOT_FRACTION PRESENT OFFSET_HZ COHERENCE;
    classify: HYPOTHESIS OFFSET_HZ;
    clean: CLEAN;
    run: SAMPLES WINDOW KEY_DOWNS LISTED SHORT FITTED SKIPPED AIRTIME BLOCKS EDGE INTERIOR GAP OTHER CARRIER_HZ
        CARRIER_STEP_HZ EDGE_OVER_NEIGHBOUR_DB INTERIOR_OVER_NEIGHBOUR_DB RESIDUAL_EDGE_BLOCKS RESIDUAL_INTERIOR_BLOCKS
        RESIDUAL_GAP_BLOCKS EVIDENCE_GAP_BLOCKS HOT_FRACTION PRESENT OFFSET_HZ COHERENCE HYPOTHESIS
        HYPOTHESIS_OFFSET_HZ TAKEN;
}

/// So many figures from this place on, such as those of a residual check among those of a run.
pub(crate) fn group(figures: &[f64], from: usize, count: usize) -> &[f64] {
    &figures[from..from + count]
}

/// A count among the figures. All are far below 2^53, so the number is exact.
pub(crate) fn whole(figure: f64) -> usize {
    figure as usize
}

/// A figure that is there where another one says so.
pub(crate) fn where_present(present: f64, figure: f64) -> Option<f64> {
    if present == 0.0 {
        None
    } else {
        Some(figure)
    }
}
