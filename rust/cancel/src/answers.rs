//! What the calls answer beside lists.

use crate::figures::{classes, classify, clean, evidence, find, group, residual, run, where_present, whole};
use crate::linked;
use crate::records::{ElementFit, KeyDown};

/// How many key-downs the amplitude row has, and how many of them are listed.
#[derive(Debug, Clone, Copy, PartialEq, Eq)]
#[cfg_attr(feature = "serde", derive(serde::Serialize, serde::Deserialize))]
pub struct KeyDownCounts {
    /// All key-downs.
    pub key_downs: usize,
    /// Those long enough to be listed.
    pub listed: usize,
    /// Those too short.
    pub short: usize,
    /// Samples between the crossings of listed ones, in all.
    pub airtime: usize,
}

/// How many blocks of a recording are of each class.
#[derive(Debug, Clone, Copy, PartialEq, Eq)]
#[cfg_attr(feature = "serde", derive(serde::Serialize, serde::Deserialize))]
pub struct ClassCounts {
    /// Whole blocks of the recording.
    pub blocks: usize,
    /// Those at an edge of a fitted element.
    pub edge: usize,
    /// Those inside a fitted element.
    pub interior: usize,
    /// Those away from every element.
    pub gap: usize,
    /// All others.
    pub other: usize,
}

/// What taking an estimate off would leave of the strong sender, over the level of the neighbour.
#[derive(Debug, Clone, Copy, PartialEq)]
#[cfg_attr(feature = "serde", derive(serde::Serialize, serde::Deserialize))]
pub struct ResidualCheck {
    /// The median edge block; +∞ where a side is missing.
    #[cfg_attr(feature = "serde", serde(with = "crate::numbers::number"))]
    pub edge_over_neighbour_db: f64,
    /// The median interior block; +∞ where a side is missing.
    #[cfg_attr(feature = "serde", serde(with = "crate::numbers::number"))]
    pub interior_over_neighbour_db: f64,
    /// Blocks at edges.
    pub edge_blocks: usize,
    /// Blocks inside fitted elements.
    pub interior_blocks: usize,
    /// Blocks away from every element.
    pub gap_blocks: usize,
}

impl ResidualCheck {
    /// Are both ratios at or under their thresholds? It refuses nothing, and takes any numbers.
    ///
    /// ```
    /// use cancel::{ResidualCheck, CLEAN_EDGE_OVER_NEIGHBOUR_DB, CLEAN_INTERIOR_OVER_NEIGHBOUR_DB};
    ///
    /// let check = ResidualCheck {
    ///     edge_over_neighbour_db: CLEAN_EDGE_OVER_NEIGHBOUR_DB,
    ///     interior_over_neighbour_db: CLEAN_INTERIOR_OVER_NEIGHBOUR_DB,
    ///     edge_blocks: 3,
    ///     interior_blocks: 5,
    ///     gap_blocks: 200,
    /// };
    /// assert!(check.clean());
    /// assert!(!ResidualCheck { edge_over_neighbour_db: -6.99, ..check }.clean());
    /// assert!(!ResidualCheck { interior_over_neighbour_db: f64::NAN, ..check }.clean());
    /// ```
    #[must_use]
    pub fn clean(&self) -> bool {
        let mut figures = [0.0; residual::COUNT];
        figures[residual::EDGE_OVER_NEIGHBOUR_DB] = self.edge_over_neighbour_db;
        figures[residual::INTERIOR_OVER_NEIGHBOUR_DB] = self.interior_over_neighbour_db;
        figures[residual::EDGE_BLOCKS] = self.edge_blocks as f64;
        figures[residual::INTERIOR_BLOCKS] = self.interior_blocks as f64;
        figures[residual::GAP_BLOCKS] = self.gap_blocks as f64;
        linked::clean(&figures)[clean::CLEAN] != 0.0
    }
}

/// What else is in the gaps of the strong sender.
#[derive(Debug, Clone, Copy, PartialEq)]
#[cfg_attr(feature = "serde", derive(serde::Serialize, serde::Deserialize))]
pub struct SecondCarrierEvidence {
    /// Blocks away from every element.
    pub gap_blocks: usize,
    /// The share of them that is hot.
    #[cfg_attr(feature = "serde", serde(with = "crate::numbers::number"))]
    pub hot_fraction: f64,
    /// Offset of the second carrier from the strong one; `None` where no two gap blocks in a row are strong enough.
    #[cfg_attr(feature = "serde", serde(default, with = "crate::numbers::optional"))]
    pub offset_hz: Option<f64>,
    /// How well the phases from block to block agree, 0 where there are none.
    #[cfg_attr(feature = "serde", serde(with = "crate::numbers::number"))]
    pub coherence: f64,
}

/// What the evidence speaks for.
#[derive(Debug, Clone, Copy, PartialEq)]
#[cfg_attr(feature = "serde", derive(serde::Serialize, serde::Deserialize), serde(rename_all = "snake_case"))]
#[non_exhaustive]
pub enum Hypothesis {
    /// The strong sender is alone.
    OneSignal,
    /// A second keyed sender, this far from the strong one.
    TwoSignalCw {
        /// Its offset from the strong carrier.
        #[cfg_attr(feature = "serde", serde(with = "crate::numbers::number"))]
        offset_hz: f64,
    },
    /// Something steady.
    NonCw,
    /// None of these.
    Unresolved,
}

/// The figures of a run.
#[derive(Debug, Clone, Copy, PartialEq)]
#[cfg_attr(feature = "serde", derive(serde::Serialize, serde::Deserialize))]
#[non_exhaustive]
pub struct RunFigures {
    /// Samples of the recording.
    pub samples: usize,
    /// Samples of a block.
    pub window: usize,
    /// Key-downs in the amplitude row at the refined carrier.
    pub key_downs: usize,
    /// Those long enough to be listed.
    pub listed: usize,
    /// Those too short.
    pub short: usize,
    /// Listed ones that were fitted.
    pub fitted: usize,
    /// Listed ones that were not.
    pub skipped: usize,
    /// Samples between the crossings of listed ones, in all.
    pub airtime: usize,
    /// Whole blocks of the recording.
    pub blocks: usize,
    /// Blocks of class edge.
    pub edge: usize,
    /// Blocks of class interior.
    pub interior: usize,
    /// Blocks of class gap.
    pub gap: usize,
    /// Blocks of class other.
    pub other: usize,
    /// The strong sender's carrier, refined once.
    #[cfg_attr(feature = "serde", serde(with = "crate::numbers::number"))]
    pub carrier_hz: f64,
    /// The refined carrier less the hint.
    #[cfg_attr(feature = "serde", serde(with = "crate::numbers::number"))]
    pub carrier_step_hz: f64,
    /// What taking the sender off would leave, or has left.
    pub residual: ResidualCheck,
    /// What else is in its gaps.
    pub evidence: SecondCarrierEvidence,
    /// What that speaks for.
    pub hypothesis: Hypothesis,
    /// Was the sender taken off? If not, the recording kept every bit.
    pub taken: bool,
}

/// A run's figures, with the listed key-downs and the fits that they come from.
#[derive(Debug, Clone, PartialEq)]
#[cfg_attr(feature = "serde", derive(serde::Serialize, serde::Deserialize))]
pub struct Run {
    /// The figures.
    pub figures: RunFigures,
    /// The listed key-downs, in their order.
    pub elements: Vec<KeyDown>,
    /// The fits, in the order of their elements.
    pub fits: Vec<ElementFit>,
}

impl KeyDownCounts {
    pub(crate) fn of(figures: &[f64]) -> KeyDownCounts {
        KeyDownCounts {
            key_downs: whole(figures[find::KEY_DOWNS]),
            listed: whole(figures[find::LISTED]),
            short: whole(figures[find::SHORT]),
            airtime: whole(figures[find::AIRTIME]),
        }
    }
}

impl ClassCounts {
    pub(crate) fn of(figures: &[f64]) -> ClassCounts {
        ClassCounts {
            blocks: whole(figures[classes::BLOCKS]),
            edge: whole(figures[classes::EDGE]),
            interior: whole(figures[classes::INTERIOR]),
            gap: whole(figures[classes::GAP]),
            other: whole(figures[classes::OTHER]),
        }
    }
}

impl ResidualCheck {
    pub(crate) fn of(figures: &[f64]) -> ResidualCheck {
        ResidualCheck {
            edge_over_neighbour_db: figures[residual::EDGE_OVER_NEIGHBOUR_DB],
            interior_over_neighbour_db: figures[residual::INTERIOR_OVER_NEIGHBOUR_DB],
            edge_blocks: whole(figures[residual::EDGE_BLOCKS]),
            interior_blocks: whole(figures[residual::INTERIOR_BLOCKS]),
            gap_blocks: whole(figures[residual::GAP_BLOCKS]),
        }
    }
}

impl SecondCarrierEvidence {
    pub(crate) fn of(figures: &[f64]) -> SecondCarrierEvidence {
        SecondCarrierEvidence {
            gap_blocks: whole(figures[evidence::GAP_BLOCKS]),
            hot_fraction: figures[evidence::HOT_FRACTION],
            offset_hz: where_present(figures[evidence::PRESENT], figures[evidence::OFFSET_HZ]),
            coherence: figures[evidence::COHERENCE],
        }
    }
}

impl Hypothesis {
    pub(crate) fn of(figures: &[f64]) -> Hypothesis {
        match whole(figures[classify::HYPOTHESIS]) {
            0 => Hypothesis::OneSignal,
            1 => Hypothesis::TwoSignalCw { offset_hz: figures[classify::OFFSET_HZ] },
            2 => Hypothesis::NonCw,
            3 => Hypothesis::Unresolved,
            other => unreachable!("the library answers hypotheses 0 to 3, and this is {other}"),
        }
    }
}

impl RunFigures {
    pub(crate) fn of(figures: &[f64; run::COUNT]) -> RunFigures {
        RunFigures {
            samples: whole(figures[run::SAMPLES]),
            window: whole(figures[run::WINDOW]),
            key_downs: whole(figures[run::KEY_DOWNS]),
            listed: whole(figures[run::LISTED]),
            short: whole(figures[run::SHORT]),
            fitted: whole(figures[run::FITTED]),
            skipped: whole(figures[run::SKIPPED]),
            airtime: whole(figures[run::AIRTIME]),
            blocks: whole(figures[run::BLOCKS]),
            edge: whole(figures[run::EDGE]),
            interior: whole(figures[run::INTERIOR]),
            gap: whole(figures[run::GAP]),
            other: whole(figures[run::OTHER]),
            carrier_hz: figures[run::CARRIER_HZ],
            carrier_step_hz: figures[run::CARRIER_STEP_HZ],
            residual: ResidualCheck::of(group(figures, run::EDGE_OVER_NEIGHBOUR_DB, residual::COUNT)),
            evidence: SecondCarrierEvidence::of(group(figures, run::EVIDENCE_GAP_BLOCKS, evidence::COUNT)),
            hypothesis: Hypothesis::of(group(figures, run::HYPOTHESIS, classify::COUNT)),
            taken: figures[run::TAKEN] != 0.0,
        }
    }
}
