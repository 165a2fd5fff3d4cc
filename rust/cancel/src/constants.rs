//! The constants at the head of cancel.rs. The library has them built in: these are to read, not to set.

/// Window of the moving average that finds edges, and length of the blocks that are measured, in seconds.
pub const EDGE_WINDOW_S: f64 = 256.0 / 96_000.0;
/// Rise and fall of a key-down as it is modelled, 0 to 100 %, in seconds.
pub const RISE_S: f64 = 5e-3;
/// Fewest fits with which a run takes the sender off.
pub const MIN_ELEMENTS: usize = 20;
/// Largest step of the carrier from the hint with which a run takes the sender off.
pub const MAX_CARRIER_STEP_HZ: f64 = 5.0;
/// Shortest interior of an element that is fitted, in seconds.
pub const MIN_INTERIOR_S: f64 = 10e-3;
/// Length of the blocks of the phase-slope fit, in seconds.
pub const SLOPE_BLOCK_S: f64 = 0.5e-3;
/// Blocks this close to either end of the recording are of class other, in seconds.
pub const RIM_S: f64 = 0.2;
/// Half the width of the zone about an edge whose blocks are of class edge, in seconds.
pub const EDGE_ZONE_S: f64 = RISE_S / 2.0;
/// Percentile of the amplitude row that is taken as the key-down level.
pub const EDGE_PERCENTILE: f64 = 0.98;
/// Largest edge residual over the neighbour that is clean, in decibels.
pub const CLEAN_EDGE_OVER_NEIGHBOUR_DB: f64 = -7.0;
/// Largest interior residual over the neighbour that is clean, in decibels.
pub const CLEAN_INTERIOR_OVER_NEIGHBOUR_DB: f64 = -10.0;
/// Percentile of the powers of gap blocks that is taken as the neighbour's level.
pub const NEIGHBOUR_PERCENTILE: f64 = 0.90;
/// Below this hot fraction the strong sender is alone.
pub const ONE_SIGNAL_MAX_HOT: f64 = 0.15;
/// Above this hot fraction the gaps hold a steady carrier.
pub const NON_CW_MIN_HOT: f64 = 0.75;
/// Least coherence of a keyed neighbour.
pub const MIN_COHERENCE: f64 = 0.8;
/// Smallest offset of a keyed neighbour, in hertz.
pub const MIN_OFFSET_HZ: f64 = 10.0;
/// Largest offset of a keyed neighbour, in hertz.
pub const MAX_OFFSET_HZ: f64 = 150.0;
/// A gap block is hot above this multiple of the reference.
pub const HOT_FACTOR: f64 = 4.0;
/// Both blocks of a pair that gives the offset are above this multiple of the reference.
pub const PAIR_FACTOR: f64 = 10.0;
/// How far from the carrier, on either side, the reference is measured, in hertz.
pub const REFERENCE_OFFSET_HZ: f64 = 500.0;
