//! How many figures each call answers, and where in the run's a group starts, in the order of include/cancel.h.

pub const ROW: usize = 3;
pub const FIND: usize = 4;
pub const FIT: usize = 1;
pub const ESTIMATE: usize = 7;
pub const CLASSES: usize = 5;
pub const RESIDUAL: usize = 5;
pub const EVIDENCE: usize = 5;
pub const CLASSIFY: usize = 2;
pub const CLEAN: usize = 1;
/// A call that answers none.
pub const NONE: usize = 0;
pub const RUN: usize = 28;

/// The numbers of a residual check that is handed in: the first figures of cancel_residual_check.
pub const CHECK: usize = 5;

/// Where the run's counts end and its carrier stands, where its hypothesis stands, and the word kept or taken.
pub const RUN_CARRIER: usize = 13;
pub const RUN_HYPOTHESIS: usize = 25;
pub const RUN_TAKEN: usize = 27;
