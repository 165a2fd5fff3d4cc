//! What the code of a caller may not do, so that more answers can come without breaking it and none is dropped unread.
//! Each example that must not compile stands beside one that differs in this alone, and compiles.

/// A hypothesis may be one that is not known yet.
///
/// ```
/// fn alone(found: cancel::Hypothesis) -> bool {
///     use cancel::Hypothesis::*;
///     match found {
///         OneSignal => true,
///         TwoSignalCw { .. } | NonCw | Unresolved => false,
///         _ => false,
///     }
/// }
/// ```
///
/// ```compile_fail
/// fn alone(found: cancel::Hypothesis) -> bool {
///     use cancel::Hypothesis::*;
///     match found {
///         OneSignal => true,
///         TwoSignalCw { .. } | NonCw | Unresolved => false,
///     }
/// }
/// ```
struct HypothesisMayGrow;

/// A block may be of a class that is not known yet.
///
/// ```
/// fn measured(class: cancel::BlockClass) -> bool {
///     use cancel::BlockClass::*;
///     match class {
///         Edge | Interior | Gap => true,
///         Other => false,
///         _ => false,
///     }
/// }
/// ```
///
/// ```compile_fail
/// fn measured(class: cancel::BlockClass) -> bool {
///     use cancel::BlockClass::*;
///     match class {
///         Edge | Interior | Gap => true,
///         Other => false,
///     }
/// }
/// ```
struct BlockClassMayGrow;

/// A refusal may be by a question that is not asked yet.
///
/// ```
/// fn of_the_recording(refusal: cancel::Refusal) -> bool {
///     use cancel::Refusal::*;
///     match refusal {
///         Count | Sample => true,
///         Rate | Carrier | Places | Work | Given | Unknown(_) => false,
///         _ => false,
///     }
/// }
/// ```
///
/// ```compile_fail
/// fn of_the_recording(refusal: cancel::Refusal) -> bool {
///     use cancel::Refusal::*;
///     match refusal {
///         Count | Sample => true,
///         Rate | Carrier | Places | Work | Given | Unknown(_) => false,
///     }
/// }
/// ```
struct RefusalMayGrow;

/// A run may have figures that are not known yet.
///
/// ```
/// fn taken(figures: cancel::RunFigures) -> bool {
///     let cancel::RunFigures {
///         samples: _, window: _, key_downs: _, listed: _, short: _, fitted: _, skipped: _, airtime: _, blocks: _,
///         edge: _, interior: _, gap: _, other: _, carrier_hz: _, carrier_step_hz: _, residual: _, evidence: _,
///         hypothesis: _, taken, ..
///     } = figures;
///     taken
/// }
/// ```
///
/// ```compile_fail
/// fn taken(figures: cancel::RunFigures) -> bool {
///     let cancel::RunFigures {
///         samples: _, window: _, key_downs: _, listed: _, short: _, fitted: _, skipped: _, airtime: _, blocks: _,
///         edge: _, interior: _, gap: _, other: _, carrier_hz: _, carrier_step_hz: _, residual: _, evidence: _,
///         hypothesis: _, taken,
///     } = figures;
///     taken
/// }
/// ```
struct RunFiguresMayGrow;

/// An answer that is not read is noticed.
///
/// ```
/// #![deny(unused_must_use)]
/// let _ = cancel::Refusal::Rate.number();
/// ```
///
/// ```compile_fail
/// #![deny(unused_must_use)]
/// cancel::Refusal::Rate.number();
/// ```
struct AnswersAreRead;
