//! The strong sender of a recording, and the gaps it leaves: a package that goes where the module cancel.rs was.
//!
//! Names, types and answers are the module's, to the last bit of every number; the work is done by a static library in
//! which every function is proved to meet its contract (`include/cancel.h`). What the library does not accept it
//! refuses, and then nothing has changed: a call answers a `Result` with a [`Refusal`].
//!
//! There are two forms of each call.
//!
//! * The plain functions ([`find_elements`], [`estimate_strong`], [`run`], ..) answer `Vec`s, as the module did.
//! * A [`Workspace`] holds the lists and the work slice that the library is lent. It is made once and used again from
//!   call to call, so that no call on a receiver's path allocates.
//!
//! ```
//! use cancel::{run, Complex32, Hypothesis};
//!
//! // 300 samples at 3,000 a second, with one key-down.
//! let mut buf = vec![Complex32::new(0.0, 0.0); 300];
//! buf[100..200].fill(Complex32::new(1.0, 0.0));
//!
//! let answer = run(&mut buf, 3_000.0, 0.0)?;
//! assert_eq!((answer.figures.key_downs, answer.figures.listed, answer.figures.fitted), (1, 1, 1));
//! assert_eq!((answer.elements[0].up, answer.elements[0].down), (96, 197));
//! assert_eq!(answer.figures.hypothesis, Hypothesis::OneSignal);
//! assert!(!answer.figures.taken);
//! # Ok::<(), cancel::Refusal>(())
//! ```
//!
//! A recording is `&[Complex32]` and goes in without a copy: the library reads it, or writes it, where it stands.
//!
//! With the feature `serde`, records, answers, figures and the hypothesis can be written and read back. Formats that
//! people read have what is not finite as "infinity", "-infinity" and "nan". (serde_json reads a number back to its last
//! bit with its own feature `float_roundtrip`.)

#![deny(unsafe_code, missing_docs)]

mod answers;
#[cfg(doctest)]
mod callers;
mod constants;
mod figures;
#[allow(unsafe_code)]
mod linked;
#[cfg(feature = "serde")]
mod numbers;
mod plain;
mod records;
mod refusal;
mod rows;
mod workspace;

pub use answers::{ClassCounts, Hypothesis, KeyDownCounts, ResidualCheck, Run, RunFigures, SecondCarrierEvidence};
pub use constants::*;
pub use num_complex::{Complex32, Complex64};
pub use plain::{
    classify, estimate_strong, find_elements, fit_elements, residual_check, run, second_carrier_evidence, subtract,
};
pub use records::{ElementFit, KeyDown, KeyedElement, StrongEstimate};
pub use refusal::Refusal;
pub use rows::{amplitude_row, block_classes, AmplitudeRow, BlockClass};
pub use workspace::{Blocks, Estimate, Fitted, Found, Ran, Row, Workspace};

/// What the tests hold to `include/cancel.h`.
#[doc(hidden)]
pub mod held {
    pub use crate::figures::FIGURES;
    pub use crate::linked::{Declared, DECLARED};
    pub use crate::records::RECORDS;
}

/// Which library this package was linked with.
#[derive(Debug, Clone, Copy, PartialEq, Eq)]
pub struct Library {
    /// The commit that it was built from, as `./install` wrote it down; "unknown" where it stands beside no such note.
    pub commit: &'static str,
    /// The SHA-256 of the archive that was linked.
    pub sha256: &'static str,
}

/// The library that this package was linked with.
pub const LIBRARY: Library = Library { commit: env!("CANCEL_COMMIT"), sha256: env!("CANCEL_SHA256") };

impl Library {
    /// The interface's version as the library itself answers it, MAJOR and MINOR of its `include/cancel.h`. This
    /// package is written for MAJOR 1 and a MINOR of at least 2, and its build asks the header for them.
    ///
    /// ```
    /// let (major, minor) = cancel::LIBRARY.version();
    /// assert!(major == 1 && minor >= 2);
    /// ```
    #[must_use]
    pub fn version(&self) -> (u64, u64) {
        let version = linked::version();
        (version / 1000, version % 1000)
    }
}
