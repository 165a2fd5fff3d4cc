//! cancel.rs itself, to hold the package `cancel` against: unchanged, and with document 01's stand-ins for the
//! functions whose bodies it does not list (sine, cosine, ..). The proved library follows the latter to the last bit.

#[cfg(cancel_rs)]
#[path = "../../../oracle/src/stand_ins/mod.rs"]
pub mod stand_ins;

#[cfg(cancel_rs)]
include!(concat!(env!("OUT_DIR"), "/modules.rs"));
