//! cancel.rs itself, built from the text of documents that stay outside this repository, and what document 01 adds to
//! it: positions, counts, airtime, the run, the questions. The proved port is held against this.

pub mod answers;
pub mod calls;
pub mod cases;
pub mod crowded;
pub mod figures;
pub mod given;
pub mod handed;
pub mod header;
pub mod keydowns;
pub mod lent;
pub mod limits;
pub mod noes;
pub mod questions;
pub mod random;
pub mod recordings;
pub mod records;
pub mod run;
pub mod scene;
pub mod signals;
pub mod stand_ins;
pub mod stored;
pub mod times;

include!(concat!(env!("OUT_DIR"), "/modules.rs"));
