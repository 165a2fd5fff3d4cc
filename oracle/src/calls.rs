//! The calls of include/cancel.h, each declared once. The comparison, the measurement and the tests all read these two
//! lists.

use crate::answers::{self, Answer};
use crate::figures;
use crate::questions::{self as ask, first_no, Question};
use crate::records::{ELEMENT, FIT};
use crate::scene::Scene;

/// Every call that is handed slices, evidence or a check: its name, the oracle's answer to it, what it is handed in the
/// order of its C parameters (`Slot` says what each is), and how many figures it answers, by the name in src/figures.rs.
#[macro_export]
macro_rules! each_call {
    ($then:ident) => {
        $then! {
            "cancel_find_elements" find_elements(iq fs hint elements work figures) FIND;
            "cancel_fit_elements" fit_elements(iq fs hint given places work figures) FIT;
            "cancel_estimate_strong" estimate_strong(iq fs hint elements fits work figures) ESTIMATE;
            "cancel_residual_check" residual_check(iq fs estimate work figures) RESIDUAL;
            "cancel_second_carrier_evidence" second_carrier_evidence(iq fs estimate work figures) EVIDENCE;
            "cancel_classify" classify(evidence figures) CLASSIFY;
            "cancel_subtract" subtract(buf fs estimate) NONE;
            "cancel_run" run(buf fs hint elements fits work figures) RUN;
            "cancel_amplitude_row" amplitude_row(iq fs hint row work figures) ROW;
            "cancel_block_classes" block_classes(iq_len fs estimate classes figures) CLASSES;
            "cancel_clean" clean(check figures) CLEAN;
        }
    };
}

/// Every function of numbers, which refuses nothing: its name, and its parameters and result.
#[macro_export]
macro_rules! each_function {
    ($then:ident) => {
        $then! {
            "cancel_version" version() -> u64;
            "cancel_blocks" blocks(iq_len: usize, fs: f64) -> usize;
            "cancel_sin" sin(x: f64) -> f64;
            "cancel_cos" cos(x: f64) -> f64;
            "cancel_cos_sin" cos_sin(angles: *const f64, angles_len: usize, out: *mut f64, out_len: usize) -> usize;
            "cancel_arg" arg(re: f64, im: f64) -> f64;
            "cancel_norm" norm(re: f64, im: f64) -> f64;
            "cancel_log10" log10(y: f64) -> f64;
            "cancel_narrow" narrow(x: f64) -> f32;
        }
    };
}

/// Something that a call is handed, named as in the declarations.
#[allow(non_camel_case_types)]
#[derive(Debug, Clone, Copy, PartialEq)]
pub enum Slot {
    /// The recording, only read.
    iq,
    /// The recording, to be written.
    buf,
    /// How many floats a recording has that is not lent.
    iq_len,
    fs,
    /// The hint, or the carrier of a row, find or fit.
    hint,
    /// The list of amplitudes to be filled, one number a place.
    row,
    /// The list of elements to be filled.
    elements,
    /// The list of fits to be filled.
    fits,
    /// Given elements and their count.
    given,
    /// The list of fits to be filled, one place for each given element.
    places,
    /// A given estimate: carrier, carrier step, elements with their count, fits with their count.
    estimate,
    /// The list of classes to be filled, one number a place.
    classes,
    /// The figures of an evidence.
    evidence,
    /// The figures of a residual check, in a lent array of just so many.
    check,
    work,
    /// The lent array of figures.
    figures,
}

/// A call as it is declared.
pub struct Call {
    pub name: &'static str,
    pub slots: &'static [Slot],
    pub figures: usize,
    answer: fn(&Scene) -> Answer,
}

macro_rules! calls {
    ($($name:literal $answer:ident($($slot:ident)*) $figures:ident;)*) => {
        pub const CALLS: &[Call] = &[
            $(Call { name: $name, slots: &[$(Slot::$slot),*], figures: figures::$figures, answer: answers::$answer }),*
        ];
    };
}

each_call!(calls);

/// A function of numbers as it is declared: its name, the types of its parameters, the type of its result.
pub struct Function {
    pub name: &'static str,
    pub parameters: &'static [&'static str],
    pub result: &'static str,
}

macro_rules! functions {
    ($($name:literal $function:ident($($x:ident: $kind:ty),*) -> $result:ty;)*) => {
        pub const FUNCTIONS: &[Function] = &[
            $(Function { name: $name, parameters: &[$(stringify!($kind)),*], result: stringify!($result) }),*
        ];
    };
}

each_function!(functions);

/// An answer, or the number of the refusal.
pub type Outcome = Result<Answer, u64>;

/// The call of this name.
pub fn call(name: &str) -> &'static Call {
    CALLS.iter().find(|c| c.name == name).unwrap_or_else(|| panic!("no call {name}"))
}

impl Call {
    pub fn is_handed(&self, slot: Slot) -> bool {
        self.slots.contains(&slot)
    }

    fn is_handed_any(&self, slots: &[Slot]) -> bool {
        slots.iter().any(|&s| self.is_handed(s))
    }

    /// The questions about what the call is given, in their order.
    pub fn questions<'a>(&self, s: &'a Scene) -> Vec<Question<'a>> {
        let rec = &s.recording;
        let mut asked = Vec::new();
        if self.is_handed(Slot::fs) {
            asked.push(ask::rate(rec.fs));
        }
        if self.is_handed_any(&[Slot::iq, Slot::buf]) {
            asked.push(ask::size(rec.iq.len()));
            asked.push(ask::finite(&rec.iq));
        }
        if self.is_handed(Slot::iq_len) {
            asked.push(ask::size(s.iq_len()));
        }
        if self.is_handed(Slot::hint) {
            asked.push(ask::hint(rec.hint_hz, rec.fs));
        }
        for (slot, places) in [(Slot::elements, s.elements_len / ELEMENT), (Slot::fits, s.fits_len / FIT)] {
            if self.is_handed(slot) {
                asked.push(ask::room(places, &rec.iq, rec.fs));
            }
        }
        if self.is_handed(Slot::places) {
            asked.push(ask::room_for_each(s.places_len / FIT, s.given.element_count));
        }
        if self.is_handed(Slot::row) {
            asked.push(ask::room_for_row(s.row_len, &rec.iq, rec.fs));
        }
        if self.is_handed(Slot::classes) {
            asked.push(ask::room_for_classes(s.classes_len, s.iq_len(), rec.fs));
        }
        if self.is_handed(Slot::work) {
            asked.push(ask::work(s.work_len, &rec.iq, rec.fs));
        }
        if self.is_handed(Slot::given) {
            asked.push(ask::given_elements(&s.given));
        }
        if self.is_handed(Slot::estimate) {
            asked.push(ask::given_estimate(&s.given));
        }
        asked
    }

    /// What document 01 and the Rust say of this call on this scene.
    pub fn outcome(&self, s: &Scene) -> Outcome {
        match first_no(&self.questions(s)) {
            0 => {
                let answer = (self.answer)(s);
                assert_eq!(answer.figures.len(), self.figures, "figures of {}", self.name);
                Ok(answer)
            }
            number => Err(number),
        }
    }
}

impl Slot {
    /// The types of its C parameters.
    pub fn c_types(self) -> &'static [&'static str] {
        match self {
            Slot::iq => &["const float *", "size_t"],
            Slot::buf => &["float *", "size_t"],
            Slot::iq_len => &["size_t"],
            Slot::fs | Slot::hint => &["double"],
            Slot::elements | Slot::fits | Slot::places | Slot::row | Slot::classes | Slot::work => {
                &["double *", "size_t"]
            }
            Slot::given => &["const double *", "size_t", "size_t"],
            Slot::estimate => {
                &["double", "double", "const double *", "size_t", "size_t", "const double *", "size_t", "size_t"]
            }
            Slot::evidence => &["uint64_t", "double", "uint64_t", "double", "double"],
            Slot::check => &["const double *"],
            Slot::figures => &["double *"],
        }
    }
}
