//! The calls of include/cancel.h, from the static library that this program is linked with: those that the library has.
//! What they are is declared in src/calls.rs.

use oracle::handed::Handed;

/// A call of the library on what it is handed: its status.
pub type Ask = fn(&mut Handed) -> u64;

/// Collects the C parameters of a call, slot by slot: their types, and their values of what is handed.
#[allow(unused_macros)]
macro_rules! called {
    ($name:literal $h:ident () ($($kind:ty),*) ($($value:expr),*)) => {{
        extern "C" {
            #[link_name = $name]
            fn linked($(_: $kind),*) -> u64;
        }
        // The slices are lent between guards, each with its own length.
        unsafe { linked($($value),*) }
    }};
    ($name:literal $h:ident (iq $($rest:ident)*) ($($k:ty),*) ($($v:expr),*)) => {
        called!($name $h ($($rest)*) ($($k,)* *const f32, usize) ($($v,)* $h.recording.pointer(), $h.recording.len()))
    };
    ($name:literal $h:ident (buf $($rest:ident)*) ($($k:ty),*) ($($v:expr),*)) => {
        called!($name $h ($($rest)*) ($($k,)* *mut f32, usize) ($($v,)* $h.recording.pointer(), $h.recording.len()))
    };
    ($name:literal $h:ident (iq_len $($rest:ident)*) ($($k:ty),*) ($($v:expr),*)) => {
        called!($name $h ($($rest)*) ($($k,)* usize) ($($v,)* $h.iq_len))
    };
    ($name:literal $h:ident (fs $($rest:ident)*) ($($k:ty),*) ($($v:expr),*)) => {
        called!($name $h ($($rest)*) ($($k,)* f64) ($($v,)* $h.fs))
    };
    ($name:literal $h:ident (hint $($rest:ident)*) ($($k:ty),*) ($($v:expr),*)) => {
        called!($name $h ($($rest)*) ($($k,)* f64) ($($v,)* $h.hint_hz))
    };
    ($name:literal $h:ident (elements $($rest:ident)*) ($($k:ty),*) ($($v:expr),*)) => {
        called!($name $h ($($rest)*) ($($k,)* *mut f64, usize) ($($v,)* $h.elements.pointer(), $h.elements.len()))
    };
    ($name:literal $h:ident (fits $($rest:ident)*) ($($k:ty),*) ($($v:expr),*)) => {
        called!($name $h ($($rest)*) ($($k,)* *mut f64, usize) ($($v,)* $h.fits.pointer(), $h.fits.len()))
    };
    ($name:literal $h:ident (places $($rest:ident)*) ($($k:ty),*) ($($v:expr),*)) => {
        called!($name $h ($($rest)*) ($($k,)* *mut f64, usize) ($($v,)* $h.places.pointer(), $h.places.len()))
    };
    ($name:literal $h:ident (row $($rest:ident)*) ($($k:ty),*) ($($v:expr),*)) => {
        called!($name $h ($($rest)*) ($($k,)* *mut f64, usize) ($($v,)* $h.row.pointer(), $h.row.len()))
    };
    ($name:literal $h:ident (classes $($rest:ident)*) ($($k:ty),*) ($($v:expr),*)) => {
        called!($name $h ($($rest)*) ($($k,)* *mut f64, usize) ($($v,)* $h.classes.pointer(), $h.classes.len()))
    };
    ($name:literal $h:ident (work $($rest:ident)*) ($($k:ty),*) ($($v:expr),*)) => {
        called!($name $h ($($rest)*) ($($k,)* *mut f64, usize) ($($v,)* $h.work.pointer(), $h.work.len()))
    };
    ($name:literal $h:ident (figures $($rest:ident)*) ($($k:ty),*) ($($v:expr),*)) => {
        called!($name $h ($($rest)*) ($($k,)* *mut f64) ($($v,)* $h.figures.pointer()))
    };
    ($name:literal $h:ident (given $($rest:ident)*) ($($k:ty),*) ($($v:expr),*)) => {
        called!($name $h ($($rest)*) ($($k,)* *const f64, usize, usize)
            ($($v,)* $h.given_elements.pointer(), $h.given_elements.len(), $h.element_count))
    };
    ($name:literal $h:ident (estimate $($rest:ident)*) ($($k:ty),*) ($($v:expr),*)) => {
        called!($name $h ($($rest)*)
            ($($k,)* f64, f64, *const f64, usize, usize, *const f64, usize, usize)
            ($($v,)* $h.carrier_hz, $h.carrier_step_hz,
                $h.given_elements.pointer(), $h.given_elements.len(), $h.element_count,
                $h.given_fits.pointer(), $h.given_fits.len(), $h.fit_count))
    };
    ($name:literal $h:ident (evidence $($rest:ident)*) ($($k:ty),*) ($($v:expr),*)) => {
        called!($name $h ($($rest)*) ($($k,)* u64, f64, u64, f64, f64)
            ($($v,)* $h.evidence.gap_blocks, $h.evidence.hot_fraction, $h.evidence.present,
                $h.evidence.offset_hz, $h.evidence.coherence))
    };
    ($name:literal $h:ident (check $($rest:ident)*) ($($k:ty),*) ($($v:expr),*)) => {
        called!($name $h ($($rest)*) ($($k,)* *const f64) ($($v,)* $h.check.pointer()))
    };
}

macro_rules! calls {
    ($($name:literal $answer:ident($($slot:ident)*) $figures:ident;)*) => {
        $(
            #[cfg(has = $name)]
            const fn $answer() -> Option<Ask> {
                Some(|h: &mut Handed| called!($name h ($($slot)*) () ()))
            }
            #[cfg(not(has = $name))]
            const fn $answer() -> Option<Ask> {
                None
            }
        )*
        /// Each call, if the library has it.
        const CALLS: &[(&str, Option<Ask>)] = &[$(($name, $answer())),*];
    };
}

oracle::each_call!(calls);

macro_rules! functions {
    ($($name:literal $function:ident($($x:ident: $kind:ty),*) -> $result:ty;)*) => {
        $(
            #[cfg(has = $name)]
            #[allow(dead_code)]
            pub fn $function($($x: $kind),*) -> $result {
                extern "C" {
                    #[link_name = $name]
                    fn linked($($x: $kind),*) -> $result;
                }
                unsafe { linked($($x),*) }
            }
            #[cfg(not(has = $name))]
            #[allow(dead_code)]
            pub fn $function($(_: $kind),*) -> $result {
                unreachable!("the library has no {}", $name)
            }
        )*
        /// Each function of numbers, and whether the library has it.
        const FUNCTIONS: &[(&str, bool)] = &[$(($name, cfg!(has = $name))),*];
    };
}

oracle::each_function!(functions);

/// The call of this name, if the library has it.
pub fn ask(name: &str) -> Option<Ask> {
    CALLS.iter().find(|(call, _)| *call == name).and_then(|(_, ask)| *ask)
}

/// Every call and function, and whether the library has it.
pub fn all() -> impl Iterator<Item = (&'static str, bool)> {
    CALLS.iter().map(|(name, ask)| (*name, ask.is_some())).chain(FUNCTIONS.iter().copied())
}

/// Does the library have this call or function?
pub fn present(name: &str) -> bool {
    all().any(|(call, has)| has && call == name)
}

/// Names that the library has and nothing here declares: they would go uncompared.
#[allow(dead_code)]
pub fn undeclared() -> Vec<&'static str> {
    let names = option_env!("CANCEL_CALLS").unwrap_or("");
    names.split(' ').filter(|n| !n.is_empty() && !all().any(|(call, _)| call == *n)).collect()
}
