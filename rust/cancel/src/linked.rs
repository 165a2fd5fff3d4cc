//! The calls of the static library, over slices. All that is unsafe in this package stands here.
//!
//! Each call is one line below: what it is called here and in include/cancel.h, what it is handed, and what it answers.
//! The macro makes of it the declaration for C and a function over slices. The test header.rs holds the declarations to
//! include/cancel.h.

use crate::figures::{classes, classify, clean, estimate, evidence, find, fit, residual, row, run};
use crate::refusal::Refusal;
use num_complex::Complex32;

/// Records that are given: a flat list, of which the first so many count.
#[derive(Clone, Copy)]
pub(crate) struct Records<'a> {
    pub numbers: &'a [f64],
    pub count: usize,
}

/// An estimate that is given.
pub(crate) struct Given<'a> {
    pub carrier_hz: f64,
    pub carrier_step_hz: f64,
    pub elements: Records<'a>,
    pub fits: Records<'a>,
}

/// A call as it is declared: its name, and the types of its parameters and of its result.
pub struct Declared {
    /// Its name in C.
    pub name: &'static str,
    /// The types of its parameters, as Rust writes them.
    pub parameters: &'static [&'static str],
    /// The type of its result.
    pub result: &'static str,
}

/// The figures, if the status is 0, or else the refusal of that number.
fn told<F>(status: u64, figures: F) -> Result<F, Refusal> {
    match status {
        0 => Ok(figures),
        number => Err(Refusal::of_number(number).unwrap_or(Refusal::Unknown(number))),
    }
}

/// What a call is handed, as the lines below name it:
///
/// * recording, buffer: samples, read or written. `Complex` is `repr(C)` with just the real and the imaginary part, and
///   a slice is at most `isize::MAX` bytes long, so that its numbers can be counted;
/// * samples: how many there are of a recording that is not lent. More than can be counted in numbers are refused as
///   much as the most that can;
/// * number, whole: a value;
/// * filled: a slice that is written; listed: records that are read; estimate: a given estimate; check: the figures of
///   a residual check.
///
/// And what it answers: figures(N) or, where it has none, nothing, unless it refuses; sure(N) where it refuses nothing;
/// plain(T) for a number that it returns.
macro_rules! linked {
    ($($(#[$doc:meta])* $name:ident = $call:ident($($handed:tt)*) -> $answer:ident $(($($of:tt)*))?;)*) => {
        $(linked! {
            @($answer $(($($of)*))?) ($(#[$doc])* $name $call) ($($handed)*) () () ()
        })*

        /// Every call as it is declared.
        pub const DECLARED: &[Declared] = &[$($call::DECLARED),*];
    };

    // What is handed, one after the other: the parameter here, the types for C, the values for C.
    (@$as:tt $of:tt ($x:ident: recording $(, $($more:tt)*)?) ($($p:tt)*) ($($k:ty,)*) ($($v:expr,)*)) => {
        linked! { @$as $of ($($($more)*)?) ($($p)* $x: &[Complex32],)
            ($($k,)* *const f32, usize,) ($($v,)* $x.as_ptr().cast(), 2 * $x.len(),) }
    };
    (@$as:tt $of:tt ($x:ident: buffer $(, $($more:tt)*)?) ($($p:tt)*) ($($k:ty,)*) ($($v:expr,)*)) => {
        linked! { @$as $of ($($($more)*)?) ($($p)* $x: &mut [Complex32],)
            ($($k,)* *mut f32, usize,) ($($v,)* $x.as_mut_ptr().cast(), 2 * $x.len(),) }
    };
    (@$as:tt $of:tt ($x:ident: samples $(, $($more:tt)*)?) ($($p:tt)*) ($($k:ty,)*) ($($v:expr,)*)) => {
        linked! { @$as $of ($($($more)*)?) ($($p)* $x: usize,)
            ($($k,)* usize,) ($($v,)* $x.saturating_mul(2),) }
    };
    (@$as:tt $of:tt ($x:ident: number $(, $($more:tt)*)?) ($($p:tt)*) ($($k:ty,)*) ($($v:expr,)*)) => {
        linked! { @$as $of ($($($more)*)?) ($($p)* $x: f64,) ($($k,)* f64,) ($($v,)* $x,) }
    };
    (@$as:tt $of:tt ($x:ident: whole $(, $($more:tt)*)?) ($($p:tt)*) ($($k:ty,)*) ($($v:expr,)*)) => {
        linked! { @$as $of ($($($more)*)?) ($($p)* $x: u64,) ($($k,)* u64,) ($($v,)* $x,) }
    };
    (@$as:tt $of:tt ($x:ident: filled $(, $($more:tt)*)?) ($($p:tt)*) ($($k:ty,)*) ($($v:expr,)*)) => {
        linked! { @$as $of ($($($more)*)?) ($($p)* $x: &mut [f64],)
            ($($k,)* *mut f64, usize,) ($($v,)* $x.as_mut_ptr(), $x.len(),) }
    };
    (@$as:tt $of:tt ($x:ident: listed $(, $($more:tt)*)?) ($($p:tt)*) ($($k:ty,)*) ($($v:expr,)*)) => {
        linked! { @$as $of ($($($more)*)?) ($($p)* $x: Records<'_>,)
            ($($k,)* *const f64, usize, usize,) ($($v,)* $x.numbers.as_ptr(), $x.numbers.len(), $x.count,) }
    };
    (@$as:tt $of:tt ($x:ident: estimate $(, $($more:tt)*)?) ($($p:tt)*) ($($k:ty,)*) ($($v:expr,)*)) => {
        linked! { @$as $of ($($($more)*)?) ($($p)* $x: &Given<'_>,)
            ($($k,)* f64, f64, *const f64, usize, usize, *const f64, usize, usize,)
            ($($v,)* $x.carrier_hz, $x.carrier_step_hz,
                $x.elements.numbers.as_ptr(), $x.elements.numbers.len(), $x.elements.count,
                $x.fits.numbers.as_ptr(), $x.fits.numbers.len(), $x.fits.count,) }
    };
    (@$as:tt $of:tt ($x:ident: check $(, $($more:tt)*)?) ($($p:tt)*) ($($k:ty,)*) ($($v:expr,)*)) => {
        linked! { @$as $of ($($($more)*)?) ($($p)* $x: &[f64; residual::COUNT],)
            ($($k,)* *const f64,) ($($v,)* $x.as_ptr(),) }
    };

    // What is answered.
    (@(figures($count:expr)) ($(#[$doc:meta])* $name:ident $call:ident)
        () ($($p:tt)*) ($($k:ty,)*) ($($v:expr,)*)) => {
        linked! { @declared $call ($($k,)* *mut f64) u64 }
        $(#[$doc])*
        pub(crate) fn $name($($p)*) -> Result<[f64; $count], Refusal> {
            let mut figures = [0.0; $count];
            told(linked!(@made $call ($($v,)* figures.as_mut_ptr())), figures)
        }
    };
    (@(nothing) ($(#[$doc:meta])* $name:ident $call:ident) () ($($p:tt)*) ($($k:ty,)*) ($($v:expr,)*)) => {
        linked! { @declared $call ($($k),*) u64 }
        $(#[$doc])*
        pub(crate) fn $name($($p)*) -> Result<(), Refusal> {
            told(linked!(@made $call ($($v),*)), ())
        }
    };
    (@(sure($count:expr)) ($(#[$doc:meta])* $name:ident $call:ident) () ($($p:tt)*) ($($k:ty,)*) ($($v:expr,)*)) => {
        linked! { @declared $call ($($k,)* *mut f64) u64 }
        $(#[$doc])*
        pub(crate) fn $name($($p)*) -> [f64; $count] {
            let mut figures = [0.0; $count];
            linked!(@made $call ($($v,)* figures.as_mut_ptr()));
            figures
        }
    };
    (@(plain($result:ty)) ($(#[$doc:meta])* $name:ident $call:ident) () ($($p:tt)*) ($($k:ty,)*) ($($v:expr,)*)) => {
        linked! { @declared $call ($($k),*) $result }
        $(#[$doc])*
        pub(crate) fn $name($($p)*) -> $result {
            linked!(@made $call ($($v),*))
        }
    };

    (@declared $call:ident ($($k:ty),*) $result:ty) => {
        mod $call {
            extern "C" {
                pub(super) fn $call($(_: $k),*) -> $result;
            }
            pub(super) const DECLARED: super::Declared = super::Declared {
                name: stringify!($call),
                parameters: &[$(stringify!($k)),*],
                result: stringify!($result),
            };
        }
    };
    (@made $call:ident ($($v:expr),*)) => {
        // Safety: the function is proved, for every input, to read and write only what it is lent and to return. What
        // is left to the caller (include/cancel.h) holds of every call: pointers come from slices or arrays, so they
        // are not null, not even of an empty one, are aligned and stand for as many numbers as the length beside them,
        // or the header, says; and what is written is borrowed mutably, so it overlaps nothing else that is lent.
        unsafe { $call::$call($($v),*) }
    };
}

linked! {
    version = cancel_version() -> plain(u64);
    /// B of a recording of so many samples, 0 where the rate is refused.
    blocks = cancel_blocks(samples: samples, fs: number) -> plain(usize);
    amplitude_row = cancel_amplitude_row(
        iq: recording, fs: number, carrier_hz: number, row: filled, work: filled
    ) -> figures(row::COUNT);
    find_elements = cancel_find_elements(
        iq: recording, fs: number, carrier_hz: number, elements: filled, work: filled
    ) -> figures(find::COUNT);
    fit_elements = cancel_fit_elements(
        iq: recording, fs: number, carrier_hz: number, elements: listed, fits: filled, work: filled
    ) -> figures(fit::COUNT);
    estimate_strong = cancel_estimate_strong(
        iq: recording, fs: number, hint_hz: number, elements: filled, fits: filled, work: filled
    ) -> figures(estimate::COUNT);
    block_classes = cancel_block_classes(
        samples: samples, fs: number, est: estimate, classes: filled
    ) -> figures(classes::COUNT);
    residual_check = cancel_residual_check(
        iq: recording, fs: number, est: estimate, work: filled
    ) -> figures(residual::COUNT);
    second_carrier_evidence = cancel_second_carrier_evidence(
        iq: recording, fs: number, est: estimate, work: filled
    ) -> figures(evidence::COUNT);
    classify = cancel_classify(
        gap_blocks: whole, hot_fraction: number, present: whole, offset_hz: number, coherence: number
    ) -> sure(classify::COUNT);
    clean = cancel_clean(check: check) -> sure(clean::COUNT);
    subtract = cancel_subtract(buf: buffer, fs: number, est: estimate) -> nothing;
    run = cancel_run(
        buf: buffer, fs: number, hint_hz: number, elements: filled, fits: filled, work: filled
    ) -> figures(run::COUNT);
}

#[cfg(test)]
mod tests {
    use super::{told, Refusal};

    #[test]
    fn a_number_that_is_not_known() {
        assert_eq!(told(0, 1.5), Ok(1.5));
        assert_eq!(told(7, 1.5), Err(Refusal::Given));
        let next = Refusal::ALL.len() as u64 + 1;
        assert_eq!(told(next, 1.5), Err(Refusal::Unknown(next)));
        assert_eq!(told(u64::MAX, 1.5), Err(Refusal::Unknown(u64::MAX)));
    }
}
