//! What the library refuses.

use std::error::Error;
use std::fmt;

/// The first question about what a call was given that had to be answered with no. Nothing lent has then changed.
///
/// Its text says what is wrong and what to do: the words are those of `cancel_reason` in `include/cancel.h`.
///
/// ```
/// use cancel::{find_elements, Complex32, Refusal};
///
/// let recording = [Complex32::new(f32::NAN, 0.0)];
/// let refusal = find_elements(&recording, 3_000.0, 0.0).unwrap_err();
/// assert_eq!(refusal, Refusal::Sample);
/// assert_eq!(refusal.number(), 3);
/// assert!(refusal.to_string().starts_with("a sample is infinite or not a number: "));
/// ```
#[derive(Debug, Clone, Copy, PartialEq, Eq, Hash)]
#[non_exhaustive]
pub enum Refusal {
    /// 1: the rate is not a number from 2,000 to 192,000, ends included.
    Rate,
    /// 2: the recording has half a sample, or more than 1,048,576 samples.
    Count,
    /// 3: a sample is not finite.
    Sample,
    /// 4: the hint, or the carrier of a find or fit, is not finite or of a size above half the rate.
    Carrier,
    /// 5: a list to be filled has too few places. A [`Workspace`](crate::Workspace) was made for a shorter recording.
    Places,
    /// 6: the work slice is too short. A [`Workspace`](crate::Workspace) was made for a shorter recording.
    Work,
    /// 7: a given element or estimate holds a number that is not finite or of a size above 2^200.
    Given,
    /// A number that this package does not know: the library is of another release.
    Unknown(u64),
}

#[allow(non_upper_case_globals)]
impl Refusal {
    /// [`Refusal::Count`] under the name that it had before.
    pub const Size: Refusal = Refusal::Count;
    /// [`Refusal::Carrier`] under the name that it had before.
    pub const Hint: Refusal = Refusal::Carrier;
}

impl Refusal {
    /// All that are known, in the order in which a call asks: the first has the number 1, the next 2, and so on.
    pub const ALL: &'static [Refusal] = &[
        Refusal::Rate,
        Refusal::Count,
        Refusal::Sample,
        Refusal::Carrier,
        Refusal::Places,
        Refusal::Work,
        Refusal::Given,
    ];

    /// The number that a report gives it.
    #[must_use]
    pub fn number(self) -> u64 {
        match self {
            Refusal::Rate => 1,
            Refusal::Count => 2,
            Refusal::Sample => 3,
            Refusal::Carrier => 4,
            Refusal::Places => 5,
            Refusal::Work => 6,
            Refusal::Given => 7,
            Refusal::Unknown(number) => number,
        }
    }

    /// The refusal of this number, if it is known.
    #[must_use]
    pub fn of_number(number: u64) -> Option<Refusal> {
        Refusal::ALL.iter().copied().find(|r| r.number() == number)
    }
}

impl fmt::Display for Refusal {
    fn fmt(&self, f: &mut fmt::Formatter) -> fmt::Result {
        f.write_str(match self {
            Refusal::Rate => {
                "the rate is not a number from 2000 to 192000 samples a second: \
                 give the rate of the recording, or resample it"
            }
            Refusal::Count => {
                "the recording is not a whole number of samples, at most 1048576: \
                 lend whole samples, and a longer recording in pieces"
            }
            Refusal::Sample => {
                "a sample is infinite or not a number: \
                 look at what recorded it, for such a number is no measurement"
            }
            Refusal::Carrier => {
                "the hint or carrier is not a finite number of size at most half the rate: \
                 give it in Hz from the recording's centre"
            }
            Refusal::Places => {
                "a list to be filled has too few places: \
                 make room for a recording of this length"
            }
            Refusal::Work => {
                "the work slice has too few numbers: \
                 make room for a recording of this length"
            }
            Refusal::Given => {
                "a given count exceeds its list, or a given number is not finite, too large or no position: \
                 hand over elements and fits as a call answered them"
            }
            Refusal::Unknown(number) => {
                return write!(
                    f,
                    "a refusal that is not known here, by {number}: take the package and the library of one release"
                )
            }
        })
    }
}

impl Error for Refusal {}
