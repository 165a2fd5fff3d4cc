//! What a picture of a run shows beside its figures: the amplitude row, and the class of each block.

use crate::records::StrongEstimate;
use crate::refusal::Refusal;
use crate::workspace::Workspace;
use num_complex::Complex32;

/// The row of amplitudes in which key-downs are found.
#[derive(Debug, Clone, PartialEq)]
#[cfg_attr(feature = "serde", derive(serde::Serialize, serde::Deserialize))]
pub struct AmplitudeRow {
    /// One for each step of the recording but the last seven.
    pub amplitudes: Vec<f64>,
    /// Half the 98th percentile; `None` where the row is empty or that is not positive: then there are no key-downs.
    #[cfg_attr(feature = "serde", serde(default, with = "crate::numbers::optional"))]
    pub threshold: Option<f64>,
}

/// What a block of the recording is to the estimate.
#[derive(Debug, Clone, Copy, PartialEq, Eq)]
#[cfg_attr(feature = "serde", derive(serde::Serialize, serde::Deserialize), serde(rename_all = "snake_case"))]
#[non_exhaustive]
pub enum BlockClass {
    /// At an edge of a fitted element.
    Edge,
    /// Inside a fitted element.
    Interior,
    /// Away from every element.
    Gap,
    /// None of these.
    Other,
}

/// The amplitude row at the carrier, an offset from the recording's centre, and its threshold.
///
/// ```
/// use cancel::{amplitude_row, Complex32};
///
/// let row = amplitude_row(&[Complex32::new(2.0, 0.0); 300], 3_000.0, 0.0)?;
/// assert_eq!((row.amplitudes.len(), row.amplitudes[0], row.threshold), (293, 2.0, Some(1.0)));
/// # Ok::<(), cancel::Refusal>(())
/// ```
///
/// # Errors
///
/// [`Refusal::Rate`], [`Refusal::Count`], [`Refusal::Sample`] or [`Refusal::Carrier`].
pub fn amplitude_row(iq: &[Complex32], fs: f64, carrier_hz: f64) -> Result<AmplitudeRow, Refusal> {
    let mut workspace = Workspace::new();
    workspace.make_row(iq.len(), fs);
    workspace.make_work(iq.len(), fs);
    let row = workspace.amplitude_row(iq, fs, carrier_hz)?;
    Ok(AmplitudeRow { amplitudes: row.amplitudes.to_vec(), threshold: row.threshold })
}

/// The class of each block of a recording of so many samples.
///
/// ```
/// use cancel::{block_classes, estimate_strong, BlockClass, Complex32};
///
/// let mut recording = vec![Complex32::new(0.0, 0.0); 3_000];
/// recording[1_500..1_600].fill(Complex32::new(1.0, 0.0));
/// let estimate = estimate_strong(&recording, 3_000.0, 0.0)?;
/// let classes = block_classes(recording.len(), 3_000.0, &estimate)?;
/// assert_eq!((classes.len(), classes[187], classes[193]), (375, BlockClass::Edge, BlockClass::Interior));
/// assert_eq!((classes[100], classes[0]), (BlockClass::Gap, BlockClass::Other));
/// # Ok::<(), cancel::Refusal>(())
/// ```
///
/// # Errors
///
/// [`Refusal::Rate`], [`Refusal::Count`] or [`Refusal::Given`].
pub fn block_classes(samples: usize, fs: f64, est: &StrongEstimate) -> Result<Vec<BlockClass>, Refusal> {
    let mut workspace = Workspace::new();
    workspace.make_classes(samples, fs);
    Ok(workspace.block_classes(samples, fs, est)?.classes().collect())
}

impl BlockClass {
    pub(crate) fn of(number: f64) -> BlockClass {
        match number as u64 {
            0 => BlockClass::Edge,
            1 => BlockClass::Interior,
            2 => BlockClass::Gap,
            3 => BlockClass::Other,
            other => unreachable!("the library answers classes 0 to 3, and this is {other}"),
        }
    }
}
