//! The calls over lists that are lent again and again.

use crate::answers::{ClassCounts, KeyDownCounts, ResidualCheck, RunFigures, SecondCarrierEvidence};
use crate::figures::{estimate, find, fit, group, row, where_present, whole};
use crate::linked::{self, Given, Records};
use crate::records::{self, ElementFit, KeyDown, KeyedElement, StrongEstimate, ELEMENT, FIT};
use crate::refusal::Refusal;
use crate::rows::BlockClass;
use num_complex::Complex32;

/// The most samples that a call accepts.
const MOST_SAMPLES: usize = 1 << 20;

/// Steps in a window, which is a block of classes and what an amplitude is of.
const WINDOW_STEPS: usize = 8;

/// Numbers of the work slice for each step.
const WORK: usize = 4;

/// The lists and the work slice that the library is lent.
///
/// It is made once, for the longest recording that will come, and used from call to call: then no call allocates. A
/// call on a longer recording is refused with [`Refusal::Places`] or [`Refusal::Work`]; [`Workspace::make_room`] helps.
///
/// ```
/// use cancel::{Complex32, Refusal, Workspace};
///
/// fn receive(workspace: &mut Workspace, buf: &mut [Complex32]) -> Result<bool, Refusal> {
///     let ran = workspace.run(buf, 48_000.0, 1_200.0)?;
///     Ok(ran.figures.taken)
/// }
///
/// let mut workspace = Workspace::with_room(96_000, 48_000.0);
/// let mut buf = vec![Complex32::new(0.0, 0.0); 96_000];
/// assert_eq!(receive(&mut workspace, &mut buf), Ok(false));
/// assert_eq!(receive(&mut workspace, &mut buf[..5_000]), Ok(false));
///
/// let mut longer = vec![Complex32::new(0.0, 0.0); 200_000];
/// assert_eq!(receive(&mut workspace, &mut longer), Err(Refusal::Places));
/// ```
#[derive(Debug, Clone, Default)]
pub struct Workspace {
    elements: Vec<f64>,
    fits: Vec<f64>,
    row: Vec<f64>,
    classes: Vec<f64>,
    work: Vec<f64>,
}

impl Workspace {
    /// A workspace with no room yet.
    #[must_use]
    pub fn new() -> Workspace {
        Workspace::default()
    }

    /// A workspace for recordings of up to so many samples at this rate. At a rate that is refused it has no room, and
    /// none is needed: a call refuses the rate first.
    #[must_use]
    pub fn with_room(samples: usize, fs: f64) -> Workspace {
        let mut workspace = Workspace::new();
        workspace.make_room(samples, fs);
        workspace
    }

    /// Makes room for recordings of up to so many samples at this rate. Room that is there stays.
    pub fn make_room(&mut self, samples: usize, fs: f64) {
        let places = steps(samples, fs) / 2;
        at_least(&mut self.elements, ELEMENT * places);
        at_least(&mut self.fits, FIT * places);
        self.make_row(samples, fs);
        self.make_classes(samples, fs);
        self.make_work(samples, fs);
    }

    /// Room for an amplitude row.
    pub(crate) fn make_row(&mut self, samples: usize, fs: f64) {
        at_least(&mut self.row, steps(samples, fs).saturating_sub(WINDOW_STEPS - 1));
    }

    /// Room for the class of each block.
    pub(crate) fn make_classes(&mut self, samples: usize, fs: f64) {
        at_least(&mut self.classes, steps(samples, fs) / WINDOW_STEPS);
    }

    /// Room for calls that fill no list.
    pub(crate) fn make_work(&mut self, samples: usize, fs: f64) {
        at_least(&mut self.work, WORK * steps(samples, fs));
    }

    /// Room for a fit of each of so many given elements.
    pub(crate) fn make_places(&mut self, elements: usize) {
        at_least(&mut self.fits, FIT * elements);
    }

    /// The amplitude row at the carrier, an offset from the recording's centre, and its threshold.
    ///
    /// ```
    /// use cancel::{Complex32, Workspace};
    ///
    /// let mut workspace = Workspace::with_room(300, 3_000.0);
    /// let row = workspace.amplitude_row(&[Complex32::new(2.0, 0.0); 300], 3_000.0, 0.0)?;
    /// assert_eq!((row.amplitudes.len(), row.amplitudes[0], row.threshold), (293, 2.0, Some(1.0)));
    /// # Ok::<(), cancel::Refusal>(())
    /// ```
    ///
    /// # Errors
    ///
    /// A [`Refusal`] by 1 to 6: rate, count, sample, carrier, places, work.
    pub fn amplitude_row(&mut self, iq: &[Complex32], fs: f64, carrier_hz: f64) -> Result<Row<'_>, Refusal> {
        let figures = linked::amplitude_row(iq, fs, carrier_hz, &mut self.row, &mut self.work)?;
        Ok(Row {
            amplitudes: &self.row[..whole(figures[row::AMPLITUDES])],
            threshold: where_present(figures[row::PRESENT], figures[row::THRESHOLD]),
        })
    }

    /// The class of each block of a recording of so many samples. The estimate is written into the workspace, which
    /// allocates where its lists are longer than there is room for.
    ///
    /// ```
    /// use cancel::{estimate_strong, BlockClass, Complex32, Workspace};
    ///
    /// let mut recording = vec![Complex32::new(0.0, 0.0); 3_000];
    /// recording[1_500..1_600].fill(Complex32::new(1.0, 0.0));
    /// let estimate = estimate_strong(&recording, 3_000.0, 0.0)?;
    ///
    /// let mut workspace = Workspace::with_room(3_000, 3_000.0);
    /// let blocks = workspace.block_classes(3_000, 3_000.0, &estimate)?;
    /// assert_eq!((blocks.counts.blocks, blocks.counts.edge), (375, 3));
    /// assert_eq!(blocks.classes().nth(187), Some(BlockClass::Edge));
    /// # Ok::<(), cancel::Refusal>(())
    /// ```
    ///
    /// # Errors
    ///
    /// [`Refusal::Rate`], [`Refusal::Count`], [`Refusal::Places`] or [`Refusal::Given`].
    pub fn block_classes(&mut self, samples: usize, fs: f64, est: &StrongEstimate) -> Result<Blocks<'_>, Refusal> {
        self.hold(fs, est).into_classes(samples)
    }

    /// Finds the key-down elements of the carrier at `carrier_hz`, an offset from the recording's centre.
    ///
    /// ```
    /// use cancel::{Complex32, Workspace};
    ///
    /// let mut recording = vec![Complex32::new(0.0, 0.0); 300];
    /// recording[100..200].fill(Complex32::new(1.0, 0.0));
    ///
    /// let mut workspace = Workspace::with_room(300, 3_000.0);
    /// let found = workspace.find_elements(&recording, 3_000.0, 0.0)?;
    /// assert_eq!((found.counts.key_downs, found.counts.airtime), (1, 101));
    /// let first = found.elements().next().unwrap();
    /// assert_eq!((first.up, first.down, first.element.start), (96, 197, 99.5));
    /// # Ok::<(), cancel::Refusal>(())
    /// ```
    ///
    /// # Errors
    ///
    /// A [`Refusal`] by 1 to 6: rate, count, sample, carrier, places, work.
    pub fn find_elements(&mut self, iq: &[Complex32], fs: f64, carrier_hz: f64) -> Result<Found<'_>, Refusal> {
        let figures = linked::find_elements(iq, fs, carrier_hz, &mut self.elements, &mut self.work)?;
        Ok(Found { counts: KeyDownCounts::of(&figures), elements: &self.elements })
    }

    /// Fits the gain and the phase slope of each given element that is long enough. The elements are written into the
    /// workspace; it allocates where they are more than it has room for.
    ///
    /// # Errors
    ///
    /// A [`Refusal`] by 1 to 4, 6 or 7: rate, count, sample, carrier, work, given.
    pub fn fit_elements(
        &mut self,
        iq: &[Complex32],
        fs: f64,
        carrier_hz: f64,
        els: &[KeyedElement],
    ) -> Result<Fitted<'_>, Refusal> {
        self.write_elements(els);
        self.make_places(els.len());
        let elements = Records { numbers: &self.elements, count: els.len() };
        let figures = linked::fit_elements(iq, fs, carrier_hz, elements, &mut self.fits, &mut self.work)?;
        Ok(Fitted { count: whole(figures[fit::FITTED]), fits: &self.fits })
    }

    /// Finds, fits, refines the carrier once, finds and fits again at the refined carrier. The estimate stays in the
    /// workspace and is measured or taken off from there.
    ///
    /// ```
    /// use cancel::{classify, Complex32, Hypothesis, Workspace};
    ///
    /// let mut recording = vec![Complex32::new(0.0, 0.0); 300];
    /// recording[100..200].fill(Complex32::new(1.0, 0.0));
    ///
    /// let mut workspace = Workspace::with_room(300, 3_000.0);
    /// let mut estimate = workspace.estimate_strong(&recording, 3_000.0, 0.0)?;
    /// assert_eq!(estimate.fits().len(), 1);
    /// let evidence = estimate.second_carrier_evidence(&recording)?;
    /// assert_eq!(classify(&evidence), Hypothesis::OneSignal);
    /// estimate.subtract(&mut recording)?;
    /// assert!(recording[150].norm() < 1e-6);
    /// # Ok::<(), cancel::Refusal>(())
    /// ```
    ///
    /// # Errors
    ///
    /// A [`Refusal`] by 1 to 6: rate, count, sample, carrier, places, work.
    pub fn estimate_strong(
        &mut self,
        iq: &[Complex32],
        fs: f64,
        carrier_hint_hz: f64,
    ) -> Result<Estimate<'_>, Refusal> {
        let (elements, fits, work) = (&mut self.elements, &mut self.fits, &mut self.work);
        let figures = linked::estimate_strong(iq, fs, carrier_hint_hz, elements, fits, work)?;
        let counts = KeyDownCounts::of(group(&figures, estimate::KEY_DOWNS, find::COUNT));
        Ok(Estimate {
            fs,
            carrier_hz: figures[estimate::CARRIER_HZ],
            carrier_step_hz: figures[estimate::CARRIER_STEP_HZ],
            counts: Some(counts),
            element_count: counts.listed,
            fit_count: whole(figures[estimate::FITTED]),
            workspace: self,
        })
    }

    /// Takes a given estimate into the workspace, to be measured or taken off. It allocates where the estimate's lists
    /// are longer than there is room for.
    #[must_use]
    pub fn hold(&mut self, fs: f64, est: &StrongEstimate) -> Estimate<'_> {
        self.write_elements(&est.elements);
        at_least(&mut self.fits, FIT * est.fits.len());
        for (fit, place) in est.fits.iter().zip(self.fits.chunks_exact_mut(FIT)) {
            fit.write(place);
        }
        Estimate {
            fs,
            carrier_hz: est.carrier_hz,
            carrier_step_hz: est.carrier_step_hz,
            counts: None,
            element_count: est.elements.len(),
            fit_count: est.fits.len(),
            workspace: self,
        }
    }

    /// Estimates, measures, decides, and takes the strong sender off the recording where the rules allow it. Where they
    /// do not, and where it is refused, the recording keeps every bit.
    ///
    /// # Errors
    ///
    /// A [`Refusal`] by 1 to 6: rate, count, sample, carrier, places, work.
    pub fn run(&mut self, buf: &mut [Complex32], fs: f64, hint_hz: f64) -> Result<Ran<'_>, Refusal> {
        let (elements, fits, work) = (&mut self.elements, &mut self.fits, &mut self.work);
        let figures = linked::run(buf, fs, hint_hz, elements, fits, work)?;
        Ok(Ran { figures: RunFigures::of(&figures), elements: &self.elements, fits: &self.fits })
    }

    fn write_elements(&mut self, els: &[KeyedElement]) {
        at_least(&mut self.elements, ELEMENT * els.len());
        for (element, place) in els.iter().zip(self.elements.chunks_exact_mut(ELEMENT)) {
            element.write(place);
        }
    }
}

/// B of a recording of so many samples. More than are accepted need no room, since the call refuses them first.
pub(crate) fn steps(samples: usize, fs: f64) -> usize {
    linked::blocks(samples.min(MOST_SAMPLES), fs)
}

/// Grows a list to so many numbers, if it is shorter.
fn at_least(list: &mut Vec<f64>, numbers: usize) {
    if list.len() < numbers {
        list.resize(numbers, 0.0);
    }
}

/// An amplitude row that a workspace holds.
#[derive(Debug, Clone, Copy, PartialEq)]
pub struct Row<'w> {
    /// One for each step of the recording but the last seven.
    pub amplitudes: &'w [f64],
    /// Half the 98th percentile; `None` where the row is empty or that is not positive: then there are no key-downs.
    pub threshold: Option<f64>,
}

/// The classes of blocks that a workspace holds.
#[derive(Debug, Clone, Copy)]
pub struct Blocks<'w> {
    /// How many blocks there are, and of each class.
    pub counts: ClassCounts,
    classes: &'w [f64],
}

impl<'w> Blocks<'w> {
    /// The class of each block, in their order.
    #[must_use]
    pub fn classes(&self) -> impl ExactSizeIterator<Item = BlockClass> + 'w {
        self.classes.iter().take(self.counts.blocks).copied().map(BlockClass::of)
    }
}

/// What a find answers.
#[derive(Debug, Clone, Copy)]
pub struct Found<'w> {
    /// How many key-downs there are.
    pub counts: KeyDownCounts,
    elements: &'w [f64],
}

impl<'w> Found<'w> {
    /// The listed key-downs, in their order.
    #[must_use]
    pub fn elements(&self) -> impl ExactSizeIterator<Item = KeyDown> + 'w {
        records::key_downs(self.elements, self.counts.listed)
    }
}

/// What a fit answers.
#[derive(Debug, Clone, Copy)]
pub struct Fitted<'w> {
    count: usize,
    fits: &'w [f64],
}

impl<'w> Fitted<'w> {
    /// The fits, in the order of their elements.
    #[must_use]
    pub fn fits(&self) -> impl ExactSizeIterator<Item = ElementFit> + 'w {
        records::fits(self.fits, self.count)
    }
}

/// An estimate that a workspace holds: the workspace is lent to it for as long as it is used.
#[derive(Debug)]
pub struct Estimate<'w> {
    fs: f64,
    carrier_hz: f64,
    carrier_step_hz: f64,
    counts: Option<KeyDownCounts>,
    element_count: usize,
    fit_count: usize,
    workspace: &'w mut Workspace,
}

impl<'w> Estimate<'w> {
    /// Offset from the recording's centre, refined once.
    #[must_use]
    pub fn carrier_hz(&self) -> f64 {
        self.carrier_hz
    }

    /// The refined carrier less the hint.
    #[must_use]
    pub fn carrier_step_hz(&self) -> f64 {
        self.carrier_step_hz
    }

    /// How many key-downs the second find saw; `None` of an estimate that was given.
    #[must_use]
    pub fn counts(&self) -> Option<KeyDownCounts> {
        self.counts
    }

    /// The listed key-downs. Those of an estimate that was given have no positions: both are 0.
    #[must_use]
    pub fn elements(&self) -> impl ExactSizeIterator<Item = KeyDown> + '_ {
        records::key_downs(&self.workspace.elements, self.element_count)
    }

    /// The fits, in the order of their elements.
    #[must_use]
    pub fn fits(&self) -> impl ExactSizeIterator<Item = ElementFit> + '_ {
        records::fits(&self.workspace.fits, self.fit_count)
    }

    /// The same as a value of its own.
    #[must_use]
    pub fn to_strong(&self) -> StrongEstimate {
        StrongEstimate {
            carrier_hz: self.carrier_hz,
            carrier_step_hz: self.carrier_step_hz,
            fits: self.fits().collect(),
            elements: self.elements().map(|e| e.element).collect(),
        }
    }

    /// The class of each block of a recording of so many samples.
    ///
    /// # Errors
    ///
    /// [`Refusal::Rate`], [`Refusal::Count`], [`Refusal::Places`] or [`Refusal::Given`].
    pub fn block_classes(&mut self, samples: usize) -> Result<Blocks<'_>, Refusal> {
        self.again().into_classes(samples)
    }

    fn into_classes(self, samples: usize) -> Result<Blocks<'w>, Refusal> {
        let fs = self.fs;
        let (given, classes, _) = self.lent();
        let figures = linked::block_classes(samples, fs, &given, classes)?;
        Ok(Blocks { counts: ClassCounts::of(&figures), classes })
    }

    /// What taking it off would leave of the strong sender.
    ///
    /// # Errors
    ///
    /// A [`Refusal`] by 1, 2, 3, 6 or 7: rate, count, sample, work, given.
    pub fn residual_check(&mut self, iq: &[Complex32]) -> Result<ResidualCheck, Refusal> {
        let fs = self.fs;
        let (given, _, work) = self.again().lent();
        Ok(ResidualCheck::of(&linked::residual_check(iq, fs, &given, work)?))
    }

    /// What else is in its gaps.
    ///
    /// # Errors
    ///
    /// A [`Refusal`] by 1, 2, 3, 6 or 7: rate, count, sample, work, given.
    pub fn second_carrier_evidence(&mut self, iq: &[Complex32]) -> Result<SecondCarrierEvidence, Refusal> {
        let fs = self.fs;
        let (given, _, work) = self.again().lent();
        Ok(SecondCarrierEvidence::of(&linked::second_carrier_evidence(iq, fs, &given, work)?))
    }

    /// Takes it off.
    ///
    /// # Errors
    ///
    /// A [`Refusal`] by 1, 2, 3 or 7: rate, count, sample, given.
    pub fn subtract(&mut self, buf: &mut [Complex32]) -> Result<(), Refusal> {
        let fs = self.fs;
        let (given, ..) = self.again().lent();
        linked::subtract(buf, fs, &given)
    }

    /// The same estimate, with the workspace lent on.
    fn again(&mut self) -> Estimate<'_> {
        Estimate { workspace: &mut *self.workspace, ..*self }
    }

    /// As it is handed in; the list of classes; the work slice.
    fn lent(self) -> (Given<'w>, &'w mut [f64], &'w mut [f64]) {
        let Workspace { elements, fits, classes, work, .. } = self.workspace;
        let given = Given {
            carrier_hz: self.carrier_hz,
            carrier_step_hz: self.carrier_step_hz,
            elements: Records { numbers: elements, count: self.element_count },
            fits: Records { numbers: fits, count: self.fit_count },
        };
        (given, classes, work)
    }
}

/// What a run answers.
#[derive(Debug, Clone, Copy)]
pub struct Ran<'w> {
    /// The figures.
    pub figures: RunFigures,
    elements: &'w [f64],
    fits: &'w [f64],
}

impl<'w> Ran<'w> {
    /// The listed key-downs, in their order.
    #[must_use]
    pub fn elements(&self) -> impl ExactSizeIterator<Item = KeyDown> + 'w {
        records::key_downs(self.elements, self.figures.listed)
    }

    /// The fits, in the order of their elements.
    #[must_use]
    pub fn fits(&self) -> impl ExactSizeIterator<Item = ElementFit> + 'w {
        records::fits(self.fits, self.figures.fitted)
    }
}
