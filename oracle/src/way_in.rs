// From here on not of cancel.rs: a way in to what it keeps private.
pub mod way_in {
    use super::*;

    pub fn edge_window(fs: f64) -> (usize, usize) {
        super::edge_window(fs)
    }

    pub fn block_means(iq: &[Complex32], fs: f64, carrier_hz: f64, len: usize) -> Vec<Complex64> {
        super::block_means(iq, fs, carrier_hz, len)
    }

    pub fn percentile(v: &mut [f64], p: f64) -> Option<f64> {
        super::percentile(v, p)
    }

    pub fn fit_span(f: &ElementFit, fs: f64, n: usize) -> (usize, usize) {
        super::fit_span(f, fs, n)
    }

    /// The name of each block's class.
    pub fn classes(blocks: usize, len: usize, fs: f64, n: usize, est: &StrongEstimate) -> Vec<String> {
        super::classify_blocks(blocks, len, fs, n, est).iter().map(|c| format!("{c:?}")).collect()
    }

    /// The number of each block's class: 0 edge, 1 interior, 2 gap, 3 other.
    pub fn class_numbers(blocks: usize, len: usize, fs: f64, n: usize, est: &StrongEstimate) -> Vec<f64> {
        let number = |c: &BlockClass| match c {
            BlockClass::Edge => 0.0,
            BlockClass::Interior => 1.0,
            BlockClass::Gap => 2.0,
            BlockClass::Other => 3.0,
        };
        super::classify_blocks(blocks, len, fs, n, est).iter().map(number).collect()
    }

    /// How many blocks end as edge, interior, gap and other.
    pub fn class_counts(blocks: usize, len: usize, fs: f64, n: usize, est: &StrongEstimate) -> [usize; 4] {
        let class = super::classify_blocks(blocks, len, fs, n, est);
        let all = [BlockClass::Edge, BlockClass::Interior, BlockClass::Gap, BlockClass::Other];
        all.map(|one| class.iter().filter(|&&c| c == one).count())
    }

    /// The run of document 01, part 7, over the Rust's functions alone: whether it took.
    pub fn run(buf: &mut [Complex32], fs: f64, hint_hz: f64) -> bool {
        let est = estimate_strong(buf, fs, hint_hz);
        let residual = residual_check(buf, fs, &est);
        let evidence = second_carrier_evidence(buf, fs, &est);
        let two = matches!(classify(&evidence), Hypothesis::TwoSignalCw { .. });
        let few = est.fits.len() < MIN_ELEMENTS;
        let taken = two && !few && est.carrier_step_hz.abs() <= MAX_CARRIER_STEP_HZ && residual.clean();
        if taken {
            subtract(buf, fs, &est);
        }
        taken
    }
}
