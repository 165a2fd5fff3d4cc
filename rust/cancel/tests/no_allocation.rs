//! No call over a workspace that has room allocates.

use cancel::{classify, estimate_strong, BlockClass, Complex32, KeyedElement, Refusal, StrongEstimate, Workspace};
use std::alloc::{GlobalAlloc, Layout, System};
use std::cell::Cell;

/// The system's allocator, which counts on each thread how often it is asked.
struct Counting;

thread_local! {
    static ASKED: Cell<usize> = const { Cell::new(0) };
}

// Safety: every call is handed on to the system's allocator as it came.
unsafe impl GlobalAlloc for Counting {
    unsafe fn alloc(&self, layout: Layout) -> *mut u8 {
        ASKED.with(|a| a.set(a.get() + 1));
        System.alloc(layout)
    }
    unsafe fn dealloc(&self, place: *mut u8, layout: Layout) {
        System.dealloc(place, layout)
    }
}

#[global_allocator]
static ALLOCATOR: Counting = Counting;

/// A strong keyed sender at 0 Hz and a weak one 60 Hz above it.
fn recording(samples: usize, fs: f64) -> Vec<Complex32> {
    let on = |k: usize, unit_s: f64| (k as f64 / fs / unit_s) as usize % 3 == 0;
    (0..samples)
        .map(|k| {
            let strong = if on(k, 0.05) { 1.0 } else { 0.0 };
            let weak = if on(k, 0.13) { 0.2 } else { 0.0 };
            let angle = std::f64::consts::TAU * 60.0 * k as f64 / fs;
            Complex32::new((strong + weak * angle.cos()) as f32, (weak * angle.sin()) as f32)
        })
        .collect()
}

/// A given estimate is made before anything is counted.
fn every_call(
    workspace: &mut Workspace,
    buf: &mut [Complex32],
    fs: f64,
    strong: &StrongEstimate,
) -> Result<usize, Refusal> {
    let row = workspace.amplitude_row(buf, fs, 0.0)?;
    let above = row.amplitudes.iter().filter(|&&a| Some(a) > row.threshold).count();
    let gaps = workspace.block_classes(buf.len(), fs, strong)?.classes().filter(|&c| c == BlockClass::Gap).count();
    let elements = workspace.find_elements(buf, fs, 0.0)?.elements().len();
    let given = [KeyedElement { start: 310.0, end: 450.0 }];
    let fits = workspace.fit_elements(buf, fs, 0.0, &given)?.fits().filter(|f| f.gain.re > 0.5).count();
    let mut estimate = workspace.estimate_strong(buf, fs, 0.1)?;
    let clean = estimate.residual_check(buf)?.clean();
    let evidence = estimate.second_carrier_evidence(buf)?;
    let hypothesis = classify(&evidence);
    let blocks = estimate.block_classes(buf.len())?.counts.blocks;
    estimate.subtract(buf)?;
    let long = estimate.elements().filter(|e| e.down - e.up > 10).count();
    let ran = workspace.run(buf, fs, 0.0)?;
    let looked = above + gaps + blocks + clean as usize + (hypothesis == classify(&evidence)) as usize;
    Ok(elements + fits + long + ran.fits().len() + looked)
}

#[test]
fn no_call_allocates() {
    let fs = 3_000.0;
    let mut buf = recording(12_000, fs);
    let mut workspace = Workspace::with_room(buf.len(), fs);
    let strong = estimate_strong(&buf, fs, 0.1).unwrap();
    assert!(strong.fits.len() > 10);
    let before = ASKED.with(Cell::get);
    let answer = every_call(&mut workspace, &mut buf, fs, &strong);
    let shorter = every_call(&mut workspace, &mut buf[..6_001], fs, &strong);
    let refused = every_call(&mut workspace, &mut buf, 100.0, &strong);
    let asked = ASKED.with(Cell::get) - before;
    assert!(answer.unwrap() > 10 && shorter.is_ok(), "{answer:?}, {shorter:?}");
    assert_eq!(refused, Err(Refusal::Rate));
    assert_eq!(asked, 0);
}
