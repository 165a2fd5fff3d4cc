//! Each refusal, from a call that gives it, and that a refused call changes nothing.

use cancel::{
    estimate_strong, find_elements, fit_elements, residual_check, run, subtract, Complex32, KeyedElement, Refusal,
    StrongEstimate, Workspace,
};

const FS: f64 = 3_000.0;

fn recording() -> Vec<Complex32> {
    let mut recording = vec![Complex32::new(0.0, 0.0); 300];
    recording[100..200].fill(Complex32::new(1.0, 0.0));
    recording
}

#[test]
fn each_by_its_number() {
    let iq = recording();
    for fs in [f64::NAN, 1_999.9, 192_000.1, f64::INFINITY] {
        assert_eq!(find_elements(&iq, fs, 0.0).unwrap_err(), Refusal::Rate);
    }
    let long = vec![Complex32::new(0.0, 0.0); (1 << 20) + 1];
    assert_eq!(find_elements(&long, FS, 0.0).unwrap_err(), Refusal::Count);
    let mut wild = iq.clone();
    wild[299].re = f32::INFINITY;
    assert_eq!(estimate_strong(&wild, FS, 0.0).unwrap_err(), Refusal::Sample);
    assert_eq!(find_elements(&iq, FS, 1_500.1).unwrap_err(), Refusal::Carrier);
    assert_eq!((Refusal::Size, Refusal::Hint), (Refusal::Count, Refusal::Carrier));
    assert_eq!(Workspace::new().find_elements(&iq, FS, 0.0).unwrap_err(), Refusal::Places);
    let element = KeyedElement { start: 99.5, end: 199.5 };
    assert_eq!(Workspace::new().fit_elements(&iq, FS, 0.0, &[element]).unwrap_err(), Refusal::Work);
    let huge = KeyedElement { start: 0.0, end: 2f64.powi(201) };
    assert_eq!(fit_elements(&iq, FS, 0.0, &[element, huge]).unwrap_err(), Refusal::Given);
    let mut estimate = estimate_strong(&iq, FS, 0.0).unwrap();
    estimate.fits[0].gain.im = f64::NAN;
    assert_eq!(residual_check(&iq, FS, &estimate).unwrap_err(), Refusal::Given);
    assert_eq!(subtract(&mut iq.clone(), FS, &estimate).unwrap_err(), Refusal::Given);
}

#[test]
fn numbers_and_sentences() {
    for (i, refusal) in Refusal::ALL.iter().enumerate() {
        assert_eq!(refusal.number(), i as u64 + 1);
        assert_eq!(Refusal::of_number(refusal.number()), Some(*refusal));
        assert!(refusal.to_string().len() > 20);
    }
    let next = Refusal::ALL.len() as u64 + 1;
    assert_eq!((Refusal::of_number(0), Refusal::of_number(next)), (None, None));
}

#[test]
fn a_refused_recording_is_as_it_was() {
    let mut buf = recording();
    buf[10].im = f32::from_bits(0x7fc1_2345);
    let bits = |buf: &[Complex32]| buf.iter().map(|x| (x.re.to_bits(), x.im.to_bits())).collect::<Vec<_>>();
    let before = bits(&buf);
    assert_eq!(run(&mut buf, FS, 0.0).unwrap_err(), Refusal::Sample);
    let estimate = StrongEstimate { carrier_hz: 0.0, carrier_step_hz: 0.0, fits: vec![], elements: vec![] };
    assert_eq!(subtract(&mut buf, FS, &estimate).unwrap_err(), Refusal::Sample);
    assert_eq!(bits(&buf), before);
}

#[test]
fn nothing_to_find_is_no_refusal() {
    assert_eq!(find_elements(&[], FS, 0.0), Ok(vec![]));
    let ran = run(&mut [], FS, -0.0).unwrap();
    assert_eq!((ran.figures.samples, ran.figures.blocks, ran.figures.taken), (0, 0, false));
    assert_eq!(fit_elements(&[], FS, 0.0, &[]), Ok(vec![]));
}
