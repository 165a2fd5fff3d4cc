//! One program, written for the module cancel.rs, over the module and over the package that goes in its place. All
//! that the package asks of it is to take the `Result`s apart (`told!` stands around each call) and to have an arm `_`
//! where it matches a hypothesis. Over the module with document 01's stand-ins its answers are the package's to the last
//! bit; over the module as published, whose sine and cosine are the platform's, they are near.

#![cfg(cancel_rs)]

mod note;
mod recordings;

/// Over the module as published.
mod published {
    use beside::by_platform as cancel;
    macro_rules! told {
        ($call:expr) => {
            $call
        };
    }
    include!("program.rs");
}

/// Over the module with the stand-ins.
mod module {
    use beside::by_stand_ins as cancel;
    macro_rules! told {
        ($call:expr) => {
            $call
        };
    }
    include!("program.rs");
}

/// Over the package.
mod package {
    macro_rules! told {
        ($call:expr) => {
            $call.expect("the package accepts what the module is used for")
        };
    }
    include!("program.rs");
}

#[test]
fn the_same_bits() {
    let (mut said, mut taken) = ([0; 4], 0);
    for r in recordings::all() {
        let (module, package) = (module::program(&r.iq, r.fs, r.hint_hz), package::program(&r.iq, r.fs, r.hint_hz));
        assert!(module.notes.len() > 20, "{}", r.what);
        if let Some((a, b)) = module.notes.iter().zip(&package.notes).find(|(a, b)| a != b) {
            panic!("{}: the module says {a:?}, the package {b:?}", r.what);
        }
        assert_eq!(module.notes.len(), package.notes.len(), "{}", r.what);
        said[module.hypothesis] += 1;
        taken += module.taken as usize;
    }
    println!("hypotheses: one {}, two {}, no CW {}, unresolved {}; taken: {taken}", said[0], said[1], said[2], said[3]);
    assert!(said.iter().all(|&times| times > 0) && taken > 2, "{said:?}, {taken} taken");
}

#[test]
fn near_the_module_as_published() {
    for r in recordings::all() {
        let published = published::program(&r.iq, r.fs, r.hint_hz);
        let package = package::program(&r.iq, r.fs, r.hint_hz);
        assert_eq!(published.notes.len(), package.notes.len(), "{}", r.what);
        for (a, b) in published.notes.iter().zip(&package.notes) {
            assert!(a.near(b), "{}: the module says {a:?}, the package {b:?}", r.what);
        }
    }
}

/// The package's own run answers what the program, which does the same by single calls, answers.
#[test]
fn the_run_of_the_package() {
    for r in recordings::all() {
        let by_calls = package::program(&r.iq, r.fs, r.hint_hz);
        let mut buf = r.iq.clone();
        let run = cancel::run(&mut buf, r.fs, r.hint_hz).expect("accepted");
        assert_eq!(run.figures.taken, by_calls.taken, "{}", r.what);
        let mut notes = Vec::new();
        note::samples(&mut notes, &buf);
        let after = by_calls.notes.iter().rev().take(notes.len()).rev();
        assert!(notes.iter().eq(after), "{}: the recordings after it differ", r.what);
        assert_eq!(run.fits.len(), run.figures.fitted);
        assert_eq!(run.elements.len(), run.figures.listed);
    }
}

#[test]
fn the_same_constants() {
    assert_eq!(module::constants(), package::constants());
}

/// A refusal where the module would go on with what is no number, and nothing is changed by it.
#[test]
fn refusals() {
    let r = &recordings::all()[0];
    let mut buf = r.iq.clone();
    buf[7].im = f32::NAN;
    let before: Vec<u32> = buf.iter().map(|x| x.im.to_bits()).collect();
    let refusal = cancel::run(&mut buf, r.fs, r.hint_hz).unwrap_err();
    assert_eq!((refusal, refusal.number()), (cancel::Refusal::Sample, 3));
    assert!(before.iter().copied().eq(buf.iter().map(|x| x.im.to_bits())));
    assert_eq!(cancel::run(&mut buf, 1.0, r.hint_hz).unwrap_err(), cancel::Refusal::Rate);
    assert_eq!(cancel::estimate_strong(&r.iq, r.fs, r.fs).unwrap_err(), cancel::Refusal::Carrier);
}
