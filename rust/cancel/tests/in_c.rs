//! examples/steps.c, built as C99 and as C++ with every warning an error, answers what the package answers; what the
//! header has as code (cancel_reason, the version) is what the package says; what it says of records and of the functions
//! of numbers holds; and a library of another release is noticed by both examples.

use cancel::{
    find_elements, fit_elements, residual_check, subtract, Complex32, ElementFit, Refusal, StrongEstimate, LIBRARY,
};
use std::path::{Path, PathBuf};
use std::process::Command;
use std::{env, fs};

const ROOT: &str = concat!(env!("CARGO_MANIFEST_DIR"), "/../..");

/// The two ways to build a program in C.
const WAYS: [(&str, &[&str]); 2] = [("cc", &["-std=c99", "-x", "c"]), ("c++", &["-std=c++11", "-x", "c++"])];

/// A folder of this name for what a test writes.
fn folder(name: &str) -> PathBuf {
    let folder = Path::new(env!("CARGO_TARGET_TMPDIR")).join(name);
    fs::create_dir_all(&folder).unwrap();
    folder
}

fn built(compiler: &str, words: &[&str], source: &Path, program: &Path) {
    built_with(&Path::new(ROOT).join("include"), compiler, words, source, program);
}

/// With the header of this folder.
fn built_with(header: &Path, compiler: &str, words: &[&str], source: &Path, program: &Path) {
    let said = Command::new(compiler)
        .args(words)
        .args(["-O2", "-Wall", "-Wextra", "-Werror", "-pedantic", "-I"])
        .args([header, source])
        .args(["-x", "none", env!("CANCEL_FOUND"), "-lm", "-o"])
        .arg(program)
        .output()
        .unwrap_or_else(|e| panic!("{compiler}: {e} (Debian: apt-get install -y gcc g++)"));
    assert!(said.status.success(), "{compiler}: {}", String::from_utf8_lossy(&said.stderr));
}

fn samples(bytes: &[u8]) -> Vec<Complex32> {
    let float = |b: &[u8]| f32::from_le_bytes([b[0], b[1], b[2], b[3]]);
    bytes.chunks_exact(8).map(|b| Complex32::new(float(&b[..4]), float(&b[4..]))).collect()
}

/// What the program does, by the package: its lines, and what is left if that is clean.
fn steps(
    mut iq: Vec<Complex32>,
    fs: f64,
    carrier_hz: f64,
) -> Result<(Vec<ElementFit>, Option<Vec<Complex32>>), Refusal> {
    let elements = find_elements(&iq, fs, carrier_hz)?;
    let fits = fit_elements(&iq, fs, carrier_hz, &elements)?;
    let estimate = StrongEstimate { carrier_hz, carrier_step_hz: 0.0, fits: fits.clone(), elements };
    let clean = residual_check(&iq, fs, &estimate)?.clean();
    if clean {
        subtract(&mut iq, fs, &estimate)?;
    }
    Ok((fits, clean.then_some(iq)))
}

#[test]
fn steps_in_c() {
    let folder = folder("steps");
    // Short enough to be read at one go.
    assert!(fs::read_to_string(Path::new(ROOT).join("examples/steps.c")).unwrap().lines().count() <= 60);
    let (mut written, mut kept, mut refused) = (0, 0, 0);
    for (compiler, words) in WAYS {
        let program = folder.join(format!("steps-by-{compiler}"));
        built(compiler, words, &Path::new(ROOT).join("examples/steps.c"), &program);
        for name in ["two_senders", "one_sender", "too_close", "noise", "empty", "example", "not_a_number"] {
            let recording = Path::new(ROOT).join(format!("examples/{name}.iq"));
            let left = folder.join(format!("{name}.left"));
            let _ = fs::remove_file(&left);
            let said = Command::new(&program).args(["3000", "0.25"]).args([&recording, &left]).output().unwrap();
            let lines = String::from_utf8(said.stdout).unwrap();
            match steps(samples(&fs::read(&recording).unwrap()), 3_000.0, 0.25) {
                Err(refusal) => {
                    let expected = format!("steps: find: {refusal}\n");
                    assert_eq!((said.status.code(), String::from_utf8(said.stderr).unwrap()), (Some(2), expected));
                    refused += 1;
                }
                Ok((fits, expected)) => {
                    let fit = |f: &ElementFit| [f.element.start, f.gain.re, f.gain.im].map(f64::to_bits);
                    let line = |l: &str| l.split(' ').map(|x| x.parse::<f64>().unwrap().to_bits()).collect::<Vec<_>>();
                    assert_eq!(lines.lines().map(line).collect::<Vec<_>>(), fits.iter().map(fit).collect::<Vec<_>>());
                    assert_eq!(said.status.code(), Some(if expected.is_some() { 0 } else { 1 }), "{name}");
                    assert_eq!(fs::read(&left).ok().map(|bytes| samples(&bytes)), expected, "{name}");
                    written += expected.is_some() as usize;
                    kept += expected.is_none() as usize;
                }
            }
        }
        // A file that ends within a number, and a word that is none.
        let odd =
            Command::new(&program).args(["3000", "0", &format!("{ROOT}/examples/odd_length.iq"), "left"]).output();
        assert_eq!(odd.unwrap().status.code(), Some(2));
        let word = Command::new(&program).args(["3000", "0x", &format!("{ROOT}/examples/example.iq"), "left"]).output();
        assert_eq!(String::from_utf8(word.unwrap().stderr).unwrap(), format!("steps: find: {}\n", Refusal::Carrier));
    }
    assert!(written >= 2 && kept >= 2 && refused >= 2, "{written} written, {kept} kept, {refused} refused");
}

/// A program of this folder that prints what does not hold.
fn holds(name: &str) {
    let source = Path::new(env!("CARGO_MANIFEST_DIR")).join(format!("tests/{name}.c"));
    for (compiler, words) in WAYS {
        let program = folder(name).join(format!("{name}-by-{compiler}"));
        built(compiler, words, &source, &program);
        let said = Command::new(&program).output().unwrap();
        assert!(said.status.success() && said.stdout.is_empty(), "{}", String::from_utf8_lossy(&said.stdout));
    }
}

#[test]
fn domains_in_c() {
    holds("domains");
}

#[test]
fn records_in_c() {
    holds("records");
}

/// A header of a later release than the library, or of one that answers something else: both examples stop, and write
/// nothing. One of an earlier release is right.
#[test]
fn another_release_in_c() {
    let folder = folder("release");
    let header = fs::read_to_string(Path::new(ROOT).join("include/cancel.h")).unwrap();
    let (major, minor) = LIBRARY.version();
    let numbers = |major: u64, minor: u64| {
        format!("#define CANCEL_VERSION_MAJOR {major}\n#define CANCEL_VERSION_MINOR {minor}\n")
    };
    assert!(header.contains(&numbers(major, minor)), "the header has the version of the library");
    let releases = [
        (major, minor, false),
        (major, minor.saturating_sub(1), false),
        (major, minor + 1, true),
        (major + 1, 0, true),
        (major - 1, minor, true),
    ];
    for (i, (major, minor, noticed)) in releases.into_iter().enumerate() {
        let include = folder.join(i.to_string());
        fs::create_dir_all(&include).unwrap();
        let own = numbers(LIBRARY.version().0, LIBRARY.version().1);
        fs::write(include.join("cancel.h"), header.replace(&own, &numbers(major, minor))).unwrap();
        for (name, complaint) in
            [("receiver", "it is of another release than the header"), ("steps", "and this release")]
        {
            let (compiler, words) = WAYS[0];
            let program = include.join(name);
            built_with(&include, compiler, words, &Path::new(ROOT).join(format!("examples/{name}.c")), &program);
            let recording = format!("{ROOT}/examples/two_senders.iq");
            let left = include.join("left.iq");
            let _ = fs::remove_file(&left);
            let said = Command::new(&program).args(["3000", "0", &recording]).arg(&left).output().unwrap();
            let told = String::from_utf8(said.stderr).unwrap().contains(complaint);
            let status = if noticed { 2 } else { 0 };
            assert_eq!((said.status.code(), told), (Some(status), noticed), "{name} {major}.{minor}");
            assert_eq!((said.stdout.is_empty(), left.exists()), (noticed, !noticed), "{name} {major}.{minor}");
        }
    }
}

#[test]
fn reasons_in_c() {
    let folder = folder("reasons");
    let source = folder.join("reasons.c");
    let text = "#include <stdio.h>\n#include \"cancel.h\"\n\
        int main(void)\n{\n    uint64_t i;\n    for (i = 0; i < 9; i++)\n        puts(cancel_reason(i));\n    \
        printf(\"%d %d\\n\", CANCEL_VERSION, (int)cancel_version());\n    return 0;\n}\n";
    fs::write(&source, text).unwrap();
    for (compiler, words) in WAYS {
        let program = folder.join(format!("reasons-by-{compiler}"));
        built(compiler, words, &source, &program);
        let said = String::from_utf8(Command::new(&program).output().unwrap().stdout).unwrap();
        let lines: Vec<&str> = said.lines().collect();
        assert_eq!(lines[0], "accepted");
        for refusal in Refusal::ALL {
            assert_eq!(lines[refusal.number() as usize], refusal.to_string());
        }
        assert!(lines[8].starts_with("a refusal that is not known here: "), "{}", lines[8]);
        let (major, minor) = LIBRARY.version();
        let version = major * 1000 + minor;
        assert_eq!(lines[9], format!("{version} {version}"));
    }
}
