//! include/cancel.h declares each call with the parameters that src/calls.rs has: the types in their order, and how
//! many figures. A call that the header does not have yet is named.

use oracle::calls::{call, CALLS, FUNCTIONS};
use oracle::figures::CHECK;
use oracle::header::{defined, reason, refusal, statements};
use oracle::questions::{CARRIER, COUNT, GIVEN, LAST, PLACES, RATE, SAMPLE, WORK};

/// Result, name and parameter types.
type Prototype = (String, String, Vec<String>);

/// Every prototype of the header.
fn prototypes() -> Vec<Prototype> {
    statements().iter().filter(|s| !s.starts_with("typedef")).filter_map(|s| prototype(s)).collect()
}

fn prototype(statement: &str) -> Option<Prototype> {
    let (before, inside) = statement.trim().split_once('(')?;
    let (result, name) = before.rsplit_once(' ')?;
    let inside = inside.trim_end_matches(')');
    let parameters = if inside == "void" { Vec::new() } else { inside.split(',').map(kind).collect() };
    Some((result.to_string(), name.to_string(), parameters))
}

/// A parameter without its name.
fn kind(parameter: &str) -> String {
    let parameter = parameter.trim();
    let named = parameter.rfind(['*', ' ']).map_or(0, |i| i + 1);
    parameter[..named].split_whitespace().collect::<Vec<_>>().join(" ")
}

/// A Rust type as C has it.
fn in_c(kind: &str) -> String {
    let kind: String = kind.split_whitespace().collect();
    let c = match &kind[..] {
        "f64" => "double",
        "f32" => "float",
        "u64" => "uint64_t",
        "usize" => "size_t",
        "*constf64" => "const double *",
        "*mutf64" => "double *",
        _ => panic!("no type {kind}"),
    };
    c.to_string()
}

fn declared() -> Vec<Prototype> {
    let calls = CALLS.iter().map(|c| {
        let kinds = c.slots.iter().flat_map(|s| s.c_types()).map(|k| k.to_string()).collect();
        ("uint64_t".to_string(), c.name.to_string(), kinds)
    });
    let functions =
        FUNCTIONS.iter().map(|f| (in_c(f.result), f.name.to_string(), f.parameters.iter().map(|k| in_c(k)).collect()));
    calls.chain(functions).collect()
}

#[test]
fn as_declared() {
    let (declared, prototypes) = (declared(), prototypes());
    assert!(prototypes.len() >= 10, "only {} prototypes read from include/cancel.h", prototypes.len());
    for prototype in &prototypes {
        assert!(declared.contains(prototype), "not as src/calls.rs has it: {prototype:?}");
    }
    for (_, name, _) in declared.iter().filter(|d| !prototypes.contains(d)) {
        println!("{name}: not in include/cancel.h");
    }
}

/// The figures of each call, as the header counts them.
#[test]
fn figures() {
    for (constant, name) in [
        ("CANCEL_FIND_FIGURES", "cancel_find_elements"),
        ("CANCEL_FIT_FIGURES", "cancel_fit_elements"),
        ("CANCEL_ESTIMATE_FIGURES", "cancel_estimate_strong"),
        ("CANCEL_RESIDUAL_FIGURES", "cancel_residual_check"),
        ("CANCEL_EVIDENCE_FIGURES", "cancel_second_carrier_evidence"),
        ("CANCEL_CLASSIFY_FIGURES", "cancel_classify"),
        ("CANCEL_RUN_FIGURES", "cancel_run"),
        ("CANCEL_ROW_FIGURES", "cancel_amplitude_row"),
        ("CANCEL_CLASSES_FIGURES", "cancel_block_classes"),
        ("CANCEL_CLEAN_FIGURES", "cancel_clean"),
    ] {
        assert_eq!(defined(constant), Some(call(name).figures as u64), "{constant}");
    }
    assert_eq!(defined("CANCEL_CHECK_NUMBERS"), Some(CHECK as u64));
}

/// The proved version of crates/capi is the header's.
#[test]
fn version() {
    let spec = std::fs::read_to_string(concat!(env!("CARGO_MANIFEST_DIR"), "/../crates/capi/specs/Version.antt"));
    let spec = spec.unwrap();
    for name in ["MAJOR", "MINOR"] {
        let said = spec.lines().find_map(|l| l.strip_prefix(name)?.strip_prefix(" = ")?.parse::<u64>().ok());
        assert!(said.is_some(), "no {name} in specs/Version.antt");
        assert_eq!(said, defined(&format!("CANCEL_VERSION_{name}")), "{name}");
    }
}

/// Each question's number is that of the refusal by its name, and the header has no other.
#[test]
fn refusals() {
    let named = [
        (RATE, "RATE"),
        (COUNT, "COUNT"),
        (SAMPLE, "SAMPLE"),
        (CARRIER, "CARRIER"),
        (PLACES, "PLACES"),
        (WORK, "WORK"),
        (GIVEN, "GIVEN"),
    ];
    assert_eq!(named.len() as u64, LAST);
    for (number, name) in named {
        assert_eq!(refusal(number), Some(name));
    }
    assert_eq!((refusal(0), refusal(LAST + 1)), (None, None));
    assert_eq!((1..=99).filter(|n| refusal(*n).is_some()).count() as u64, LAST);
}

/// Each refusal that the oracle gives has a reason of its own: what is wrong, a colon, what to do.
#[test]
fn reasons() {
    let reasons: Vec<String> =
        (1..=LAST).map(|number| reason(number).unwrap_or_else(|| panic!("none for {number}"))).collect();
    for (i, said) in reasons.iter().enumerate() {
        assert!(said.split_once(": ").is_some_and(|(wrong, to_do)| wrong.len() > 20 && to_do.len() > 20), "{said}");
        assert!(!reasons[..i].contains(said), "{said}: twice");
    }
}
