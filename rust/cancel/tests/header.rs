//! The package is held to include/cancel.h, by which the library is called: declarations, figures, records, refusals and
//! their reasons, and the version.

use cancel::held::{DECLARED, FIGURES, RECORDS};
use cancel::{Refusal, LIBRARY};
use std::collections::BTreeMap;

/// A call's result and parameters, as C types.
type Types = (String, Vec<String>);

const HEADER: &str = include_str!("../../../include/cancel.h");

/// The functions of numbers, which are open for tests of the library itself.
const NUMBERS: [&str; 7] =
    ["cancel_sin", "cancel_cos", "cancel_cos_sin", "cancel_arg", "cancel_norm", "cancel_log10", "cancel_narrow"];

#[test]
fn linked_as_the_header_has_them() {
    let mut header = prototypes();
    for call in DECLARED {
        let types = (in_c(call.result), call.parameters.iter().map(|kind| in_c(kind)).collect());
        assert_eq!(header.remove(call.name), Some(types), "{}", call.name);
    }
    let left: Vec<&str> = header.keys().map(String::as_str).filter(|name| !NUMBERS.contains(name)).collect();
    assert!(left.is_empty(), "in the header and not linked: {left:?}");
}

/// Each figure by its name and place, and how many there are.
#[test]
fn figures() {
    for (call, names) in FIGURES {
        let start = format!("CANCEL_{}_", call.to_uppercase());
        let expected: Vec<String> = names.iter().map(|name| format!("{start}{name}")).collect();
        assert_eq!(enumerated(&format!("enum cancel_{call}_figure")), expected);
        assert_eq!(defined(&format!("{start}FIGURES")), names.len(), "{call}");
    }
    // A run's figures have those of other calls in a row.
    let of = |call: &str| FIGURES.iter().find(|(name, _)| *name == call).expect("a call").1;
    for (group, from) in
        [("residual", "EDGE_OVER_NEIGHBOUR_DB"), ("evidence", "EVIDENCE_GAP_BLOCKS"), ("classify", "HYPOTHESIS")]
    {
        let start = of("run").iter().position(|name| *name == from).expect("where it begins");
        for (name, part) in of("run")[start..].iter().zip(of(group)) {
            assert!(name.ends_with(part), "{name} for {part} of {group}");
        }
    }
    assert_eq!(of("estimate")[2..6], *of("find"));
}

#[test]
fn records() {
    for (name, width) in RECORDS {
        assert_eq!(defined(&format!("CANCEL_{name}_NUMBERS")), *width);
    }
}

/// Each refusal by its name, its number and its reason.
#[test]
fn refusals() {
    let numbered = numbers("enum cancel_refusal");
    assert_eq!(numbered.len(), Refusal::ALL.len() + 1, "{numbered:?}");
    for refusal in Refusal::ALL {
        let name = format!("CANCEL_REFUSED_{}", format!("{refusal:?}").to_uppercase());
        assert_eq!(numbered.get(&name), Some(&refusal.number()), "{name}");
        let reason = HEADER.split_once(&format!("case {name}:")).and_then(|(_, after)| after.split_once(';'));
        let reason: String = reason.expect("a reason").0.split('"').skip(1).step_by(2).collect();
        assert_eq!(refusal.to_string(), reason);
    }
    assert_eq!(numbered.get("CANCEL_ACCEPTED"), Some(&0));
    let unknown = Refusal::Unknown(19);
    assert_eq!((unknown.number(), Refusal::of_number(19)), (19, None));
    assert!(unknown.to_string().contains("19"));
}

#[test]
fn hypotheses_and_classes() {
    let expected = [("ONE_SIGNAL", 0), ("TWO_SIGNAL_CW", 1), ("NON_CW", 2), ("UNRESOLVED", 3)];
    let numbered = |names: &[(&str, u64)]| names.iter().map(|(n, x)| (format!("CANCEL_{n}"), *x)).collect();
    assert_eq!(numbers("enum cancel_hypothesis"), numbered(&expected));
    assert_eq!(numbers("enum cancel_class"), numbered(&[("EDGE", 0), ("INTERIOR", 1), ("GAP", 2), ("OTHER", 3)]));
}

/// The package's version is the header's, and the library that is linked says the same.
#[test]
fn version() {
    let header = (defined("CANCEL_VERSION_MAJOR"), defined("CANCEL_VERSION_MINOR"));
    let own = |number: &str| number.parse::<usize>().unwrap();
    assert_eq!((own(env!("CARGO_PKG_VERSION_MAJOR")), own(env!("CARGO_PKG_VERSION_MINOR"))), header);
    let (major, minor) = LIBRARY.version();
    assert_eq!((major as usize, minor as usize), header);
}

/// The header without its comments.
fn code() -> String {
    let parts = HEADER.split("/*").enumerate();
    parts.map(|(i, part)| if i == 0 { part } else { part.split_once("*/").map_or("", |(_, after)| after) }).collect()
}

/// What stands between the braces of an enum.
fn enumerated(head: &str) -> Vec<String> {
    let code = code();
    let (_, after) = code.split_once(&format!("{head} {{")).unwrap_or_else(|| panic!("no {head}"));
    let (inside, _) = after.split_once('}').expect("an enum ends");
    inside.split(',').map(|name| name.trim().to_string()).collect()
}

/// The same, each with the number that stands there.
fn numbers(head: &str) -> BTreeMap<String, u64> {
    let numbered = |name: &str| {
        let (name, number) = name.split_once(" = ").expect("a number");
        (name.to_string(), number.parse().expect("a number"))
    };
    enumerated(head).iter().map(|name| numbered(name)).collect()
}

/// The number of a `#define`.
fn defined(name: &str) -> usize {
    let line = HEADER.lines().find_map(|l| l.strip_prefix("#define ")?.strip_prefix(name)?.strip_prefix(' '));
    line.and_then(|number| number.parse().ok()).unwrap_or_else(|| panic!("no number {name}"))
}

/// Every `TYPE cancel_NAME(..);` of the header. A function with a body is none.
fn prototypes() -> BTreeMap<String, Types> {
    let code = code();
    let lines: Vec<&str> = code.lines().filter(|l| !l.starts_with('#')).collect();
    let mut out = BTreeMap::new();
    for statement in lines.join(" ").split(';') {
        let statement = statement.rsplit(['{', '}']).next().unwrap_or(statement).trim();
        let (head, parameters) = match statement.split_once('(') {
            Some((head, rest)) if !head.starts_with("typedef") => (head, rest.trim_end_matches(')')),
            _ => continue,
        };
        let (result, name) = match head.rsplit_once(' ') {
            Some(split) if split.1.starts_with("cancel_") => split,
            _ => continue,
        };
        let types = if parameters == "void" { Vec::new() } else { parameters.split(',').map(c_type).collect() };
        out.insert(name.to_string(), (result.to_string(), types));
    }
    out
}

/// The type of a parameter, without its name.
fn c_type(parameter: &str) -> String {
    let parameter = parameter.trim();
    let before = parameter.rfind(|c: char| !c.is_alphanumeric() && c != '_').expect("a type and a name");
    parameter[..=before].trim().to_string()
}

/// A Rust type as C has it. How `stringify!` sets blanks is not said.
fn in_c(kind: &str) -> String {
    let kind: String = kind.split_whitespace().collect();
    let c = match &kind[..] {
        "f64" => "double",
        "u64" => "uint64_t",
        "usize" => "size_t",
        "*constf32" => "const float *",
        "*mutf32" => "float *",
        "*constf64" => "const double *",
        "*mutf64" => "double *",
        other => panic!("{other}: a type that no call of the library has"),
    };
    c.to_string()
}
