//! What include/cancel.h says in numbers and words: its version, its counts of figures, the reason of a refusal.

const HEADER: &str = include_str!("../../include/cancel.h");

/// The number that `#define` gives a name.
pub fn defined(name: &str) -> Option<u64> {
    let line = HEADER.lines().find_map(|l| l.strip_prefix("#define ")?.strip_prefix(name)?.strip_prefix(' '));
    line.map(|number| number.trim().parse().unwrap_or_else(|_| panic!("{name} is no whole number: {number}")))
}

/// What cancel_version has to answer.
pub fn version() -> u64 {
    let part = |name| defined(name).unwrap_or_else(|| panic!("include/cancel.h has no {name}"));
    part("CANCEL_VERSION_MAJOR") * 1000 + part("CANCEL_VERSION_MINOR")
}

/// The name that the refusal of this number has in `enum cancel_refusal`, without what all begin with.
pub fn refusal(number: u64) -> Option<&'static str> {
    HEADER.lines().find_map(|l| {
        let (name, said) = l.trim().trim_end_matches(',').split_once(" = ")?;
        name.strip_prefix("CANCEL_REFUSED_").filter(|_| said.parse() == Ok(number))
    })
}

/// The reason that cancel_reason has for the refusal of this number, by the name that the number has.
pub fn reason(number: u64) -> Option<String> {
    let (_, after) = HEADER.split_once(&format!("case CANCEL_REFUSED_{}:", refusal(number)?))?;
    let (said, _) = after.split_once(';')?;
    Some(said.split('"').skip(1).step_by(2).collect())
}

/// Every statement of the header's code, such as a prototype: no comment, no line for the preprocessor, and no function
/// that has a body.
pub fn statements() -> Vec<String> {
    let mut code = String::new();
    for (i, part) in HEADER.split("/*").enumerate() {
        code += if i == 0 { part } else { part.split_once("*/").map_or("", |(_, after)| after) };
    }
    let mut inside = false;
    let plain = code.lines().filter(|l| {
        let kept = !inside && !l.starts_with("static inline") && !l.starts_with('#') && !l.starts_with("extern");
        inside = (inside || l.starts_with("static inline")) && *l != "}";
        kept
    });
    plain.collect::<String>().split(';').map(|s| s.trim().to_string()).collect()
}
