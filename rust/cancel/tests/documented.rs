//! Every function that callers see says what it refuses, or has its answer noticed where it is not read; and the packages
//! name their README.

use std::fs;
use std::path::Path;

/// A function that is open to callers: what stands above it, and its head up to its body.
struct Function {
    above: Vec<String>,
    head: String,
}

impl Function {
    /// What it answers; nothing, where it answers nothing.
    fn answer(&self) -> &str {
        self.head.rsplit_once(" -> ").map_or("", |(_, answer)| answer.trim_end_matches(" {"))
    }

    fn has(&self, line: &str) -> bool {
        self.above.iter().any(|above| above == line)
    }
}

/// The functions of a source that are `pub`, in whatever is open or not.
fn functions(source: &str) -> Vec<Function> {
    let (mut out, mut above) = (Vec::new(), Vec::new());
    let mut lines = source.lines().map(str::trim);
    while let Some(line) = lines.next() {
        if line.starts_with("///") || line.starts_with("#[") {
            above.push(line.to_string());
            continue;
        }
        if line.starts_with("pub ") && line.split(' ').take(4).any(|word| word == "fn") {
            let mut head = line.to_string();
            while !head.ends_with('{') {
                head = format!("{head} {}", lines.next().expect("a function has a body"));
            }
            out.push(Function { above, head });
        }
        above = Vec::new();
    }
    out
}

/// Those of every source of this package.
fn all() -> Vec<Function> {
    let folder = Path::new(env!("CARGO_MANIFEST_DIR")).join("src");
    let sources = fs::read_dir(folder).unwrap().map(|entry| fs::read_to_string(entry.unwrap().path()).unwrap());
    sources.flat_map(|source| functions(&source)).collect()
}

#[test]
fn what_is_refused_is_said() {
    let mut said = 0;
    for function in all().iter().filter(|function| function.answer().starts_with("Result<")) {
        let errors = function.above.iter().position(|line| line == "/// # Errors");
        let errors = errors.unwrap_or_else(|| panic!("no `# Errors` above {}", function.head));
        // The refusals are named, or given by their numbers.
        let named = function.above[errors..].concat();
        assert!(named.contains("[`Refusal"), "which refusals? {}", function.head);
        said += 1;
    }
    // The calls, those of a workspace and of an estimate that it holds. A call more is one or two more.
    assert_eq!(said, 19);
}

#[test]
fn an_answer_that_is_not_read_is_noticed() {
    let mut noticed = 0;
    for function in all().iter().filter(|function| !function.answer().is_empty()) {
        if !function.answer().starts_with("Result<") {
            assert!(function.has("#[must_use]"), "no #[must_use] above {}", function.head);
            noticed += 1;
        }
    }
    assert_eq!(noticed, 19);
}

#[test]
fn packages_name_their_readme() {
    for package in ["cancel", "lenakkum"] {
        let folder = Path::new(env!("CARGO_MANIFEST_DIR")).join("..").join(package);
        let cargo = fs::read_to_string(folder.join("Cargo.toml")).unwrap();
        let readme = cargo.lines().find_map(|line| line.strip_prefix("readme = ")).expect("a readme").trim_matches('"');
        let text = fs::read_to_string(folder.join(readme)).unwrap();
        assert!(text.contains(&format!("\n| {package} | ")), "{readme} does not say what {package} is");
    }
}
