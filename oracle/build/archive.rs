//! The static library under comparison: which calls it has, and how the programs link it.

use std::path::PathBuf;
use std::process::Command;

/// How the name of each call begins.
const PREFIX: &str = "cancel_";

/// The programs that call it.
const PROGRAMS: [&str; 2] = ["compare", "bench"];

/// Sets `has = "NAME"` for each call that the library defines, and CANCEL_CALLS to all of them. Without a library none
/// is set.
pub fn link(library: Option<PathBuf>) -> Result<(), String> {
    println!("cargo:rustc-check-cfg=cfg(has, values(any()))");
    let Some(library) = library else { return Ok(()) };
    println!("cargo:rerun-if-changed={}", library.display());
    let listed = Command::new("nm").args(["-g", "--defined-only"]).arg(&library).output();
    let listed = listed.map_err(|e| format!("nm: {e}"))?;
    if !listed.status.success() {
        return Err(format!("{}: {}", library.display(), String::from_utf8_lossy(&listed.stderr).trim()));
    }
    let names = String::from_utf8_lossy(&listed.stdout).into_owned();
    let names = names.lines().filter_map(|l| l.split_whitespace().last());
    let calls: Vec<&str> = names.filter(|n| n.starts_with(PREFIX)).collect();
    for call in &calls {
        println!("cargo:rustc-cfg=has=\"{call}\"");
    }
    println!("cargo:rustc-env=CANCEL_CALLS={}", calls.join(" "));
    for program in PROGRAMS {
        println!("cargo:rustc-link-arg-bin={program}={}", library.display());
        println!("cargo:rustc-link-arg-bin={program}=-lm");
    }
    Ok(())
}
