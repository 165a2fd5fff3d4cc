//! Prepares cancel.rs, whose text stays outside this repository: as it stands, and with document 01's stand-ins for the
//! functions whose bodies it does not list, as oracle/ does. Where the text is not there, nothing is compiled of it and
//! the test that needs it is skipped.

#[path = "../../oracle/build/big.rs"]
#[allow(dead_code)]
mod big;
#[path = "../../oracle/build/redirect.rs"]
mod redirect;
#[path = "../../oracle/build/tables.rs"]
mod tables;

use std::path::{Path, PathBuf};
use std::process::{self, Command};
use std::{env, fs};

/// The file that holds cancel.rs, in the folder of documents.
const CANCEL_RS: &str = "src--crates--manta-dsp--src--cancel.rs.txt";

fn main() {
    if let Err(message) = prepare() {
        eprintln!("beside: {message}");
        process::exit(1);
    }
}

fn prepare() -> Result<(), String> {
    println!("cargo:rerun-if-changed=build.rs");
    println!("cargo:rerun-if-changed=../../oracle/build");
    println!("cargo:rerun-if-env-changed=CANCEL_DOCS");
    println!("cargo:rustc-check-cfg=cfg(cancel_rs)");
    let package = folder("CARGO_MANIFEST_DIR")?;
    let docs = env::var_os("CANCEL_DOCS").map_or_else(|| package.join("../../../shared/docs"), PathBuf::from);
    let file = docs.join(CANCEL_RS);
    println!("cargo:rerun-if-changed={}", file.display());
    let text = match fs::read_to_string(&file) {
        Ok(text) if compiler_has_let_else() => text,
        Ok(_) => {
            println!("cargo:warning=cancel.rs needs Rust 1.65: it is not compiled, and its test is left out");
            return Ok(());
        }
        Err(_) => {
            println!("cargo:warning=the text of cancel.rs is not in {}: CANCEL_DOCS=DIR names it", docs.display());
            return Ok(());
        }
    };
    println!("cargo:rustc-cfg=cancel_rs");

    let out = folder("OUT_DIR")?;
    let (platform, stood_in) = (out.join("by_platform.rs"), out.join("by_stand_ins.rs"));
    write(&platform, &text)?;
    write(&stood_in, &format!("{}\n{}\n", redirect::redirected(&text)?, redirect::IMPORTS))?;
    write(&out.join("sine.rs"), &tables::rust(&tables::sines()))?;
    write(&out.join("arctan.rs"), &tables::rust(&tables::arctangents()))?;
    let modules = format!(
        "/// cancel.rs with document 01's stand-ins.\n#[path = {stood_in:?}]\npub mod by_stand_ins;\n\
         /// cancel.rs as published.\n#[path = {platform:?}]\npub mod by_platform;\n"
    );
    write(&out.join("modules.rs"), &modules)
}

/// cancel.rs has a `let .. else`, which came with Rust 1.65. The package itself does with less.
fn compiler_has_let_else() -> bool {
    let said = env::var_os("RUSTC").and_then(|rustc| Command::new(rustc).arg("--version").output().ok());
    let said = said.map(|o| String::from_utf8_lossy(&o.stdout).into_owned()).unwrap_or_default();
    let minor = said.split('.').nth(1).and_then(|n| n.parse::<u32>().ok());
    !matches!(minor, Some(minor) if minor < 65)
}

fn folder(variable: &str) -> Result<PathBuf, String> {
    env::var_os(variable).map(PathBuf::from).ok_or_else(|| format!("no {variable}"))
}

fn write(path: &Path, text: &str) -> Result<(), String> {
    fs::write(path, text).map_err(|e| format!("{}: {e}", path.display()))
}
