//! Prepares the package: the text of cancel.rs as it stands and with its unlisted functions redirected, document 01's
//! two tables, and which calls the linked library has.

mod archive;
mod big;
mod redirect;
mod tables;

use std::path::{Path, PathBuf};
use std::{env, fs, process};

/// The file that holds cancel.rs, in the folder of documents.
const CANCEL_RS: &str = "src--crates--manta-dsp--src--cancel.rs.txt";

fn main() {
    if let Err(message) = prepare() {
        eprintln!("oracle: {message}");
        process::exit(1);
    }
}

fn prepare() -> Result<(), String> {
    let package = PathBuf::from(env::var_os("CARGO_MANIFEST_DIR").ok_or("no CARGO_MANIFEST_DIR")?);
    let out = PathBuf::from(env::var_os("OUT_DIR").ok_or("no OUT_DIR")?);
    println!("cargo:rerun-if-changed=build");
    println!("cargo:rerun-if-changed=src/way_in.rs");
    println!("cargo:rerun-if-env-changed=CANCEL_DOCS");
    println!("cargo:rerun-if-env-changed=CANCEL_LIBRARY");

    let docs = env::var_os("CANCEL_DOCS").map_or_else(|| package.join("../../shared/docs"), PathBuf::from);
    let file = docs.join(CANCEL_RS);
    println!("cargo:rerun-if-changed={}", file.display());
    let text = fs::read_to_string(&file).map_err(|e| format!("{}: {e}", file.display()))?;
    let way_in = read(&package.join("src/way_in.rs"))?;
    modules(&out, &text, &way_in)?;

    write(&out.join("sine.rs"), &tables::rust(&tables::sines()))?;
    write(&out.join("arctan.rs"), &tables::rust(&tables::arctangents()))?;

    archive::link(env::var_os("CANCEL_LIBRARY").map(PathBuf::from))
}

/// Writes the module twice, as published and redirected, with the way in to its private functions after it.
fn modules(out: &Path, text: &str, way_in: &str) -> Result<(), String> {
    let redirected = redirect::redirected(text)?;
    let (plain, stood_in) = (out.join("by_platform.rs"), out.join("by_stand_ins.rs"));
    write(&plain, &format!("{text}\n{way_in}"))?;
    write(&stood_in, &format!("{redirected}\n{}\n{way_in}", redirect::IMPORTS))?;
    let declared = format!(
        "/// cancel.rs with document 01's stand-ins.\n#[path = {stood_in:?}]\npub mod by_stand_ins;\n\
         /// cancel.rs as published, with the platform's functions.\n#[path = {plain:?}]\npub mod by_platform;\n"
    );
    write(&out.join("modules.rs"), &declared)
}

fn read(path: &Path) -> Result<String, String> {
    fs::read_to_string(path).map_err(|e| format!("{}: {e}", path.display()))
}

fn write(path: &Path, text: &str) -> Result<(), String> {
    fs::write(path, text).map_err(|e| format!("{}: {e}", path.display()))
}
