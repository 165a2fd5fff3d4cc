//! Finds the proved static library that `./install` of this repository wrote, and links it.
//!
//! Looked at, in this order: the folder that CANCEL_PREFIX names, what pkg-config knows as `cancel`, /usr/local.

use std::path::{Path, PathBuf};
use std::process::{self, Command};
use std::{env, fs};

/// Names the folder that the library was installed into.
const PREFIX: &str = "CANCEL_PREFIX";

/// In an install folder, the interface, the library, and beside it the commit that it was made from and its digest.
const HEADER: &str = "include/cancel.h";
const LIBRARY: &str = "lib/libcancel.a";
const COMMIT: &str = "lib/libcancel.commit";
const SHA256: &str = "lib/libcancel.sha256";

fn main() {
    if let Err(message) = link() {
        eprintln!("cancel: {message}");
        process::exit(1);
    }
}

fn link() -> Result<(), String> {
    println!("cargo:rerun-if-changed=build.rs");
    println!("cargo:rerun-if-env-changed={PREFIX}");
    println!("cargo:rerun-if-env-changed=PKG_CONFIG_PATH");
    let prefix = prefix()?;
    let library = prefix.join(LIBRARY);
    for file in [HEADER, LIBRARY, COMMIT, SHA256] {
        println!("cargo:rerun-if-changed={}", prefix.join(file).display());
    }
    println!("cargo:rustc-link-search=native={}", prefix.join("lib").display());
    println!("cargo:rustc-link-lib=static=cancel");
    println!("cargo:rustc-link-lib=m");
    written_for(&prefix.join(HEADER))?;
    let sha256 = digest(&library)?;
    same(&prefix.join(SHA256), &sha256)?;
    // For the tests, which build programs in C over the same library.
    println!("cargo:rustc-env=CANCEL_FOUND={}", library.display());
    println!("cargo:rustc-env=CANCEL_COMMIT={}", commit(&prefix.join(COMMIT)));
    println!("cargo:rustc-env=CANCEL_SHA256={sha256}");
    Ok(())
}

/// The folder whose lib/ holds the library.
fn prefix() -> Result<PathBuf, String> {
    if let Some(named) = env::var_os(PREFIX) {
        let named = PathBuf::from(named);
        return match named.join(LIBRARY) {
            library if library.is_relative() => Err(format!("{PREFIX}={}: not a full path. {ADVICE}", named.display())),
            library if !library.is_file() => Err(format!("{}: no such file. {ADVICE}", library.display())),
            _ => Ok(named),
        };
    }
    let known = Command::new("pkg-config").args(["--variable=prefix", "cancel"]).output();
    let known = known.ok().filter(|o| o.status.success()).map(|o| String::from_utf8_lossy(&o.stdout).into_owned());
    known
        .map(|printed| unescaped(printed.trim_end_matches('\n')))
        .into_iter()
        .chain(["/usr/local".to_string()])
        .map(PathBuf::from)
        .find(|p| p.join(LIBRARY).is_file())
        .ok_or_else(|| format!("libcancel.a was not found, by pkg-config or in /usr/local. {ADVICE}"))
}

/// What pkg-config printed, for a shell: a blank or another special sign has a backslash before it.
fn unescaped(printed: &str) -> String {
    let mut signs = printed.chars();
    let mut plain = String::new();
    while let Some(sign) = signs.next() {
        plain.extend(if sign == '\\' { signs.next() } else { Some(sign) });
    }
    plain
}

/// Stops where the library's interface is not the one that this package was written for: the package's own version, or
/// a later one with the same first number.
fn written_for(header: &Path) -> Result<(), String> {
    let text = fs::read_to_string(header).map_err(|e| format!("{}: {e}. {ADVICE}", header.display()))?;
    let said = |part: &str| {
        let line = text.lines().find_map(|l| l.strip_prefix("#define CANCEL_VERSION_")?.strip_prefix(part));
        line.and_then(|number| number.trim().parse::<u32>().ok())
    };
    let own = |part: &str| env::var(format!("CARGO_PKG_VERSION_{part}")).ok().and_then(|number| number.parse().ok());
    match (said("MAJOR"), said("MINOR"), own("MAJOR"), own("MINOR")) {
        (Some(major), Some(minor), Some(own_major), Some(own_minor)) if major == own_major && minor >= own_minor => {
            Ok(())
        }
        (Some(major), Some(minor), Some(own_major), Some(own_minor)) => Err(format!(
            "{}: the library's interface is {major}.{minor}, and this package is written for {own_major}.{own_minor}. \
             Take both of one release. {ADVICE}",
            header.display()
        )),
        _ => Err(format!("{}: it does not say the interface's version. {ADVICE}", header.display())),
    }
}

const ADVICE: &str = "In the repository's root, `./install --prefix DIR` builds it into DIR; \
                      then set CANCEL_PREFIX=DIR (the full path) and build again";

/// The library's SHA-256.
fn digest(library: &Path) -> Result<String, String> {
    let said = Command::new("sha256sum").arg(library).output().map_err(|e| format!("sha256sum: {e}"))?;
    let said = String::from_utf8_lossy(&said.stdout).into_owned();
    let sum = said.split_whitespace().next().unwrap_or("").trim_start_matches('\\');
    if sum.len() == 64 {
        Ok(sum.to_string())
    } else {
        Err(format!("{}: sha256sum gave no digest", library.display()))
    }
}

/// Stops where the digest written down beside the library is that of another one. None written down stops nothing.
fn same(written: &Path, sha256: &str) -> Result<(), String> {
    match fs::read_to_string(written) {
        Ok(text) if text.split_whitespace().next() != Some(sha256) => {
            Err(format!("{}: the digest is not that of the library beside it. {ADVICE}", written.display()))
        }
        _ => Ok(()),
    }
}

/// The commit as `./install` wrote it down.
fn commit(written: &Path) -> String {
    let text = fs::read_to_string(written).unwrap_or_default();
    text.split_whitespace().next().unwrap_or("unknown").to_string()
}
