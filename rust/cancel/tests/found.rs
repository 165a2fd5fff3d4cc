//! How the build finds the library, and what it says where it does not fit: build.rs, run as cargo runs it.

use std::path::{Path, PathBuf};
use std::process::{Command, Output};
use std::{env, fs};

const PACKAGE: &str = env!("CARGO_MANIFEST_DIR");

/// An install folder of this name. The library there is never linked.
fn prefix(name: &str) -> PathBuf {
    let prefix = Path::new(env!("CARGO_TARGET_TMPDIR")).join(name);
    let _ = fs::remove_dir_all(&prefix);
    fs::create_dir_all(prefix.join("lib/pkgconfig")).unwrap();
    fs::create_dir_all(prefix.join("include")).unwrap();
    fs::write(prefix.join("lib/libcancel.a"), "a library").unwrap();
    fs::write(prefix.join("lib/libcancel.commit"), "0123abc\n").unwrap();
    fs::copy(format!("{PACKAGE}/../../include/cancel.h"), prefix.join("include/cancel.h")).unwrap();
    let known = "prefix=${pcfiledir}/../..\nName: cancel\nDescription: a library\nVersion: 1\n";
    fs::write(prefix.join("lib/pkgconfig/cancel.pc"), known).unwrap();
    prefix
}

/// build.rs as a program.
fn script(name: &str) -> Command {
    let program = Path::new(env!("CARGO_TARGET_TMPDIR")).join(name);
    let rustc = env::var_os("RUSTC").unwrap_or_else(|| "rustc".into());
    let words = ["--edition", "2021", &format!("{PACKAGE}/build.rs"), "-o"];
    let built = Command::new(rustc).args(words).arg(&program).status().expect("rustc");
    assert!(built.success());
    let mut script = Command::new(program);
    script.env("CARGO_PKG_VERSION_MAJOR", env!("CARGO_PKG_VERSION_MAJOR"));
    script.env("CARGO_PKG_VERSION_MINOR", env!("CARGO_PKG_VERSION_MINOR"));
    script.env_remove("CANCEL_PREFIX").env_remove("PKG_CONFIG_PATH");
    script
}

fn text(bytes: &[u8]) -> &str {
    std::str::from_utf8(bytes).unwrap()
}

/// What it says on standard error, with status 1.
fn refused(output: Output) -> String {
    assert_eq!(output.status.code(), Some(1), "{}", text(&output.stdout));
    text(&output.stderr).to_string()
}

#[test]
fn a_path_with_blanks() {
    let prefix = prefix("two blanks here");
    let by_name = script("by-name").env("CANCEL_PREFIX", &prefix).output().unwrap();
    assert!(by_name.status.success(), "{}", text(&by_name.stderr));
    assert!(text(&by_name.stdout).contains(&format!("native={}/lib\n", prefix.display())));
    assert!(text(&by_name.stdout).contains("CANCEL_COMMIT=0123abc\n"));
    let pkg_config = Command::new("pkg-config").arg("--version").output();
    assert!(pkg_config.is_ok(), "pkg-config is not there (Debian: apt-get install -y pkg-config)");
    let known = script("by-pkg-config").env("PKG_CONFIG_PATH", prefix.join("lib/pkgconfig")).output().unwrap();
    assert!(known.status.success(), "{}", text(&known.stderr));
    assert!(text(&known.stdout).contains("two blanks here/lib"), "{}", text(&known.stdout));
    assert!(text(&known.stdout).contains("CANCEL_COMMIT=0123abc\n"));
}

#[test]
fn another_version() {
    let prefix = prefix("versions");
    let header = prefix.join("include/cancel.h");
    let own = fs::read_to_string(&header).unwrap();
    let (major, minor) = (env!("CARGO_PKG_VERSION_MAJOR"), env!("CARGO_PKG_VERSION_MINOR"));
    let mut script = script("versions-script");
    script.env("CANCEL_PREFIX", &prefix);
    let mut said_of = |part: &str, own_number: &str, number: u64| {
        let line = |x: &str| format!("#define CANCEL_VERSION_{part} {x}\n");
        assert!(own.contains(&line(own_number)));
        fs::write(&header, own.replace(&line(own_number), &line(&number.to_string()))).unwrap();
        script.output().unwrap()
    };
    let next = |number: &str| number.parse::<u64>().unwrap() + 1;
    assert!(said_of("MINOR", minor, next(minor)).status.success());
    let before = refused(said_of("MINOR", minor, next(minor) - 2));
    assert!(
        before.contains(&format!("is {major}.{}, and this package is written for {major}.{minor}. ", next(minor) - 2))
    );
    let later = refused(said_of("MAJOR", major, next(major)));
    assert!(later.contains(&format!("is {}.{minor}, and this package is written for {major}.{minor}. ", next(major))));
    fs::write(prefix.join("include/cancel.h"), "/* another header */\n").unwrap();
    assert!(refused(script.output().unwrap()).contains("does not say the interface's version"));
    fs::remove_file(prefix.join("include/cancel.h")).unwrap();
    assert!(refused(script.output().unwrap()).contains("include/cancel.h: "));
}

#[test]
fn not_what_was_installed() {
    let prefix = prefix("digests");
    fs::write(prefix.join("lib/libcancel.sha256"), format!("{:064}  libcancel.a\n", 0)).unwrap();
    let mut script = script("digests-script");
    let said = refused(script.env("CANCEL_PREFIX", &prefix).output().unwrap());
    assert!(said.contains("the digest is not that of the library beside it"), "{said}");
    fs::remove_file(prefix.join("lib/libcancel.a")).unwrap();
    assert!(refused(script.output().unwrap()).contains("libcancel.a: no such file"));
    assert!(refused(script.env("CANCEL_PREFIX", "prefix").output().unwrap()).contains("not a full path"));
}
