//! Writes the file of stored answers that the program `replay` reads as its standard input; with --check it writes
//! nothing, and says whether the file is what would be written.

use std::path::PathBuf;
use std::process::ExitCode;
use std::{env, fs};

fn main() -> ExitCode {
    let mut words = env::args().skip(1);
    let (mut check, mut file) = (false, None);
    while let Some(word) = words.next() {
        match (word.as_str(), &file) {
            ("--check", _) => check = true,
            (_, None) => file = Some(PathBuf::from(word)),
            _ => return said(2, &format!("{word} is not known; --check and one file are")),
        }
    }
    let Some(file) = file else { return said(2, "which file?") };
    let name = file.display();
    let bytes = oracle::cases::bytes();
    if check {
        match fs::read(&file) {
            Ok(there) if there == bytes => said(0, &format!("{name} is what would be written, {} bytes", bytes.len())),
            Ok(_) => said(1, &format!("{name} is not what would be written")),
            Err(e) => said(1, &format!("{name}: {e}")),
        }
    } else {
        match fs::write(&file, &bytes) {
            Ok(()) => said(0, &format!("{name} written, {} bytes", bytes.len())),
            Err(e) => said(1, &format!("{name}: {e}")),
        }
    }
}

fn said(status: u8, what: &str) -> ExitCode {
    eprintln!("answers: {what}");
    ExitCode::from(status)
}
