//! `lenakkum`: runs recordings from files through the proved library and reports what it found.
//!
//! Status 0: every recording was run. 1: one was refused by document 01's questions. 2: the command line, a file or an
//! output was wrong; one line says what.

mod archive;
mod args;
mod console;
mod content;
mod datatype;
mod many;
mod names;
mod numbers;
mod outcome;
mod page;
mod parts;
#[cfg(feature = "pictures")]
mod picture;
mod problem;
mod reading;
mod reasons;
mod report;
mod runs;
mod sigmf;
mod sound;
mod statement;
mod stretches;
mod tables;
mod told;
mod writing;

use console::Console;
use std::process::ExitCode;

fn main() -> ExitCode {
    let said = args::parse().and_then(|args| match args {
        args::Wanted::Text(text) => Console::new(1, false).say(&text).map(|()| ExitCode::SUCCESS),
        args::Wanted::Run(run) => runs::run(&run),
    });
    said.unwrap_or_else(|problem| {
        console::complain(&problem);
        problem.status()
    })
}
