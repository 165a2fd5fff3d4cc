//! The command line.

use crate::datatype::Datatype;
use crate::names;
use crate::parts::{Choice, Extent};
use crate::problem::Problem;
use crate::reading::{self, Reading};
use crate::statement::VERSION;
use crate::writing::{self, Inputs};
use cancel::LIBRARY;
use clap::error::ErrorKind;
use clap::{Parser, Subcommand};
use std::collections::BTreeMap;
use std::fs;
use std::path::{Path, PathBuf};
use std::sync::{Mutex, PoisonError};

/// What the command line asks for.
pub enum Wanted {
    /// A text: help or version.
    Text(String),
    Run(Box<Run>),
}

#[derive(Parser)]
#[command(name = "lenakkum", version = version(), about = "Takes a strong keyed sender off recordings")]
#[command(after_help = STATUSES)]
struct Line {
    #[command(subcommand)]
    word: Word,
}

#[derive(Subcommand)]
enum Word {
    Run(Run),
}

/// What a status means, for who asks for help.
const STATUSES: &str = "\
Status:
  0  every recording was run
  1  a recording was refused: its report is (run N), and a line says why
  2  the command line, a file or an output was wrong: a line says what";

/// Runs recordings: finds the strong sender, decides what else is in its gaps, takes it off where the rules allow it
#[derive(clap::Args)]
#[command(after_help = STATUSES)]
pub struct Run {
    /// Recordings: SigMF (.sigmf-meta, .sigmf-data or an archive .sigmf), bare samples, or - for standard input
    #[arg(value_name = "FILE", required = true)]
    pub files: Vec<PathBuf>,
    /// Samples a second of bare samples; SigMF brings its own
    #[arg(long, value_name = "HZ", value_parser = number, allow_hyphen_values = true)]
    rate: Option<f64>,
    /// The type of bare samples, as SigMF names it: cf32 (little-endian, unless it says otherwise), ci16, cu8, ..
    #[arg(long, value_name = "TYPE")]
    format: Option<Datatype>,
    /// Where the strong sender is, from the recording's centre
    #[arg(long, value_name = "HZ", value_parser = number, allow_hyphen_values = true, default_value = "0")]
    pub hint: f64,
    /// Of SigMF's captures the one of this number, from 0
    #[arg(long, value_name = "N")]
    capture: Option<usize>,
    /// Begin here: seconds, as 12.5, or samples, as 40000samples
    #[arg(long, value_name = "EXTENT")]
    start: Option<Extent>,
    /// Run at most so much: seconds or samples
    #[arg(long, value_name = "EXTENT")]
    length: Option<Extent>,
    /// Run piece after piece of so much, seconds or samples; each has a report of its own
    #[arg(long, value_name = "EXTENT")]
    pieces: Option<Extent>,
    /// Report as JSON, with every figure, key-down and fit; one line for each recording
    #[arg(long, conflicts_with = "csv")]
    json: bool,
    /// Report as CSV: a line with the columns' names, then a row for each recording
    #[arg(long)]
    csv: bool,
    /// Say after each report why the sender was taken off or the recording kept: four conditions, values and limits
    #[arg(long)]
    pub explain: bool,
    /// Write the recording as the run leaves it: f32 pairs, a SigMF pair if FILE is named as one; - for standard
    /// output; of several a file each, as {name}-left.cf32
    #[arg(long, value_name = "FILE")]
    pub out: Option<PathBuf>,
    /// Replace what --out names
    #[arg(long)]
    pub force: bool,
    /// Draw what the run saw and did; of several a picture each, as {name}.svg
    #[cfg(feature = "pictures")]
    #[arg(long, value_name = "OUT.svg|png")]
    pub picture: Option<PathBuf>,
    /// Write a page on all recordings: what was found in words, why, pictures, digests; to be read or printed
    #[arg(long, value_name = "FILE.html")]
    pub page: Option<PathBuf>,
    /// Add to each report the recording's digest and date, rate and hint, the command's version, the library's commit
    #[arg(long)]
    pub statement: bool,
    /// The files that are read, where others are written.
    #[arg(skip)]
    inputs: Inputs,
    /// Where files are written, and of which recording: the page, of none, all first pieces, and later ones from when
    /// their turn comes.
    #[arg(skip)]
    places: Mutex<BTreeMap<PathBuf, Option<usize>>>,
}

/// How a run is reported.
#[derive(Clone, Copy, PartialEq)]
pub enum Form {
    Report,
    /// A line, among several.
    Line,
    Json,
    Csv,
}

impl Run {
    pub fn form(&self) -> Form {
        match (self.json, self.csv) {
            (true, _) => Form::Json,
            (_, true) => Form::Csv,
            _ if self.several() => Form::Line,
            _ => Form::Report,
        }
    }

    pub fn several(&self) -> bool {
        self.files.len() > 1
    }

    /// Do samples go to standard output?
    pub fn to_standard_output(&self) -> bool {
        self.out.as_deref() == Some(Path::new("-"))
    }

    /// The file that `--out` names.
    pub fn out_file(&self) -> Option<&Path> {
        self.out.as_deref().filter(|_| !self.to_standard_output())
    }

    /// The file that `--picture` names.
    #[cfg(feature = "pictures")]
    pub fn picture_file(&self) -> Option<&Path> {
        self.picture.as_deref()
    }

    #[cfg(not(feature = "pictures"))]
    pub fn picture_file(&self) -> Option<&Path> {
        None
    }

    /// Does it write files?
    pub fn writes(&self) -> bool {
        self.out_file().is_some() || self.picture_file().is_some() || self.page.is_some()
    }

    pub fn reading(&self) -> Reading {
        Reading {
            rate: self.rate,
            datatype: self.format,
            capture: self.capture,
            digest: self.statement || self.page.is_some(),
        }
    }

    pub fn choice(&self) -> Choice {
        Choice { start: self.start, length: self.length, pieces: self.pieces }
    }

    /// What is wrong with the files that it would read and write.
    fn checked(mut self) -> Result<Run, Problem> {
        if self.files.iter().filter(|path| reading::is_standard(path)).count() > 1 {
            return Err(Problem::with("-", "it is there twice, and standard input can be read once"));
        }
        if self.to_standard_output() && self.several() {
            return Err(Problem::with("--out -", "it is for one recording, and there are several"));
        }
        for (flag, pattern) in [("--out", self.out_file()), ("--picture", self.picture_file())] {
            if let Some(pattern) = pattern {
                names::checked(flag, pattern, self.several(), self.pieces.is_some())?;
            }
        }
        #[cfg(feature = "pictures")]
        if let Some(path) = &self.picture {
            crate::picture::checked(path)?;
        }
        if let Some(path) = &self.page {
            crate::page::checked(path)?;
        }
        self.once()?;
        if self.writes() {
            for (i, path) in self.files.iter().enumerate() {
                for file in reading::files(path).into_iter().flat_map(fs::canonicalize) {
                    self.inputs.entry(file).or_default().push(i + 1);
                }
            }
        }
        self.nothing_lost()?;
        self.page.as_ref().map_or(Ok(()), |page| writing::no_input(page, &self.inputs))?;
        Ok(self)
    }

    /// No file is to be written twice, by whatever names. What is written of the first piece is known at the start.
    fn once(&self) -> Result<(), Problem> {
        self.page.iter().try_for_each(|page| self.take_places(vec![page.clone()], None))?;
        self.files
            .iter()
            .enumerate()
            .try_for_each(|(i, path)| self.once_of(names::Of { path, number: i + 1, piece: 1 }))
    }

    fn once_of(&self, of: names::Of<'_>) -> Result<(), Problem> {
        let out = self.out_file().map_or_else(Vec::new, |out| writing::files(&names::named(out, of)));
        let picture = self.picture_file().map(|picture| names::named(picture, of));
        self.take_places(out.into_iter().chain(picture).collect(), Some(of.number))
    }

    /// From now on these files are written, if nothing else is where any of them is.
    fn take_places(&self, files: Vec<PathBuf>, number: Option<usize>) -> Result<(), Problem> {
        let mut taken = self.places.lock().unwrap_or_else(PoisonError::into_inner);
        let mut more = taken.clone();
        for file in files {
            if let Some(other) = more.insert(writing::place(&file), number) {
                let instead = match other {
                    Some(_) if other != number => "{number} in its name tells recordings apart",
                    _ => "name another file",
                };
                return Err(Problem::with(file.display(), format!("it would be written twice; {instead}")));
            }
        }
        *taken = more;
        Ok(())
    }

    /// No recording that is there is to be replaced, unless that is said.
    fn nothing_lost(&self) -> Result<(), Problem> {
        self.files.iter().enumerate().try_for_each(|(i, path)| {
            let of = names::Of { path, number: i + 1, piece: 1 };
            self.out_file().map_or(Ok(()), |out| writing::truly_named(&names::named(out, of)))?;
            // Pieces are looked at one by one.
            if self.pieces.is_none() {
                self.may_be_written(of)?;
            }
            Ok(())
        })
    }

    /// May these files be written, seeing what is there and what else is written?
    pub fn may_be_written(&self, of: names::Of<'_>) -> Result<(), Problem> {
        if of.piece > 1 {
            self.once_of(of)?;
        }
        if let Some(out) = self.out_file() {
            let out = names::named(out, of);
            writing::no_other(&out, of.number, &self.inputs)?;
            if !self.force {
                writing::nothing_lost(&out, &self.inputs)?;
            }
        }
        self.picture_file().map_or(Ok(()), |picture| writing::no_input(&names::named(picture, of), &self.inputs))
    }
}

/// Reads the command line. What is wrong with it is one line.
pub fn parse() -> Result<Wanted, Problem> {
    match Line::try_parse() {
        Ok(Line { word: Word::Run(run) }) => run.checked().map(|run| Wanted::Run(Box::new(run))),
        Err(said) if !said.use_stderr() => Ok(Wanted::Text(said.to_string())),
        Err(said) if said.kind() == ErrorKind::DisplayHelpOnMissingArgumentOrSubcommand => {
            Err(Problem::Wrong("what is to be done? `run` is known (--help says more)".to_string()))
        }
        Err(said) => Err(Problem::Wrong(one_line(&said.to_string()))),
    }
}

/// The sentence that clap says first, with its list if it has one, and where to read more.
fn one_line(said: &str) -> String {
    let sentence = said.split("\n\n").next().unwrap_or("").trim_start_matches("error: ");
    let words: Vec<&str> = sentence.split_whitespace().collect();
    format!("{} (--help says more)", words.join(" "))
}

/// A number, which infinities are not.
fn number(text: &str) -> Result<f64, String> {
    match text.parse::<f64>() {
        Ok(x) if x.is_finite() => Ok(x),
        _ => Err("it is not a number".to_string()),
    }
}

/// The command's version, and the library that it is linked with. Made once, so it may stay.
fn version() -> &'static str {
    let text = format!("{VERSION}\ncommit {}\nlibrary {}", LIBRARY.commit, LIBRARY.sha256);
    Box::leak(text.into_boxed_str())
}
