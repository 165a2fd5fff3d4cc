//! Runs recordings, and says what came of each.

use crate::args::{Form, Run};
use crate::console::Console;
use crate::many;
use crate::names;
use crate::outcome::{Outcome, Subject};
use crate::page::{self, Section};
use crate::parts::{Part, Parts};
#[cfg(feature = "pictures")]
use crate::picture;
use crate::problem::Problem;
use crate::reading::{self, Source};
use crate::statement::Statement;
use crate::writing::{self, Staged};
use crate::{report, tables};
use cancel::{KeyDown, Ran, Workspace};
use num_complex::Complex32;
use std::mem;
use std::path::Path;
use std::process::ExitCode;

/// Runs all that the command line names.
pub fn run(args: &Run) -> Result<ExitCode, Problem> {
    let mut console = Console::new(args.files.len(), args.to_standard_output());
    if args.form() == Form::Csv {
        console.say(&tables::csv_header())?;
    }
    if args.several() {
        many::several(args, &mut console)?;
    } else {
        one(args, &mut console)?;
    }
    let sections = mem::take(&mut console.sections);
    let status = console.end();
    args.page.as_ref().map_or(Ok(()), |path| page::written(path, &sections))?;
    Ok(status)
}

fn one(args: &Run, console: &mut Console) -> Result<(), Problem> {
    let mut wrong = None;
    file(args, 1, &args.files[0], &mut Workspace::new(), &mut |outcome| match console.take(outcome) {
        Ok(read) => read || args.writes(),
        Err(problem) => {
            wrong = Some(problem);
            false
        }
    });
    wrong.map_or(Ok(()), Err)
}

/// Runs a file: what came of it, or of each of its pieces, goes to `each`, which says whether to go on.
pub fn file(args: &Run, number: usize, path: &Path, workspace: &mut Workspace, each: &mut dyn FnMut(Outcome) -> bool) {
    let parts = Source::open(path, &args.reading()).and_then(|source| Parts::new(source, &args.choice()));
    let mut parts = match parts {
        Ok(parts) => parts,
        Err(problem) => {
            each(not_read(args, path, problem));
            return;
        }
    };
    loop {
        let go_on = match parts.next() {
            Ok(None) => false,
            Ok(Some(part)) => {
                let of = names::Of { path, number, piece: part.piece.unwrap_or(1) };
                each(ran(args, workspace, subject(args, parts.source(), &part), part.samples, of))
            }
            Err(problem) => {
                each(not_read(args, path, problem));
                false
            }
        };
        if !go_on {
            return;
        }
    }
}

fn subject(args: &Run, source: &Source, part: &Part) -> Subject {
    Subject {
        name: source.name.clone(),
        rate: source.rate,
        hint: args.hint,
        first: part.first,
        samples: part.samples.len(),
        piece: part.piece,
        told: source.told.clone(),
        explain: args.explain,
        statement: Statement::new(source, part.first, args.hint),
        stated: args.statement,
    }
}

fn not_read(args: &Run, path: &Path, problem: Problem) -> Outcome {
    let name = reading::name(path);
    let said = match args.form() {
        Form::Json => tables::json_of_problem(&name, None, &problem),
        Form::Csv => tables::csv_of_problem(&name, None, &problem),
        Form::Report | Form::Line => String::new(),
    };
    let section = args.page.as_ref().map(|_| Section::not_run(&name, &problem));
    Outcome { said, left: None, problem: Some(problem), section }
}

/// Runs samples, writes what is to be written, and gives what is said of them. A refusal writes no file.
fn ran(
    args: &Run,
    workspace: &mut Workspace,
    subject: Subject,
    mut samples: Vec<Complex32>,
    of: names::Of<'_>,
) -> Outcome {
    let drawn = args.picture_file().is_some() || args.page.is_some();
    let before = if drawn { samples.clone() } else { Vec::new() };
    workspace.make_room(samples.len(), subject.rate);
    let ran = workspace.run(&mut samples, subject.rate, args.hint).map_err(|r| Problem::Refused(subject.title(), r));
    let left = |samples: &[Complex32]| args.to_standard_output().then(|| writing::bytes(samples));
    let wrong = |problem: Problem, of_page: fn(&str, &Problem) -> Section| {
        // A refused piece goes on as it came, so that those after it stand where they stood.
        let left = subject.piece.and_then(|_| left(&samples));
        let section = args.page.as_ref().map(|_| of_page(&subject.title(), &problem));
        Outcome { said: said_of(args, &subject, &problem), left, problem: Some(problem), section }
    };
    let ran = match ran {
        Ok(ran) => ran,
        Err(problem) => return wrong(problem, Section::not_run),
    };
    // What a page has comes first: where it cannot be made, no file is written either.
    let section = section(args, &subject, &before, &samples, &ran)
        .and_then(|section| written(args, &subject, &before, &samples, &ran, of).map(|()| section));
    match section {
        Ok(section) => Outcome { said: said(args, &subject, &ran), left: left(&samples), problem: None, section },
        Err(problem) => wrong(problem, Section::not_written),
    }
}

/// All files are complete before the first is put in its place.
fn written(
    args: &Run,
    subject: &Subject,
    before: &[Complex32],
    after: &[Complex32],
    ran: &Ran<'_>,
    of: names::Of<'_>,
) -> Result<(), Problem> {
    args.may_be_written(of)?;
    let mut staged = Vec::new();
    if let Some(out) = args.out_file() {
        let out = names::named(out, of);
        let key_downs: Vec<KeyDown> = ran.elements().collect();
        staged.extend(Staged::recording(&out, subject, after, &key_downs)?);
    }
    #[cfg(feature = "pictures")]
    if let Some(picture) = args.picture_file() {
        staged.push(picture::of_run(&names::named(picture, of), subject, before, after, ran)?);
    }
    #[cfg(not(feature = "pictures"))]
    let _ = before;
    staged.into_iter().try_for_each(Staged::put)
}

/// What a page has of a run, where one is asked for.
fn section(
    args: &Run,
    subject: &Subject,
    before: &[Complex32],
    after: &[Complex32],
    ran: &Ran<'_>,
) -> Result<Option<Section>, Problem> {
    if args.page.is_none() {
        return Ok(None);
    }
    #[cfg(feature = "pictures")]
    let picture = Some(picture::svg_of_run(subject, before, after, ran)?);
    #[cfg(not(feature = "pictures"))]
    let (picture, _): (Option<String>, _) = (None, (before, after));
    Ok(Some(Section::of_run(subject, &ran.figures, picture.as_deref())))
}

/// What is said of a run.
fn said(args: &Run, subject: &Subject, ran: &Ran<'_>) -> String {
    match args.form() {
        Form::Json => tables::json(subject, ran),
        Form::Csv => tables::csv(subject, ran),
        Form::Line => report::line(subject, ran),
        Form::Report => report::text(subject, ran),
    }
}

/// What is said of samples that were refused, or of a run that could not be written.
fn said_of(args: &Run, subject: &Subject, problem: &Problem) -> String {
    match (args.form(), problem.refusal()) {
        (Form::Json, _) => tables::json_of_problem(&subject.name, Some(subject), problem),
        (Form::Csv, _) => tables::csv_of_problem(&subject.name, Some(subject), problem),
        (Form::Report, Some(refusal)) => report::refused(subject, refusal),
        (Form::Report | Form::Line, _) => String::new(),
    }
}
