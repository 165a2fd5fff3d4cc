//! Files that are written whole or not at all.

use crate::archive;
use crate::datatype::Datatype;
use crate::outcome::Subject;
use crate::problem::Problem;
use crate::sigmf;
use cancel::KeyDown;
use num_complex::Complex32;
use sha2::{Digest, Sha512};
use std::collections::BTreeMap;
use std::fs::{self, File};
use std::io::Write;
use std::path::{Path, PathBuf};
use std::process;

/// The files that are read, by their full names, and the numbers of the recordings that they are of.
pub type Inputs = BTreeMap<PathBuf, Vec<usize>>;

/// A file that stands complete beside the place it is meant for, and is gone unless it is put there.
pub struct Staged {
    path: PathBuf,
    beside: PathBuf,
}

impl Staged {
    /// Fills a file beside the place, by its path. It has the same extension as the place.
    pub fn new(path: &Path, fill: impl FnOnce(&Path) -> Result<(), String>) -> Result<Staged, Problem> {
        let wrong = |why: String| Problem::with(path.display(), why);
        let place = place(path);
        let name = place.file_name().ok_or_else(|| wrong("it is not the name of a file".to_string()))?;
        // What is put there takes the place of a file, and must not take that of a device.
        match fs::metadata(path) {
            Ok(there) if there.is_dir() => return Err(wrong("it is a folder".to_string())),
            Ok(there) if !there.is_file() => return Err(wrong("it is not a regular file".to_string())),
            _ => {}
        }
        let hidden = format!(".{}-{}", process::id(), name.to_string_lossy());
        let staged = Staged { beside: place.with_file_name(hidden), path: place };
        fill(&staged.beside).map_err(wrong)?;
        Ok(staged)
    }

    /// What a run left: little-endian f32 pairs, with metadata beside them if the name is one of a SigMF pair.
    pub fn recording(
        path: &Path,
        subject: &Subject,
        samples: &[Complex32],
        key_downs: &[KeyDown],
    ) -> Result<Vec<Staged>, Problem> {
        let bytes = bytes(samples);
        match sigmf::pair(path) {
            None => Ok(vec![Staged::bytes(path, &bytes)?]),
            Some(pair) => {
                let sha512: String = Sha512::digest(&bytes).iter().map(|byte| format!("{byte:02x}")).collect();
                let told = &subject.told;
                let metadata = told.metadata(subject.first, samples.len(), subject.rate, &sha512, key_downs);
                Ok(vec![Staged::bytes(&pair.data, &bytes)?, Staged::bytes(&pair.meta, metadata.as_bytes())?])
            }
        }
    }

    pub fn bytes(path: &Path, bytes: &[u8]) -> Result<Staged, Problem> {
        Staged::new(path, |beside| {
            File::create(beside)
                .and_then(|mut file| file.write_all(bytes).and_then(|()| file.sync_all()))
                .map_err(|e| e.to_string())
        })
    }

    /// Puts it in its place.
    pub fn put(self) -> Result<(), Problem> {
        fs::rename(&self.beside, &self.path).map_err(|e| Problem::with(self.path.display(), e))
    }
}

impl Drop for Staged {
    /// After `put` there is nothing left to remove.
    fn drop(&mut self) {
        let _ = fs::remove_file(&self.beside);
    }
}

/// Samples as little-endian f32 pairs.
pub fn bytes(samples: &[Complex32]) -> Vec<u8> {
    samples.iter().flat_map(|x| [x.re, x.im]).flat_map(f32::to_le_bytes).collect()
}

/// Where a file of this name is put, the same by all its names. A link to a file that is there stays, and the file is
/// replaced; one that leads nowhere is replaced itself.
pub fn place(path: &Path) -> PathBuf {
    let folder = path.parent().filter(|folder| !folder.as_os_str().is_empty()).unwrap_or_else(|| Path::new("."));
    fs::canonicalize(path).unwrap_or_else(|_| match (fs::canonicalize(folder), path.file_name()) {
        (Ok(folder), Some(name)) => folder.join(name),
        _ => path.to_path_buf(),
    })
}

/// The files that a recording of this name is written to.
pub fn files(path: &Path) -> Vec<PathBuf> {
    sigmf::pair(path).map_or_else(|| vec![path.to_path_buf()], |pair| vec![pair.data, pair.meta])
}

/// Stops at a name that says of f32 pairs that they are something else, for it would be read so.
pub fn truly_named(path: &Path) -> Result<(), Problem> {
    let wrong = |why: String| Err(Problem::with(path.display(), why));
    if archive::is_archive(path) {
        let pair = path.with_extension("sigmf-meta");
        return wrong(format!("an archive is not written: {} writes a SigMF pair", pair.display()));
    }
    match path.extension().and_then(|e| Datatype::of_ending(e.to_str()?)) {
        None | Some("cf32") => Ok(()),
        Some(kind) => {
            let right = path.with_extension("cf32");
            wrong(format!("by its name it is of type {kind}, and cf32 is written: name it {}", right.display()))
        }
    }
}

/// Stops at a recording's name where a file is already, one that is run above all.
pub fn nothing_lost(path: &Path, inputs: &Inputs) -> Result<(), Problem> {
    // What is no file is complained of where it is written.
    match files(path).into_iter().find(|file| file.is_file()) {
        None => Ok(()),
        Some(file) => {
            let what = if is_input(&file, inputs) { "it is the recording itself" } else { "it is there already" };
            Err(Problem::with(file.display(), format!("{what}: --force replaces it")))
        }
    }
}

/// Stops where what is left of the recording of this number would take the place of another of the same command: it
/// may not have been read yet, and would be lost.
pub fn no_other(path: &Path, number: usize, inputs: &Inputs) -> Result<(), Problem> {
    let of_another = |file: &PathBuf| read_of(file, inputs).iter().any(|other| *other != number);
    files(path).into_iter().find(of_another).map_or(Ok(()), |file| {
        let why = "it is another recording of this command, and is not replaced: name another file";
        Err(Problem::with(file.display(), why))
    })
}

/// Stops where a picture or a page would take a recording's place: that is never meant.
pub fn no_input(path: &Path, inputs: &Inputs) -> Result<(), Problem> {
    if is_input(path, inputs) {
        return Err(Problem::with(
            path.display(),
            "it is the recording itself, and is not replaced: name another file",
        ));
    }
    Ok(())
}

/// Is this file one of those that are read?
fn is_input(file: &Path, inputs: &Inputs) -> bool {
    !read_of(file, inputs).is_empty()
}

/// The numbers of the recordings that this file is read of.
fn read_of<'a>(file: &Path, inputs: &'a Inputs) -> &'a [usize] {
    fs::canonicalize(file).ok().and_then(|there| inputs.get(&there)).map_or(&[], Vec::as_slice)
}
