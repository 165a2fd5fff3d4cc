//! SigMF archives: a tar file with one recording's metadata and samples.

use crate::content::{self, Kind};
use crate::datatype::Datatype;
use crate::problem::Problem;
use crate::sigmf::Metadata;
use crate::stretches::Stretch;
use std::fmt::Display;
use std::fs::File;
use std::io::{self, ErrorKind, Read, Seek, SeekFrom};
use std::path::{Path, PathBuf};
use tar::{Archive, EntryType};

/// Is this an archive, by its name?
pub fn is_archive(path: &Path) -> bool {
    path.extension().map_or(false, |e| e == "sigmf")
}

/// A file in an archive.
struct Member {
    path: PathBuf,
    stretch: Stretch,
}

/// The metadata in an archive, and where in it their samples stand.
pub fn opened(path: &Path, file: &mut File) -> Result<(Metadata, Stretch), Problem> {
    let wrong = |why: String| Problem::with(path.display(), why);
    is_tar(path, file)?;
    // What the library says would quote the file's bytes.
    let members = members(file)
        .map_err(|_| wrong("its tar archive is damaged or cut: see that it was copied whole".to_string()))?;
    let mut metas = members.iter().filter(|m| m.path.extension().map_or(false, |e| e == "sigmf-meta"));
    let meta = match (metas.next(), metas.count()) {
        (Some(meta), 0) => meta,
        (None, _) => return Err(wrong("there are no metadata (.sigmf-meta) in the archive".to_string())),
        (_, more) => {
            return Err(wrong(format!("it has {} recordings: `tar -xf` unpacks them, to be run by name", more + 1)))
        }
    };
    let mut text = Vec::new();
    let read = file.seek(SeekFrom::Start(meta.stretch.from));
    read.and_then(|_| file.take(meta.stretch.bytes).read_to_end(&mut text)).map_err(|e| wrong(e.to_string()))?;
    let metadata = Metadata::parse(&format!("{}: {}", path.display(), meta.path.display()), &text)?;
    let data = match metadata.dataset()? {
        Some(name) => meta.path.with_file_name(name),
        None => meta.path.with_extension("sigmf-data"),
    };
    let data = members.iter().find(|m| m.path == data).map(|m| m.stretch).ok_or_else(|| {
        Problem::with(path.display(), format!("there are no samples ({}) in the archive", data.display()))
    })?;
    Ok((metadata, data))
}

/// Stops at what is no archive, and says what it is.
fn is_tar(path: &Path, file: &mut File) -> Result<(), Problem> {
    let wrong = |why: &dyn Display| Problem::with(path.display(), why);
    let mut first = Vec::new();
    file.take(content::LOOKED_AT as u64).read_to_end(&mut first).map_err(|e| wrong(&e))?;
    match content::kind(&first, true) {
        Some(Kind::Tar) => Ok(()),
        // What to do about a text in the place of bare samples does not help with an archive.
        Some(Kind::Text) => Err(wrong(&"it is text, and it is not a tar archive, as SigMF's are")),
        Some(kind) => Err(kind.instead(path, Datatype::CF32_LE)),
        None if first.is_empty() => Err(wrong(&"it is empty")),
        None => Err(wrong(&"it is not a tar archive, as SigMF's are; bare samples have another ending, as .cf32")),
    }
}

/// All files in it that are stored as they are.
fn members(file: &mut File) -> io::Result<Vec<Member>> {
    let end = file.seek(SeekFrom::End(0))?;
    file.seek(SeekFrom::Start(0))?;
    let mut members = Vec::new();
    for entry in Archive::new(file).entries_with_seek()? {
        let entry = entry?;
        if matches!(entry.header().entry_type(), EntryType::Regular | EntryType::Continuous) {
            let stretch = Stretch { from: entry.raw_file_position(), bytes: entry.size() };
            // The library passes over what it does not read, also where there is nothing.
            if stretch.from.checked_add(stretch.bytes).map_or(true, |last| last > end) {
                return Err(ErrorKind::UnexpectedEof.into());
            }
            members.push(Member { path: entry.path()?.into_owned(), stretch });
        }
    }
    Ok(members)
}
