//! Recordings from files and standard input.

use crate::archive;
use crate::content;
use crate::datatype::Datatype;
use crate::problem::Problem;
use crate::sigmf::{self, Metadata};
use crate::stretches::{self, Anywhere, Bytes, Stretch};
use crate::told::Told;
use num_complex::Complex32;
use std::collections::VecDeque;
use std::fs::{self, File};
use std::io::{self, Read, Seek, SeekFrom};
use std::path::{Path, PathBuf};
use tempfile::SpooledTempFile;

/// The most samples that are run at once.
pub const MOST: usize = 1 << 20;

/// How standard input is called in what is said of it.
pub const STANDARD: &str = "standard input";

/// What the command line says about how files are read.
#[derive(Clone, Copy)]
pub struct Reading {
    pub rate: Option<f64>,
    pub datatype: Option<Datatype>,
    pub capture: Option<usize>,
    /// Is the digest of the samples asked for?
    pub digest: bool,
}

/// A recording that is read from its first sample to its last.
pub struct Source {
    pub name: String,
    pub rate: f64,
    /// Of its file of samples.
    pub sha256: Option<String>,
    pub told: Told,
    pub datatype: Datatype,
    /// The capture that was chosen.
    pub capture: Option<usize>,
    bytes: Bytes,
    /// Bytes read or passed over.
    read: u64,
}

/// How a recording is called in what is said of it.
pub fn name(path: &Path) -> String {
    if is_standard(path) {
        STANDARD.to_string()
    } else {
        path.display().to_string()
    }
}

pub fn is_standard(path: &Path) -> bool {
    path == Path::new("-")
}

/// The files that are read of a recording, as far as that can be told.
pub fn files(path: &Path) -> Vec<PathBuf> {
    let pair = match sigmf::pair(path) {
        None => return vec![path.to_path_buf()],
        Some(pair) => pair,
    };
    let metadata = fs::read(&pair.meta).ok().and_then(|text| Metadata::parse("", &text).ok());
    let named = metadata.and_then(|metadata| Some(pair.meta.with_file_name(metadata.dataset().ok()??)));
    [pair.data, pair.meta].into_iter().chain(named).collect()
}

impl Source {
    /// The recording of this name: `-` is standard input.
    pub fn open(path: &Path, how: &Reading) -> Result<Source, Problem> {
        if archive::is_archive(path) {
            let mut file = opened(path)?;
            let (metadata, data) = archive::opened(path, &mut file)?;
            return Source::with_metadata(name(path), &metadata, Box::new(file), data, how);
        }
        if let Some(pair) = sigmf::pair(path) {
            let meta = pair.meta.display().to_string();
            let text = fs::read(&pair.meta).map_err(|e| Problem::with(&meta, e))?;
            let metadata = Metadata::parse(&meta, &text)?;
            let data = metadata.dataset()?.map_or(pair.data.clone(), |name| pair.meta.with_file_name(name));
            if path == pair.data && data != pair.data {
                return Err(Problem::with(&meta, format!("its samples are in another file: {}", data.display())));
            }
            let file = opened(&data)?;
            let bytes = file.metadata().map_err(|e| Problem::with(data.display(), e))?.len();
            let all = Stretch { from: 0, bytes };
            return Source::with_metadata(name(path), &metadata, Box::new(file), all, how);
        }
        Source::bare(path, how)
    }

    /// With metadata, and its samples in this stretch of a file.
    fn with_metadata(
        name: String,
        metadata: &Metadata,
        mut file: Box<dyn Anywhere>,
        data: Stretch,
        how: &Reading,
    ) -> Result<Source, Problem> {
        let (rate, datatype) = (metadata.rate(how.rate)?, metadata.datatype(how.datatype)?);
        let (ahead, told) = metadata.layout(data, datatype.size(), how.capture)?;
        if let Some(written) = metadata.sha512()? {
            stretches::same_sha512(&name, &mut *file, data, written)?;
        }
        let sha256 = digest(&name, &mut *file, data, how)?;
        let bytes = Bytes::Stretches(file, ahead);
        let capture = how.capture;
        let mut source = Source { name, rate, sha256, told, datatype, capture, bytes, read: 0 };
        if !metadata.has_header() {
            source.look()?;
        }
        Ok(source)
    }

    /// Samples with nothing that describes them.
    fn bare(path: &Path, how: &Reading) -> Result<Source, Problem> {
        let name = name(path);
        let wrong = |e: io::Error| Problem::with(&name, e);
        let mut bytes = if is_standard(path) {
            Bytes::Stream(Box::new(io::stdin()))
        } else {
            let file = File::open(path).map_err(wrong)?;
            let regular = file.metadata().map_err(wrong)?.is_file();
            if regular { Bytes::of_file(file) } else { Ok(Bytes::Stream(Box::new(file))) }.map_err(wrong)?
        };
        let datatype = how.datatype.map_or_else(|| unnamed(path), Ok)?;
        content::checked(path, &bytes.first(content::LOOKED_AT).map_err(wrong)?, datatype)?;
        let rate = how.rate;
        let rate = rate.ok_or_else(|| Problem::with(&name, "--rate HZ is needed: the file does not say its rate"))?;
        if how.capture.is_some() {
            return Err(Problem::with(&name, "--capture is for files with metadata of SigMF, and there are none"));
        }
        let (bytes, sha256) = if how.digest { digested(bytes).map_err(wrong)? } else { (bytes, None) };
        Ok(Source { name, rate, sha256, told: Told::default(), datatype, capture: None, bytes, read: 0 })
    }

    /// Stops at what is no recording, though metadata describe it as one.
    fn look(&mut self) -> Result<(), Problem> {
        let first = self.bytes.first(content::LOOKED_AT).map_err(|e| Problem::with(&self.name, e))?;
        let kind = content::kind(&first, !self.datatype.is_of_bytes());
        kind.map_or(Ok(()), |kind| {
            let why = "SigMF's are bare samples, after core:header_bytes if anything stands before them";
            Err(Problem::with(&self.name, format!("its file of samples is {}: {why}", kind.what())))
        })
    }

    /// Passes over so many samples, or fewer if there are not so many; how many.
    pub fn skip(&mut self, samples: u64) -> Result<u64, Problem> {
        let size = self.datatype.size() as u64;
        let passed = self.bytes.skip(samples.saturating_mul(size)).map_err(|e| Problem::with(&self.name, e))?;
        self.read += passed;
        Ok(passed / size)
    }

    /// The next samples, at most so many; none at the end.
    pub fn next(&mut self, most: usize) -> Result<Vec<Complex32>, Problem> {
        let size = self.datatype.size();
        let mut bytes = Vec::new();
        let read = self.bytes.by_ref().take((most * size) as u64).read_to_end(&mut bytes);
        self.read += read.map_err(|e| Problem::with(&self.name, e))? as u64;
        if bytes.len() % size != 0 {
            return Err(self.half(size));
        }
        Ok(self.datatype.samples(&bytes))
    }

    /// What is wrong where the last sample is not whole.
    fn half(&self, size: usize) -> Problem {
        let (all, name, bare) = (self.read, self.datatype.name(), self.told.global.is_empty());
        let see = if bare {
            "it is whole and of that type (--format names another)"
        } else {
            "its file of samples is whole, and core:datatype, core:header_bytes and core:trailing_bytes are right"
        };
        let why = format!("its {all} bytes are not a whole number of samples ({name}: {size} bytes each)");
        Problem::with(&self.name, format!("{why}: see that {see}"))
    }
}

/// The type of bare samples where the command line names none: f32 pairs, unless the file's ending speaks of others.
fn unnamed(path: &Path) -> Result<Datatype, Problem> {
    match path.extension().and_then(|e| Datatype::of_ending(e.to_str()?)) {
        None | Some("cf32") => Ok(Datatype::CF32_LE),
        Some(kind) => Err(Problem::with(path.display(), format!("by its name it is of another type: --format {kind}"))),
    }
}

fn opened(path: &Path) -> Result<File, Problem> {
    File::open(path).map_err(|e| Problem::with(path.display(), e))
}

fn digest(name: &str, file: &mut dyn Anywhere, data: Stretch, how: &Reading) -> Result<Option<String>, Problem> {
    if !how.digest {
        return Ok(None);
    }
    stretches::sha256(file, data).map(Some).map_err(|e| Problem::with(name, e))
}

/// Bytes with their digest. Those of a stream are kept, in memory or in a file, to be read once more.
fn digested(bytes: Bytes) -> io::Result<(Bytes, Option<String>)> {
    let mut file: Box<dyn Anywhere> = match bytes {
        Bytes::Stretches(file, _) => file,
        Bytes::Stream(mut stream) => {
            let mut kept = SpooledTempFile::new(64 << 20);
            io::copy(&mut stream, &mut kept)?;
            Box::new(kept)
        }
    };
    let all = Stretch { from: 0, bytes: file.seek(SeekFrom::End(0))? };
    let sha256 = stretches::sha256(&mut *file, all)?;
    Ok((Bytes::Stretches(file, VecDeque::from([all])), Some(sha256)))
}
