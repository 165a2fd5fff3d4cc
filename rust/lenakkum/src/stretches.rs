//! The bytes of a recording: stretches of a file, one after another, or a stream.

use crate::problem::Problem;
use sha2::{Digest, Sha256, Sha512};
use std::collections::VecDeque;
use std::fs::File;
use std::io::{self, Read, Seek, SeekFrom};

/// A file that can be read anew from any place.
pub trait Anywhere: Read + Seek + Send {}
impl<T: Read + Seek + Send> Anywhere for T {}

/// Where something stands in a file: its first byte, and how many bytes it has.
#[derive(Clone, Copy, Debug, PartialEq)]
pub struct Stretch {
    pub from: u64,
    pub bytes: u64,
}

/// Bytes that are read once, from the first to the last.
pub enum Bytes {
    /// Of a file, these stretches that are still ahead.
    Stretches(Box<dyn Anywhere>, VecDeque<Stretch>),
    Stream(Box<dyn Read + Send>),
}

impl Bytes {
    /// All bytes of a file.
    pub fn of_file(file: File) -> io::Result<Bytes> {
        let bytes = file.metadata()?.len();
        Ok(Bytes::Stretches(Box::new(file), VecDeque::from([Stretch { from: 0, bytes }])))
    }

    /// Passes over so many bytes, or fewer if there are not so many; how many.
    pub fn skip(&mut self, bytes: u64) -> io::Result<u64> {
        match self {
            Bytes::Stretches(_, ahead) => Ok(drop_first(ahead, bytes)),
            Bytes::Stream(stream) => io::copy(&mut stream.take(bytes), &mut io::sink()),
        }
    }

    /// The first bytes, at most so many. They are still ahead afterwards.
    pub fn first(&mut self, most: usize) -> io::Result<Vec<u8>> {
        let mut first = Vec::new();
        match self {
            Bytes::Stretches(_, ahead) => {
                let whole = ahead.clone();
                self.take(most as u64).read_to_end(&mut first)?;
                if let Bytes::Stretches(_, ahead) = self {
                    *ahead = whole;
                }
            }
            Bytes::Stream(stream) => {
                stream.take(most as u64).read_to_end(&mut first)?;
                let rest = std::mem::replace(stream, Box::new(io::empty()));
                *stream = Box::new(io::Cursor::new(first.clone()).chain(rest));
            }
        }
        Ok(first)
    }
}

impl Read for Bytes {
    fn read(&mut self, into: &mut [u8]) -> io::Result<usize> {
        match self {
            Bytes::Stream(stream) => stream.read(into),
            Bytes::Stretches(file, ahead) => {
                while let Some(Stretch { from, bytes }) = ahead.front().copied() {
                    file.seek(SeekFrom::Start(from))?;
                    let read = file.take(bytes).read(into)?;
                    // A file that was cut meanwhile has nothing more to give.
                    if read > 0 || into.is_empty() {
                        drop_first(ahead, read as u64);
                        return Ok(read);
                    }
                    ahead.pop_front();
                }
                Ok(0)
            }
        }
    }
}

/// Drops so many bytes from the first stretches; how many there were to drop.
fn drop_first(ahead: &mut VecDeque<Stretch>, bytes: u64) -> u64 {
    let mut left = bytes;
    while let Some(first) = ahead.front_mut() {
        if left < first.bytes {
            *first = Stretch { from: first.from + left, bytes: first.bytes - left };
            return bytes;
        }
        left -= first.bytes;
        ahead.pop_front();
    }
    bytes - left
}

/// The SHA-256 of a stretch of a file.
pub fn sha256(file: &mut dyn Anywhere, stretch: Stretch) -> io::Result<String> {
    digest::<Sha256>(file, stretch)
}

/// Stops where the SHA-512 of a stretch of a file is not this.
pub fn same_sha512(name: &str, file: &mut dyn Anywhere, stretch: Stretch, written: &str) -> Result<(), Problem> {
    let sum = digest::<Sha512>(file, stretch).map_err(|e| Problem::with(name, e))?;
    if sum.eq_ignore_ascii_case(written) {
        return Ok(());
    }
    Err(Problem::with(
        name,
        "its samples are not those that its metadata were written for: their SHA-512 is another than core:sha512 says",
    ))
}

fn digest<D: Digest + io::Write>(file: &mut dyn Anywhere, stretch: Stretch) -> io::Result<String> {
    file.seek(SeekFrom::Start(stretch.from))?;
    let mut digest = D::new();
    io::copy(&mut file.take(stretch.bytes), &mut digest)?;
    Ok(digest.finalize().iter().map(|byte| format!("{byte:02x}")).collect())
}
