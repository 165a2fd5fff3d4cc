//! What is no recording, told by its first bytes.

use crate::datatype::Datatype;
use crate::names;
use crate::problem::Problem;
use crate::reading;
use crate::sound::{self, Sound};
use std::path::Path;

/// How many bytes are looked at.
pub const LOOKED_AT: usize = 1024;

/// A kind of file that is no recording.
pub enum Kind {
    Sound(Sound),
    Tar,
    Gzip,
    Zip,
    Numpy,
    Picture,
    Matlab,
    Hdf5,
    Json,
    Text,
}

/// Stops at what is no file of bare samples of this type, and says what to do.
pub fn checked(path: &Path, first: &[u8], datatype: Datatype) -> Result<(), Problem> {
    kind(first, !datatype.is_of_bytes()).map_or(Ok(()), |kind| Err(kind.instead(path, datatype)))
}

/// The kind of a file that begins so. Where samples may look like a text, texts are not told.
pub fn kind(first: &[u8], texts: bool) -> Option<Kind> {
    let at = |place: usize, bytes: &[u8]| first.get(place..place + bytes.len()) == Some(bytes);
    let hdf5 = |place| at(place, b"\x89HDF\r\n\x1a\n");
    let kinds = [
        (at(257, b"ustar") || is_tar(first), Kind::Tar),
        (at(0, b"\x1f\x8b\x08") && first.get(3).map_or(false, |flags| flags & 0xe0 == 0), Kind::Gzip),
        (at(0, b"PK\x03\x04"), Kind::Zip),
        (at(0, b"\x93NUMPY"), Kind::Numpy),
        (at(0, b"\x89PNG\r\n\x1a\n"), Kind::Picture),
        (at(0, b"MATLAB 5.0 MAT-file") || at(0, b"MATLAB 7.3 MAT-file"), Kind::Matlab),
        (hdf5(0) || hdf5(512), Kind::Hdf5),
        (texts && is_text(first) && at(0, b"{"), Kind::Json),
        (texts && (is_text(first) || is_utf16(first)), Kind::Text),
    ];
    let told = kinds.into_iter().find(|(is, _)| *is).map(|(_, kind)| kind);
    sound::sound(first).map(Kind::Sound).or(told)
}

/// Is it the head of a file in a tar archive? Old archives have no mark, but each head has the sum of its bytes, as an
/// octal number, for which eight spaces stand in the sum.
fn is_tar(first: &[u8]) -> bool {
    let sum = |head: &[u8]| -> u64 { head.iter().map(|&byte| u64::from(byte)).sum() };
    let written = |field: &[u8]| {
        let digits = std::str::from_utf8(field).ok()?.trim_matches(|c| c == ' ' || c == '\0');
        u64::from_str_radix(digits, 8).ok()
    };
    first.get(..512).map_or(false, |head| {
        let spaces = 8 * u64::from(b' ');
        written(&head[148..156]) == Some(sum(&head[..148]) + spaces + sum(&head[156..]))
    })
}

/// Is all of it what a text has? The last character may be cut.
fn is_text(first: &[u8]) -> bool {
    match std::str::from_utf8(first) {
        Ok(text) => is_of_text(text),
        Err(e) if e.error_len().is_none() => {
            is_of_text(std::str::from_utf8(&first[..e.valid_up_to()]).unwrap_or_default())
        }
        Err(_) => false,
    }
}

/// Is it a text of two bytes a character, as its first two say?
fn is_utf16(first: &[u8]) -> bool {
    let number: fn([u8; 2]) -> u16 = match first.get(..2) {
        Some(b"\xff\xfe") => u16::from_le_bytes,
        Some(b"\xfe\xff") => u16::from_be_bytes,
        _ => return false,
    };
    let mut units: Vec<u16> = first[2..].chunks_exact(2).map(|two| number([two[0], two[1]])).collect();
    // The last character may be cut: of its two halves the first is there.
    if units.last().map_or(false, |unit| (0xd800..0xdc00).contains(unit)) {
        units.pop();
    }
    String::from_utf16(&units).map_or(false, |text| is_of_text(&text))
}

fn is_of_text(text: &str) -> bool {
    !text.is_empty() && text.chars().all(|c| !c.is_control() || "\t\n\r\x0c".contains(c))
}

impl Kind {
    /// What it is.
    pub fn what(&self) -> String {
        match self {
            Kind::Sound(sound) => format!("a sound file ({})", sound.kind),
            Kind::Tar => "a tar archive".into(),
            Kind::Gzip => "compressed".into(),
            Kind::Zip => "a zip archive".into(),
            Kind::Numpy => "an array of numpy".into(),
            Kind::Picture => "a picture (PNG)".into(),
            Kind::Matlab => "a file of MATLAB".into(),
            Kind::Hdf5 => "an HDF5 file".into(),
            Kind::Json => "JSON and no samples".into(),
            Kind::Text => "text, and a recording is binary".into(),
        }
    }

    /// What it is, and what to do instead of running it as samples of this type.
    pub fn instead(&self, path: &Path, datatype: Datatype) -> Problem {
        let advice = match self {
            Kind::Sound(sound) => heard(sound, path),
            Kind::Tar => untarred(path),
            Kind::Gzip => unzipped(path, datatype),
            Kind::Zip if reading::is_standard(path) => {
                "write it to a file, `unzip` that, and run what was in it".into()
            }
            Kind::Zip => format!("`unzip {}`, and run what was in it", quoted(path)),
            Kind::Numpy => "write it anew as bare samples with `a.astype('<c8').tofile('NAME.cf32')`".into(),
            Kind::Picture => "name the recording, and not what was drawn of it".into(),
            Kind::Matlab => "write its samples anew as bare ones, there with `f = fopen('NAME.cf32', 'w', 'ieee-le'); \
                             fwrite(f, [real(x(:)) imag(x(:))].', 'float32'); fclose(f)`"
                .into(),
            Kind::Hdf5 => "write its samples anew as bare ones, in Python with \
                           `h5py.File('FILE')['DATASET'][:].astype('<c8').tofile('NAME.cf32')`"
                .into(),
            Kind::Json => "metadata of SigMF have a name that ends in .sigmf-meta".into(),
            Kind::Text => "pairs of f32, or of what --format names".into(),
        };
        Problem::with(reading::name(path), format!("it is {}: {advice}", self.what()))
    }
}

/// What to do with a sound file. One channel made two would be a recording with I = Q, which nothing took.
fn heard(sound: &Sound, path: &Path) -> String {
    let kind = sound.kind;
    let (two, rate) = match sound.head {
        Some((1, _)) => return "it has one channel, and an I/Q recording has two".into(),
        // Two channels are not coded apart from each other, and little is left of how I and Q stood to each other.
        Some((2, _)) | None if kind == sound::OPUS => {
            return "it keeps what an ear hears, which is no I/Q recording: run what it was made from".into()
        }
        Some((2, rate)) => ("-c 2 -", rate.to_string()),
        Some((count, _)) => return format!("it has {count} channels, and an I/Q recording has two"),
        // Of one channel this makes nothing.
        None => ("- remix 1 2", "HZ".to_string()),
    };
    let run = |file: &str| format!("`sox {file} -t f32 {two} | lenakkum run - --rate {rate}`");
    let advice = match path.extension() {
        _ if sound::UNREAD.contains(&kind) => "write them anew as pairs of f32 (sox does not read it)".into(),
        _ if kind == sound::W64 && reading::is_standard(path) => {
            format!("write it to a file FILE.w64, and {}", run("FILE.w64"))
        }
        Some(ending) if ending == kind => run(&quoted(path)),
        _ => run(&format!("-t {kind} {}", quoted(path))),
    };
    format!("if its two channels are I and Q, {advice}")
}

fn untarred(path: &Path) -> String {
    if reading::is_standard(path) {
        return "write it to a file, with a name that ends in .sigmf if it is one of SigMF, and run that; else unpack \
                it, and run what was in it"
            .into();
    }
    format!("one of SigMF has a name that ends in .sigmf, else `tar -xf {}`", quoted(path))
}

/// What to do with a compressed file, by the name that it would have without that.
fn unzipped(path: &Path, datatype: Datatype) -> String {
    let (file, plain) = (quoted(path), path.with_extension(""));
    let ending = |path: &Path| path.extension().map_or_else(String::new, |e| e.to_string_lossy().to_lowercase());
    let run = match Datatype::of_ending(&ending(&plain)) {
        _ if datatype != Datatype::CF32_LE => format!("lenakkum run - --rate HZ --format {}", datatype.name()),
        None | Some("cf32") => "lenakkum run - --rate HZ".to_string(),
        Some(kind) => format!("lenakkum run - --rate HZ --format {kind}"),
    };
    if reading::is_standard(path) {
        return format!("`zcat | {run}` in place of this");
    }
    let to = |plain: &Path| format!("`zcat {file} > {}`, then `lenakkum run {0}`", quoted(plain));
    match (ending(path).as_str(), ending(&plain).as_str()) {
        ("sigmf", _) => to(&path.with_file_name(format!("{}-unpacked.sigmf", names::stem(path)))),
        (_, "sigmf" | "sigmf-meta" | "sigmf-data") => to(&plain),
        ("tgz", _) | (_, "tar") => format!("`tar -xzf {file}`, and run what was in it"),
        _ => format!("`zcat {file} | {run}`"),
    }
}

/// A name as a shell takes it.
fn quoted(path: &Path) -> String {
    let name = path.display().to_string();
    let plain = |c: char| c.is_alphanumeric() || "/._-+,:@%".contains(c);
    if name.chars().all(plain) {
        name
    } else if name.chars().any(char::is_control) {
        // In bash the one way to write them.
        let part = |c: char| match c {
            c if c.is_control() => format!("\\u{:04x}", c as u32),
            '\'' | '\\' => format!("\\{c}"),
            c => c.to_string(),
        };
        format!("$'{}'", name.chars().map(part).collect::<String>())
    } else {
        format!("'{}'", name.replace('\'', "'\\''"))
    }
}
