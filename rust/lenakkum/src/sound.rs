//! Sound files, told by their first bytes, and what these say of channels and rate.

/// A sound file.
pub struct Sound {
    /// By the name that sox has for it, if it reads it.
    pub kind: &'static str,
    /// How many channels and samples a second, where its head says so.
    pub head: Option<(u64, f64)>,
}

/// Those of these that sox does not read.
pub const UNREAD: [&str; 3] = ["bw64", "FLAC in ogg", "Speex in ogg"];

/// The one of these that sox does not read from a pipe.
pub const W64: &str = "w64";

/// The one of these of which no recording can be made.
pub const OPUS: &str = "opus";

/// The sound file that begins so.
pub fn sound(first: &[u8]) -> Option<Sound> {
    let at = |place: usize, bytes: &[u8]| first.get(place..place + bytes.len()) == Some(bytes);
    let of = |kind, head| Some(Sound { kind, head });
    match first.get(..4)? {
        b"RIFF" | b"RF64" if at(8, b"WAVE") => of("wav", wav(first, little)),
        b"RIFX" if at(8, b"WAVE") => of("wav", wav(first, big)),
        b"BW64" if at(8, b"WAVE") => of(UNREAD[0], wav(first, little)),
        b"riff" if at(4, b"\x2e\x91\xcf\x11\xa5\xd6\x28\xdb") && at(24, b"wave") => of(W64, w64(first)),
        b".snd" => au(first, big).and_then(|head| of("au", Some(head))),
        b"dns." => au(first, little).and_then(|head| of("au", Some(head))),
        b"FORM" if at(8, b"AIFF") || at(8, b"AIFC") => of("aiff", aiff(first)),
        b"fLaC" => of("flac", flac(first)),
        b"OggS" if at(28, b"OpusHead") => of(OPUS, opus(first)),
        b"OggS" if at(28, b"\x7fFLAC") => of(UNREAD[1], None),
        b"OggS" if at(28, b"Speex   ") => of(UNREAD[2], None),
        b"OggS" => of("ogg", vorbis(first)),
        _ => None,
    }
}

/// How the whole number of so many bytes at a place is read.
type Number = fn(&[u8], usize, usize) -> Option<u64>;

fn big(first: &[u8], place: usize, bytes: usize) -> Option<u64> {
    Some(first.get(place..place + bytes)?.iter().fold(0, |number, &byte| number << 8 | u64::from(byte)))
}

fn little(first: &[u8], place: usize, bytes: usize) -> Option<u64> {
    Some(first.get(place..place + bytes)?.iter().rev().fold(0, |number, &byte| number << 8 | u64::from(byte)))
}

/// Where the content of a chunk begins. A chunk is a name, a size, and so many bytes, made even.
fn chunk(first: &[u8], name: &[u8; 4], number: Number) -> Option<usize> {
    let mut at = 12;
    while first.get(at..at + 4)? != name {
        let size = number(first, at + 4, 4)? as usize;
        at += 8 + size + size % 2;
    }
    Some(at + 8)
}

fn wav(first: &[u8], number: Number) -> Option<(u64, f64)> {
    let format = chunk(first, b"fmt ", number)?;
    Some((number(first, format + 2, 2)?, number(first, format + 4, 4)? as f64))
}

/// Its chunks have names and sizes of 24 bytes; that of the format is the first.
fn w64(first: &[u8]) -> Option<(u64, f64)> {
    let format = (first.get(40..44)? == b"fmt ").then_some(64)?;
    Some((little(first, format + 2, 2)?, little(first, format + 4, 4)? as f64))
}

/// Four bytes are not much to tell it by: where its samples begin and how they are coded has to make sense.
fn au(first: &[u8], number: Number) -> Option<(u64, f64)> {
    let (begin, coding) = (number(first, 4, 4)?, number(first, 12, 4)?);
    let sound = begin >= 24 && (1..=27).contains(&coding);
    sound.then_some((number(first, 20, 4)?, number(first, 16, 4)? as f64))
}

/// Its rate is a number of 80 bits: an exponent, and a mantissa of 64 bits.
fn aiff(first: &[u8]) -> Option<(u64, f64)> {
    let common = chunk(first, b"COMM", big)?;
    let (exponent, mantissa) = (big(first, common + 8, 2)?, big(first, common + 10, 8)?);
    Some((big(first, common, 2)?, mantissa as f64 * 2_f64.powi(exponent as i32 - 16_383 - 63)))
}

/// 20 bits of rate, and 3 of channels but one.
fn flac(first: &[u8]) -> Option<(u64, f64)> {
    let bits = big(first, 18, 3)?;
    Some(((bits >> 1 & 7) + 1, (bits >> 4) as f64))
}

fn vorbis(first: &[u8]) -> Option<(u64, f64)> {
    (first.get(28..35)? == b"\x01vorbis").then_some(())?;
    Some((little(first, 39, 1)?, little(first, 40, 4)? as f64))
}

/// The rate that it is played at, whatever it was made from.
fn opus(first: &[u8]) -> Option<(u64, f64)> {
    Some((little(first, 37, 1)?, 48_000.0))
}
