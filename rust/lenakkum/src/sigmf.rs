//! SigMF: what metadata say of a file of samples.

use crate::datatype::{self, Datatype};
use crate::problem::Problem;
use crate::stretches::Stretch;
use crate::told::{Capture, Told};
use serde_json::{Map, Value};
use std::collections::VecDeque;
use std::path::{Path, PathBuf};

/// The two files of a recording.
pub struct Pair {
    pub meta: PathBuf,
    pub data: PathBuf,
}

/// The pair that this file is one of, by its name.
pub fn pair(path: &Path) -> Option<Pair> {
    match path.extension()?.to_str()? {
        "sigmf-meta" | "sigmf-data" => {
            Some(Pair { meta: path.with_extension("sigmf-meta"), data: path.with_extension("sigmf-data") })
        }
        _ => None,
    }
}

/// What metadata say.
pub struct Metadata {
    /// By which it goes in what is said of it.
    name: String,
    global: Map<String, Value>,
    captures: Vec<Capture>,
}

impl Metadata {
    pub fn parse(name: &str, text: &[u8]) -> Result<Metadata, Problem> {
        let wrong = |why: String| Problem::with(name, why);
        let parsed: Value = serde_json::from_slice(text).map_err(|e| wrong(format!("it is not JSON: {e}")))?;
        let global = parsed.get("global").and_then(Value::as_object).cloned();
        let global = global.ok_or_else(|| wrong("it has no object `global`, as SigMF has".to_string()))?;
        let mut metadata = Metadata { name: name.to_string(), global, captures: vec![] };
        let offset = metadata.whole("core:offset")?.unwrap_or(0);
        let captures = parsed.get("captures").and_then(Value::as_array);
        let captures = captures.into_iter().flatten().map(|c| metadata.capture(c, offset));
        metadata.captures = captures.collect::<Result<_, _>>()?;
        if metadata.captures.windows(2).any(|two| two[0].start > two[1].start) {
            return Err(metadata.wrong("its captures are not in the order of their samples"));
        }
        if metadata.captures.first().map_or(false, |first| first.start != 0) {
            return Err(metadata.wrong("its first capture does not begin at its first sample"));
        }
        metadata.checked()
    }

    /// What cannot be run.
    fn checked(self) -> Result<Metadata, Problem> {
        if self.global.get("core:metadata_only") == Some(&Value::Bool(true)) {
            return Err(self.wrong("it is metadata only (core:metadata_only), and there are no samples to run"));
        }
        match self.whole("core:num_channels")? {
            None | Some(1) => Ok(self),
            Some(count) => Err(self.wrong(format!("it has {count} channels, and only one is read"))),
        }
    }

    fn wrong(&self, why: impl std::fmt::Display) -> Problem {
        Problem::with(&self.name, why)
    }

    /// A whole number of the global object.
    fn whole(&self, name: &str) -> Result<Option<u64>, Problem> {
        whole(&self.global, name).map_err(|why| self.wrong(why))
    }

    fn capture(&self, capture: &Value, offset: u64) -> Result<Capture, Problem> {
        let wrong = |why: String| self.wrong(format!("a capture: {why}"));
        let fields = capture.as_object().ok_or_else(|| wrong("it is not an object".to_string()))?;
        let whole = |name| whole(fields, name).map_err(wrong);
        let start = whole("core:sample_start")?.unwrap_or(offset);
        let date = fields.get("core:datetime").and_then(Value::as_str).map(str::to_string);
        if date.iter().any(|date| date.contains(char::is_control)) {
            return Err(wrong("core:datetime is not a date".to_string()));
        }
        Ok(Capture {
            start: start.checked_sub(offset).ok_or_else(|| wrong("it begins before core:offset".to_string()))?,
            header_bytes: whole("core:header_bytes")?.unwrap_or(0),
            global_index: whole("core:global_index")?,
            frequency: fields.get("core:frequency").and_then(Value::as_f64),
            date,
        })
    }

    /// The type of its samples. One that the command line names has to be the same.
    pub fn datatype(&self, named: Option<Datatype>) -> Result<Datatype, Problem> {
        let kind = match self.global.get("core:datatype") {
            Some(Value::String(kind)) => kind,
            _ => return Err(self.wrong("it does not say the sample type (core:datatype)")),
        };
        let real = kind.strip_prefix('r').map_or(false, |rest| Datatype::named(&format!("c{rest}")).is_some());
        match Datatype::named(kind) {
            Some(kind) if named.map_or(false, |named| named != kind) => {
                Err(self.wrong(format!("its samples are {}, and --format says otherwise: leave it out", kind.name())))
            }
            Some(kind) => Ok(kind),
            None if real => Err(self.wrong(format!("its samples are real ({kind}), and complex ones are needed"))),
            None => Err(self.wrong(datatype::known(&format!("its sample type \"{kind}\" is not known")))),
        }
    }

    /// Its rate. One on the command line has to be the same, and is needed where the metadata have none.
    pub fn rate(&self, named: Option<f64>) -> Result<f64, Problem> {
        match (self.global.get("core:sample_rate"), named) {
            (Some(rate), named) => match rate.as_f64() {
                None => Err(self.wrong("its rate (core:sample_rate) is not a number")),
                Some(rate) if named.map_or(false, |named| named != rate) => {
                    Err(self.wrong(format!("its rate is {rate}, and --rate says otherwise: leave it out")))
                }
                Some(rate) => Ok(rate),
            },
            (None, Some(named)) => Ok(named),
            (None, None) => Err(self.wrong("it does not say the rate (core:sample_rate): --rate HZ says it")),
        }
    }

    /// The name of the file of samples that these metadata are about, if it is another than that of the pair.
    pub fn dataset(&self) -> Result<Option<&str>, Problem> {
        match self.global.get("core:dataset").map(Value::as_str) {
            None => Ok(None),
            Some(Some(name)) if !name.is_empty() && !name.contains('/') && name != ".." && name != "." => {
                Ok(Some(name))
            }
            Some(_) => Err(self.wrong("core:dataset is not the name of a file beside the metadata")),
        }
    }

    /// The digest that the file of samples is to have.
    pub fn sha512(&self) -> Result<Option<&str>, Problem> {
        match self.global.get("core:sha512").map(Value::as_str) {
            None => Ok(None),
            Some(Some(sum)) => Ok(Some(sum)),
            Some(None) => Err(self.wrong("core:sha512 is not a text, so that the samples cannot be checked by it")),
        }
    }

    /// Have the samples a head of their own, so that the file is of another kind than bare samples?
    pub fn has_header(&self) -> bool {
        self.captures.first().map_or(false, |c| c.header_bytes > 0)
    }

    /// Where the samples stand in their file, of one capture or of all; and what is told of these.
    pub fn layout(
        &self,
        file: Stretch,
        size: usize,
        capture: Option<usize>,
    ) -> Result<(VecDeque<Stretch>, Told), Problem> {
        let trailing = self.whole("core:trailing_bytes")?.unwrap_or(0);
        let end = (file.from + file.bytes).checked_sub(trailing).filter(|end| *end >= file.from);
        let end = end.ok_or_else(|| self.wrong("core:trailing_bytes are more bytes than the file has"))?;
        let stretches = self.stretches(file.from, end, size as u64)?;
        match capture {
            None => {
                self.one_receiver()?;
                Ok((stretches.into(), Told { global: self.global.clone(), captures: self.captures.clone() }))
            }
            Some(n) => {
                let count = self.captures.len();
                let stretch = stretches.get(n).filter(|_| n < count);
                let stretch = *stretch.ok_or_else(|| self.wrong(format!("--capture {n}: it has {count}, from 0")))?;
                let alone = Capture { start: 0, ..self.captures[n].clone() };
                Ok((VecDeque::from([stretch]), Told { global: self.global.clone(), captures: vec![alone] }))
            }
        }
    }

    /// The samples of each capture in the file, without what stands before them.
    fn stretches(&self, from: u64, end: u64, size: u64) -> Result<Vec<Stretch>, Problem> {
        let beyond = || self.wrong("a capture begins after the end of the samples");
        if self.captures.is_empty() {
            return Ok(vec![Stretch { from, bytes: end - from }]);
        }
        let (mut at, mut stretches) = (from, Vec::new());
        for (i, capture) in self.captures.iter().enumerate() {
            at = at.checked_add(capture.header_bytes).filter(|at| *at <= end).ok_or_else(beyond)?;
            let samples = self.captures.get(i + 1).map(|next| next.start - capture.start);
            let bytes = match samples {
                None => end - at,
                Some(samples) => samples.checked_mul(size).filter(|b| *b <= end - at).ok_or_else(beyond)?,
            };
            stretches.push(Stretch { from: at, bytes });
            at += bytes;
        }
        Ok(stretches)
    }

    /// Captures that are run together are of one frequency, and no samples are missing between them.
    fn one_receiver(&self) -> Result<(), Problem> {
        let count = self.captures.len();
        let which = format!("--capture N names one, from 0 to {}", count.saturating_sub(1));
        if self.captures.windows(2).any(|two| two[0].frequency != two[1].frequency) {
            return Err(self.wrong(format!("it has {count} captures at different frequencies: {which}")));
        }
        // Those without an index stand between others that have one.
        let indexed = self.captures.iter().filter_map(|c| Some((c.start, c.global_index?)));
        let indexed: Vec<(u64, u64)> = indexed.collect();
        if indexed.windows(2).any(|two| two[1].1.checked_sub(two[0].1) != Some(two[1].0 - two[0].0)) {
            return Err(self.wrong(format!("samples are missing between its {count} captures: {which}")));
        }
        Ok(())
    }
}

/// A whole number that an object has under this name.
fn whole(fields: &Map<String, Value>, name: &str) -> Result<Option<u64>, String> {
    match fields.get(name) {
        None => Ok(None),
        Some(value) => value.as_u64().map(Some).ok_or_else(|| format!("{name} is not a whole number from 0")),
    }
}
