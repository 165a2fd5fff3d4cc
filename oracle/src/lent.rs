//! Slices lent to the library, each between two guard zones, with what they held before the call.

use crate::random::Random;

/// A float of either width, seen as its bits.
pub trait Bits: Copy {
    fn of(bits: u64) -> Self;
    fn bits(self) -> u64;
    /// Equal where all NaNs are one and both zeros are one.
    fn same(self, other: Self) -> bool;
    fn wide(self) -> f64;
}

impl Bits for f32 {
    fn of(bits: u64) -> f32 {
        f32::from_bits(bits as u32)
    }
    fn bits(self) -> u64 {
        self.to_bits() as u64
    }
    fn same(self, other: f32) -> bool {
        self == other || self.is_nan() && other.is_nan()
    }
    fn wide(self) -> f64 {
        self as f64
    }
}

impl Bits for f64 {
    fn of(bits: u64) -> f64 {
        f64::from_bits(bits)
    }
    fn bits(self) -> u64 {
        self.to_bits()
    }
    fn same(self, other: f64) -> bool {
        self == other || self.is_nan() && other.is_nan()
    }
    fn wide(self) -> f64 {
        self
    }
}

/// Numbers before and after a lent slice that the library must leave alone.
const GUARD: usize = 16;

pub struct Lent<T> {
    name: &'static str,
    cells: Vec<T>,
    before: Vec<T>,
    start: usize,
    len: usize,
}

impl<T: Bits> Lent<T> {
    /// Lends just these numbers.
    pub fn holding(name: &'static str, content: &[T], r: &mut Random) -> Lent<T> {
        // An odd start, so that a slice of floats is not always aligned for a wider load.
        let start = GUARD + r.whole(0, 4);
        let mut before = Vec::with_capacity(start + content.len() + GUARD);
        before.extend((0..start).map(|_| T::of(r.bits())));
        before.extend_from_slice(content);
        before.extend((0..GUARD).map(|_| T::of(r.bits())));
        Lent { name, cells: before.clone(), before, start, len: content.len() }
    }

    /// Lends so many numbers of any kind.
    pub fn any(name: &'static str, len: usize, r: &mut Random) -> Lent<T> {
        let content: Vec<T> = (0..len).map(|_| T::of(r.bits())).collect();
        Lent::holding(name, &content, r)
    }

    #[allow(clippy::len_without_is_empty)]
    pub fn len(&self) -> usize {
        self.len
    }

    /// Makes it hold again what it held before.
    pub fn again(&mut self) {
        self.cells.copy_from_slice(&self.before);
    }

    /// Where in the cells it starts.
    pub fn start(&self) -> usize {
        self.start
    }

    /// All cells: the first guard zone, the slice, the second guard zone.
    pub fn cells(&mut self) -> &mut [T] {
        &mut self.cells
    }

    pub fn pointer(&mut self) -> *mut T {
        self.cells[self.start..].as_mut_ptr()
    }

    fn now(&self) -> &[T] {
        &self.cells[self.start..self.start + self.len]
    }

    fn kept(&self, lo: usize, hi: usize, what: &str) -> Result<(), String> {
        for (i, (a, b)) in self.cells[lo..hi].iter().zip(&self.before[lo..hi]).enumerate() {
            if a.bits() != b.bits() {
                let at = (lo + i) as i64 - self.start as i64;
                return Err(format!("{} written {what}, at {at} of {}", self.name, self.len));
            }
        }
        Ok(())
    }

    /// The first `expected.len()` numbers are the expected ones.
    pub fn holds(&self, expected: &[T]) -> Result<(), String> {
        if expected.len() > self.len {
            return Err(format!("{} has {} numbers and {} are expected", self.name, self.len, expected.len()));
        }
        for (i, (&a, &b)) in self.now().iter().zip(expected).enumerate() {
            if !a.same(b) {
                let (a, b) = (a.wide(), b.wide());
                return Err(format!("{}[{i}]: library {a:?}, oracle {b:?}", self.name));
            }
        }
        Ok(())
    }

    /// The numbers from `from` up to, not including, `to` keep every bit.
    pub fn keeps(&self, from: usize, to: usize, what: &str) -> Result<(), String> {
        self.kept(self.start + from, self.start + to, what)
    }

    /// Of a list whose records have so many numbers, what follows the last whole place is kept.
    pub fn keeps_rest(&self, record: usize) -> Result<(), String> {
        self.keeps(self.len / record * record, self.len, "after its last place")
    }
}

/// What can be asked of a lent slice of either width.
pub trait Zone {
    /// Neither guard zone was written.
    fn guarded(&self) -> Result<(), String>;
    /// Nothing at all was written.
    fn untouched(&self, what: &str) -> Result<(), String>;
}

impl<T: Bits> Zone for Lent<T> {
    fn guarded(&self) -> Result<(), String> {
        self.kept(0, self.start, "before its start")?;
        self.kept(self.start + self.len, self.cells.len(), "after its end")
    }

    fn untouched(&self, what: &str) -> Result<(), String> {
        self.kept(0, self.cells.len(), what)
    }
}
