//! Document 01's seven questions. Each is asked only if those before it were answered with yes.

use crate::by_stand_ins::way_in::edge_window;
use crate::records::{DOWN, ELEMENT, FIT, UP};
use crate::scene::Given;

/// The questions' numbers, by the names that include/cancel.h has for their refusals.
pub const RATE: u64 = 1;
pub const COUNT: u64 = 2;
pub const SAMPLE: u64 = 3;
pub const CARRIER: u64 = 4;
pub const PLACES: u64 = 5;
pub const WORK: u64 = 6;
pub const GIVEN: u64 = 7;

/// The last of them.
pub const LAST: u64 = GIVEN;

/// Most floats of a recording.
pub const MOST_FLOATS: usize = 2_097_152;
/// Largest size of a given number: 2^200.
pub const LARGEST: f64 = f64::from_bits((1023 + 200) << 52);
/// Positions are below this.
pub const POSITIONS: f64 = 1_048_576.0;

/// A question's number, and how its answer is found.
pub type Question<'a> = (u64, Box<dyn Fn() -> bool + 'a>);

/// The number of the first question that is answered with no, or 0.
pub fn first_no(asked: &[Question]) -> u64 {
    asked.iter().find(|(_, yes)| !yes()).map_or(0, |(number, _)| *number)
}

fn question<'a>(number: u64, yes: impl Fn() -> bool + 'a) -> Question<'a> {
    (number, Box::new(yes))
}

/// B of a recording of so many floats.
pub fn steps(iq_len: usize, fs: f64) -> usize {
    iq_len / 2 / edge_window(fs).1
}

/// cancel_blocks: B, and 0 where the rate is refused.
pub fn blocks(iq_len: usize, fs: f64) -> usize {
    if rate_holds(fs) {
        steps(iq_len, fs)
    } else {
        0
    }
}

fn rate_holds(fs: f64) -> bool {
    (2_000.0..=192_000.0).contains(&fs)
}

pub fn rate<'a>(fs: f64) -> Question<'a> {
    question(RATE, move || rate_holds(fs))
}

pub fn size<'a>(floats: usize) -> Question<'a> {
    question(COUNT, move || floats % 2 == 0 && floats <= MOST_FLOATS)
}

pub fn finite<'a>(iq: &'a [f32]) -> Question<'a> {
    question(SAMPLE, || iq.iter().all(|x| x.is_finite()))
}

pub fn hint<'a>(hz: f64, fs: f64) -> Question<'a> {
    question(CARRIER, move || hz.is_finite() && hz.abs() <= fs / 2.0)
}

/// Has a list of so many places room for what a find can list?
pub fn room<'a>(places: usize, iq: &'a [f32], fs: f64) -> Question<'a> {
    question(PLACES, move || places >= steps(iq.len(), fs) / 2)
}

/// Has the list of fits a place for each given element?
pub fn room_for_each<'a>(places: usize, count: usize) -> Question<'a> {
    question(PLACES, move || places >= count)
}

/// Has a list of so many places room for the amplitude row?
pub fn room_for_row<'a>(places: usize, iq: &'a [f32], fs: f64) -> Question<'a> {
    question(PLACES, move || places >= steps(iq.len(), fs).saturating_sub(7))
}

/// Has a list of so many places room for the class of each block of a recording of so many floats?
pub fn room_for_classes<'a>(places: usize, iq_len: usize, fs: f64) -> Question<'a> {
    question(PLACES, move || places >= iq_len / 2 / edge_window(fs).0)
}

pub fn work<'a>(len: usize, iq: &'a [f32], fs: f64) -> Question<'a> {
    question(WORK, move || len >= 4 * steps(iq.len(), fs))
}

/// Given elements: their count fits the list, and their numbers are in range.
pub fn given_elements(given: &Given) -> Question<'_> {
    question(GIVEN, || records_hold(&given.elements, given.element_count, ELEMENT))
}

/// A given estimate: its two numbers, its elements and its fits.
pub fn given_estimate(given: &Given) -> Question<'_> {
    question(GIVEN, || {
        [given.carrier_hz, given.carrier_step_hz].into_iter().all(in_range)
            && records_hold(&given.elements, given.element_count, ELEMENT)
            && records_hold(&given.fits, given.fit_count, FIT)
    })
}

fn records_hold(list: &[f64], count: usize, numbers: usize) -> bool {
    count <= list.len() / numbers && list.chunks_exact(numbers).take(count).all(record_holds)
}

/// In both kinds of record, up and down are at the same places.
fn record_holds(record: &[f64]) -> bool {
    record.iter().all(|&x| in_range(x)) && position(record[UP]) && position(record[DOWN])
}

fn in_range(x: f64) -> bool {
    x.is_finite() && x.abs() <= LARGEST
}

fn position(x: f64) -> bool {
    (0.0..POSITIONS).contains(&x) && x.trunc() == x
}
