//! The samples of a line, their subfields, and the keys of FORMAT.

use crate::ffi::{self, range, size};
use crate::text::Range;

/// How many samples there are.
pub fn count(samples: &[u8]) -> usize {
    ffi::samples_count(samples)
}

/// What a step from a place finds.
#[derive(Clone, Copy, Debug, PartialEq, Eq)]
pub enum Step {
    /// 0: a sample that a tab ends, and the place past that tab.
    More(Range, usize),
    /// 0: the last sample.
    Last(Range),
    /// 10: the text is empty and holds no sample.
    Nothing,
    /// 6: the place lies beyond the text.
    Beyond,
}

impl Step {
    /// The answer's number.
    pub fn number(self) -> u64 {
        match self {
            Step::More(..) | Step::Last(_) => 0,
            Step::Nothing => 10,
            Step::Beyond => 6,
        }
    }
}

/// The sample at the place `at`.
pub fn sample_at(samples: &[u8], at: usize) -> Step {
    let told = ffi::sample_at(samples, at);
    match (told.number, told.values()) {
        (0, &[start, len, next]) => Step::More(range(start, len), size(next)),
        (0, &[start, len]) => Step::Last(range(start, len)),
        (10, []) => Step::Nothing,
        (6, []) => Step::Beyond,
        _ => told.excluded("0 with a place and at most one next place, or 6, or 10"),
    }
}

/// The samples one after the other, each a part of the text. See [`all`].
#[derive(Clone, Debug)]
pub struct Samples<'a> {
    samples: &'a [u8],
    at: Option<usize>,
}

/// Every sample of the text.
pub fn all(samples: &[u8]) -> Samples<'_> {
    Samples {
        samples,
        at: Some(0),
    }
}

impl<'a> Iterator for Samples<'a> {
    type Item = &'a [u8];

    fn next(&mut self) -> Option<&'a [u8]> {
        let (place, next) = match sample_at(self.samples, self.at?) {
            Step::More(place, next) => (place, Some(next)),
            Step::Last(place) => (place, None),
            Step::Nothing => return None,
            Step::Beyond => unreachable!("the contract says that a next place lies in the text"),
        };
        self.at = next;
        Some(&self.samples[place.start..place.start + place.len])
    }
}

/// What sample n, or subfield n, is.
#[derive(Clone, Copy, Debug, PartialEq, Eq)]
pub enum Nth {
    /// 0: its place in the text.
    At(Range),
    /// 10: there are not so many.
    Nothing,
}

impl Nth {
    /// The answer's number.
    pub fn number(self) -> u64 {
        match self {
            Nth::At(_) => 0,
            Nth::Nothing => 10,
        }
    }
}

fn nth_of(told: ffi::Told) -> Nth {
    match (told.number, told.values()) {
        (0, &[start, len]) => Nth::At(range(start, len)),
        (10, []) => Nth::Nothing,
        _ => told.excluded("0 with a place, or 10"),
    }
}

/// Sample n, counted from 0.
pub fn sample(samples: &[u8], n: usize) -> Nth {
    nth_of(ffi::sample(samples, n))
}

/// Subfield n of a sample's text, counted from 0.
pub fn subfield(sample: &[u8], n: usize) -> Nth {
    nth_of(ffi::subfield(sample, n))
}

/// Which key of FORMAT is equal.
#[derive(Clone, Copy, Debug, PartialEq, Eq)]
pub enum Key {
    /// 0: its index, from 0.
    Index(usize),
    /// 10: none is.
    Nothing,
}

impl Key {
    /// The answer's number.
    pub fn number(self) -> u64 {
        match self {
            Key::Index(_) => 0,
            Key::Nothing => 10,
        }
    }
}

/// The index of the first key of FORMAT that is equal.
pub fn key_index(format: &[u8], key: &[u8]) -> Key {
    let told = ffi::key_index(format, key);
    match (told.number, told.values()) {
        (0, &[index]) => Key::Index(size(index)),
        (10, []) => Key::Nothing,
        _ => told.excluded("0 with the index, or 10"),
    }
}
