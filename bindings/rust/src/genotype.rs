//! Genotypes read: into three slices of one length, or one allele at a time.
//!
//! An allele is a number, a missing mark and a phasing. In slices the readers write 0 or 1 for a mark or a phasing.

use crate::ffi::{self, size};

/// One allele. A missing one has the number 0.
#[derive(Clone, Copy, Debug, Default, PartialEq, Eq, Hash)]
pub struct Allele {
    /// The number, 0 for the reference.
    pub number: u64,
    /// Whether it is missing, `.`.
    pub missing: bool,
    /// Whether it is phased, `|`.
    pub phased: bool,
}

/// What a step from a place finds.
#[derive(Clone, Copy, Debug, PartialEq, Eq)]
pub enum Step {
    /// 0: an allele, and the place past it.
    Found(Allele, usize),
    /// 6: the place lies beyond the text.
    Beyond,
    /// 10: the place is the end of a text that is not empty.
    Nothing,
    /// 11: the text is empty.
    Empty,
    /// 12: what stands there is no allele.
    Bad {
        /// As of [`Number::Bad`](crate::decimal::Number::Bad), from the start of the text and not from the place; where a digit
        /// is missing, the end of the piece.
        offset: usize,
    },
}

impl Step {
    /// The answer's number.
    pub fn number(self) -> u64 {
        match self {
            Step::Found(..) => 0,
            Step::Beyond => 6,
            Step::Nothing => 10,
            Step::Empty => 11,
            Step::Bad { .. } => 12,
        }
    }
}

/// The allele at the place `at`, as the first of the text from there on.
pub fn step_at(text: &[u8], at: usize) -> Step {
    let told = ffi::genotype_step(text, at);
    match (told.number, told.values()) {
        (0, &[next, number, missing @ (0 | 1), phased @ (0 | 1)]) => {
            let allele = Allele {
                number,
                missing: missing == 1,
                phased: phased == 1,
            };
            Step::Found(allele, size(next))
        }
        (6, []) => Step::Beyond,
        (10, []) => Step::Nothing,
        (11, []) => Step::Empty,
        (12, &[offset]) => Step::Bad {
            offset: size(offset),
        },
        _ => told.excluded(
            "0 with the next place, a number and two marks, 12 with the offset, or 6, 10 or 11",
        ),
    }
}

/// What came of reading a genotype.
#[derive(Clone, Copy, Debug, PartialEq, Eq)]
pub enum Read {
    /// 0: so many alleles were read.
    Done(usize),
    /// 11: the text is empty.
    Empty,
    /// 12: a piece is no allele.
    Bad {
        /// Which piece is the first such one, from 0.
        index: usize,
        /// As of [`Step::Bad`].
        offset: usize,
    },
    /// 16: the slices' lengths differ.
    Lengths,
    /// 17: the row is too short.
    Short,
    /// 20: the allele with this index is above the ALT count.
    Above(usize),
}

impl Read {
    /// The answer's number.
    pub fn number(self) -> u64 {
        match self {
            Read::Done(_) => 0,
            Read::Empty => 11,
            Read::Bad { .. } => 12,
            Read::Lengths => 16,
            Read::Short => 17,
            Read::Above(_) => 20,
        }
    }
}

fn read_of(told: ffi::Told) -> Read {
    match (told.number, told.values()) {
        (0, &[count]) => Read::Done(size(count)),
        (11, []) => Read::Empty,
        (12, &[index, offset]) => Read::Bad {
            index: size(index),
            offset: size(offset),
        },
        (16, []) => Read::Lengths,
        (17, []) => Read::Short,
        (20, &[index]) => Read::Above(size(index)),
        _ => told.excluded(
            "0 with the count, 12 with an index and the offset, 20 with an index, or 11, 16 or 17",
        ),
    }
}

/// What reading the text into slices of the length `room` answers.
pub fn judge(text: &[u8], room: usize) -> Read {
    read_of(ffi::genotype_judge(text, room))
}

/// The same where no number may be above the count of the ALT column `alt` ([`alt_count`](crate::lists::alt_count)).
pub fn judge_checked(text: &[u8], alt: &[u8], room: usize) -> Read {
    read_of(ffi::genotype_judge_checked(text, alt, room))
}

/// Reads a genotype into the first entries of three slices of one length. A refusal changes nothing.
pub fn read_genotype(
    text: &[u8],
    numbers: &mut [u64],
    missing: &mut [u8],
    phased: &mut [u8],
) -> Read {
    read_of(ffi::read_genotype(text, numbers, missing, phased))
}

/// The same where no number may be above the count of the ALT column `alt` ([`alt_count`](crate::lists::alt_count)).
pub fn read_checked(
    text: &[u8],
    alt: &[u8],
    numbers: &mut [u64],
    missing: &mut [u8],
    phased: &mut [u8],
) -> Read {
    read_of(ffi::read_genotype_checked(
        text, alt, numbers, missing, phased,
    ))
}
