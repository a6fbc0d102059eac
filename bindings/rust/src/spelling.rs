//! Genotypes written, from three slices of one length.

use crate::ffi::{self, size};

/// What came of writing a genotype.
#[derive(Clone, Copy, Debug, PartialEq, Eq)]
pub enum Write {
    /// 0: so many bytes were written.
    Done(usize),
    /// 6: the place lies beyond the output.
    Beyond,
    /// 11: the list is empty.
    Empty,
    /// 12: the allele with this index is missing and has a number.
    Bad(usize),
    /// 13: the first phasing is not the implied one, below 4.4.
    Phasing,
    /// 16: the slices' lengths differ.
    Lengths,
    /// 17: the spelling does not fit.
    Short,
}

impl Write {
    /// The answer's number.
    pub fn number(self) -> u64 {
        match self {
            Write::Done(_) => 0,
            Write::Beyond => 6,
            Write::Empty => 11,
            Write::Bad(_) => 12,
            Write::Phasing => 13,
            Write::Lengths => 16,
            Write::Short => 17,
        }
    }
}

/// Writes the shortest spelling that the file format `(major, minor)` permits, from the place `at` of the output on. Of a missing
/// mark or a phasing any other value than 0 is taken as 1. A refusal changes nothing.
pub fn write_genotype(
    numbers: &[u64],
    missing: &[u8],
    phased: &[u8],
    file_format: (u32, u32),
    out: &mut [u8],
    at: usize,
) -> Write {
    let told = ffi::write_genotype(numbers, missing, phased, file_format, out, at);
    match (told.number, told.values()) {
        (0, &[count]) => Write::Done(size(count)),
        (6, []) => Write::Beyond,
        (11, []) => Write::Empty,
        (12, &[index]) => Write::Bad(size(index)),
        (13, []) => Write::Phasing,
        (16, []) => Write::Lengths,
        (17, []) => Write::Short,
        _ => told.excluded("0 with how many bytes, 12 with an index, or 6, 11, 13, 16 or 17"),
    }
}
