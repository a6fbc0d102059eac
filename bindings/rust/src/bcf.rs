//! Genotypes in BCF: vectors of entries of 8, 16 or 32 bits, read into three slices of one length, and written from them.
//!
//! A vector is one sample's genotype in entries of one width: 1, 2 or 4 bytes each, the lowest byte first. First comes an entry for
//! each allele, one at least: its number + 1, or 0 where it is missing, shifted left once, and the low bit 1 where it is phased. So
//! no allele is above 62, 16382 or 1073741822. What is left of the vector is padding: 0x81, 0x8001 or 0x80000001.
//!
//! ```
//! use bruncadorza::bcf::{read_vector, write_vector, Read, Write};
//!
//! // an unphased 0 and a phased 5, in a vector of three entries
//! let mut out = [0xEE; 7];
//! let written = write_vector(&[0, 5], &[0, 0], &[0, 1], 3, &mut out, 1);
//! assert_eq!(written, Write::Done { width: 1, bytes: 3 });
//! assert_eq!(out, [0xEE, 0x02, 0x0D, 0x81, 0xEE, 0xEE, 0xEE]);
//!
//! // a phased 300 needs two bytes, so every entry has two
//! let written = write_vector(&[0, 300], &[0, 0], &[0, 1], 3, &mut out, 1);
//! assert_eq!(written, Write::Done { width: 2, bytes: 6 });
//! assert_eq!(out, [0xEE, 0x02, 0x00, 0x5B, 0x02, 0x01, 0x80]);
//!
//! let (mut numbers, mut missing, mut phased) = ([7; 3], [7; 3], [7; 3]);
//! assert_eq!(read_vector(&out[1..], 2, &mut numbers, &mut missing, &mut phased), Read::Done(2));
//! assert_eq!((numbers, missing, phased), ([0, 300, 7], [0, 0, 7], [0, 1, 7]));
//! ```

use crate::ffi::{self, size};

/// What came of reading a vector.
#[derive(Clone, Copy, Debug, PartialEq, Eq)]
pub enum Read {
    /// 0: so many alleles were read.
    Done(usize),
    /// 16: the slices' lengths differ.
    Lengths,
    /// 17: the row is too short.
    Short,
    /// 26: the bytes are no vector.
    Bad,
    /// 27: no entry has so many bytes.
    Unknown,
}

impl Read {
    /// The answer's number.
    pub fn number(self) -> u64 {
        match self {
            Read::Done(_) => 0,
            Read::Lengths => 16,
            Read::Short => 17,
            Read::Bad => 26,
            Read::Unknown => 27,
        }
    }
}

/// Reads a vector, whose entries have `width` bytes each, into the first entries of three slices of one length. A smaller width may
/// hold every allele. For a missing mark or a phasing it writes 0 or 1. A refusal changes nothing.
pub fn read_vector(
    bytes: &[u8],
    width: usize,
    numbers: &mut [u64],
    missing: &mut [u8],
    phased: &mut [u8],
) -> Read {
    let told = ffi::read_vector(bytes, width, numbers, missing, phased);
    match (told.number, told.values()) {
        (0, &[count]) => Read::Done(size(count)),
        (16, []) => Read::Lengths,
        (17, []) => Read::Short,
        (26, []) => Read::Bad,
        (27, []) => Read::Unknown,
        _ => told.excluded("0 with the count, or 16, 17, 26 or 27"),
    }
}

/// What came of writing a vector.
#[derive(Clone, Copy, Debug, PartialEq, Eq)]
pub enum Write {
    /// 0: the vector was written.
    Done {
        /// How many bytes each entry has: 1, 2 or 4.
        width: usize,
        /// How many bytes were written in all.
        bytes: usize,
    },
    /// 6: the place lies beyond the output.
    Beyond,
    /// 11: the list is empty.
    Empty,
    /// 12: the allele with this index is missing and has a number.
    Bad(usize),
    /// 16: the slices' lengths differ.
    Lengths,
    /// 17: the vector does not fit.
    Short,
    /// 24: an allele is above 1073741822, the largest that any entry holds.
    Large,
    /// 25: the list is longer than the vector.
    Long,
}

impl Write {
    /// The answer's number.
    pub fn number(self) -> u64 {
        match self {
            Write::Done { .. } => 0,
            Write::Beyond => 6,
            Write::Empty => 11,
            Write::Bad(_) => 12,
            Write::Lengths => 16,
            Write::Short => 17,
            Write::Large => 24,
            Write::Long => 25,
        }
    }
}

/// Writes the vector of `entries` entries, of the smallest width that holds every allele, from the place `at` of the output on. Of
/// a missing mark or a phasing any other value than 0 is taken as 1. A refusal changes nothing.
pub fn write_vector(
    numbers: &[u64],
    missing: &[u8],
    phased: &[u8],
    entries: usize,
    out: &mut [u8],
    at: usize,
) -> Write {
    let told = ffi::write_vector(numbers, missing, phased, entries, out, at);
    match (told.number, told.values()) {
        (0, &[width, bytes]) => Write::Done {
            width: size(width),
            bytes: size(bytes),
        },
        (6, []) => Write::Beyond,
        (11, []) => Write::Empty,
        (12, &[index]) => Write::Bad(size(index)),
        (16, []) => Write::Lengths,
        (17, []) => Write::Short,
        (24, []) => Write::Large,
        (25, []) => Write::Long,
        _ => told.excluded(
            "0 with the width and how many bytes, 12 with an index, or 6, 11, 16, 17, 24 or 25",
        ),
    }
}
