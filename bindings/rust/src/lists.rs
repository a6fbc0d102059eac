//! Filters and ALT entries. A list is one text and the end of each entry: the first entry starts at 0, each later one at the end
//! before it.

use crate::ffi::{self, size};

/// Which list an answer is on.
#[derive(Clone, Copy, Debug, PartialEq, Eq, Hash)]
pub enum Kind {
    /// Filters, joined by `;`.
    Filters,
    /// ALT entries, joined by `,`.
    Alts,
}

impl Kind {
    /// The number of an invalid entry: 14 or 15.
    fn invalid(self) -> u64 {
        match self {
            Kind::Filters => 14,
            Kind::Alts => 15,
        }
    }
}

/// Whether an entry may be written.
#[derive(Clone, Copy, Debug, PartialEq, Eq)]
pub enum Verdict {
    /// 0: it may.
    Fine,
    /// 5: it is not UTF-8.
    NotUtf8,
    /// 14 for a filter, 15 for an ALT entry: it is invalid.
    Invalid(Kind),
}

impl Verdict {
    /// The answer's number.
    pub fn number(self) -> u64 {
        match self {
            Verdict::Fine => 0,
            Verdict::NotUtf8 => 5,
            Verdict::Invalid(kind) => kind.invalid(),
        }
    }
}

fn verdict_of(kind: Kind, number: u64) -> Verdict {
    match number {
        0 => Verdict::Fine,
        5 => Verdict::NotUtf8,
        _ if number == kind.invalid() => Verdict::Invalid(kind),
        _ => ffi::excluded(number, "0, 5, or 14 for a filter and 15 for an ALT entry"),
    }
}

/// Whether a filter is valid.
pub fn judge_filter(filter: &[u8]) -> Verdict {
    verdict_of(Kind::Filters, ffi::judge_filter(filter))
}

/// Whether an ALT entry is valid.
pub fn judge_alt(alt: &[u8]) -> Verdict {
    verdict_of(Kind::Alts, ffi::judge_alt(alt))
}

/// How many alternate alleles an ALT column has: none where it is `.` or empty, else its commas plus one.
pub fn alt_count(column: &[u8]) -> usize {
    ffi::alt_count(column)
}

/// What came of writing a list.
#[derive(Clone, Copy, Debug, PartialEq, Eq)]
pub enum Write {
    /// 0: so many bytes were written.
    Done(usize),
    /// 5: the entry with this index is not UTF-8.
    NotUtf8(usize),
    /// 6: the place lies beyond the output.
    Beyond,
    /// 14 for filters, 15 for ALT entries: the entry with this index is invalid.
    Invalid(Kind, usize),
    /// 16: the ends fall, or pass the text.
    Wrong,
    /// 17: the list does not fit.
    Short,
}

impl Write {
    /// The answer's number.
    pub fn number(self) -> u64 {
        match self {
            Write::Done(_) => 0,
            Write::NotUtf8(_) => 5,
            Write::Beyond => 6,
            Write::Invalid(kind, _) => kind.invalid(),
            Write::Wrong => 16,
            Write::Short => 17,
        }
    }
}

fn write_of(kind: Kind, told: ffi::Told) -> Write {
    match (told.number, told.values()) {
        (0, &[count]) => Write::Done(size(count)),
        (5, &[index]) => Write::NotUtf8(size(index)),
        (6, []) => Write::Beyond,
        (number, &[index]) if number == kind.invalid() => Write::Invalid(kind, size(index)),
        (16, []) => Write::Wrong,
        (17, []) => Write::Short,
        _ => told.excluded(
            "0 with how many bytes, 5, or 14 for filters and 15 for ALT entries, with an index, or 6, 16 or 17",
        ),
    }
}

/// Writes filters with `;` between, `.` where there is none, from the place `at` of the output on. A refusal changes nothing.
pub fn write_filters(text: &[u8], ends: &[usize], out: &mut [u8], at: usize) -> Write {
    write_of(Kind::Filters, ffi::write_filters(text, ends, out, at))
}

/// Writes ALT entries with `,` between, `.` where there is none, from the place `at` of the output on. A refusal changes nothing.
pub fn write_alts(text: &[u8], ends: &[usize], out: &mut [u8], at: usize) -> Write {
    write_of(Kind::Alts, ffi::write_alts(text, ends, out, at))
}
