//! Decimal numbers of up to 64 bits.

use crate::ffi::{self, size};

/// What a decimal text is.
#[derive(Clone, Copy, Debug, PartialEq, Eq)]
pub enum Number {
    /// 0: what it is worth.
    Value(u64),
    /// 12: no decimal, or one that is worth too much.
    Bad {
        /// Of the first byte that is not allowed, or of the digit at which the value passes `u64::MAX`, whichever comes first;
        /// where a digit is missing, the text's length.
        offset: usize,
    },
}

impl Number {
    /// The answer's number.
    pub fn number(self) -> u64 {
        match self {
            Number::Value(_) => 0,
            Number::Bad { .. } => 12,
        }
    }
}

/// Reads a decimal: an optional `+`, and digits.
pub fn read_decimal(text: &[u8]) -> Number {
    let told = ffi::read_decimal(text);
    match (told.number, told.values()) {
        (0, &[n]) => Number::Value(n),
        (12, &[offset]) => Number::Bad {
            offset: size(offset),
        },
        _ => told.excluded("0 with the value, or 12 with the offset"),
    }
}

/// What came of writing.
#[derive(Clone, Copy, Debug, PartialEq, Eq)]
pub enum Written {
    /// 0: so many bytes were written.
    Done(usize),
    /// 17: the output is too short, and is as it was.
    Short,
}

impl Written {
    /// The answer's number.
    pub fn number(self) -> u64 {
        match self {
            Written::Done(_) => 0,
            Written::Short => 17,
        }
    }
}

/// Writes the shortest decimal of `n` at the start of `out`.
pub fn print_decimal(n: u64, out: &mut [u8]) -> Written {
    let told = ffi::print_decimal(n, out);
    match (told.number, told.values()) {
        (0, &[count]) => Written::Done(size(count)),
        (17, []) => Written::Short,
        _ => told.excluded("0 with how many bytes, or 17"),
    }
}
