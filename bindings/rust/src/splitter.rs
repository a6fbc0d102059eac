//! A second line reader, in a plain form.

use crate::ffi;
use crate::line::{read_of, Read};

/// Answers as [`read_line`](crate::line::read_line) does, whatever it is given, in three plain steps. It is slower, and goes to
/// the end of the line also where an early column is refused.
pub fn split_line(s: &[u8], at: usize) -> Read<'_> {
    read_of(s, ffi::split_line(s, at))
}
