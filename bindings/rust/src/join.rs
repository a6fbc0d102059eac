//! Columns joined to a line. They come as one text and the end of each: the first starts at 0, each later one at the end before
//! it.

use crate::ffi::{self, size};
use crate::line::Ending;

/// What came of joining.
#[derive(Clone, Copy, Debug, PartialEq, Eq)]
pub enum Joined {
    /// 0: so many bytes were written.
    Done(usize),
    /// 5: the column with this index is not UTF-8.
    NotUtf8(usize),
    /// 6: the place lies beyond the output.
    Beyond,
    /// 16: the ends fall, or pass the text.
    Wrong,
    /// 17: the line does not fit.
    Short,
    /// 18: the column with this index is empty, holds a tab or an LF, or is the last, ends in CR, and the ending is LF.
    Bad(usize),
    /// 19: there are fewer than eight columns, or nine.
    Few,
}

impl Joined {
    /// The answer's number.
    pub fn number(self) -> u64 {
        match self {
            Joined::Done(_) => 0,
            Joined::NotUtf8(_) => 5,
            Joined::Beyond => 6,
            Joined::Wrong => 16,
            Joined::Short => 17,
            Joined::Bad(_) => 18,
            Joined::Few => 19,
        }
    }
}

/// Writes columns with tabs between and an ending behind, from the place `at` of the output on. A refusal changes nothing.
pub fn join(text: &[u8], ends: &[usize], ending: Ending, out: &mut [u8], at: usize) -> Joined {
    let told = ffi::join(text, ends, ending as u64, out, at);
    match (told.number, told.values()) {
        (0, &[count]) => Joined::Done(size(count)),
        (5, &[index]) => Joined::NotUtf8(size(index)),
        (6, []) => Joined::Beyond,
        (16, []) => Joined::Wrong,
        (17, []) => Joined::Short,
        (18, &[index]) => Joined::Bad(size(index)),
        (19, []) => Joined::Few,
        _ => told.excluded(
            "0 with how many bytes, 5 or 18 with an index, or 6, 16, 17 or 19; 10 only for endings above 2",
        ),
    }
}
