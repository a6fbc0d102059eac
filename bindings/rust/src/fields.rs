//! The texts of a line's fields, and POS.

use crate::ffi::{self, range, size};
use crate::line::Name;
use crate::text::Range;

/// What a field's text is.
#[derive(Clone, Copy, Debug, PartialEq, Eq)]
pub enum Text {
    /// 0: its place.
    At(Range),
    /// 0: there is none.
    Absent,
    /// 6: the place does not fit the buffer.
    Beyond,
}

impl Text {
    /// The answer's number.
    pub fn number(self) -> u64 {
        match self {
            Text::At(_) | Text::Absent => 0,
            Text::Beyond => 6,
        }
    }
}

/// The text of a field whose column stands at `place`. [`Record::text`](crate::line::Record::text) asks this of the places that were read.
pub fn text_in(s: &[u8], name: Name, place: Range) -> Text {
    let told = ffi::field_text(s, name as u64, place);
    match (told.number, told.values()) {
        (0, &[start, len]) => Text::At(range(start, len)),
        (0, []) => Text::Absent,
        (6, []) => Text::Beyond,
        _ => told.excluded("0 with a place or none, or 6; 10 only for names above 9"),
    }
}

/// The place itself where it fits the buffer.
pub fn place_in(s: &[u8], place: Range) -> Text {
    let told = ffi::place_in(s, place);
    match (told.number, told.values()) {
        (0, &[start, len]) => Text::At(range(start, len)),
        (6, []) => Text::Beyond,
        _ => told.excluded("0 with a place, or 6"),
    }
}

/// What the text of POS says.
#[derive(Clone, Copy, Debug, PartialEq, Eq)]
pub enum Position {
    /// 0: a position.
    At(u64),
    /// 0: none, `0`.
    Nowhere,
    /// 21: it is bad.
    Bad {
        /// As of [`Number::Bad`](crate::decimal::Number::Bad); the text's length where the number is 0 in another spelling than
        /// `0`.
        offset: usize,
    },
}

impl Position {
    /// The answer's number.
    pub fn number(self) -> u64 {
        match self {
            Position::At(_) | Position::Nowhere => 0,
            Position::Bad { .. } => 21,
        }
    }
}

/// Reads the text of POS.
pub fn read_pos(text: &[u8]) -> Position {
    let told = ffi::read_pos(text);
    match (told.number, told.values()) {
        (0, &[n]) => Position::At(n),
        (0, []) => Position::Nowhere,
        (21, &[offset]) => Position::Bad {
            offset: size(offset),
        },
        _ => told.excluded("0 with a position or none, or 21 with the offset"),
    }
}
