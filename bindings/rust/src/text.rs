//! Places in a text, UTF-8 and white space.

use crate::ffi;

/// A place in a text: where it starts, and how many bytes long it is.
#[derive(Clone, Copy, Debug, Default, PartialEq, Eq, Hash)]
pub struct Range {
    /// The first byte, counted from the text's start.
    pub start: usize,
    /// How many bytes.
    pub len: usize,
}

impl Range {
    /// The part of `s` at this place, or `None` where the place does not fit `s`.
    pub fn of(self, s: &[u8]) -> Option<&[u8]> {
        s.get(self.start..self.start.checked_add(self.len)?)
    }
}

/// Whether bytes are UTF-8.
#[derive(Clone, Copy, Debug, PartialEq, Eq)]
pub enum Utf8 {
    /// 0: they are.
    Text,
    /// 5: they are not.
    Broken,
}

impl Utf8 {
    /// The answer's number.
    pub fn number(self) -> u64 {
        match self {
            Utf8::Text => 0,
            Utf8::Broken => 5,
        }
    }
}

/// Whether the bytes are UTF-8.
pub fn check_utf8(text: &[u8]) -> Utf8 {
    match ffi::check_utf8(text) {
        0 => Utf8::Text,
        5 => Utf8::Broken,
        other => ffi::excluded(other, "0 or 5"),
    }
}

/// Whether a text holds white space.
#[derive(Clone, Copy, Debug, PartialEq, Eq)]
pub enum Space {
    /// 5: it is not UTF-8.
    Broken,
    /// 0: some character is white space.
    Held,
    /// 0: none is.
    Free,
}

impl Space {
    /// The answer's number.
    pub fn number(self) -> u64 {
        match self {
            Space::Broken => 5,
            Space::Held | Space::Free => 0,
        }
    }
}

/// Whether some character of the text is white space.
pub fn find_space(text: &[u8]) -> Space {
    let told = ffi::find_space(text);
    match (told.number, told.values()) {
        (5, []) => Space::Broken,
        (0, [1]) => Space::Held,
        (0, [0]) => Space::Free,
        _ => told.excluded("5, or 0 with 0 or 1"),
    }
}
