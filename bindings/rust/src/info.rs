//! The INFO column. The column lent is the field's text: a `.` comes as the empty text.

use crate::ffi::{self, range, size};
use crate::text::Range;

/// The value of an entry.
#[derive(Clone, Copy, Debug, PartialEq, Eq)]
pub enum Value {
    /// It has none: a key without `=`.
    Absent,
    /// Its place in the column.
    At(Range),
}

/// An entry of the column.
#[derive(Clone, Copy, Debug, PartialEq, Eq)]
pub struct Entry {
    /// Where the key stands in the column.
    pub key: Range,
    /// Where the value stands.
    pub value: Value,
}

/// What a step from a place finds. Each case has the next place.
#[derive(Clone, Copy, Debug, PartialEq, Eq)]
pub enum Step {
    /// 0: an entry.
    Found(Entry, usize),
    /// 6: the place lies beyond the column.
    Beyond(usize),
    /// 7: the `;` after a key is the last byte.
    AfterKey(usize),
    /// 8: an empty key.
    NoKey(usize),
    /// 9: the `;` after a value is the last byte.
    AfterValue(usize),
    /// 10: the place is the column's end; of a lookup, no key is equal.
    Nothing(usize),
}

impl Step {
    /// The answer's number.
    pub fn number(self) -> u64 {
        match self {
            Step::Found(..) => 0,
            Step::Beyond(_) => 6,
            Step::AfterKey(_) => 7,
            Step::NoKey(_) => 8,
            Step::AfterValue(_) => 9,
            Step::Nothing(_) => 10,
        }
    }

    /// The place from which to go on.
    pub fn next(self) -> usize {
        match self {
            Step::Found(_, next)
            | Step::Beyond(next)
            | Step::AfterKey(next)
            | Step::NoKey(next)
            | Step::AfterValue(next)
            | Step::Nothing(next) => next,
        }
    }
}

fn step_of(told: ffi::Told) -> Step {
    match (told.number, told.values()) {
        (0, &[next, start, len]) => {
            let key = range(start, len);
            let value = Value::Absent;
            Step::Found(Entry { key, value }, size(next))
        }
        (0, &[next, start, len, value_start, value_len]) => {
            let key = range(start, len);
            let value = Value::At(range(value_start, value_len));
            Step::Found(Entry { key, value }, size(next))
        }
        (6, &[next]) => Step::Beyond(size(next)),
        (7, &[next]) => Step::AfterKey(size(next)),
        (8, &[next]) => Step::NoKey(size(next)),
        (9, &[next]) => Step::AfterValue(size(next)),
        (10, &[next]) => Step::Nothing(size(next)),
        _ => told.excluded("0 with the next place and an entry, or 6 to 10 with the next place"),
    }
}

/// The entry at the place `at`.
pub fn step_at(column: &[u8], at: usize) -> Step {
    step_of(ffi::info_step(column, at))
}

/// The first entry whose key is equal, or the first refusal before it, or `Nothing` with the column's length.
pub fn find(column: &[u8], key: &[u8]) -> Step {
    step_of(ffi::info_find(column, key))
}

/// The value of the first entry whose key is equal, a part of the column. Where there is no value to show, the empty part at the
/// column's end: [`find`] tells an absent value, an empty one and a refusal apart.
pub fn value<'a>(column: &'a [u8], key: &[u8]) -> &'a [u8] {
    let told = ffi::info_value(column, key);
    match (told.number, told.values()) {
        (0, &[start, len]) => &column[size(start)..size(start) + size(len)],
        _ => told.excluded("0 with a place in the column"),
    }
}

/// How many entries the column claims: its semicolons plus one, 0 for the empty text.
pub fn count(column: &[u8]) -> usize {
    ffi::info_count(column)
}

/// A reader that carries its column and a place in it.
#[derive(Clone, Copy, Debug, PartialEq, Eq)]
pub struct Reader<'a> {
    column: &'a [u8],
    at: usize,
}

/// A reader at the start of a column.
pub fn open(column: &[u8]) -> Reader<'_> {
    Reader { column, at: 0 }
}

impl<'a> Reader<'a> {
    /// The column.
    pub fn column(&self) -> &'a [u8] {
        self.column
    }

    /// The place.
    pub fn at(&self) -> usize {
        self.at
    }

    /// The same column, at the place `at`.
    pub fn moved(self, at: usize) -> Reader<'a> {
        Reader { at, ..self }
    }

    /// The step from the reader's place.
    pub fn step(&self) -> Step {
        step_at(self.column, self.at)
    }
}

/// Every step from the reader's place on, refusals among them, up to `Nothing` or `Beyond`, which end it.
impl Iterator for Reader<'_> {
    type Item = Step;

    fn next(&mut self) -> Option<Step> {
        let step = self.step();
        self.at = step.next();
        match step {
            Step::Nothing(_) | Step::Beyond(_) => None,
            _ => Some(step),
        }
    }
}
