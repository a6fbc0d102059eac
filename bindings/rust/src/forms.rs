//! The two forms of a line's record, and the way from each to the other: the places of its ten fields, and eleven numbers for who
//! keeps many records.
//!
//! ```
//! use bruncadorza::forms::{widen, Widened};
//! use bruncadorza::line::{read_line, Name, Read};
//!
//! let input = b"1\t7\t.\tA\tC\t.\tPASS\tDP=9\n";
//! let Read::Line(record, _) = read_line(input, 0) else { panic!("refused") };
//! let kept = record.small();
//! assert_eq!(kept.numbers, [0, 1, 3, 5, 7, 9, 11, 16, 21, 21, 21]);
//!
//! let Widened::To(wide) = widen(kept) else { panic!("refused") };
//! assert_eq!(wide, record.wide());
//! assert_eq!(wide.place(Name::Info).of(input), Some(&b"DP=9"[..]));
//! ```

use crate::ffi::{self, ranges, size, NUMBERS, PLACES};
use crate::line::{Ending, Name};
use crate::text::Range;

/// The small form of a line's record. [`Record::small`](crate::line::Record::small) makes it. It does not keep the text that the
/// line was read from.
///
/// Any numbers can stand in it: [`widen`] refuses those that the line reader makes on no input.
#[derive(Clone, Copy, Debug, PartialEq, Eq, Hash)]
pub struct SmallRecord {
    /// How the line ended.
    pub ending: Ending,
    /// Where the line starts, where each of its first nine fields ends, and where its text ends. Each other field starts past one
    /// tab behind the end before it; without FORMAT the ninth end is that of INFO, and FORMAT and the samples are empty there, with
    /// no tab between.
    pub numbers: [usize; 11],
}

/// The form with the place of each field. [`Record::wide`](crate::line::Record::wide) makes it. It does not keep the text that the
/// line was read from.
///
/// Any places can stand in it: [`narrow`] refuses those that the line reader makes on no input.
#[derive(Clone, Copy, Debug, PartialEq, Eq, Hash)]
pub struct Wide {
    /// How the line ended.
    pub ending: Ending,
    /// Where the column of each field stands, in the order of [`Name::ALL`].
    pub places: [Range; 10],
}

impl Wide {
    /// Where the column of a field stands, a `.` as it stands. [`text_in`](crate::fields::text_in) answers the field's text.
    pub fn place(&self, name: Name) -> Range {
        self.places[name as usize]
    }
}

/// What a small form is with its places.
#[derive(Clone, Copy, Debug, PartialEq, Eq)]
pub enum Widened {
    /// 0: the places.
    To(Wide),
    /// 32: the line reader makes such a form on no input.
    NotMade,
}

impl Widened {
    /// The answer's number.
    pub fn number(self) -> u64 {
        match self {
            Widened::To(_) => 0,
            Widened::NotMade => 32,
        }
    }
}

/// The places of a small form. [`narrow`] of them gives it back.
pub fn widen(small: SmallRecord) -> Widened {
    let told = ffi::widen(small.ending as u64, &small.numbers);
    match (told.number, told.values()) {
        (0, [ending @ 0..=2, places @ ..]) if places.len() == PLACES => Widened::To(Wide {
            ending: Ending::ALL[size(*ending)],
            places: ranges(places),
        }),
        (32, []) => Widened::NotMade,
        _ => told.excluded("0 with the ending and ten places, or 32"),
    }
}

/// What places are in the small form.
#[derive(Clone, Copy, Debug, PartialEq, Eq)]
pub enum Narrowed {
    /// 0: the small form.
    To(SmallRecord),
    /// 32: the line reader makes such places on no input.
    NotMade,
}

impl Narrowed {
    /// The answer's number.
    pub fn number(self) -> u64 {
        match self {
            Narrowed::To(_) => 0,
            Narrowed::NotMade => 32,
        }
    }
}

/// The small form of places. [`widen`] of it gives them back.
pub fn narrow(wide: Wide) -> Narrowed {
    let number = |i: usize| {
        let place = wide.places[i / 2];
        if i % 2 == 0 {
            place.start
        } else {
            place.len
        }
    };
    let told = ffi::narrow(wide.ending as u64, &std::array::from_fn(number));
    match (told.number, told.values()) {
        (0, [ending @ 0..=2, numbers @ ..]) if numbers.len() == NUMBERS => {
            Narrowed::To(SmallRecord {
                ending: Ending::ALL[size(*ending)],
                numbers: std::array::from_fn(|i| size(numbers[i])),
            })
        }
        (32, []) => Narrowed::NotMade,
        _ => told.excluded("0 with the ending and eleven numbers, or 32"),
    }
}
