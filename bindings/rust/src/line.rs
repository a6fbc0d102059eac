//! Lines, how they ended, and the places of their ten fields.

use crate::ffi::{self, ranges, size, LINE_VALUES, PLACES};
use crate::fields::{text_in, Text};
use crate::forms::{narrow, Narrowed, SmallRecord, Wide};
use crate::text::Range;

/// The ten fields of a line.
#[derive(Clone, Copy, Debug, PartialEq, Eq, Hash)]
pub enum Name {
    /// CHROM
    Chrom,
    /// POS
    Pos,
    /// ID
    Id,
    /// REF
    Reference,
    /// ALT
    Alt,
    /// QUAL
    Qual,
    /// FILTER
    Filter,
    /// INFO
    Info,
    /// FORMAT, empty where the line has none
    Format,
    /// The samples and the tabs between them, empty where the line has none
    Samples,
}

impl Name {
    /// All ten, in their order.
    pub const ALL: [Name; 10] = [
        Name::Chrom,
        Name::Pos,
        Name::Id,
        Name::Reference,
        Name::Alt,
        Name::Qual,
        Name::Filter,
        Name::Info,
        Name::Format,
        Name::Samples,
    ];
}

/// How a line ends.
#[derive(Clone, Copy, Debug, PartialEq, Eq, Hash)]
pub enum Ending {
    /// By the end of the input: no byte.
    Nothing,
    /// LF
    Feed,
    /// CR LF
    ReturnFeed,
}

impl Ending {
    /// All three, each at the number of its bytes.
    pub const ALL: [Ending; 3] = [Ending::Nothing, Ending::Feed, Ending::ReturnFeed];
}

/// A line that was read, with the text that it was read from.
#[derive(Clone, Copy, Debug, PartialEq, Eq)]
pub struct Record<'a> {
    source: &'a [u8],
    ending: Ending,
    places: [Range; 10],
}

impl<'a> Record<'a> {
    /// The text that the line was read from, whole.
    pub fn source(&self) -> &'a [u8] {
        self.source
    }

    /// How the line ended. [`join`](crate::join::join) writes the same bytes again if it is given this.
    pub fn ending(&self) -> Ending {
        self.ending
    }

    /// Where the column of a field stands in the source, a `.` as it stands.
    pub fn place(&self, name: Name) -> Range {
        self.places[name as usize]
    }

    /// Where the text of a field stands in the source. `None` is an absent one, a `.` in QUAL. A `.` in ID, ALT, FILTER or INFO
    /// reads as the empty text at its column's end.
    pub fn text_place(&self, name: Name) -> Option<Range> {
        match text_in(self.source, name, self.place(name)) {
            Text::At(place) => Some(place),
            Text::Absent => None,
            Text::Beyond => {
                unreachable!("the contract says that the places of a line fit its text")
            }
        }
    }

    /// The text of a field. `None` is an absent one, as of [`Record::text_place`].
    pub fn text(&self, name: Name) -> Option<&'a [u8]> {
        let place = self.text_place(name)?;
        Some(&self.source[place.start..place.start + place.len])
    }

    /// The ending and the ten places, without the source.
    pub fn wide(&self) -> Wide {
        Wide {
            ending: self.ending,
            places: self.places,
        }
    }

    /// The same in the small form, for who keeps many. [`widen`](crate::forms::widen) gives the places back.
    pub fn small(&self) -> SmallRecord {
        match narrow(self.wide()) {
            Narrowed::To(small) => small,
            Narrowed::NotMade => {
                unreachable!("the contract says that a line that was read has a small form")
            }
        }
    }
}

/// What reading at a place finds. Each case has the next place.
#[derive(Clone, Copy, Debug, PartialEq, Eq)]
pub enum Read<'a> {
    /// 0: a line.
    Line(Record<'a>, usize),
    /// 1: the place is the end of the input.
    End(usize),
    /// 2: an empty column.
    Empty(usize),
    /// 3: a column ended by LF that must be ended by a tab.
    Fed(usize),
    /// 4: a column cut by the end of the input.
    Cut(usize),
    /// 5: a column that is not UTF-8.
    NotUtf8(usize),
    /// 6: the place lies beyond the input.
    Beyond(usize),
}

impl Read<'_> {
    /// The answer's number.
    pub fn number(self) -> u64 {
        match self {
            Read::Line(..) => 0,
            Read::End(_) => 1,
            Read::Empty(_) => 2,
            Read::Fed(_) => 3,
            Read::Cut(_) => 4,
            Read::NotUtf8(_) => 5,
            Read::Beyond(_) => 6,
        }
    }

    /// The place from which to go on.
    pub fn next(self) -> usize {
        match self {
            Read::Line(_, next)
            | Read::End(next)
            | Read::Empty(next)
            | Read::Fed(next)
            | Read::Cut(next)
            | Read::NotUtf8(next)
            | Read::Beyond(next) => next,
        }
    }
}

pub(crate) fn read_of(s: &[u8], told: ffi::Told<LINE_VALUES>) -> Read<'_> {
    match (told.number, told.values()) {
        (0, [next, ending @ 0..=2, places @ ..]) if places.len() == PLACES => {
            let record = Record {
                source: s,
                ending: Ending::ALL[size(*ending)],
                places: ranges(places),
            };
            Read::Line(record, size(*next))
        }
        (1, &[next]) => Read::End(size(next)),
        (2, &[next]) => Read::Empty(size(next)),
        (3, &[next]) => Read::Fed(size(next)),
        (4, &[next]) => Read::Cut(size(next)),
        (5, &[next]) => Read::NotUtf8(size(next)),
        (6, &[next]) => Read::Beyond(size(next)),
        _ => told.excluded(
            "0 with the next place, the ending and ten places, or 1 to 6 with the next place",
        ),
    }
}

/// Reads the line at the place `at` of the input.
pub fn read_line(s: &[u8], at: usize) -> Read<'_> {
    read_of(s, ffi::read_line(s, at))
}
