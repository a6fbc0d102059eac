//! Stand-in: the reader that the original record.rs names.
pub(crate) mod record; // original
pub(crate) mod record_buf {
    pub(crate) mod value {
        //! A value's text as it stands: the places of values are compared, not what escapes in them mean.
        use std::{borrow::Cow, str};
        pub fn percent_decode(s: &str) -> Result<Cow<'_, str>, str::Utf8Error> {
            Ok(Cow::Borrowed(s))
        }
    }
}

use crate::Record;
use std::io::{self, BufRead};

pub struct Reader<R>(R);
impl<R: BufRead> Reader<R> {
    pub fn new(inner: R) -> Self {
        Self(inner)
    }
    pub fn read_record(&mut self, record: &mut Record) -> io::Result<usize> {
        record::read_record(&mut self.0, record)
    }
}
