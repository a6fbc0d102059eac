//! The calls into the originals, for `cases` here and for a benchmark that links this library. A record's own functions
//! (`variant_start`, `info`, `samples` and so on) can be called as they are.
use std::io;

pub use crate::record::samples::series::value::genotype::Genotype;
pub use crate::variant::record::samples::series::value::{Genotype as Alleles, genotype::Phasing};
use crate::variant::record::{AlternateBases, Filters, Info as _};
use crate::{Header, Record, io::reader, io::writer::record as writer, probe};

/// A line from the front of `src`, which moves past it: its length, 0 at the end.
#[inline]
pub fn read_record(src: &mut impl io::BufRead, record: &mut Record) -> io::Result<usize> {
    reader::record::read_record(src, record)
}

/// An INFO entry from the front of `src`, which moves past it: its key and its value.
#[inline]
pub fn info_step<'a>(src: &mut &'a str) -> Option<io::Result<(&'a str, Option<&'a str>)>> {
    probe::steps::next(src)
}

#[inline]
pub fn info_count(column: &str) -> usize {
    probe::info(column).len()
}

/// What `Info::get` says of a key. A text is told by where it lies.
pub enum Got {
    Nothing,
    Refused(io::Error),
    Absent,
    Empty,
    Dot,
    Text(*const u8, usize),
}

/// `Info::get` under a header that defines no key, where a value is a string.
pub fn info_get(column: &str, key: &str) -> Got {
    use crate::variant::record::info::field::Value;
    match probe::info(column).get(&Header::default(), key) {
        None => Got::Nothing,
        Some(Ok(None)) => Got::Dot,
        Some(Ok(Some(Value::Flag))) => Got::Absent,
        Some(Ok(Some(Value::String(text)))) => Got::Text(text.as_ptr(), text.len()),
        Some(Ok(Some(_))) => unreachable!("a key with no definition has a string"),
        Some(Err(e)) if e.to_string() == "empty value" => Got::Empty,
        Some(Err(e)) => Got::Refused(e),
    }
}

#[inline]
pub fn write_genotype(out: &mut Vec<u8>, header: &Header, list: &dyn Alleles) -> io::Result<()> {
    writer::samples::sample::value::write(out, header, list)
}

/// Whether the filters were written.
pub fn write_filters<F: Filters>(out: &mut Vec<u8>, list: F) -> bool {
    writer::filters(out, list).is_ok()
}

/// Whether the ALT entries were written.
pub fn write_alts<B: AlternateBases>(out: &mut Vec<u8>, list: B) -> bool {
    writer::alts(out, list).is_ok()
}
