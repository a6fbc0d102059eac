//! Stand-in: the trait and its value.
use crate::Header;
use std::io;
pub mod value {
    pub mod genotype; // original
    pub use self::genotype::Genotype;
    pub enum Value {
        Integer(i32),
    }
}
pub use self::value::Value;
pub trait Series {
    fn iter<'a, 'h: 'a>(&'a self, header: &'h Header) -> Box<dyn Iterator<Item = io::Result<Option<Value>>> + 'a>;
}
