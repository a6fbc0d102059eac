//! Stand-in: the trait.
use crate::Header;
use std::io;
pub trait Filters {
    fn is_empty(&self) -> bool;
    fn len(&self) -> usize;
    fn iter<'a, 'h: 'a>(&'a self, header: &'h Header) -> Box<dyn Iterator<Item = io::Result<&'a str>> + 'a>;
}
