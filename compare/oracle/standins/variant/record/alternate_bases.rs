//! Stand-in: the trait.
use std::io;
pub trait AlternateBases {
    fn is_empty(&self) -> bool;
    fn len(&self) -> usize;
    fn iter(&self) -> Box<dyn Iterator<Item = io::Result<&str>> + '_>;
}
