//! Stand-in: a genotype's text, read by the original iterator.
mod iter; // original
use crate::variant::record::samples::series::value::{Genotype as Alleles, genotype::Phasing};
use std::io;
#[derive(Debug)]
pub struct Genotype<'a>(&'a str);
impl<'a> Genotype<'a> {
    pub fn new(src: &'a str) -> Self {
        Self(src)
    }
    /// The iterator itself, in no box.
    pub fn alleles(&self) -> impl Iterator<Item = io::Result<(Option<usize>, Phasing)>> + use<'a> {
        iter::Iter::new(self.0)
    }
}
impl Alleles for Genotype<'_> {
    fn iter(&self) -> Box<dyn Iterator<Item = io::Result<(Option<usize>, Phasing)>> + '_> {
        Box::new(self.alleles())
    }
}
