//! Stand-in: what `select` of the original samples.rs answers, and the modules around the genotype iterator.
use super::Samples;
use crate::{Header, variant::record::samples::series::Value};
use std::io;
pub mod value {
    pub mod genotype;
}
pub struct Series<'r> {
    pub name: &'r str,
    pub index: usize,
}
impl<'r> Series<'r> {
    pub(super) fn new(name: &'r str, _samples: &'r Samples<'r>, index: usize) -> Self {
        Self { name, index }
    }
}
impl crate::variant::record::samples::Series for Series<'_> {
    fn iter<'a, 'h: 'a>(&'a self, _: &'h Header) -> Box<dyn Iterator<Item = io::Result<Option<Value>>> + 'a> {
        unimplemented!("no series is asked for")
    }
}
