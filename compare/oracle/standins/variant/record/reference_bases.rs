//! Stand-in: the trait.
pub trait ReferenceBases {
    fn is_empty(&self) -> bool;
    fn len(&self) -> usize;
}
impl ReferenceBases for &str {
    fn is_empty(&self) -> bool {
        (**self).is_empty()
    }
    fn len(&self) -> usize {
        (**self).len()
    }
}
