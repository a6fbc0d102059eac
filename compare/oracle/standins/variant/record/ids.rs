//! Stand-in: the trait.
pub trait Ids {
    fn is_empty(&self) -> bool;
    fn len(&self) -> usize;
    fn iter(&self) -> Box<dyn Iterator<Item = &str> + '_>;
}
