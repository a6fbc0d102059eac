//! Stand-in: the trait.
pub trait Sample {}
