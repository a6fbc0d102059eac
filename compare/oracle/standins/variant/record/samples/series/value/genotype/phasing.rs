//! Stand-in.
#[derive(Clone, Copy, Debug, Eq, PartialEq)]
pub enum Phasing {
    Phased,
    Unphased,
}
