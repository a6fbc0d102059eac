//! Stand-in for the crate noodles-core: `Position`, as the originals use it. That 0 is the one value it refuses is
//! assumed: it decides the POS texts worth 0 other than `0`.
use std::num::{NonZeroUsize, TryFromIntError};

#[derive(Clone, Copy, Debug, Eq, Ord, PartialEq, PartialOrd)]
pub struct Position(NonZeroUsize);

impl Position {
    pub const MIN: Self = Self(NonZeroUsize::MIN);
    pub fn checked_add(self, n: usize) -> Option<Self> {
        self.0.checked_add(n).map(Self)
    }
}
impl TryFrom<usize> for Position {
    type Error = TryFromIntError;
    fn try_from(n: usize) -> Result<Self, Self::Error> {
        NonZeroUsize::try_from(n).map(Self)
    }
}
impl From<Position> for usize {
    fn from(p: Position) -> usize {
        p.0.get()
    }
}
