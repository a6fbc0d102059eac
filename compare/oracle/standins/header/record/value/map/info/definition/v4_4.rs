//! Stand-in: no INFO key is reserved.
use super::{Number, Type};
pub(super) fn definition(_key: &str) -> Option<(Number, Type, &'static str)> {
    None
}
