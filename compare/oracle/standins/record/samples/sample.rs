//! Stand-in: the text of one sample, as the original samples.rs cuts it.
use super::Keys;
#[derive(Debug)]
pub struct Sample<'r>(&'r str);
impl<'r> Sample<'r> {
    pub(super) fn new(src: &'r str, _keys: Keys<'r>) -> Self {
        Self(src)
    }
    pub fn text(&self) -> &'r str {
        self.0
    }
}
impl crate::variant::record::samples::Sample for Sample<'_> {}
