//! Stand-in: the pieces between colons, none in the empty text.
#[derive(Debug)]
pub struct Keys<'r>(&'r str);
impl<'r> Keys<'r> {
    pub(super) fn new(src: &'r str) -> Self {
        Self(src)
    }
    pub fn iter(&self) -> impl Iterator<Item = &'r str> + use<'r> {
        let src = (!self.0.is_empty()).then_some(self.0);
        src.into_iter().flat_map(|s| s.split(':'))
    }
}
