//! Stand-in: the text that the original fields.rs hands over. No entry of it is asked for.
#[derive(Debug)]
pub struct Ids<'r>(&'r str);
impl<'r> Ids<'r> {
    pub(super) fn new(src: &'r str) -> Self {
        Self(src)
    }
}
impl AsRef<str> for Ids<'_> {
    fn as_ref(&self) -> &str {
        self.0
    }
}
impl crate::variant::record::Ids for Ids<'_> {
    fn is_empty(&self) -> bool {
        self.0.is_empty()
    }
    fn len(&self) -> usize {
        unimplemented!("no entry is asked for")
    }
    fn iter(&self) -> Box<dyn Iterator<Item = &str> + '_> {
        unimplemented!("no entry is asked for")
    }
}
