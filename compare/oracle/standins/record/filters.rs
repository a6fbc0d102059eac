//! Stand-in: the text that the original fields.rs hands over. No entry of it is asked for.
#[derive(Debug)]
pub struct Filters<'r>(&'r str);
impl<'r> Filters<'r> {
    pub(super) fn new(src: &'r str) -> Self {
        Self(src)
    }
}
impl AsRef<str> for Filters<'_> {
    fn as_ref(&self) -> &str {
        self.0
    }
}
impl crate::variant::record::Filters for Filters<'_> {
    fn is_empty(&self) -> bool {
        self.0.is_empty()
    }
    fn len(&self) -> usize {
        unimplemented!("no entry is asked for")
    }
    fn iter<'a, 'h: 'a>(&'a self, _: &'h crate::Header) -> Box<dyn Iterator<Item = std::io::Result<&'a str>> + 'a> {
        unimplemented!("no entry is asked for")
    }
}
