//! The original `Info::new` and `field::next` can be called from their own parent module alone. So the build puts the
//! same bytes here a second time, where they can be called on any text.
mod info; // original
pub(crate) mod steps {
    mod field; // original
    pub(crate) type Step<'a> = Option<std::io::Result<(&'a str, Option<&'a str>)>>;
    #[inline]
    pub(crate) fn next<'a>(src: &mut &'a str) -> Step<'a> {
        field::next(src)
    }
}
pub(crate) use self::info::Info;
pub(crate) fn info(text: &str) -> Info<'_> {
    Info::new(text)
}
