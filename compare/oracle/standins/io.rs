//! Stand-in: the modules around the originals.
pub mod reader;
pub(crate) mod writer {
    pub(crate) mod record;
}
pub use self::reader::Reader;
