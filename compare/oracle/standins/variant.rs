//! Stand-in: the modules around the originals.
pub mod record; // original
pub use self::record::Record;
