//! noodles-vcf 0.96.0 as far as the port reaches: its own files, unchanged, each marked `original` where it is named,
//! and stand-ins for those around them. Everything else here is written for the comparison.
#![allow(dead_code, unused_imports)] // the originals have more than is asked of them

pub mod calls;
pub mod cases;
pub mod header;
pub mod io;
mod probe;
pub mod record; // original
pub mod variant;

pub use self::{header::Header, record::Record};
