//! Stand-in.
pub mod key {
    pub const LENGTH: &str = "LEN";
}
