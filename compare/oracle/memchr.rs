//! Stand-in for the crate memchr, where its package can't be had: the same answers, slower.
pub fn memchr(a: u8, s: &[u8]) -> Option<usize> {
    s.iter().position(|&b| b == a)
}
pub fn memchr2(a: u8, c: u8, s: &[u8]) -> Option<usize> {
    s.iter().position(|&b| b == a || b == c)
}
