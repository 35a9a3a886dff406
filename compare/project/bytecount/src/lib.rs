//! A stand-in for the `bytecount` crate: the one function that the original
//! uses, as a plain loop.

/// How often a byte occurs.
pub fn count(haystack: &[u8], needle: u8) -> usize {
    haystack.iter().filter(|&&byte| byte == needle).count()
}
