//! A stand-in for the `memchr` crate: the part that the original uses, as
//! plain loops. Same answers, no care for speed.

/// The first place of a byte.
pub fn memchr(needle: u8, haystack: &[u8]) -> Option<usize> {
    haystack.iter().position(|&byte| byte == needle)
}

/// The last place of a byte.
pub fn memrchr(needle: u8, haystack: &[u8]) -> Option<usize> {
    haystack.iter().rposition(|&byte| byte == needle)
}

/// All places of either byte, in rising order.
pub fn memchr2_iter(first: u8, second: u8, haystack: &[u8]) -> Memchr2<'_> {
    Memchr2 { needles: [first, second], haystack, next: 0 }
}

/// The iterator that [`memchr2_iter`] gives.
pub struct Memchr2<'a> {
    needles: [u8; 2],
    haystack: &'a [u8],
    next: usize,
}

impl Iterator for Memchr2<'_> {
    type Item = usize;

    fn next(&mut self) -> Option<usize> {
        let rest = &self.haystack[self.next..];
        let place = self.next + rest.iter().position(|byte| self.needles.contains(byte))?;
        self.next = place + 1;
        Some(place)
    }
}
