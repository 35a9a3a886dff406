//! What both sides are asked.

use std::fmt;

/// A span of a source.
#[derive(Clone, Copy)]
pub struct Span {
    pub offset: u32,
    pub length: u32,
}

/// How many lines to show around a span.
#[derive(Clone, Copy)]
pub struct Context {
    pub before: u32,
    pub after: u32,
}

/// A read of one span.
#[derive(Clone, Copy)]
pub struct Query {
    pub span: Span,
    pub context: Context,
}

impl Span {
    pub const fn pair(self) -> (u32, u32) {
        (self.offset, self.length)
    }

    /// The offset just past the span; it may need more than 32 bits.
    pub const fn end(self) -> u64 {
        self.offset as u64 + self.length as u64
    }

    /// The place of the last byte that the span takes, -1 where it takes none
    /// at the start of the source.
    pub const fn last(self) -> i64 {
        self.end() as i64 - 1
    }
}

impl fmt::Display for Span {
    fn fmt(&self, f: &mut fmt::Formatter<'_>) -> fmt::Result {
        write!(f, "({}, {})", self.offset, self.length)
    }
}

impl fmt::Display for Context {
    fn fmt(&self, f: &mut fmt::Formatter<'_>) -> fmt::Result {
        write!(f, "{} before, {} after", self.before, self.after)
    }
}

impl fmt::Display for Query {
    fn fmt(&self, f: &mut fmt::Formatter<'_>) -> fmt::Result {
        write!(f, "span {}, context {}", self.span, self.context)
    }
}
