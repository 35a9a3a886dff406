//! A source text, with its line breaks at hand.

use std::fmt;

use crate::rules::{Break, breaks};

pub struct Source {
    guarded: Vec<u8>,
    breaks: Vec<Break>,
}

impl Source {
    /// Keeps the text between a CR and an LF that are not part of it, so that a
    /// reader that strays one byte out at either side finds a CR LF or a break
    /// that the source does not have.
    pub fn new(text: &[u8]) -> Self {
        let guarded = [b"\r", text, b"\n"].concat();
        Self { guarded, breaks: breaks(text) }
    }

    pub fn text(&self) -> &[u8] {
        &self.guarded[1..self.guarded.len() - 1]
    }

    pub fn len(&self) -> u64 {
        self.text().len() as u64
    }

    pub fn breaks(&self) -> &[Break] {
        &self.breaks
    }
}

impl fmt::Display for Source {
    fn fmt(&self, f: &mut fmt::Formatter<'_>) -> fmt::Result {
        write!(f, "\"{}\" (length {})", self.text().escape_ascii(), self.len())
    }
}
