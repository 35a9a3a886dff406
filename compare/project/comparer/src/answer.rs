//! What either side can answer, in a form that can be compared.

use std::fmt;

/// The numbers of a payload. 64 bits wide, so that nothing the original gives
/// is cut off before it is compared.
#[derive(Clone, PartialEq, Eq)]
pub struct Window {
    pub start: u64,
    pub length: u64,
    pub line: u64,
    pub column: u64,
    pub line_count: u64,
    pub data_length: u64,
    pub data_hash: u32,
}

/// The answer to a read.
#[derive(PartialEq, Eq)]
pub enum Read {
    Nothing,
    Window(Window),
    /// The payload's data is not the part of the source that its numbers name.
    Stray(Window),
    /// The original panicked, or the port broke the agreement on its results.
    Failed(String),
}

/// The answer to a look-up.
#[derive(PartialEq, Eq)]
pub enum LookUp {
    NoWindow,
    Nothing,
    Place {
        line: u64,
        column: u64,
    },
    /// As for [`Read`].
    Failed(String),
}

/// What the tally needs to know of an answer.
pub trait Answer: PartialEq + fmt::Display {
    fn failed(&self) -> bool;
}

impl Answer for Read {
    fn failed(&self) -> bool {
        matches!(self, Self::Failed(_))
    }
}

impl Answer for LookUp {
    fn failed(&self) -> bool {
        matches!(self, Self::Failed(_))
    }
}

impl From<Option<Window>> for Read {
    fn from(window: Option<Window>) -> Self {
        window.map_or(Self::Nothing, Self::Window)
    }
}

/// The hash that the port gives for a payload's data (32-bit FNV-1a).
pub fn hash(data: &[u8]) -> u32 {
    data.iter().fold(2_166_136_261, |hash, &byte| (hash ^ u32::from(byte)).wrapping_mul(16_777_619))
}

impl fmt::Display for Window {
    fn fmt(&self, f: &mut fmt::Formatter<'_>) -> fmt::Result {
        write!(
            f,
            "start {}, length {}, line {}, column {}, line_count {}, data length {}, data hash {:#010x}",
            self.start,
            self.length,
            self.line,
            self.column,
            self.line_count,
            self.data_length,
            self.data_hash
        )
    }
}

impl fmt::Display for Read {
    fn fmt(&self, f: &mut fmt::Formatter<'_>) -> fmt::Result {
        match self {
            Self::Nothing => write!(f, "none"),
            Self::Window(window) => write!(f, "{window}"),
            Self::Stray(window) => write!(f, "{window}, but the data lies elsewhere"),
            Self::Failed(reason) => write!(f, "failed: {reason}"),
        }
    }
}

impl fmt::Display for LookUp {
    fn fmt(&self, f: &mut fmt::Formatter<'_>) -> fmt::Result {
        match self {
            Self::NoWindow => write!(f, "no window"),
            Self::Nothing => write!(f, "none"),
            Self::Place { line, column } => write!(f, "line {line}, column {column}"),
            Self::Failed(reason) => write!(f, "failed: {reason}"),
        }
    }
}
