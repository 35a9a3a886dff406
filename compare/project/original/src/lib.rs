//! A crate root for two files of oxc-miette 4.0.0.
//!
//! `protocol.rs` and `source_impls.rs` are not kept here: `prepare` copies
//! them in, unchanged but for the text of `access.rs.txt` that it appends to
//! the second.

// Most of the two files is not wanted here.
#![allow(dead_code)]

mod protocol;
mod source_impls;

// The original's files name these two through the crate root.
pub use protocol::{SourceCode, SourceSpan};

pub use source_impls::access;
