//! The known faults of the original, which the port does not have.
//!
//! The class of a query follows from the source and the query alone. A row in
//! which the two sides differ counts under the class only if the difference is
//! the one that the fault makes: the port is right, and the original is off in
//! just the known way. So a fault of the port cannot hide behind a class.

use crate::{
    answer::{LookUp, Read, Window},
    query::{Query, Span},
    rules,
    source::Source,
};

#[derive(Clone, Copy)]
pub enum Class {
    /// No lines before, one or more after, and a break starts after the span's
    /// last byte: the original gives column 0.
    Column,
    /// An empty span at offset 0: the original takes byte 0 as its last byte.
    EmptyAtZero,
}

impl Class {
    pub const ALL: [Self; 2] = [Self::Column, Self::EmptyAtZero];

    pub const fn name(self) -> &'static str {
        match self {
            Self::Column => "column",
            Self::EmptyAtZero => "empty-at-0",
        }
    }

    fn of(source: &Source, query: &Query) -> Option<Self> {
        if query.span.end() == 0 {
            Some(Self::EmptyAtZero)
        } else if loses_column(source, query) {
            Some(Self::Column)
        } else {
            None
        }
    }

    /// The window that the original gives, fault and all.
    fn faulty_window(self, source: &Source, query: &Query) -> Option<Window> {
        match self {
            Self::Column => {
                rules::window(source, query).map(|window| Window { column: 0, ..window })
            }
            Self::EmptyAtZero => {
                let span = Span { offset: 0, length: 1 };
                rules::window(source, &Query { span, ..*query })
            }
        }
    }
}

fn loses_column(source: &Source, query: &Query) -> bool {
    query.context.before == 0
        && query.context.after >= 1
        && rules::has_window(source, query)
        && source.breaks().iter().any(|b| b.start as i64 > query.span.last())
}

/// The class that explains a difference between two reads, if one does.
pub fn explain_read(source: &Source, query: &Query, original: &Read, port: &Read) -> Option<Class> {
    let class = Class::of(source, query)?;
    let right = Read::from(rules::window(source, query));
    let faulty = Read::from(class.faulty_window(source, query));
    (*port == right && *original == faulty).then_some(class)
}

/// The class that explains a difference between two look-ups, if one does.
pub fn explain_look_up(
    source: &Source,
    query: &Query,
    at: u32,
    original: &LookUp,
    port: &LookUp,
) -> Option<Class> {
    let class = Class::of(source, query)?;
    let right = rules::look_up(source, &rules::window(source, query)?, at);
    let faulty = rules::look_up(source, &class.faulty_window(source, query)?, at);
    (*port == right && *original == faulty).then_some(class)
}
