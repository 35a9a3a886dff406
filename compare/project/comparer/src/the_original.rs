//! Asks the original. A panic of the original is caught and becomes an answer.

use std::{
    any::Any,
    panic::{AssertUnwindSafe, catch_unwind, set_hook, take_hook},
    sync::atomic::{AtomicBool, Ordering::Relaxed},
};

use original::access::{self, SpanContents};

use crate::{
    answer::{LookUp, Read, Window, hash},
    query::{Context, Query, Span},
    source::Source,
};

/// A payload of the original.
pub struct Payload<'a>(SpanContents<'a>);

/// A scanner of the original on one source.
pub struct Scanner<'a> {
    source: &'a Source,
    scanner: access::Scanner<'a>,
}

/// A read on its own.
pub fn read(source: &Source, query: &Query) -> Read {
    judge(source, caught(|| read_contents(source, query)))
}

/// The payload of a read. An error tells why the read panicked.
pub fn payload<'a>(source: &'a Source, query: &Query) -> Result<Option<Payload<'a>>, String> {
    Ok(caught(|| read_contents(source, query))?.map(Payload))
}

impl Payload<'_> {
    pub fn end(&self) -> u32 {
        let span = self.0.span();
        span.offset() + span.len()
    }

    pub fn look_up(&self, at: u32) -> LookUp {
        match caught(|| access::line_column_at(&self.0, at as usize)) {
            Ok(None) => LookUp::Nothing,
            Ok(Some((line, column))) => LookUp::Place { line: line as u64, column: column as u64 },
            Err(reason) => LookUp::Failed(reason),
        }
    }
}

impl<'a> Scanner<'a> {
    pub fn new(source: &'a Source, context: Context) -> Self {
        let scanner =
            access::Scanner::new(source.text(), context.before as usize, context.after as usize);
        Self { source, scanner }
    }

    /// The next read on this scanner. After a panic the scanner is of no use.
    pub fn read(&mut self, span: Span) -> Read {
        judge(self.source, caught(|| self.scanner.read_span(span.pair())))
    }
}

fn read_contents<'a>(source: &'a Source, query: &Query) -> Option<SpanContents<'a>> {
    let Query { span, context } = query;
    access::read(source.text(), span.pair(), context.before as usize, context.after as usize)
}

fn judge(source: &Source, result: Result<Option<SpanContents<'_>>, String>) -> Read {
    match result {
        Ok(None) => Read::Nothing,
        Ok(Some(contents)) => judge_contents(source, &contents),
        Err(reason) => Read::Failed(reason),
    }
}

fn judge_contents(source: &Source, contents: &SpanContents<'_>) -> Read {
    let start = contents.span().offset() as usize;
    let length = contents.span().len() as usize;
    let data = contents.data();
    let window = Window {
        start: start as u64,
        length: length as u64,
        line: contents.line() as u64,
        column: contents.column() as u64,
        line_count: contents.line_count() as u64,
        data_length: data.len() as u64,
        data_hash: hash(data),
    };
    if source.text().get(start..start + length) == Some(data) {
        Read::Window(window)
    } else {
        Read::Stray(window)
    }
}

/// Whether a panic would be the original's, to be caught and counted.
static CATCHING: AtomicBool = AtomicBool::new(false);

fn caught<T>(work: impl FnOnce() -> T) -> Result<T, String> {
    CATCHING.store(true, Relaxed);
    let result = catch_unwind(AssertUnwindSafe(work));
    CATCHING.store(false, Relaxed);
    result.map_err(|panic| message(panic.as_ref()))
}

fn message(panic: &(dyn Any + Send)) -> String {
    let text = panic.downcast_ref::<&str>().map(|text| (*text).to_owned());
    text.or_else(|| panic.downcast_ref::<String>().cloned()).unwrap_or_else(|| "panic".to_owned())
}

/// Keeps the original's panics off the screen; all others still show.
pub fn quiet_panics() {
    let usual = take_hook();
    set_hook(Box::new(move |info| {
        if !CATCHING.load(Relaxed) {
            usual(info);
        }
    }));
}
