//! Asks the port.

use port::Place;

use crate::{
    answer::{LookUp, Read, Window},
    query::Query,
    source::Source,
};

pub fn read(source: &Source, query: &Query) -> Read {
    let Query { span, context } = query;
    match port::read(source.text(), span.pair(), context.before, context.after) {
        Ok(None) => Read::Nothing,
        Ok(Some(payload)) => Read::Window(Window {
            start: payload.start.into(),
            length: payload.length.into(),
            line: payload.line.into(),
            column: payload.column.into(),
            line_count: payload.line_count.into(),
            data_length: payload.data_length.into(),
            data_hash: payload.data_hash,
        }),
        Err(reason) => Read::Failed(reason),
    }
}

pub fn look_up(source: &Source, query: &Query, at: u32) -> LookUp {
    let Query { span, context } = query;
    match port::look_up(source.text(), span.pair(), context.before, context.after, at) {
        Ok(Place::NoWindow) => LookUp::NoWindow,
        Ok(Place::Nothing) => LookUp::Nothing,
        Ok(Place::At { line, column }) => LookUp::Place { line, column },
        Err(reason) => LookUp::Failed(reason),
    }
}
