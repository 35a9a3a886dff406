//! The C boundary of the port, with a safe wrapper for each function.

unsafe extern "C" {
    fn port_read(
        source: *const u8,
        source_len: usize,
        offset: u32,
        length: u32,
        before: u32,
        after: u32,
        out: *mut u32,
        out_len: usize,
    ) -> u32;

    fn port_look_up(
        source: *const u8,
        source_len: usize,
        offset: u32,
        length: u32,
        before: u32,
        after: u32,
        at: u32,
        out: *mut u64,
        out_len: usize,
    ) -> u32;
}

/// What `out` holds before a call, to see whether the port wrote to it.
const UNTOUCHED: u32 = 0xA5A5_A5A5;

/// The numbers that `port_read` writes, in its order.
pub struct Payload {
    pub start: u32,
    pub length: u32,
    pub line: u32,
    pub column: u32,
    pub line_count: u32,
    pub data_length: u32,
    pub data_hash: u32,
}

/// What `port_look_up` can answer.
pub enum Place {
    NoWindow,
    Nothing,
    At { line: u64, column: u64 },
}

/// Reads the window of a span. An error tells how the port broke the agreement
/// on its result or on `out`.
pub fn read(
    source: &[u8],
    span: (u32, u32),
    before: u32,
    after: u32,
) -> Result<Option<Payload>, String> {
    let mut out = [UNTOUCHED; 7];
    // SAFETY: both pointers come from slices and go with their lengths.
    let result = unsafe {
        port_read(
            source.as_ptr(),
            source.len(),
            span.0,
            span.1,
            before,
            after,
            out.as_mut_ptr(),
            out.len(),
        )
    };
    match result {
        0 if out == [UNTOUCHED; 7] => Ok(None),
        0 => Err(format!("port_read returned 0 but wrote {out:?}")),
        1 => {
            let [start, length, line, column, line_count, data_length, data_hash] = out;
            Ok(Some(Payload { start, length, line, column, line_count, data_length, data_hash }))
        }
        other => Err(format!("port_read returned {other}")),
    }
}

/// Reads the window of a span and looks an offset up in its payload. An error
/// tells how the port broke the agreement on its result.
pub fn look_up(
    source: &[u8],
    span: (u32, u32),
    before: u32,
    after: u32,
    at: u32,
) -> Result<Place, String> {
    let mut out = [0; 2];
    // SAFETY: both pointers come from slices and go with their lengths.
    let result = unsafe {
        port_look_up(
            source.as_ptr(),
            source.len(),
            span.0,
            span.1,
            before,
            after,
            at,
            out.as_mut_ptr(),
            out.len(),
        )
    };
    match result {
        0 => Ok(Place::NoWindow),
        1 => Ok(Place::Nothing),
        2 => Ok(Place::At { line: out[0], column: out[1] }),
        other => Err(format!("port_look_up returned {other}")),
    }
}
