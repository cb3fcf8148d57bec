//! What an engine writes.

use crate::error::{checked, Error, NO_ROOM};
use crate::raw;
use crate::record::{Checkpoint, Entry, Record};

/// The bytes of a store's header.
pub const STORE_HEADER_BYTES: usize = 24;

/// The bytes of most frames, at most: all but those of checkpoint ends.
const FRAME_ROOM: usize = 128;

/// How a log begins.
#[derive(Clone, Copy, Debug, PartialEq, Eq)]
pub enum Start {
    Version1,
    /// The LSN behind which the log begins, at most 2^63 - 1.
    Version2 {
        base_lsn: u64,
    },
}

/// What `write` puts into a buffer of at least this room; it is called again with the room that it asks for.
fn written(
    mut room: usize,
    write: impl Fn(*mut u8, usize, &mut usize) -> raw::Fault,
) -> Result<Vec<u8>, Error> {
    loop {
        let (mut out, mut length) = (vec![0; room], 0);
        let fault = write(out.as_mut_ptr(), out.len(), &mut length);
        if fault.number == NO_ROOM && length > room {
            room = length;
            continue;
        }
        checked(fault)?;
        out.truncate(length);
        return Ok(out);
    }
}

/// The bytes that a log begins with.
///
/// # Errors
/// `NotWritable` where the base LSN is out of its range.
pub fn log_header(start: Start) -> Result<Vec<u8>, Error> {
    let (version, base_lsn) = match start {
        Start::Version1 => (1, 0),
        Start::Version2 { base_lsn } => (2, base_lsn),
    };
    // SAFETY: a buffer with its length.
    written(16, |out, room, length| unsafe {
        raw::aries_write_log_header(version, base_lsn, out, room, length)
    })
}

/// The frame of a record with this LSN, to be appended to a log whose last LSN is the one before.
///
/// # Errors
/// `NotWritable`: an LSN or a transaction number of 0, a slot above 15, or a checkpoint's end. `NoResource`.
pub fn frame(lsn: u64, record: &Record) -> Result<Vec<u8>, Error> {
    let record = record.to_raw(lsn);
    // SAFETY: a struct as declared, and a buffer with its length.
    written(FRAME_ROOM, |out, room, length| unsafe {
        raw::aries_write_record(&record, out, room, length)
    })
}

/// The frame of a checkpoint's end with this LSN.
///
/// # Errors
/// `NotWritable`: a table that is not in rising order or too long, an LSN or a transaction number of 0. `NoResource`.
pub fn checkpoint_end_frame(lsn: u64, checkpoint: &Checkpoint) -> Result<Vec<u8>, Error> {
    let transactions: Vec<raw::Entry> = checkpoint
        .transactions
        .iter()
        .map(|it| Entry::to_raw(*it))
        .collect();
    let dirty: Vec<raw::Dirty> = checkpoint
        .dirty
        .iter()
        .map(|it| raw::Dirty {
            rec_lsn: it.rec_lsn,
            page: it.page,
        })
        .collect();
    // SAFETY: slices with their lengths, and a buffer with its own.
    written(FRAME_ROOM, |out, room, length| unsafe {
        raw::aries_write_checkpoint_end(
            lsn,
            checkpoint.begin,
            transactions.as_ptr(),
            transactions.len(),
            dirty.as_ptr(),
            dirty.len(),
            out,
            room,
            length,
        )
    })
}

/// The header of a store of this many pages, 1 to 4,096, with the LSN of the last whole checkpoint's begin, 0 for none.
///
/// # Errors
/// `NotWritable` where the page count is out of its range.
pub fn store_header(pages: u32, master: u64) -> Result<[u8; STORE_HEADER_BYTES], Error> {
    let (mut out, mut length) = ([0; STORE_HEADER_BYTES], 0);
    // SAFETY: a buffer with its length.
    checked(unsafe {
        raw::aries_write_store_header(pages, master, out.as_mut_ptr(), out.len(), &mut length)
    })?;
    Ok(out)
}
