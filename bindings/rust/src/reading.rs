//! Reading a log.

use crate::error::{checked, Error, NOT_WRITABLE, NO_ROOM};
use crate::raw;
use crate::record::{Checkpoint, Dirty, Entry, Record};

/// A log, or a stretch of it.
#[derive(Clone, Debug, PartialEq, Eq)]
pub struct Records {
    /// The LSN behind which the log begins.
    pub base_lsn: u64,
    /// How many records the log has in all.
    pub count: u64,
    /// The bytes of the torn tail.
    pub torn: u64,
    /// The records that were asked for, with their LSNs.
    pub records: Vec<(u64, Record)>,
}

fn records_into(log: &[u8], first: u64, out: &mut [raw::Record]) -> Result<raw::Read, Error> {
    let mut read = raw::Read::default();
    // SAFETY: slices with their lengths, and a struct as declared.
    checked(unsafe {
        raw::aries_records(
            log.as_ptr(),
            log.len(),
            first,
            out.as_mut_ptr(),
            out.len(),
            &mut read,
        )
    })?;
    Ok(read)
}

/// The records of a log from the LSN `first` on, at most this many. A call reads the whole log: ask for many at once.
///
/// # Errors
/// `BadLogHeader`, `BadLength`, `BadRecord`, `BadLsn`: the bytes are no log. `NoResource`.
pub fn records(log: &[u8], first: u64, most: usize) -> Result<Records, Error> {
    let whole = records_into(log, first, &mut [])?;
    let room = most.min(usize::try_from(whole.records).unwrap_or(usize::MAX));
    let mut out = vec![Record::CheckpointBegin.to_raw(0); room];
    let read = records_into(log, first, &mut out)?;
    out.truncate(read.given as usize);
    let records = out
        .iter()
        .filter_map(|raw| Some((raw.lsn, Record::from_raw(raw)?)))
        .collect();
    Ok(Records {
        base_lsn: read.base_lsn,
        count: read.records,
        torn: read.torn,
        records,
    })
}

/// The tables of the checkpoint end with this LSN; None where no checkpoint end stands there.
///
/// # Errors
/// As of [`records`].
pub fn checkpoint(log: &[u8], lsn: u64) -> Result<Option<Checkpoint>, Error> {
    let (mut transactions, mut dirty) = (Vec::new(), Vec::new());
    let mut made = raw::Tables::default();
    loop {
        // SAFETY: slices with their lengths, and a struct as declared.
        let fault = unsafe {
            raw::aries_checkpoint(
                log.as_ptr(),
                log.len(),
                lsn,
                transactions.as_mut_ptr(),
                transactions.len(),
                dirty.as_mut_ptr(),
                dirty.len(),
                &mut made,
            )
        };
        match fault.number {
            NO_ROOM => {
                transactions = vec![raw::Entry::default(); made.transactions as usize];
                dirty = vec![raw::Dirty::default(); made.dirty as usize];
            }
            NOT_WRITABLE => return Ok(None),
            _ => {
                checked(fault)?;
                let transactions = transactions.iter().filter_map(Entry::from_raw).collect();
                let dirty = dirty
                    .iter()
                    .map(|it| Dirty {
                        page: it.page,
                        rec_lsn: it.rec_lsn,
                    })
                    .collect();
                return Ok(Some(Checkpoint {
                    begin: made.begin,
                    transactions,
                    dirty,
                }));
            }
        }
    }
}

/// A place in a log between two records, from which one record after the other is read.
#[derive(Clone, Copy, Debug, PartialEq, Eq)]
pub struct Mark {
    /// The LSN of the last record before it; the base LSN if there is none.
    pub lsn: u64,
    /// How many bytes of the log come before it.
    pub offset: u64,
}

/// The mark before the first record of a log. Only the header is read.
///
/// # Errors
/// `BadLogHeader`.
pub fn log_begin(log: &[u8]) -> Result<Mark, Error> {
    let mut mark = raw::Mark::default();
    // SAFETY: a slice with its length, and a struct as declared.
    checked(unsafe { raw::aries_log_begin(log.as_ptr(), log.len(), &mut mark) })?;
    Ok(Mark {
        lsn: mark.lsn,
        offset: mark.offset,
    })
}

/// The record after a mark, and the mark after that record; None at the end of the log, where a torn tail may follow. Only
/// the frame of the record is read. With a mark that is none of the log the result is not specified.
///
/// # Errors
/// `BadLength`, `BadRecord`, `BadLsn`: what follows is not a frame of the log.
pub fn next_record(log: &[u8], mark: Mark) -> Result<Option<(Record, Mark)>, Error> {
    let mut next = raw::Mark {
        lsn: mark.lsn,
        offset: mark.offset,
    };
    let mut record = Record::CheckpointBegin.to_raw(0);
    // SAFETY: a slice with its length, and structs as declared.
    let fault = unsafe { raw::aries_next_record(log.as_ptr(), log.len(), &mut next, &mut record) };
    if fault.number == NOT_WRITABLE {
        return Ok(None);
    }
    checked(fault)?;
    let next = Mark {
        lsn: next.lsn,
        offset: next.offset,
    };
    Ok(Record::from_raw(&record).map(|record| (record, next)))
}

/// Where a log ends, and what follows it.
#[derive(Clone, Copy, Debug, PartialEq, Eq)]
pub struct LogEnd {
    /// So many bytes from the front are a log without a torn tail, and no more are.
    pub length: u64,
    /// The LSN of the last record in them; the base LSN if there is none.
    pub last_lsn: u64,
    /// The bytes of a torn tail after them.
    pub torn: u64,
    /// What is wrong with the bytes after them, if they are not a torn tail.
    pub damage: Option<Error>,
}

/// Finds the end of a log whose last bytes may be anything, as after a power cut.
///
/// # Errors
/// `BadLogHeader`.
pub fn log_end(log: &[u8]) -> Result<LogEnd, Error> {
    let mut end = raw::LogEnd::default();
    // SAFETY: a slice with its length, and a struct as declared.
    checked(unsafe { raw::aries_log_end(log.as_ptr(), log.len(), &mut end) })?;
    Ok(LogEnd {
        length: end.length,
        last_lsn: end.last_lsn,
        torn: end.torn,
        damage: checked(end.damage).err(),
    })
}

/// What an engine that continues a log has to know of it.
#[derive(Clone, Debug, PartialEq, Eq)]
pub struct LogState {
    /// The LSN of the last record; the base LSN if there is none.
    pub last_lsn: u64,
    /// The highest number of a transaction that has a record, 0 if none has.
    pub highest: u32,
    /// The transactions that have neither committed nor ended, in ascending order.
    pub unfinished: Vec<Entry>,
}

/// The last LSN of a log, its highest transaction number, and its unfinished transactions. The whole log is read.
///
/// # Errors
/// As of [`records`].
pub fn unfinished(log: &[u8]) -> Result<LogState, Error> {
    let mut entries = Vec::new();
    let mut state = raw::LogState::default();
    loop {
        // SAFETY: slices with their lengths, and a struct as declared.
        let fault = unsafe {
            raw::aries_unfinished(
                log.as_ptr(),
                log.len(),
                entries.as_mut_ptr(),
                entries.len(),
                &mut state,
            )
        };
        if fault.number == NO_ROOM {
            entries = vec![raw::Entry::default(); state.unfinished as usize];
            continue;
        }
        checked(fault)?;
        entries.truncate(state.unfinished as usize);
        return Ok(LogState {
            last_lsn: state.last_lsn,
            highest: state.highest as u32,
            unfinished: entries.iter().filter_map(Entry::from_raw).collect(),
        });
    }
}
