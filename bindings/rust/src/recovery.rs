//! Recovery, and the audit.

use crate::error::{checked, Error, NO_ROOM};
use crate::raw;

/// The room for transactions in doubt that is tried first: as many as a checkpoint's table has at most.
const IN_DOUBT_ROOM: usize = 1024;

/// What a recovery counted.
#[derive(Clone, Copy, Debug, PartialEq, Eq)]
pub struct Report {
    /// Records of the log.
    pub records: u64,
    /// Bytes of the torn tail.
    pub torn: u64,
    /// The LSN from which on redo looked at records, 0 for none.
    pub redo_from: u64,
    /// Updates and CLRs that redo applied.
    pub redone: u64,
    /// Transactions that were rolled back.
    pub losers: u64,
    /// CLRs in the tail.
    pub compensated: u64,
    /// Ends in the tail.
    pub ended: u64,
    /// Pages of the store.
    pub pages: u64,
}

/// What a recovery made.
#[derive(Clone, Debug, PartialEq, Eq)]
pub struct Recovery {
    /// How many bytes of the log stay: all but its torn tail.
    pub kept: usize,
    /// What is to be appended after them. In the file of the old log, sync the cut before you write this: else a power
    /// cut may mix both. It has to be on disk before the new store is put in place.
    pub tail: Vec<u8>,
    /// The new store, of the length of the old one.
    pub store: Vec<u8>,
    /// The transactions in doubt, in rising number: prepared, and not decided. Append a commit or an abort for each,
    /// and recover again.
    pub in_doubt: Vec<u32>,
    pub report: Report,
}

/// Whether log and store are such as an ARIES system can have left: `Ok` exactly then, want of memory aside.
///
/// # Errors
/// The first law that is broken; or why the bytes are no log or no store; or `NoResource`.
pub fn audit(log: &[u8], store: &[u8]) -> Result<(), Error> {
    // SAFETY: slices with their lengths.
    checked(unsafe { raw::aries_audit(log.as_ptr(), log.len(), store.as_ptr(), store.len()) })
}

/// The like over a base store: what pages held before the log's first record.
///
/// # Errors
/// As of [`audit`]; `BadBaseStore`.
pub fn audit_from(log: &[u8], store: &[u8], base: &[u8]) -> Result<(), Error> {
    // SAFETY: slices with their lengths.
    checked(unsafe {
        raw::aries_audit_from(
            log.as_ptr(),
            log.len(),
            store.as_ptr(),
            store.len(),
            base.as_ptr(),
            base.len(),
        )
    })
}

/// The buffers of a recovery, as long as they may be written.
struct Rooms {
    tail: Vec<u8>,
    store: Vec<u8>,
    in_doubt: Vec<u32>,
}

fn recover_into(
    log: &[u8],
    store: &[u8],
    rooms: &mut Rooms,
    made: &mut raw::Recovered,
) -> raw::Fault {
    // SAFETY: slices with their lengths, none of which overlap, and a struct as declared.
    unsafe {
        raw::aries_recover(
            log.as_ptr(),
            log.len(),
            store.as_ptr(),
            store.len(),
            rooms.tail.as_mut_ptr(),
            rooms.tail.len(),
            rooms.store.as_mut_ptr(),
            rooms.store.len(),
            rooms.in_doubt.as_mut_ptr(),
            rooms.in_doubt.len(),
            made,
        )
    }
}

/// Recovers a store by its log: redo of all that is not in the pages, and undo of what no transaction committed or
/// prepared. The tail of a lawful log has at most twice its bytes, so it is given that room, of which no more is touched
/// than is written. Where more is needed, of an unlawful log or for more than 1,024 transactions in doubt, it is done
/// twice.
///
/// # Errors
/// Why the bytes are no log or no store; `BadMaster`, `NoSuchPage`, `PageAheadOfLog`, `BrokenChain`: the first of these
/// that was met; or `NoResource`.
pub fn recover(log: &[u8], store: &[u8]) -> Result<Recovery, Error> {
    let mut made = raw::Recovered::default();
    let mut rooms = Rooms {
        tail: vec![0; 2 * log.len()],
        store: vec![0; store.len()],
        in_doubt: vec![0; IN_DOUBT_ROOM],
    };
    let mut fault = recover_into(log, store, &mut rooms, &mut made);
    if fault.number == NO_ROOM {
        rooms.tail.resize(made.tail_length as usize, 0);
        rooms.store.resize(made.store_length as usize, 0);
        rooms.in_doubt.resize(made.in_doubt as usize, 0);
        fault = recover_into(log, store, &mut rooms, &mut made);
    }
    checked(fault)?;
    rooms.tail.truncate(made.tail_length as usize);
    rooms.tail.shrink_to_fit();
    rooms.store.truncate(made.store_length as usize);
    rooms.in_doubt.truncate(made.in_doubt as usize);
    Ok(Recovery {
        kept: log.len() - made.torn as usize,
        tail: rooms.tail,
        store: rooms.store,
        in_doubt: rooms.in_doubt,
        report: report_of(&made),
    })
}

fn report_of(made: &raw::Recovered) -> Report {
    Report {
        records: made.records,
        torn: made.torn,
        redo_from: made.redo_from,
        redone: made.redone,
        losers: made.losers,
        compensated: made.compensated,
        ended: made.ended,
        pages: made.pages,
    }
}
