//! Why a call was refused.

use crate::raw;
use std::fmt;

pub(crate) const NO_ROOM: u32 = 64;
pub(crate) const NOT_WRITABLE: u32 = 65;

/// Why a call was refused. Nothing was changed; where several reasons stand, which one is told is fixed, want of memory
/// aside.
#[derive(Clone, Copy, Debug, PartialEq, Eq, Hash)]
#[non_exhaustive]
pub enum Error {
    /// Memory was refused.
    NoResource,
    /// The log begins with no header.
    BadLogHeader,
    /// At this offset in the log, in bytes, stands a body length that is out of range.
    BadLength(u64),
    /// The frame at this offset in the log, in bytes, holds no record.
    BadRecord(u64),
    /// The record at this offset in the log, in bytes, has another LSN than its place.
    BadLsn(u64),
    /// The store begins with no header.
    BadStoreHeader,
    /// The store has another length than its page count asks for.
    BadStoreSize,
    /// The image of this page is none of a page of that number.
    BadPage(u64),
    /// The store's master is not 0 and names no checkpoint.
    BadMaster,
    /// The record with this LSN, or a table in it, is on a page that the store does not have.
    NoSuchPage(u64),
    /// The PageLSN of this page is above the log's last LSN.
    PageAheadOfLog(u64),
    /// Undo was sent to this LSN, where no update or CLR of its transaction stands.
    BrokenChain(u64),
    /// The PrevLSN of the record with this LSN is not its transaction's last record.
    WrongPrevLsn(u64),
    /// A commit, an abort, an end or a prepare of its transaction forbids the record with this LSN.
    AfterFinish(u64),
    /// The CLR with this LSN does not undo its transaction's newest pending update.
    WrongCompensation(u64),
    /// The before image of the update with this LSN is not what its cell holds.
    WrongBeforeImage(u64),
    /// The update with this LSN is in a cell that another unfinished transaction has changed.
    DirtyWrite(u64),
    /// The end with this LSN comes without a commit, while updates are pending.
    EndTooEarly(u64),
    /// This page is not what the log makes of it up to its PageLSN.
    WrongPage(u64),
    /// The checkpoint's transaction table is not that of the unfinished transactions.
    WrongTransactionTable,
    /// The checkpoint's dirty page table is not true for this page.
    WrongDirtyPageTable(u64),
    /// The base store has another page count, or a PageLSN above the base LSN.
    BadBaseStore,
    /// What was to be written has no spelling: a number is out of its range, or a table not in rising order.
    NotWritable,
    /// A fault of a newer library, by its number and its place.
    Other { number: u32, place: u64 },
}

impl Error {
    fn of(fault: raw::Fault) -> Self {
        let place = fault.place;
        match fault.number {
            1 => Self::NoResource,
            6 => Self::BadLogHeader,
            7 => Self::BadLength(place),
            8 => Self::BadRecord(place),
            9 => Self::BadLsn(place),
            10 => Self::BadStoreHeader,
            11 => Self::BadStoreSize,
            12 => Self::BadPage(place),
            13 => Self::BadMaster,
            14 => Self::NoSuchPage(place),
            15 => Self::PageAheadOfLog(place),
            16 => Self::BrokenChain(place),
            20 => Self::WrongPrevLsn(place),
            21 => Self::AfterFinish(place),
            22 => Self::WrongCompensation(place),
            23 => Self::WrongBeforeImage(place),
            24 => Self::DirtyWrite(place),
            25 => Self::EndTooEarly(place),
            26 => Self::WrongPage(place),
            27 => Self::WrongTransactionTable,
            28 => Self::WrongDirtyPageTable(place),
            29 => Self::BadBaseStore,
            NOT_WRITABLE => Self::NotWritable,
            number => Self::Other { number, place },
        }
    }

    /// The number that `aries` prints for it, and its place: an offset, an LSN or a page, else 0.
    pub fn number_and_place(self) -> (u32, u64) {
        match self {
            Self::NoResource => (1, 0),
            Self::BadLogHeader => (6, 0),
            Self::BadLength(offset) => (7, offset),
            Self::BadRecord(offset) => (8, offset),
            Self::BadLsn(offset) => (9, offset),
            Self::BadStoreHeader => (10, 0),
            Self::BadStoreSize => (11, 0),
            Self::BadPage(page) => (12, page),
            Self::BadMaster => (13, 0),
            Self::NoSuchPage(lsn) => (14, lsn),
            Self::PageAheadOfLog(page) => (15, page),
            Self::BrokenChain(lsn) => (16, lsn),
            Self::WrongPrevLsn(lsn) => (20, lsn),
            Self::AfterFinish(lsn) => (21, lsn),
            Self::WrongCompensation(lsn) => (22, lsn),
            Self::WrongBeforeImage(lsn) => (23, lsn),
            Self::DirtyWrite(lsn) => (24, lsn),
            Self::EndTooEarly(lsn) => (25, lsn),
            Self::WrongPage(page) => (26, page),
            Self::WrongTransactionTable => (27, 0),
            Self::WrongDirtyPageTable(page) => (28, page),
            Self::BadBaseStore => (29, 0),
            Self::NotWritable => (NOT_WRITABLE, 0),
            Self::Other { number, place } => (number, place),
        }
    }
}

/// The text of a fault; None where the library has none for it.
fn text_of(number: u32, place: u64) -> Option<String> {
    let (fault, mut text, mut length) = (raw::Fault { number, place }, [0u8; 128], 0);
    // SAFETY: a struct as declared, and a buffer with its length.
    let told = unsafe { raw::aries_fault_text(&fault, text.as_mut_ptr(), text.len(), &mut length) };
    (told.number == 0).then(|| String::from_utf8_lossy(&text[..length]).into_owned())
}

impl fmt::Display for Error {
    fn fmt(&self, f: &mut fmt::Formatter<'_>) -> fmt::Result {
        let (number, place) = self.number_and_place();
        match text_of(number, place) {
            _ if *self == Self::NotWritable => f.write_str("not writable"),
            Some(text) => write!(f, "fault {number}: {text}"),
            None => write!(f, "fault {number}"),
        }
    }
}

impl std::error::Error for Error {}

/// What a call answered, where it had room.
pub(crate) fn checked(fault: raw::Fault) -> Result<(), Error> {
    match fault.number {
        0 => Ok(()),
        _ => Err(Error::of(fault)),
    }
}
