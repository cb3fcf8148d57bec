//! Records of a log.

use crate::image::{self, Image};
use crate::raw;

/// A record. `prev` is its transaction's record before it, by its LSN, 0 for none (PrevLSN); numbers of transactions
/// are at least 1, slots at most 15.
#[derive(Clone, Copy, Debug, PartialEq, Eq)]
pub enum Record {
    Update {
        tx: u32,
        prev: u64,
        page: u32,
        slot: u8,
        before: Image,
        after: Image,
    },
    /// A compensation log record; `undo_next` is the UndoNxtLSN: where its transaction's undo goes on, 0 for nowhere.
    Clr {
        tx: u32,
        prev: u64,
        page: u32,
        slot: u8,
        undo_next: u64,
        image: Image,
    },
    Commit {
        tx: u32,
        prev: u64,
    },
    Abort {
        tx: u32,
        prev: u64,
    },
    End {
        tx: u32,
        prev: u64,
    },
    CheckpointBegin,
    /// With the LSN of its begin. Its tables are read by [`checkpoint`](crate::checkpoint), and it is written by
    /// [`checkpoint_end_frame`](crate::checkpoint_end_frame) alone.
    CheckpointEnd {
        begin: u64,
    },
    Prepare {
        tx: u32,
        prev: u64,
    },
}

/// The state of an unfinished transaction.
#[derive(Clone, Copy, Debug, PartialEq, Eq)]
pub enum State {
    Active,
    Aborting,
    Prepared,
}

/// An entry of a checkpoint's transaction table: the LSN of the last record, and where undo goes on, 0 for nowhere.
#[derive(Clone, Copy, Debug, PartialEq, Eq)]
pub struct Entry {
    pub tx: u32,
    pub state: State,
    pub last: u64,
    pub undo_next: u64,
}

/// An entry of a checkpoint's dirty page table: the LSN from which on the page's image may lack records.
#[derive(Clone, Copy, Debug, PartialEq, Eq)]
pub struct Dirty {
    pub page: u32,
    pub rec_lsn: u64,
}

/// What a checkpoint's end says. The tables are in rising order, of at most 1,024 and 4,096 entries.
#[derive(Clone, Debug, PartialEq, Eq)]
pub struct Checkpoint {
    pub begin: u64,
    pub transactions: Vec<Entry>,
    pub dirty: Vec<Dirty>,
}

impl Record {
    /// A record with nothing in it but what all kinds have.
    fn bare(lsn: u64, kind: u8, tx: u32, prev: u64) -> raw::Record {
        let absent = image::to_raw(&None);
        raw::Record {
            lsn,
            prev,
            next: 0,
            tx,
            page: 0,
            kind,
            slot: 0,
            before: absent,
            after: absent,
        }
    }

    pub(crate) fn to_raw(self, lsn: u64) -> raw::Record {
        match self {
            Self::Update {
                tx,
                prev,
                page,
                slot,
                before,
                after,
            } => {
                let (before, after) = (image::to_raw(&before), image::to_raw(&after));
                raw::Record {
                    page,
                    slot,
                    before,
                    after,
                    ..Self::bare(lsn, 1, tx, prev)
                }
            }
            Self::Clr {
                tx,
                prev,
                page,
                slot,
                undo_next,
                image,
            } => {
                let after = image::to_raw(&image);
                raw::Record {
                    page,
                    slot,
                    next: undo_next,
                    after,
                    ..Self::bare(lsn, 2, tx, prev)
                }
            }
            Self::Commit { tx, prev } => Self::bare(lsn, 3, tx, prev),
            Self::Abort { tx, prev } => Self::bare(lsn, 4, tx, prev),
            Self::End { tx, prev } => Self::bare(lsn, 5, tx, prev),
            Self::CheckpointBegin => Self::bare(lsn, 6, 0, 0),
            Self::CheckpointEnd { begin } => raw::Record {
                next: begin,
                ..Self::bare(lsn, 7, 0, 0)
            },
            Self::Prepare { tx, prev } => Self::bare(lsn, 8, tx, prev),
        }
    }

    /// None for a kind of a newer library.
    pub(crate) fn from_raw(raw: &raw::Record) -> Option<Self> {
        let raw::Record {
            tx,
            prev,
            page,
            slot,
            next,
            ..
        } = *raw;
        let (before, after) = (image::from_raw(&raw.before), image::from_raw(&raw.after));
        Some(match raw.kind {
            1 => Self::Update {
                tx,
                prev,
                page,
                slot,
                before,
                after,
            },
            2 => Self::Clr {
                tx,
                prev,
                page,
                slot,
                undo_next: next,
                image: after,
            },
            3 => Self::Commit { tx, prev },
            4 => Self::Abort { tx, prev },
            5 => Self::End { tx, prev },
            6 => Self::CheckpointBegin,
            7 => Self::CheckpointEnd { begin: next },
            8 => Self::Prepare { tx, prev },
            _ => return None,
        })
    }
}

impl Entry {
    pub(crate) fn to_raw(self) -> raw::Entry {
        let state = match self.state {
            State::Active => 0,
            State::Aborting => 1,
            State::Prepared => 2,
        };
        raw::Entry {
            last: self.last,
            undo_next: self.undo_next,
            tx: self.tx,
            state,
        }
    }

    pub(crate) fn from_raw(raw: &raw::Entry) -> Option<Self> {
        let state = match raw.state {
            0 => State::Active,
            1 => State::Aborting,
            2 => State::Prepared,
            _ => return None,
        };
        Some(Self {
            tx: raw.tx,
            state,
            last: raw.last,
            undo_next: raw.undo_next,
        })
    }
}
