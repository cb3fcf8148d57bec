//! Crash recovery that is proved, for engines in Rust: a log and a store go in; what is to be appended to the log, the
//! recovered store and a report come out. The method is ARIES (Mohan, Haderle, Lindsay, Pirahesh, Schwarz, *ACM TODS*
//! 17(1), 1992).
//!
//! The work is done by the proved library behind `include/aries.h`; this crate is a thin and safe wrapper of it, and is
//! itself tested and not proved. Calls share nothing, touch no file and start no thread, so any number of threads may
//! call at once. What the bytes of logs and stores mean stands in `docs/FORMATS.md`.
//!
//! ```
//! # fn main() -> Result<(), aries::Error> {
//! use aries::{Image, Page, Record, Start, Value};
//!
//! // An update of transaction 1 that reached the log, and no commit.
//! let a = Value::new(b"a").expect("at most 48 bytes");
//! let update = Record::Update { tx: 1, prev: 0, page: 0, slot: 0, before: Image::None, after: Some(a) };
//! let mut log = aries::log_header(Start::Version1)?;
//! log.extend(aries::frame(1, &update)?);
//! let mut store = aries::store_header(1, 0)?.to_vec();
//! store.extend(Page::empty(0).image()?);
//!
//! let recovery = aries::recover(&log, &store)?;
//! assert_eq!((recovery.report.losers, recovery.report.compensated), (1, 1));
//! log.truncate(recovery.kept);
//! log.extend(&recovery.tail);
//! aries::audit(&log, &recovery.store)
//! # }
//! ```

#[cfg(feature = "heap")]
mod heap;

mod error;
mod image;
mod page;
mod raw;
mod reading;
mod record;
mod recovery;
mod writing;

pub use error::Error;
pub use image::{Image, Value, VALUE_BYTES};
pub use page::{Page, PAGES, PAGE_BYTES, SLOTS};
pub use reading::{
    checkpoint, log_begin, log_end, next_record, records, unfinished, LogEnd, LogState, Mark,
    Records,
};
pub use record::{Checkpoint, Dirty, Entry, Record, State};
pub use recovery::{audit, audit_from, recover, Recovery, Report};
pub use writing::{
    checkpoint_end_frame, frame, log_header, store_header, Start, STORE_HEADER_BYTES,
};
