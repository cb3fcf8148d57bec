//! What an engine writes is read back, and begins with the bytes that are worked in docs/FORMATS.md.

use aries::{Checkpoint, Dirty, Entry, Error, Image, Page, Record, Start, State, Value};

fn image(bytes: &[u8]) -> Image {
    Some(Value::new(bytes).expect("at most 48 bytes"))
}

fn all_kinds() -> Vec<Record> {
    vec![
        Record::Update {
            tx: 1,
            prev: 2,
            page: 3,
            slot: 4,
            before: None,
            after: image(b"a"),
        },
        Record::Clr {
            tx: 5,
            prev: 6,
            page: 7,
            slot: 8,
            undo_next: 9,
            image: image(b""),
        },
        Record::Commit { tx: 1, prev: 11 },
        Record::Abort { tx: 2, prev: 0 },
        Record::End { tx: 3, prev: 1 },
        Record::Prepare { tx: 4, prev: 2 },
        Record::CheckpointBegin,
    ]
}

fn checkpoint() -> Checkpoint {
    let entry = |tx, state| Entry {
        tx,
        state,
        last: 11,
        undo_next: 3,
    };
    Checkpoint {
        begin: 17,
        transactions: vec![
            entry(1, State::Active),
            entry(2, State::Aborting),
            entry(7, State::Prepared),
        ],
        dirty: vec![Dirty {
            page: 3,
            rec_lsn: 11,
        }],
    }
}

/// A log of version 2 with base LSN 10: all kinds of records, and a checkpoint's end.
fn log() -> Vec<u8> {
    let mut log = aries::log_header(Start::Version2 { base_lsn: 10 }).expect("a header");
    for (lsn, record) in (11..).zip(all_kinds()) {
        log.extend(aries::frame(lsn, &record).expect("a frame"));
    }
    log.extend(aries::checkpoint_end_frame(18, &checkpoint()).expect("a checkpoint's end"));
    log
}

#[test]
fn an_update_is_spelled() {
    let update = Record::Update {
        tx: 1,
        prev: 0,
        page: 0,
        slot: 0,
        before: None,
        after: image(b"a"),
    };
    let mut expected = vec![0, 0, 0, 0x1d, 1, 0, 0, 0, 0, 0, 0, 0, 1, 0, 0, 0, 1];
    expected.extend([0; 13]);
    expected.extend([255, 1, b'a']);
    assert_eq!(aries::frame(1, &update), Ok(expected));
    assert_eq!(aries::log_header(Start::Version1), Ok(b"ARIESLG1".to_vec()));
}

/// A number in this many bytes, the largest first.
fn bytes(number: u64, width: usize) -> Vec<u8> {
    number.to_be_bytes()[8 - width..].to_vec()
}

#[test]
fn a_clr_is_spelled() {
    let clr = Record::Clr {
        tx: 4,
        prev: 5,
        page: 6,
        slot: 7,
        undo_next: 8,
        image: image(b"b"),
    };
    let body = [
        vec![2],
        bytes(3, 8),
        bytes(4, 4),
        bytes(5, 8),
        bytes(6, 4),
        vec![7],
        bytes(8, 8),
        vec![1, b'b'],
    ];
    assert_eq!(
        aries::frame(3, &clr),
        Ok([bytes(36, 4), body.concat()].concat())
    );
}

#[test]
fn a_checkpoint_end_is_spelled() {
    let mut end = checkpoint();
    end.transactions.truncate(2);
    let entry = |tx, state: u8| [bytes(tx, 4), vec![state], bytes(11, 8), bytes(3, 8)].concat();
    let body = [
        vec![7],
        bytes(18, 8),
        bytes(17, 8),
        bytes(2, 4),
        entry(1, 0),
        entry(2, 1),
        bytes(1, 4),
    ];
    let dirty = [bytes(3, 4), bytes(11, 8)].concat();
    let expected = [bytes(79, 4), body.concat(), dirty].concat();
    assert_eq!(aries::checkpoint_end_frame(18, &end), Ok(expected));
}

#[test]
fn records_are_read_back() {
    let read = aries::records(&log(), 0, usize::MAX).expect("a log");
    assert_eq!((read.base_lsn, read.count, read.torn), (10, 8, 0));
    let mut expected: Vec<(u64, Record)> = (11..).zip(all_kinds()).collect();
    expected.push((18, Record::CheckpointEnd { begin: 17 }));
    assert_eq!(read.records, expected);
    let some = aries::records(&log()[..log().len() - 1], 13, 2).expect("a torn log");
    assert_eq!((some.count, some.records), (7, expected[2..4].to_vec()));
    assert_eq!(aries::records(b"ARIESLG", 0, 1), Err(Error::BadLogHeader));
}

#[test]
fn tables_are_read_back() {
    assert_eq!(aries::checkpoint(&log(), 18), Ok(Some(checkpoint())));
    assert_eq!(aries::checkpoint(&log(), 17), Ok(None));
}

#[test]
fn pages_are_read_back() {
    let mut page = Page::empty(6);
    page.lsn = 1;
    page.slots[0] = image(b"a");
    page.slots[2] = image(b"");
    page.slots[15] = image(&[b'z'; 48]);
    let bytes = page.image().expect("an image");
    assert_eq!(
        bytes[..20],
        [0, 0, 0, 6, 0, 0, 0, 0, 0, 0, 0, 0, 0, 0, 0, 1, 0, 80, 0, 1]
    );
    assert_eq!(Page::read(&bytes, 6), Ok(page));
    assert_eq!(Page::read(&bytes, 7), Err(Error::BadPage(7)));
    assert_eq!(
        aries::store_header(2, 3).expect("a header")[8..],
        [0, 0, 0, 2, 0, 0, 0, 0, 0, 0, 0, 0, 0, 0, 0, 3]
    );
}

#[test]
fn what_has_no_spelling_is_refused() {
    assert_eq!(Value::new(&[0; 49]), None);
    assert_eq!(
        aries::frame(1, &Record::Commit { tx: 0, prev: 0 }),
        Err(Error::NotWritable)
    );
    assert_eq!(
        aries::frame(1, &Record::CheckpointEnd { begin: 0 }),
        Err(Error::NotWritable)
    );
    assert_eq!(aries::store_header(0, 0), Err(Error::NotWritable));
    assert_eq!(
        aries::log_header(Start::Version2 { base_lsn: 1 << 63 }),
        Err(Error::NotWritable)
    );
    let mut falling = checkpoint();
    falling.transactions.reverse();
    assert_eq!(
        aries::checkpoint_end_frame(1, &falling),
        Err(Error::NotWritable)
    );
}

#[test]
fn errors_are_told() {
    assert_eq!(
        Error::DirtyWrite(7).to_string(),
        "fault 24: dirty write at LSN 7"
    );
    assert_eq!(Error::NotWritable.to_string(), "not writable");
    assert_eq!(
        Error::Other {
            number: 19,
            place: 0
        }
        .to_string(),
        "fault 19"
    );
    assert_eq!(Error::BadLength(8).number_and_place(), (7, 8));
}

#[test]
fn records_one_after_the_other() {
    let log = log();
    let mut mark = aries::log_begin(&log).expect("a header");
    assert_eq!((mark.lsn, mark.offset), (10, 16));
    for (lsn, record) in aries::records(&log, 0, 9).expect("a log").records {
        let (read, next) = aries::next_record(&log, mark)
            .expect("a frame")
            .expect("a record");
        assert_eq!((next.lsn, read), (lsn, record));
        mark = next;
    }
    assert_eq!(mark.offset, log.len() as u64);
    assert_eq!(aries::next_record(&log, mark), Ok(None));
}

#[test]
fn the_end_of_a_log() {
    let mut log = log();
    let length = log.len() as u64;
    let last_lsn = aries::records(&log, 0, 0).expect("a log").count + 10;
    let end = aries::log_end(&log).expect("a header");
    assert_eq!(
        (end.length, end.last_lsn, end.torn, end.damage),
        (length, last_lsn, 0, None)
    );
    log.extend([0; 3]);
    assert_eq!(aries::log_end(&log).expect("a header").torn, 3);
    log.push(0);
    let end = aries::log_end(&log).expect("a header");
    assert_eq!(
        (end.length, end.torn, end.damage),
        (length, 0, Some(Error::BadLength(length)))
    );
    assert_eq!(aries::log_end(b"ARIESLG0"), Err(Error::BadLogHeader));
}

#[test]
fn what_an_engine_needs_of_a_log() {
    let state = aries::unfinished(&log()).expect("a log");
    let entry = |tx, state, last, undo_next| Entry {
        tx,
        state,
        last,
        undo_next,
    };
    let found = vec![
        entry(2, State::Aborting, 14, 0),
        entry(4, State::Prepared, 16, 0),
        entry(5, State::Active, 12, 9),
    ];
    assert_eq!((state.highest, state.unfinished), (5, found));
}
