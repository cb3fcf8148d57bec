//! What `include/aries.h` declares. Nothing compares these declarations with it but the tests.

#[repr(C)]
#[derive(Clone, Copy, Default)]
pub struct Fault {
    pub number: u32,
    pub place: u64,
}

#[repr(C)]
#[derive(Clone, Copy, Default)]
pub struct Recovered {
    pub records: u64,
    pub torn: u64,
    pub redo_from: u64,
    pub redone: u64,
    pub losers: u64,
    pub compensated: u64,
    pub ended: u64,
    pub pages: u64,
    pub in_doubt: u64,
    pub tail_length: u64,
    pub store_length: u64,
}

#[repr(C)]
#[derive(Clone, Copy)]
pub struct Image {
    pub length: u8,
    pub bytes: [u8; 48],
}

#[repr(C)]
#[derive(Clone, Copy)]
pub struct Record {
    pub lsn: u64,
    pub prev: u64,
    pub next: u64,
    pub tx: u32,
    pub page: u32,
    pub kind: u8,
    pub slot: u8,
    pub before: Image,
    pub after: Image,
}

#[repr(C)]
#[derive(Clone, Copy, Default)]
pub struct Entry {
    pub last: u64,
    pub undo_next: u64,
    pub tx: u32,
    pub state: u8,
}

#[repr(C)]
#[derive(Clone, Copy, Default)]
pub struct Dirty {
    pub rec_lsn: u64,
    pub page: u32,
}

#[repr(C)]
#[derive(Clone, Copy, Default)]
pub struct Read {
    pub base_lsn: u64,
    pub records: u64,
    pub torn: u64,
    pub given: u64,
}

#[repr(C)]
#[derive(Clone, Copy, Default)]
pub struct Tables {
    pub begin: u64,
    pub transactions: u64,
    pub dirty: u64,
}

#[repr(C)]
#[derive(Clone, Copy, Default)]
pub struct Mark {
    pub lsn: u64,
    pub offset: u64,
}

#[repr(C)]
#[derive(Clone, Copy, Default)]
pub struct LogEnd {
    pub length: u64,
    pub last_lsn: u64,
    pub torn: u64,
    pub damage: Fault,
}

#[repr(C)]
#[derive(Clone, Copy, Default)]
pub struct LogState {
    pub last_lsn: u64,
    pub highest: u64,
    pub unfinished: u64,
}

#[repr(C)]
#[derive(Clone, Copy)]
pub struct Page {
    pub lsn: u64,
    pub number: u32,
    pub slots: [Image; 16],
}

extern "C" {
    pub fn aries_recover(
        log: *const u8,
        log_length: usize,
        store: *const u8,
        store_length: usize,
        tail: *mut u8,
        tail_room: usize,
        out_store: *mut u8,
        out_store_room: usize,
        in_doubt: *mut u32,
        in_doubt_room: usize,
        made: *mut Recovered,
    ) -> Fault;
    pub fn aries_audit(
        log: *const u8,
        log_length: usize,
        store: *const u8,
        store_length: usize,
    ) -> Fault;
    pub fn aries_audit_from(
        log: *const u8,
        log_length: usize,
        store: *const u8,
        store_length: usize,
        base: *const u8,
        base_length: usize,
    ) -> Fault;
    pub fn aries_fault_text(
        fault: *const Fault,
        out: *mut u8,
        room: usize,
        length: *mut usize,
    ) -> Fault;
    pub fn aries_records(
        log: *const u8,
        log_length: usize,
        first: u64,
        out: *mut Record,
        room: usize,
        read: *mut Read,
    ) -> Fault;
    pub fn aries_checkpoint(
        log: *const u8,
        log_length: usize,
        lsn: u64,
        transactions: *mut Entry,
        transactions_room: usize,
        dirty: *mut Dirty,
        dirty_room: usize,
        made: *mut Tables,
    ) -> Fault;
    pub fn aries_log_begin(log: *const u8, log_length: usize, mark: *mut Mark) -> Fault;
    pub fn aries_next_record(
        log: *const u8,
        log_length: usize,
        mark: *mut Mark,
        record: *mut Record,
    ) -> Fault;
    pub fn aries_log_end(log: *const u8, log_length: usize, end: *mut LogEnd) -> Fault;
    pub fn aries_unfinished(
        log: *const u8,
        log_length: usize,
        unfinished: *mut Entry,
        unfinished_room: usize,
        state: *mut LogState,
    ) -> Fault;
    pub fn aries_write_log_header(
        version: u32,
        base_lsn: u64,
        out: *mut u8,
        room: usize,
        length: *mut usize,
    ) -> Fault;
    pub fn aries_write_record(
        record: *const Record,
        out: *mut u8,
        room: usize,
        length: *mut usize,
    ) -> Fault;
    pub fn aries_write_checkpoint_end(
        lsn: u64,
        begin: u64,
        transactions: *const Entry,
        transactions_count: usize,
        dirty: *const Dirty,
        dirty_count: usize,
        out: *mut u8,
        room: usize,
        length: *mut usize,
    ) -> Fault;
    pub fn aries_write_store_header(
        pages: u32,
        master: u64,
        out: *mut u8,
        room: usize,
        length: *mut usize,
    ) -> Fault;
    pub fn aries_write_page(
        page: *const Page,
        out: *mut u8,
        room: usize,
        length: *mut usize,
    ) -> Fault;
    pub fn aries_read_page(
        image: *const u8,
        image_length: usize,
        number: u32,
        page: *mut Page,
    ) -> Fault;
}
