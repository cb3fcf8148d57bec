/*
 * aries.h: crash recovery of a log and a store by the ARIES method; an audit and a dump of them; and functions that
 * encode what an engine writes. For C and C++. docs/RECOVERY.md explains the terms, docs/FORMATS.md the formats.
 *
 * The library is proved: the contracts in crates/aries_c promise what each call does. That this header fits the library
 * is tested, not proved.
 *
 * LINKING. The library takes memory by three symbols, which -laries_heap defines with malloc. An engine with a heap of
 * its own defines its own three. Calls need little stack: one of 32 KB was enough for a log of 100 MB.
 *
 * MEMORY. All buffers belong to the caller. A pointer must not be null, even if its length is 0. A buffer that is
 * written must not overlap another, and no other thread may change a buffer while a call runs. A call keeps no state,
 * and frees what it allocates before it returns. Any number of threads may call at once. A signal handler must
 * not call the library.
 *
 * RESULTS. Each call returns a struct aries_fault. Number 0 is success. With any other number the buffers are
 * unchanged. What else a call writes (a length, counts, the lengths of a recovery) is unchanged too, except with
 * ARIES_NO_ROOM: then these results say how long the buffers have to be.
 *
 * PROCESSOR. x86-64 with SSSE3 and SSE4.1. The library does not check that the processor has these; the programs do.
 *
 * LSNs are numbers from 1; 0 means none. Lengths, rooms (the lengths of buffers that are written) and offsets are in
 * bytes; for a buffer of structs or of uint32_t they are in entries.
 */
#ifndef ARIES_H
#define ARIES_H

#include <stddef.h>
#include <stdint.h>

#ifdef __cplusplus
extern "C" {
#endif

/* The version of the library: the text, and 10,000 times the major, 100 times the minor and the patch number. */
#define ARIES_VERSION "0.1.0"
#define ARIES_VERSION_NUMBER 100

/*
 * Numbers of faults. ARIES_NO_RESOURCE: memory was refused; any call that allocates can return it. ARIES_NO_ROOM: a
 * buffer is too short. ARIES_NOT_WRITABLE: what is to be written has no encoding, or what is asked for is not there.
 */
enum { ARIES_OK = 0, ARIES_NO_RESOURCE = 1, ARIES_NO_ROOM = 64, ARIES_NOT_WRITABLE = 65 };

/*
 * Faults of a log and a store. The program `aries` prints them too; docs/FORMATS.md says what each means. It also has
 * 2 to 5, 17 and 18, which no call returns.
 */
enum {
    ARIES_BAD_LOG_HEADER = 6,
    ARIES_BAD_LENGTH = 7,
    ARIES_BAD_RECORD = 8,
    ARIES_BAD_LSN = 9,
    ARIES_BAD_STORE_HEADER = 10,
    ARIES_STORE_SIZE = 11,
    ARIES_BAD_PAGE = 12,
    ARIES_BAD_MASTER = 13,
    ARIES_NO_PAGE_OF_RECORD = 14,
    ARIES_PAGE_AHEAD_OF_LOG = 15,
    ARIES_BROKEN_CHAIN = 16,
    /* only from an audit */
    ARIES_CHAIN = 20,
    ARIES_AFTER_FINISH = 21,
    ARIES_WRONG_COMPENSATION = 22,
    ARIES_BEFORE_IMAGE = 23,
    ARIES_DIRTY_WRITE = 24,
    ARIES_END_TOO_EARLY = 25,
    ARIES_PAGE_IMAGE = 26,
    ARIES_TRANSACTION_TABLE = 27,
    ARIES_DIRTY_TABLE = 28,
    ARIES_BAD_BASE = 29
};

/* The sizes of the library's profile. The library and this header have to be of the same profile. */
enum {
    ARIES_PAGES = 4096,        /* pages of a store, at most */
    ARIES_SLOTS = 16,          /* slots of a page */
    ARIES_PAGE_BYTES = 1024,   /* bytes of a page's image */
    ARIES_VALUE_BYTES = 48,    /* bytes of a value, at most */
    ARIES_TRANSACTIONS = 1024  /* transactions in a checkpoint and in a journal, at most */
};

enum {
    ARIES_STORE_HEADER_BYTES = 24, /* a store's header, before the image of page 0 */
    ARIES_ABSENT = 255,            /* the length of an absent value */
    /* The frame of any record except a checkpoint end, at most: 128. */
    ARIES_FRAME_BYTES = 30 + 2 * (1 + ARIES_VALUE_BYTES),
    /* The frames of a checkpoint, begin and end, at most: 70,698. */
    ARIES_CHECKPOINT_BYTES = 42 + 21 * ARIES_TRANSACTIONS + 12 * ARIES_PAGES
};

/*
 * What a call returns. `place` is where the fault is: an offset in the log (numbers 7 to 9), an LSN (14, 16, 20 to 25),
 * or a page (12, 15, 26, 28). With all other numbers it is 0.
 */
struct aries_fault {
    uint32_t number;
    uint64_t place;
};

/* RECOVERY */

/* What a recovery found and did, and the lengths of its results. It may grow, at its end, with a new version only. */
struct aries_recovered {
    uint64_t records;      /* whole records of the log */
    uint64_t torn;         /* bytes of its torn tail, which is dropped */
    uint64_t redo_from;    /* the LSN at which redo began, 0 if it had no record to consider */
    uint64_t redone;       /* records that redo applied */
    uint64_t losers;       /* transactions that were rolled back */
    uint64_t compensated;  /* CLRs (compensation log records) appended */
    uint64_t ended;        /* end records appended */
    uint64_t pages;        /* pages of the store */
    uint64_t in_doubt;     /* transactions in doubt: prepared, neither committed nor aborted */
    uint64_t tail_length;  /* bytes of the tail: the frames that are appended to the log */
    uint64_t store_length; /* bytes of the new store: as many as the old one has */
};

/*
 * Recovers a store from its log. Each result is at the front of its buffer; the other bytes of the buffer are unchanged.
 * The results are:
 *
 * - the tail, of made->tail_length bytes. The new log is the first log_length - made->torn bytes of the log, and the
 *   tail;
 * - the new store, of made->store_length bytes, in out_store;
 * - the numbers of the transactions in doubt, ascending, in in_doubt: made->in_doubt of them.
 *
 * Put the new log in place before the new store. If that is interrupted, recover again from what is there: for a lawful
 * log and store the result is the same. To continue the file of the old log, cut off the torn tail, sync the file,
 * write the tail, and sync it again. Without the first sync a power cut may lose the cut and keep some of the tail;
 * torn bytes can then complete a frame.
 *
 * out_store needs as many bytes as the store; the tail of a lawful log needs at most twice log_length. If a buffer is
 * too short (ARIES_NO_ROOM), all of `made` is filled in, with the lengths that are needed, and a second call can
 * succeed. A log and a store are lawful if they keep the rules that aries_audit checks.
 *
 * Faults: 6 to 9 for the log; 10 to 12 for the store; 15, 13, 14 and 16 for both; 1; 64. If the log and the store are
 * lawful, only 1 and 64 are possible.
 */
struct aries_fault aries_recover(const uint8_t *log, size_t log_length, const uint8_t *store, size_t store_length,
                                 uint8_t *tail, size_t tail_room, uint8_t *out_store, size_t out_store_room,
                                 uint32_t *in_doubt, size_t in_doubt_room, struct aries_recovered *made);

#if defined(__cplusplus) || (defined(__STDC_VERSION__) && __STDC_VERSION__ >= 199901L)
/*
 * Whether a page has other bytes in one store than in another, which has as many pages: 1, or 0. So an engine that
 * writes the new store in place of the old one finds which pages to write. This function is in this header, and is
 * tested, not proved. It needs C99 or C++.
 */
static inline int aries_is_page_changed(const uint8_t *store, const uint8_t *other_store, uint32_t page)
{
    size_t i, from = ARIES_STORE_HEADER_BYTES + (size_t)ARIES_PAGE_BYTES * page;
    for (i = from; i < from + ARIES_PAGE_BYTES; i++)
        if (store[i] != other_store[i])
            return 1;
    return 0;
}
#endif

/* AUDIT */

/*
 * Checks whether a log, with or without a torn tail, and a store keep the rules of docs/DEFINITIONS.md, assuming that
 * all pages were empty before the log's first record. Number 0 if and only if they do, except that memory can be refused
 * (1). Otherwise the fault is 6 to 12 for bytes that are not a log or a store, or the first broken rule: 13 to 15, 20 to
 * 28.
 */
struct aries_fault aries_audit(const uint8_t *log, size_t log_length, const uint8_t *store, size_t store_length);

/*
 * The same, assuming that before the log's first record the pages held what a base store holds. Further faults: 10 to 12
 * for the base store, checked after the store; and 29.
 */
struct aries_fault aries_audit_from(const uint8_t *log, size_t log_length, const uint8_t *store, size_t store_length,
                                    const uint8_t *base, size_t base_length);

/*
 * Writes the text of a fault, for example `dirty write at LSN 7`, to the front of out: *length bytes, without a 0 at
 * the end. ARIES_NOT_WRITABLE: no fault has this number (so for 0, 19, 64 and 65), or the place of a fault of a page is
 * above 2^32 - 1. Also 1 and 64.
 */
struct aries_fault aries_fault_text(const struct aries_fault *fault, uint8_t *out, size_t room, size_t *length);

/* RECORDS */

/* What a slot holds: a value, the first `length` bytes of `bytes`; or none, if `length` is ARIES_ABSENT. */
struct aries_image {
    uint8_t length;
    uint8_t bytes[ARIES_VALUE_BYTES];
};

enum {
    ARIES_UPDATE = 1,
    ARIES_CLR = 2,
    ARIES_COMMIT = 3,
    ARIES_ABORT = 4,
    ARIES_END = 5,
    ARIES_CHECKPOINT_BEGIN = 6,
    ARIES_CHECKPOINT_END = 7,
    ARIES_PREPARE = 8
};

/* A record. A call that takes a record ignores the fields that its kind does not have. */
struct aries_record {
    uint64_t lsn;              /* its LSN */
    uint64_t prev;             /* PrevLSN: the LSN of its transaction's previous record, 0 for none; not in 6, 7 */
    uint64_t next;             /* in a CLR its UndoNxtLSN; in a checkpoint end the LSN of its begin record */
    uint32_t tx;               /* the number of its transaction, from 1; not in 6, 7 */
    uint32_t page;             /* in an update and a CLR: the page that it changes */
    uint8_t kind;              /* 1 to 8, as above */
    uint8_t slot;              /* in an update and a CLR: the slot that it changes, from 0 */
    struct aries_image before; /* in an update: what the slot held before it */
    struct aries_image after;  /* in an update and a CLR: what it puts into the slot */
};

/* What was read of a log. */
struct aries_read {
    uint64_t base_lsn; /* the LSN after which the log begins, 0 in version 1 */
    uint64_t records;  /* how many whole records the log has */
    uint64_t torn;     /* how many bytes its torn tail has */
    uint64_t given;    /* how many records were written to `out` */
};

/*
 * Dumps a log: writes its records from the LSN `first` on to the front of out, until there are no more or out is full.
 * read->given says how many these are. If `first` is not above the base LSN, it begins with the first record. A
 * checkpoint end comes without its tables, which aries_checkpoint returns. Each call reads the whole log. Faults: 6 to
 * 9 for the log; 1.
 */
struct aries_fault aries_records(const uint8_t *log, size_t log_length, uint64_t first, struct aries_record *out,
                                 size_t room, struct aries_read *read);

/* An entry of a transaction table. */
struct aries_entry {
    uint64_t last;      /* LastLSN, 0 for none */
    uint64_t undo_next; /* UndoNxtLSN, 0 for none */
    uint32_t tx;        /* from 1 */
    uint8_t state;      /* 0 active, 1 aborting, 2 prepared */
};

/* An entry of a dirty page table. */
struct aries_dirty {
    uint64_t rec_lsn; /* RecLSN */
    uint32_t page;
};

/* What a checkpoint end contains: the LSN of its begin record, and how many entries its tables have. */
struct aries_tables {
    uint64_t begin;
    uint64_t transactions;
    uint64_t dirty;
};

/*
 * Writes the tables of the checkpoint end at this LSN, each to the front of its buffer, in ascending order of
 * transaction or page. Each call reads the whole log. ARIES_NOT_WRITABLE: the record at this LSN is not a checkpoint
 * end. ARIES_NO_ROOM: `made` has the counts. Also 6 to 9 for the log, and 1.
 */
struct aries_fault aries_checkpoint(const uint8_t *log, size_t log_length, uint64_t lsn,
                                    struct aries_entry *transactions, size_t transactions_room,
                                    struct aries_dirty *dirty, size_t dirty_room, struct aries_tables *made);

/* A place in a log between two records. */
struct aries_mark {
    uint64_t lsn;    /* the LSN of the last record before it; the base LSN if there is none */
    uint64_t offset; /* how many bytes of the log come before it: the offset of the next record's frame */
};

/*
 * Sets *mark to before the first record of a log. Reads only the header, 8 or 16 bytes; the rest need not be there. 6.
 */
struct aries_fault aries_log_begin(const uint8_t *log, size_t log_length, struct aries_mark *mark);

/*
 * Reads one record: writes the record after *mark to *record, and sets *mark to after it. Only its frame is read. A
 * mark is set by aries_log_begin and by this call; to read a record whose LSN and offset are known, set mark->lsn to its
 * LSN minus 1, and mark->offset. With any other mark, what the call returns is not specified, but it touches no memory
 * outside its arguments. A checkpoint end comes without its tables. ARIES_NOT_WRITABLE: no whole record follows; the log
 * ends there, perhaps with a torn tail. 7 to 9: what follows is not a frame of the log.
 */
struct aries_fault aries_next_record(const uint8_t *log, size_t log_length, struct aries_mark *mark,
                                     struct aries_record *record);

/* Where a log ends, and what follows it. */
struct aries_log_end {
    uint64_t length;           /* bytes from the front that are a log without a torn tail */
    uint64_t last_lsn;         /* the LSN of the last record in them; the base LSN if there is none */
    uint64_t torn;             /* bytes of a torn tail after them; 0 if none follows */
    struct aries_fault damage; /* 7 to 9 with `length` as place, if other bytes follow; else number 0 */
};

/*
 * Finds the end of a log whose last bytes may be anything, as after a power cut: zeros, or old and new sectors. No more
 * bytes than end->length from the front are a log without a torn tail. If everything that was synced is in these bytes,
 * a recovery of them loses nothing. Damage in the middle of a log looks the same, so compare end->length with the length
 * that is known to be synced. Reads the log up to its end once, and allocates nothing. 6.
 */
struct aries_fault aries_log_end(const uint8_t *log, size_t log_length, struct aries_log_end *end);

/* What an engine that continues a log has to know of it. */
struct aries_log_state {
    uint64_t last_lsn;   /* the LSN of the last record; the base LSN if there is none */
    uint64_t highest;    /* the highest number of a transaction that has a record, 0 if none has */
    uint64_t unfinished; /* transactions that have a record, and have neither committed nor ended */
};

/*
 * Writes the unfinished transactions of a log to the front of `unfinished`, in ascending order. After a recovery these
 * are the transactions in doubt. Before it they are also those that it rolls back, which have state 0 or 1; it appends
 * no record of a transaction in doubt, and none with a new number. Reads the whole log. ARIES_NO_ROOM: all of `state` is
 * filled in, with the number of entries that are needed. Also 6 to 9 for the log, and 1.
 */
struct aries_fault aries_unfinished(const uint8_t *log, size_t log_length, struct aries_entry *unfinished,
                                    size_t unfinished_room, struct aries_log_state *state);

/*
 * WHAT AN ENGINE WRITES. Each call aries_write_... writes *length bytes to the front of out, and leaves the others
 * unchanged. ARIES_NO_ROOM: out is too short, and *length says how many bytes are needed. ARIES_NOT_WRITABLE: the
 * arguments have no encoding; the comment of each call says when.
 */

/*
 * Writes the header of a log: version 1, base_lsn 0, 8 bytes; or version 2, base_lsn at most 2^63 - 1, 16 bytes. Not
 * writable: any other version or base_lsn.
 */
struct aries_fault aries_write_log_header(uint32_t version, uint64_t base_lsn, uint8_t *out, size_t room,
                                          size_t *length);

/*
 * Writes the frame of a record, as it is in a log: at most ARIES_FRAME_BYTES. Allocates nothing. Not writable: a kind
 * other than 1 to 6 and 8, LSN 0, transaction 0, a slot that a page does not have, an image whose length is neither that
 * of a value nor ARIES_ABSENT.
 */
struct aries_fault aries_write_record(const struct aries_record *record, uint8_t *out, size_t room, size_t *length);

/*
 * Writes the frame of a checkpoint end with this LSN: 29 bytes, and 21 for each transaction and 12 for each page.
 * `begin` is the LSN of its begin record. Not writable: LSN 0, more than ARIES_TRANSACTIONS or ARIES_PAGES
 * entries, entries that are not in ascending order of transaction or page, transaction 0, a state above 2. Also 1.
 */
struct aries_fault aries_write_checkpoint_end(uint64_t lsn, uint64_t begin, const struct aries_entry *transactions,
                                              size_t transactions_count, const struct aries_dirty *dirty,
                                              size_t dirty_count, uint8_t *out, size_t room, size_t *length);

/* A page: its PageLSN, 0 for none; its number, from 0; and its slots. */
struct aries_page {
    uint64_t lsn;
    uint32_t number;
    struct aries_image slots[ARIES_SLOTS];
};

/*
 * Writes the header of a store, 24 bytes: 1 to ARIES_PAGES pages, and the master, the LSN of the begin record of the
 * last complete checkpoint, 0 for none. Not writable: any other number of pages.
 */
struct aries_fault aries_write_store_header(uint32_t pages, uint64_t master, uint8_t *out, size_t room,
                                            size_t *length);

/* Writes the image of a page, ARIES_PAGE_BYTES. Not writable: a slot whose length is not that of an image. */
struct aries_fault aries_write_page(const struct aries_page *page, uint8_t *out, size_t room, size_t *length);

/* Reads the page with this number from its image. If the bytes are not its image: 12, with this number as place. */
struct aries_fault aries_read_page(const uint8_t *image, size_t image_length, uint32_t number, struct aries_page *page);

/*
 * JOURNAL
 *
 * A journal writes the log for an engine. It keeps the pages, the transactions that have not finished, and the updates
 * that may still be undone. Each call appends the right record, or is refused. So the log is always lawful, and after a
 * crash at any moment a recovery leaves exactly the effects of the committed transactions and of those in doubt, if the
 * engine keeps three rules:
 *
 * - It appends the frames to the log in the order in which the calls returned them.
 * - It writes a page only if aries_journal_page_to_write allows it; it writes the whole page, as it is in `pages`, and
 *   never over a newer image.
 * - It reports only what is on the disk. The master is 0, or the LSN of the begin record of a checkpoint whose end
 *   record is on the disk, together with each page that was reported before the checkpoint.
 *
 * MEMORY OF A JOURNAL. It is a struct aries_journal and three arrays, which belong to the caller: of transactions, of
 * pages, and of pending updates. All calls on a journal take the same arrays with the same lengths, and only these
 * calls change them. The caller may read them: pages[n].page is page n as it is now. There are as many page entries as
 * the store has pages, and 1 to ARIES_TRANSACTIONS transaction entries. The array of pending updates limits how many
 * updates can be undone at a time. When it is full, an update first removes the entries that nobody needs any more;
 * with twice the room that is needed this costs little. It may remove some of them earlier. Only aries_journal_new and
 * aries_journal_open allocate memory. No call reads the log again. If arrays are passed that are not those of a
 * journal, what a call does is not specified; but it returns, and touches no memory outside its arguments.
 *
 * FRAMES. A call that appends records writes their frames, *length bytes, to the front of out, and leaves the other
 * bytes unchanged. An update takes at most ARIES_FRAME_BYTES, an undo less, a turn 25, and a checkpoint 42 and 21
 * for each transaction and 12 for each page. journal->last is the LSN of the last record.
 *
 * REFUSALS. With any number but 0, all that was passed is unchanged, except that ARIES_NO_ROOM sets *length to the
 * bytes that are needed, and that the arrays of aries_journal_open must not be used. LSNs for a commit and a rollback
 * are reserved, so neither is refused because LSNs are lacking.
 */
struct aries_journal {
    uint64_t last;       /* the LSN of the last record; the base LSN if there is none */
    uint64_t written;    /* the log is known to be on the disk up to this LSN */
    size_t transactions; /* how many transaction entries are in use */
    size_t pending;      /* how many entries for pending updates are in use */
    uint32_t next;       /* the number of the next transaction */
};

/* A transaction that has begun and not finished. The entries are in ascending order of tx. */
struct aries_transaction_entry {
    uint64_t last;      /* LastLSN, 0 for none */
    uint64_t undo_next; /* UndoNxtLSN, 0 for none */
    size_t below;       /* the entries for its pending updates are before this one */
    uint32_t tx;        /* its number, from 1 */
    uint8_t state;      /* 0 active, 1 aborting, 2 prepared */
};

/* A page. */
struct aries_page_entry {
    uint64_t rec_lsn;       /* RecLSN, 0 if the disk has all changes of the page */
    uint32_t writers[ARIES_SLOTS]; /* for each slot the transaction that changed it last, 0 for none */
    struct aries_page page; /* the page as it is now */
};

/* An update that may still be undone. */
struct aries_pending_entry {
    uint64_t lsn;              /* its LSN */
    uint64_t prev;             /* its PrevLSN */
    uint32_t tx;               /* its transaction, 0 after it was undone */
    uint32_t page;             /* the page that it changed */
    uint8_t slot;              /* the slot that it changed */
    struct aries_image before; /* what the slot held before */
};

/*
 * Numbers of refusals. `place` is the state with ARIES_FORBIDDEN, the other transaction with ARIES_HELD, the PageLSN
 * with ARIES_LOG_NOT_WRITTEN, the page with ARIES_PAGE_BEHIND, and 0 with all others.
 */
enum {
    ARIES_UNKNOWN_TRANSACTION = 70,   /* no transaction with this number has begun and not finished */
    ARIES_FORBIDDEN = 71,             /* the state of the transaction forbids the call */
    ARIES_NO_SUCH_PAGE = 72,          /* the store has no page with this number */
    ARIES_NO_SUCH_SLOT = 73,          /* a page has no slot with this number */
    ARIES_HELD = 74,                  /* another unfinished transaction has changed the slot */
    ARIES_NOTHING_TO_UNDO = 75,       /* the transaction has no pending update; in open: the log is not lawful */
    ARIES_STILL_PENDING = 76,         /* the transaction has pending updates, and cannot end */
    ARIES_TOO_MANY_TRANSACTIONS = 77, /* all transaction entries are in use, or ARIES_TRANSACTIONS */
    ARIES_NO_NUMBER = 78,             /* the transaction numbers are used up */
    ARIES_NO_SUCH_LSN = 79,           /* the LSN is above that of the last record, or above the PageLSN of the page */
    ARIES_LOG_NOT_WRITTEN = 80,       /* the log must be on the disk up to the PageLSN first */
    ARIES_NO_PENDING_ROOM = 81,       /* all entries for pending updates are in use, and each is needed */
    ARIES_LOG_FULL = 82,              /* the LSNs that are left are reserved for commits and rollbacks */
    ARIES_BAD_ARRAYS = 83,            /* the arrays are not those of a journal */
    ARIES_HAS_RECORDS = 84,           /* the transaction has a record: commit it, or roll it back */
    ARIES_HAS_MASTER = 85,            /* the master of the store is not 0 */
    ARIES_PAGE_AHEAD = 86,            /* a page has a PageLSN above the base LSN */
    ARIES_PAGE_BEHIND = 87            /* a page is not up to date: recover first */
};

/*
 * Opens the journal of a new log over the pages of a store. The version and the base LSN are as for
 * aries_write_log_header. The master of the store must be 0. 65: no such version or base LSN; 10 to 12 for the store;
 * 83: the store has another number of pages; 85; 86; 1.
 */
struct aries_fault aries_journal_new(uint32_t version, uint64_t base_lsn, const uint8_t *store, size_t store_length,
                                     struct aries_journal *journal, struct aries_page_entry *pages,
                                     size_t pages_count);

/*
 * Opens the journal that continues a log. The log and the store must be those that a recovery leaves, and must be on
 * the disk. Transactions in doubt keep their numbers, are prepared, and hold their slots. 6 to 9 for the log; 65: it
 * has a torn tail; 10 to 12 for the store; 83: the store has another number of pages; 87; 75, 77, 78, 81, 82: see
 * above; 1.
 */
struct aries_fault aries_journal_open(const uint8_t *log, size_t log_length, const uint8_t *store, size_t store_length,
                                      struct aries_journal *journal, struct aries_transaction_entry *transactions,
                                      size_t transactions_count, struct aries_page_entry *pages, size_t pages_count,
                                      struct aries_pending_entry *pending, size_t pending_count);

/* Begins a transaction, and sets *tx to its number, which no record of the log has. Appends no record. 77, 78, 82. */
struct aries_fault aries_journal_begin(struct aries_journal *journal, struct aries_transaction_entry *transactions,
                                       size_t transactions_count, uint32_t *tx);

/* A transaction without a record, which only read, leaves. Appends no record. 70, 84. */
struct aries_fault aries_journal_cancel(struct aries_journal *journal, struct aries_transaction_entry *transactions,
                                        size_t transactions_count, uint32_t tx);

/* Changes a slot to `after`: appends an update. 70 to 74, 81, 82, 64; 65: `after` is not an image. */
struct aries_fault aries_journal_update(struct aries_journal *journal, struct aries_transaction_entry *transactions,
                                        size_t transactions_count, struct aries_page_entry *pages, size_t pages_count,
                                        struct aries_pending_entry *pending, size_t pending_count, uint32_t tx,
                                        uint32_t page, uint8_t slot, const struct aries_image *after, uint8_t *out,
                                        size_t room, size_t *length);

/*
 * Undoes the newest pending update of a transaction: puts the image before it back, and appends a CLR. The transaction
 * still holds the slot. 70; 71: it is prepared, and has to abort first; 75; 64.
 */
struct aries_fault aries_journal_undo(struct aries_journal *journal, struct aries_transaction_entry *transactions,
                                      size_t transactions_count, struct aries_page_entry *pages, size_t pages_count,
                                      struct aries_pending_entry *pending, size_t pending_count, uint32_t tx,
                                      uint8_t *out, size_t room, size_t *length);

/*
 * Appends a record of this kind: ARIES_COMMIT (not if the transaction is aborting); ARIES_ABORT (neither), after which
 * it can only be undone and end; ARIES_END (not if it is prepared, or has pending updates); ARIES_PREPARE (only if it
 * is active), after which it can only commit or abort. After a commit or an end the transaction has finished. 70, 71,
 * 64; 76 for an end; 82 for a prepare; 65: another kind.
 */
struct aries_fault aries_journal_turn(struct aries_journal *journal, struct aries_transaction_entry *transactions,
                                      size_t transactions_count, const struct aries_pending_entry *pending,
                                      size_t pending_count, uint32_t tx, uint8_t kind, uint8_t *out, size_t room,
                                      size_t *length);

/*
 * Sets *lsn to the LSN of the newest pending update of a transaction, 0 if there is none. To roll back to a savepoint,
 * which is the value of journal->last when it was set, undo while this LSN is above it. To roll back wholly, undo while
 * it is above 0, and end. 70; 71: the transaction is prepared.
 */
struct aries_fault aries_journal_newest(const struct aries_journal *journal,
                                        const struct aries_transaction_entry *transactions, size_t transactions_count,
                                        const struct aries_pending_entry *pending, size_t pending_count, uint32_t tx,
                                        uint64_t *lsn);

/*
 * Takes a checkpoint: appends its begin record, with the LSN journal->last - 1, and its end record. Sync the store, and
 * the log up to the end record, before the LSN of the begin record becomes the master. 82, 64.
 */
struct aries_fault aries_journal_checkpoint(struct aries_journal *journal,
                                            const struct aries_transaction_entry *transactions,
                                            size_t transactions_count, const struct aries_page_entry *pages,
                                            size_t pages_count, uint8_t *out, size_t room, size_t *length);

/* Reports that the log is on the disk up to this LSN, which need not be the last. 79. */
struct aries_fault aries_journal_log_written(struct aries_journal *journal, uint64_t lsn);

/* Checks that pages[page].page may be written to the store. Its image is made by aries_write_page. 72, 80. */
struct aries_fault aries_journal_page_to_write(const struct aries_journal *journal,
                                               const struct aries_page_entry *pages, size_t pages_count,
                                               uint32_t page);

/*
 * Reports that the image of a page with this PageLSN was written to the store. It need not be the newest. The next
 * checkpoint leaves out what the image has, so sync the store before that checkpoint becomes the master. 72, 79.
 */
struct aries_fault aries_journal_page_written(struct aries_page_entry *pages, size_t pages_count, uint32_t page,
                                              uint64_t page_lsn);

/*
 * ENGINE
 *
 * The same calls with one struct, which holds a journal and its arrays with their lengths. Set the pointers and the
 * counts, then open it. These functions are in this header, and are tested, not proved. They need C99 or C++.
 */
#if defined(__cplusplus) || (defined(__STDC_VERSION__) && __STDC_VERSION__ >= 199901L)
struct aries_engine {
    struct aries_journal journal;
    struct aries_transaction_entry *transactions;
    size_t transactions_count;
    struct aries_page_entry *pages;
    size_t pages_count;
    struct aries_pending_entry *pending;
    size_t pending_count;
};

/* aries_journal_new. */
static inline struct aries_fault aries_engine_new(struct aries_engine *engine, uint32_t version, uint64_t base_lsn,
                                                  const uint8_t *store, size_t store_length)
{
    return aries_journal_new(version, base_lsn, store, store_length, &engine->journal, engine->pages,
                             engine->pages_count);
}

/* aries_journal_open. */
static inline struct aries_fault aries_engine_open(struct aries_engine *engine, const uint8_t *log, size_t log_length,
                                                   const uint8_t *store, size_t store_length)
{
    return aries_journal_open(log, log_length, store, store_length, &engine->journal, engine->transactions,
                              engine->transactions_count, engine->pages, engine->pages_count, engine->pending,
                              engine->pending_count);
}

/* aries_journal_begin. */
static inline struct aries_fault aries_engine_begin(struct aries_engine *engine, uint32_t *tx)
{
    return aries_journal_begin(&engine->journal, engine->transactions, engine->transactions_count, tx);
}

/* aries_journal_cancel. */
static inline struct aries_fault aries_engine_cancel(struct aries_engine *engine, uint32_t tx)
{
    return aries_journal_cancel(&engine->journal, engine->transactions, engine->transactions_count, tx);
}

/* aries_journal_update. */
static inline struct aries_fault aries_engine_update(struct aries_engine *engine, uint32_t tx, uint32_t page,
                                                     uint8_t slot, const struct aries_image *after, uint8_t *out,
                                                     size_t room, size_t *length)
{
    return aries_journal_update(&engine->journal, engine->transactions, engine->transactions_count, engine->pages,
                                engine->pages_count, engine->pending, engine->pending_count, tx, page, slot, after,
                                out, room, length);
}

/* aries_journal_undo. */
static inline struct aries_fault aries_engine_undo(struct aries_engine *engine, uint32_t tx, uint8_t *out, size_t room,
                                                   size_t *length)
{
    return aries_journal_undo(&engine->journal, engine->transactions, engine->transactions_count, engine->pages,
                              engine->pages_count, engine->pending, engine->pending_count, tx, out, room, length);
}

/* aries_journal_turn: ARIES_COMMIT, ARIES_ABORT, ARIES_END or ARIES_PREPARE. */
static inline struct aries_fault aries_engine_turn(struct aries_engine *engine, uint32_t tx, uint8_t kind, uint8_t *out,
                                                   size_t room, size_t *length)
{
    return aries_journal_turn(&engine->journal, engine->transactions, engine->transactions_count, engine->pending,
                              engine->pending_count, tx, kind, out, room, length);
}

/* aries_journal_newest. */
static inline struct aries_fault aries_engine_newest(const struct aries_engine *engine, uint32_t tx, uint64_t *lsn)
{
    return aries_journal_newest(&engine->journal, engine->transactions, engine->transactions_count, engine->pending,
                                engine->pending_count, tx, lsn);
}

/*
 * Rolls a transaction back to a savepoint, which is the value of journal.last when it was set: undoes its pending
 * updates with a larger LSN, the newest first. *length is always the bytes of the CLRs that were written to out.
 * ARIES_NO_ROOM: out is full; append these bytes to the log, and call again. ARIES_FRAME_BYTES of room are enough to go
 * on. 70, 71, 64.
 */
static inline struct aries_fault aries_engine_roll_back_to(struct aries_engine *engine, uint32_t tx, uint64_t savepoint,
                                                           uint8_t *out, size_t room, size_t *length)
{
    uint64_t newest = 0;
    struct aries_fault fault = aries_engine_newest(engine, tx, &newest);
    *length = 0;
    while (fault.number == ARIES_OK && newest > savepoint) {
        size_t added = 0;
        fault = aries_engine_undo(engine, tx, out + *length, room - *length, &added);
        if (fault.number == ARIES_OK) {
            *length += added;
            fault = aries_engine_newest(engine, tx, &newest);
        }
    }
    return fault;
}

/*
 * Rolls a transaction back wholly: undoes its pending updates, and ends it. *length and ARIES_NO_ROOM as above. A
 * prepared transaction has to abort first. 70, 71, 64.
 */
static inline struct aries_fault aries_engine_roll_back(struct aries_engine *engine, uint32_t tx, uint8_t *out,
                                                        size_t room, size_t *length)
{
    size_t added = 0;
    struct aries_fault fault = aries_engine_roll_back_to(engine, tx, 0, out, room, length);
    if (fault.number != ARIES_OK)
        return fault;
    fault = aries_engine_turn(engine, tx, ARIES_END, out + *length, room - *length, &added);
    if (fault.number == ARIES_OK)
        *length += added;
    return fault;
}

/* aries_journal_checkpoint. Sets *begin to the LSN of the begin record, which may become the master. */
static inline struct aries_fault aries_engine_checkpoint(struct aries_engine *engine, uint8_t *out, size_t room,
                                                         size_t *length, uint64_t *begin)
{
    uint64_t last = engine->journal.last;
    struct aries_fault fault = aries_journal_checkpoint(&engine->journal, engine->transactions,
                                                        engine->transactions_count, engine->pages,
                                                        engine->pages_count, out, room, length);
    if (fault.number == ARIES_OK)
        *begin = last + 1;
    return fault;
}

/* aries_journal_log_written. */
static inline struct aries_fault aries_engine_log_written(struct aries_engine *engine, uint64_t lsn)
{
    return aries_journal_log_written(&engine->journal, lsn);
}

/* aries_journal_page_to_write. */
static inline struct aries_fault aries_engine_page_to_write(const struct aries_engine *engine, uint32_t page)
{
    return aries_journal_page_to_write(&engine->journal, engine->pages, engine->pages_count, page);
}

/* aries_journal_page_written. */
static inline struct aries_fault aries_engine_page_written(struct aries_engine *engine, uint32_t page,
                                                           uint64_t page_lsn)
{
    return aries_journal_page_written(engine->pages, engine->pages_count, page, page_lsn);
}
#endif

#ifdef __cplusplus
}
#endif
#endif
