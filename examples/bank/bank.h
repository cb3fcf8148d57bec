/* A small engine: pages of cells (slots of pages), changed by transactions, several at a time.
 *
 * Three parts do the work. The journal of aries.h keeps the pages, the transactions and what may be undone; it writes
 * the records, and refuses a change of a cell that another transaction holds. aries_files.h keeps the log and the store
 * in a folder, so that they survive a power cut. The bank connects the two: each frame that the journal makes goes to
 * the files, and what the files have made durable is reported to the journal.
 *
 * If a call of either part fails, the bank prints why and ends the program. The next opening recovers. */
#ifndef BANK_H
#define BANK_H
#include "aries_files.h"

#include <stdbool.h>

enum {
    TRANSACTIONS = 8, /* that run at a time */
    UPDATES = 8,      /* of one transaction that can be undone */
    /* The largest frame is that of a checkpoint: FRAMES in aries.h says how long each is. */
    FRAME_ROOM = 42 + 21 * TRANSACTIONS + 12 * ARIES_PAGES,
    PAGES_AT_ONCE = 8 /* in one call of bank_write_pages */
};

struct bank {
    aries_files *files;
    struct aries_files_opened opened; /* what opening found and did */
    uint64_t decided;                 /* transactions that were in doubt when it was opened */
    struct aries_engine engine;
    uint8_t frames[FRAME_ROOM];       /* what a call of the journal appends */
};

struct cell {
    uint32_t page;
    uint8_t slot;
};

/* Opens the bank in this folder, with flags of aries_files_open. If there is none, makes one of page_count pages. */
void bank_open(struct bank *bank, const char *folder, uint32_t flags, uint32_t page_count);
void bank_close(struct bank *bank);

const struct aries_image *bank_read(const struct bank *bank, struct cell cell);

/* Begins a transaction, and returns its number. Not more than TRANSACTIONS may run at a time. */
uint32_t bank_begin(struct bank *bank);
/* Changes a cell. Returns false, and changes nothing, if another transaction holds the cell. */
bool bank_update(struct bank *bank, uint32_t tx, struct cell cell, const struct aries_image *after);
/* A savepoint, for bank_roll_back_to. */
uint64_t bank_savepoint(const struct bank *bank);
/* Undoes what the transaction changed since the savepoint. It goes on, and keeps its cells. */
void bank_roll_back_to(struct bank *bank, uint32_t tx, uint64_t savepoint);
/* Undoes the newest change of a transaction that is not undone. Returns false if there is none. */
bool bank_undo(struct bank *bank, uint32_t tx);
/* From here on the transaction can only be undone and end. */
void bank_abort(struct bank *bank, uint32_t tx);
/* Ends a transaction of which all is undone. */
void bank_end(struct bank *bank, uint32_t tx);
/* Promises to commit or to abort, as the coordinator of a two-phase commit decides. Durable when this returns. */
void bank_prepare(struct bank *bank, uint32_t tx);
/* Commits. Acknowledge the commit after the next bank_sync, which may serve many. */
void bank_commit(struct bank *bank, uint32_t tx);
/* Makes all records so far durable. */
void bank_sync(struct bank *bank);

/* Writes the dirty pages among `count` pages from `first` on to the store, also with uncommitted changes. */
void bank_write_pages(struct bank *bank, uint32_t first, uint32_t count);
/* Takes a fuzzy checkpoint: transactions may be running, and pages dirty. It makes the next redo shorter. */
void bank_checkpoint(struct bank *bank);
/* Begins a new log. No transaction may be running. */
void bank_archive(struct bank *bank);
/* Ends the program if the log and the store are not lawful as they are in their files. */
void bank_audit(struct bank *bank);
/* Audits the files of a bank that is not open. After a power cut open it first: until then its log may not be whole. */
struct aries_fault audit_folder(const char *folder);

/* Ends the program with a message, if there is a fault. */
void stop_at(struct aries_fault fault);
#endif
