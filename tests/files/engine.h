/*
 * engine.h: a small engine over aries_files.h, which does at random what an engine may do; and a history of what it has
 * done, from which the checker knows what an opening has to find.
 */
#ifndef ENGINE_H
#define ENGINE_H

#include "aries_files.h"

#include <setjmp.h>

enum { LOG_ROOM = 1 << 20, RECORDS = LOG_ROOM / 13, TRANSACTIONS = 20, PENDING = 16, PAGES = 16 };

/* What was appended to the log since its base LSN, how much of it was acknowledged, what the pages held at first. */
struct history {
    uint64_t base_lsn;
    uint8_t *log;
    size_t length, acknowledged;
    uint8_t *base; /* a store with master 0 */
    size_t base_length;
    uint64_t master, next_master;          /* the one that was set, and the one that is being set */
    int is_archiving;                      /* if so, these may be the new base LSN and its pages: */
    uint64_t next_base_lsn;
    struct aries_page next_base[PAGES];
};

struct pending {
    uint64_t lsn, prev;
    uint32_t page;
    uint8_t slot;
    struct aries_image before;
};

enum { ACTIVE, ABORTING, PREPARED };

struct transaction {
    uint32_t number; /* 0: none */
    uint8_t state;
    uint64_t last, undo_next;
    int count;
    struct pending pending[PENDING];
};

struct counts {
    unsigned long commits, undone, prepares, checkpoints, archives;
};

struct engine {
    aries_files *files;
    struct aries_files_opened opened;
    uint32_t page_count, next_number;
    uint64_t last_lsn;
    struct aries_page pages[PAGES];
    uint64_t rec_lsn[PAGES];
    uint32_t holders[PAGES][ARIES_SLOTS];
    struct transaction transactions[TRANSACTIONS];
    uint64_t begin; /* the LSN of the begin record of a checkpoint that is being taken */
    struct aries_entry entries[TRANSACTIONS];
    struct aries_dirty dirty[PAGES];
    size_t entry_count, dirty_count;
    struct history *history;
    struct counts counts;
    jmp_buf stop;
    int failed; /* the number that stopped it */
};

/* Continues from what was opened. */
void continue_engine(struct engine *engine);

/* Takes `steps` steps, with at most `transactions` transactions at a time. Returns 0, or the number that stopped it. */
int run_engine(struct engine *engine, int steps, int transactions);

/* Encodes the pages as a store with master 0. */
void encode_pages(const struct aries_page *pages, uint32_t count, uint8_t *store, size_t length);

/* Called when something was acknowledged, since a crash may come then. */
extern void (*after_acknowledgement)(void);

/* Ends the program if the test itself is wrong. */
void need(int holds, const char *what);

#endif
