#include "bank.h"

#include <errno.h>
#include <stdio.h>
#include <stdlib.h>
#include <string.h>

/* ERRORS */

void stop_at(struct aries_fault fault) {
    uint8_t text[64];
    size_t length = 0;
    if (fault.number == ARIES_OK) return;
    if (aries_fault_text(&fault, text, sizeof text, &length).number == ARIES_OK)
        fprintf(stderr, "fault %u: %.*s\n", fault.number, (int)length, (const char *)text);
    else
        fprintf(stderr, "fault %u at %llu\n", fault.number, (unsigned long long)fault.place); /* one of the journal */
    exit(1);
}

static const char *text_of(int error) {
    switch (error) {
    case ARIES_FILES_IO: return strerror(errno);
    case ARIES_FILES_BUSY: return "busy: another program has the folder open";
    case ARIES_FILES_FOREIGN: return "foreign: another program has written to the folder; nothing was changed";
    default: return "see aries_files.h";
    }
}

/* Ends the program if a call of aries_files failed. */
static void need_files(int error) {
    if (error == ARIES_FILES_OK) return;
    fprintf(stderr, "files: error %d: %s\n", error, text_of(error));
    exit(1);
}

static void *memory(size_t count, size_t size) {
    void *made = calloc(count, size);
    if (made) return made;
    fputs("no memory\n", stderr);
    exit(1);
}

/* THE LOG */

/* Appends the frames that a call of the journal has written to bank->frames. */
static void append(struct bank *bank, struct aries_fault fault, size_t length) {
    stop_at(fault);
    need_files(aries_files_append(bank->files, bank->frames, length));
}

/* The journal has to know what is durable: it lets no page be written before its records. */
void bank_sync(struct bank *bank) {
    need_files(aries_files_sync(bank->files));
    stop_at(aries_engine_log_written(&bank->engine, aries_files_durable(bank->files)));
}

/* Appends a record that says what becomes of a transaction. */
static void turn(struct bank *bank, uint32_t tx, uint8_t kind) {
    size_t length = 0;
    struct aries_fault fault = aries_engine_turn(&bank->engine, tx, kind, bank->frames, FRAME_ROOM, &length);
    append(bank, fault, length);
}

/* TRANSACTIONS */

const struct aries_image *bank_read(const struct bank *bank, struct cell cell) {
    return &bank->engine.pages[cell.page].page.slots[cell.slot];
}

uint32_t bank_begin(struct bank *bank) {
    uint32_t tx = 0;
    stop_at(aries_engine_begin(&bank->engine, &tx));
    return tx;
}

bool bank_update(struct bank *bank, uint32_t tx, struct cell cell, const struct aries_image *after) {
    size_t length = 0;
    struct aries_fault fault = aries_engine_update(&bank->engine, tx, cell.page, cell.slot, after,
                                                   bank->frames, FRAME_ROOM, &length);
    if (fault.number == ARIES_HELD) return false;
    append(bank, fault, length);
    return true;
}

uint64_t bank_savepoint(const struct bank *bank) {
    return bank->engine.journal.last;
}

/* If the frames of all CLRs do not fit, the journal writes those that do, and is called again. */
void bank_roll_back_to(struct bank *bank, uint32_t tx, uint64_t savepoint) {
    struct aries_fault fault;
    do {
        size_t length = 0;
        fault = aries_engine_roll_back_to(&bank->engine, tx, savepoint, bank->frames, FRAME_ROOM, &length);
        need_files(aries_files_append(bank->files, bank->frames, length));
    } while (fault.number == ARIES_NO_ROOM);
    stop_at(fault);
}

bool bank_undo(struct bank *bank, uint32_t tx) {
    uint64_t newest = 0;
    size_t length = 0;
    stop_at(aries_engine_newest(&bank->engine, tx, &newest));
    if (newest == 0) return false;
    struct aries_fault fault = aries_engine_undo(&bank->engine, tx, bank->frames, FRAME_ROOM, &length);
    append(bank, fault, length);
    return true;
}

void bank_abort(struct bank *bank, uint32_t tx) {
    turn(bank, tx, ARIES_ABORT);
}

void bank_end(struct bank *bank, uint32_t tx) {
    turn(bank, tx, ARIES_END);
}

void bank_prepare(struct bank *bank, uint32_t tx) {
    turn(bank, tx, ARIES_PREPARE);
    bank_sync(bank);
}

void bank_commit(struct bank *bank, uint32_t tx) {
    turn(bank, tx, ARIES_COMMIT);
}

/* OPENING */

/* The arrays of the journal. Room for twice the pending updates keeps an update cheap when the array is full. */
static void make_arrays(struct aries_engine *engine, uint32_t page_count) {
    engine->transactions_count = TRANSACTIONS;
    engine->transactions = memory(TRANSACTIONS, sizeof *engine->transactions);
    engine->pages_count = page_count;
    engine->pages = memory(page_count, sizeof *engine->pages);
    engine->pending_count = 2 * TRANSACTIONS * UPDATES;
    engine->pending = memory(engine->pending_count, sizeof *engine->pending);
}

/* Decides the transactions in doubt, which are all that a recovery leaves unfinished. An engine asks the coordinator of
 * each. The bank has none, and has acknowledged none of them, so either decision is right: here even numbers commit. */
static void decide(struct bank *bank) {
    for (; bank->engine.journal.transactions > 0; bank->decided++) {
        uint32_t tx = bank->engine.transactions[0].tx;
        if (tx % 2 == 0) {
            bank_commit(bank, tx);
        } else {
            bank_abort(bank, tx);
            bank_roll_back_to(bank, tx, 0);
            bank_end(bank, tx);
        }
    }
    bank_sync(bank);
}

void bank_open(struct bank *bank, const char *folder, uint32_t flags, uint32_t page_count) {
    struct aries_files_opened *opened = &bank->opened;
    memset(bank, 0, sizeof *bank);
    int error = aries_files_open(folder, flags, page_count, &bank->files, opened);
    if (error == ARIES_FILES_FAULT) stop_at(opened->fault);
    need_files(error);
    make_arrays(&bank->engine, opened->page_count);
    stop_at(aries_engine_open(&bank->engine, opened->log, opened->log_length, opened->store, opened->store_length));
    decide(bank);
}

void bank_close(struct bank *bank) {
    need_files(aries_files_close(bank->files));
    free(bank->engine.transactions);
    free(bank->engine.pages);
    free(bank->engine.pending);
}

/* THE STORE */

static bool is_dirty(const struct bank *bank, uint32_t page) {
    return page < bank->engine.pages_count && bank->engine.pages[page].rec_lsn != 0;
}

/* The images of the dirty pages among these. The journal allows a page if the log is durable up to its PageLSN. */
static size_t make_images(const struct bank *bank, uint32_t first, uint32_t count, uint8_t *images) {
    size_t made = 0, length = 0;
    for (uint32_t page = first; page < first + count; page++) {
        if (!is_dirty(bank, page)) continue;
        stop_at(aries_engine_page_to_write(&bank->engine, page));
        stop_at(aries_write_page(&bank->engine.pages[page].page, images + made, ARIES_PAGE_BYTES, &length));
        made += length;
    }
    return made / ARIES_PAGE_BYTES;
}

/* Pages are reported as written after aries_files_write_pages has returned, since only then they are durable. */
void bank_write_pages(struct bank *bank, uint32_t first, uint32_t count) {
    uint8_t images[PAGES_AT_ONCE * ARIES_PAGE_BYTES];
    if (count > PAGES_AT_ONCE) count = PAGES_AT_ONCE;
    bank_sync(bank);
    need_files(aries_files_write_pages(bank->files, images, make_images(bank, first, count, images)));
    for (uint32_t page = first; page < first + count; page++)
        if (is_dirty(bank, page))
            stop_at(aries_engine_page_written(&bank->engine, page, bank->engine.pages[page].page.lsn));
}

/* aries_files_set_master makes the log durable before it sets the master, which is the LSN of the begin record. The
 * pages that were reported as written are durable already. */
void bank_checkpoint(struct bank *bank) {
    size_t length = 0;
    uint64_t begin = 0;
    struct aries_fault fault = aries_engine_checkpoint(&bank->engine, bank->frames, FRAME_ROOM, &length, &begin);
    append(bank, fault, length);
    need_files(aries_files_set_master(bank->files, begin));
}

/* The files have all pages then, and the journal of the new log begins with them. */
void bank_archive(struct bank *bank) {
    struct aries_files_opened *opened = &bank->opened;
    if (bank->engine.journal.last == opened->base_lsn) return; /* the log has no records */
    need_files(aries_files_archive(bank->files, opened));
    stop_at(aries_engine_new(&bank->engine, 2, opened->base_lsn, opened->store, opened->store_length));
}

void bank_audit(struct bank *bank) {
    struct aries_fault fault;
    need_files(aries_files_audit(bank->files, &fault));
    stop_at(fault);
}
