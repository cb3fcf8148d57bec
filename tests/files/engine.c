#include "engine.h"
#include "disk.h"

#include <stdio.h>
#include <stdlib.h>
#include <string.h>

void (*after_acknowledgement)(void);

void need(int holds, const char *what) {
    if (holds) return;
    printf("the test is wrong: %s\n", what);
    exit(2);
}

static void done(struct engine *engine, int failed) {
    if (!failed) return;
    engine->failed = failed;
    longjmp(engine->stop, 1);
}

static void acknowledged(void) {
    if (after_acknowledgement) after_acknowledgement();
}

void encode_pages(const struct aries_page *pages, uint32_t count, uint8_t *store, size_t length) {
    size_t written = 0, at = 0;
    need(aries_write_store_header(count, 0, store, length, &written).number == 0, "a header of a store");
    for (uint32_t page = 0; page < count; page++) {
        at += written;
        need(aries_write_page(&pages[page], store + at, length - at, &written).number == 0, "a page");
    }
}

/* RECORDS */

static void append(struct engine *engine, const uint8_t *frame, size_t length) {
    struct history *history = engine->history;
    need(history->length + length <= LOG_ROOM, "the room for the log");
    memcpy(history->log + history->length, frame, length);
    history->length += length;
    engine->last_lsn++;
    done(engine, aries_files_append(engine->files, frame, length));
}

static void append_record(struct engine *engine, struct aries_record record) {
    uint8_t frame[128];
    size_t length;
    record.lsn = engine->last_lsn + 1;
    need(aries_write_record(&record, frame, sizeof frame, &length).number == 0, "a record");
    append(engine, frame, length);
}

static void append_of(struct engine *engine, struct transaction *tx, struct aries_record record) {
    record.tx = tx->number;
    record.prev = tx->last;
    tx->last = engine->last_lsn + 1;
    append_record(engine, record);
}

static void append_kind(struct engine *engine, struct transaction *tx, uint8_t kind) {
    append_of(engine, tx, (struct aries_record){.kind = kind});
}

static void sync_all(struct engine *engine) {
    done(engine, aries_files_sync(engine->files));
    engine->history->acknowledged = engine->history->length;
    acknowledged();
}

/* TRANSACTIONS */

static void set_slot(struct engine *engine, uint32_t page, uint8_t slot, struct aries_image image, uint64_t lsn) {
    engine->pages[page].slots[slot] = image;
    engine->pages[page].lsn = lsn;
    if (!engine->rec_lsn[page]) engine->rec_lsn[page] = lsn;
}

static struct aries_image some_image(const struct engine *engine, uint32_t number) {
    struct aries_image image;
    memset(&image, 0, sizeof image);
    image.length = draw(12) == 0 ? ARIES_ABSENT : draw(4) ? 48 : (uint8_t)draw(49);
    int byte = "abcdefghijklmnopqrstuvwxyz012345"[(number * 7 + engine->last_lsn) % 32];
    if (image.length != ARIES_ABSENT) memset(image.bytes, byte, image.length);
    return image;
}

static void update(struct engine *engine, struct transaction *tx) {
    uint32_t page = (uint32_t)draw(engine->page_count), holder;
    uint8_t slot = (uint8_t)draw(ARIES_SLOTS);
    holder = engine->holders[page][slot];
    if (tx->count == PENDING || tx->state != ACTIVE || (holder && holder != tx->number)) return;
    struct aries_image before = engine->pages[page].slots[slot], after = some_image(engine, tx->number);
    struct pending *pending = &tx->pending[tx->count];
    *pending = (struct pending){engine->last_lsn + 1, tx->last, page, slot, before};
    append_of(engine, tx,
        (struct aries_record){.kind = ARIES_UPDATE, .page = page, .slot = slot, .before = before, .after = after});
    tx->count++;
    tx->undo_next = tx->last;
    engine->holders[page][slot] = tx->number;
    set_slot(engine, page, slot, after, tx->last);
}

static void undo(struct engine *engine, struct transaction *tx) {
    const struct pending *it = &tx->pending[--tx->count];
    append_of(engine, tx, (struct aries_record){
        .kind = ARIES_CLR, .page = it->page, .slot = it->slot, .next = it->prev, .after = it->before});
    tx->undo_next = it->prev;
    set_slot(engine, it->page, it->slot, it->before, tx->last);
    engine->counts.undone++;
}

static void begin(struct engine *engine, struct transaction *tx) {
    memset(tx, 0, sizeof *tx);
    tx->number = engine->next_number++;
    update(engine, tx);
}

static void finish(struct engine *engine, struct transaction *tx) {
    uint32_t *holders = engine->holders[0];
    for (int i = 0; i < PAGES * ARIES_SLOTS; i++)
        if (holders[i] == tx->number) holders[i] = 0;
    memset(tx, 0, sizeof *tx);
}

static void commit(struct engine *engine, struct transaction *tx) {
    append_kind(engine, tx, ARIES_COMMIT);
    if (!draw(3)) append_kind(engine, tx, ARIES_END);
    engine->counts.commits++;
    finish(engine, tx);
}

static void roll_back(struct engine *engine, struct transaction *tx) {
    int aborts = tx->last && tx->state != ABORTING && (tx->state == PREPARED || draw(2));
    if (aborts) append_kind(engine, tx, ARIES_ABORT);
    if (aborts) tx->state = ABORTING;
    while (tx->count) undo(engine, tx);
    if (tx->last) append_kind(engine, tx, ARIES_END);
    finish(engine, tx);
}

static void roll_back_partly(struct engine *engine, struct transaction *tx) {
    for (uint64_t count = 1 + draw(3); count && tx->count; count--) undo(engine, tx);
}

/* PAGES, CHECKPOINTS, ARCHIVES */

/* Pages may change after their images were made, and the log may be durable up to that change. */
static void change_meanwhile(struct engine *engine) {
    struct transaction *tx = &engine->transactions[draw(TRANSACTIONS)];
    if (!tx->number) return;
    update(engine, tx);
    sync_all(engine);
}

/* The RecLSN of a page that changes meanwhile is that of the first change after the image. */
static void flush(struct engine *engine, int is_all) {
    static uint8_t images[PAGES * ARIES_PAGE_BYTES];
    size_t count = 0, length;
    for (uint32_t page = 0; page < engine->page_count; page++) {
        if (!engine->rec_lsn[page] || !(is_all || draw(2))) continue;
        uint8_t *image = images + count++ * ARIES_PAGE_BYTES;
        need(aries_write_page(&engine->pages[page], image, ARIES_PAGE_BYTES, &length).number == 0, "a page");
        engine->rec_lsn[page] = 0;
    }
    while (!draw(3)) change_meanwhile(engine);
    done(engine, aries_files_write_pages(engine->files, images, count));
    acknowledged();
}

static int by_number(const void *a, const void *b) {
    const struct aries_entry *left = a, *right = b;
    return (left->tx > right->tx) - (left->tx < right->tx);
}

static void list_transactions(struct engine *engine) {
    engine->entry_count = 0;
    for (int i = 0; i < TRANSACTIONS; i++) {
        const struct transaction *tx = &engine->transactions[i];
        struct aries_entry entry = {.tx = tx->number, .state = tx->state, .last = tx->last, .undo_next = tx->undo_next};
        if (tx->last) engine->entries[engine->entry_count++] = entry;
    }
    qsort(engine->entries, engine->entry_count, sizeof *engine->entries, by_number);
}

static void list_dirty_pages(struct engine *engine) {
    engine->dirty_count = 0;
    for (uint32_t page = 0; page < engine->page_count; page++) {
        struct aries_dirty dirty = {.rec_lsn = engine->rec_lsn[page], .page = page};
        if (dirty.rec_lsn) engine->dirty[engine->dirty_count++] = dirty;
    }
}

static void begin_checkpoint(struct engine *engine) {
    list_transactions(engine);
    list_dirty_pages(engine);
    engine->begin = engine->last_lsn + 1;
    append_record(engine, (struct aries_record){.kind = ARIES_CHECKPOINT_BEGIN});
}

static void end_checkpoint(struct engine *engine) {
    struct history *history = engine->history;
    uint8_t frame[8192];
    size_t length;
    struct aries_fault fault = aries_write_checkpoint_end(engine->last_lsn + 1, engine->begin, engine->entries,
        engine->entry_count, engine->dirty, engine->dirty_count, frame, sizeof frame, &length);
    need(fault.number == 0, "a checkpoint end");
    append(engine, frame, length);
    history->next_master = engine->begin;
    done(engine, aries_files_set_master(engine->files, engine->begin));
    history->acknowledged = history->length;
    history->master = engine->begin;
    engine->begin = 0;
    engine->counts.checkpoints++;
    acknowledged();
}

static void checkpoint(struct engine *engine) {
    if (engine->begin) end_checkpoint(engine);
    else begin_checkpoint(engine);
}

static void finish_all(struct engine *engine) {
    for (int i = 0; i < TRANSACTIONS; i++) {
        struct transaction *tx = &engine->transactions[i];
        if (!tx->number) continue;
        if (tx->state != ABORTING && draw(2)) commit(engine, tx);
        else roll_back(engine, tx);
    }
}

static void begin_history(struct engine *engine) {
    struct history *history = engine->history;
    encode_pages(engine->pages, engine->page_count, history->base, history->base_length);
    history->base_lsn = engine->last_lsn;
    (void)aries_write_log_header(2, history->base_lsn, history->log, LOG_ROOM, &history->length);
    memset(engine->rec_lsn, 0, sizeof engine->rec_lsn);
    engine->next_number = 1;
    engine->counts.archives++;
}

static void archive(struct engine *engine) {
    struct history *history = engine->history;
    finish_all(engine);
    if (engine->begin) end_checkpoint(engine);
    if (draw(2)) flush(engine, 0);
    memcpy(history->next_base, engine->pages, sizeof history->next_base);
    history->is_archiving = 1;
    history->next_master = 0;
    history->next_base_lsn = engine->last_lsn;
    done(engine, aries_files_archive(engine->files, &engine->opened));
    history->is_archiving = 0;
    if (history->base_lsn != engine->last_lsn) {
        need(engine->opened.base_lsn == engine->last_lsn && engine->opened.log_length == 16, "a new log");
        history->master = 0;
        begin_history(engine);
    }
    history->next_master = history->master;
    history->acknowledged = history->length;
    acknowledged();
}

/* STEPS */

static void resolve(struct engine *engine, struct transaction *tx) {
    if (!draw(2)) {
        roll_back(engine, tx);
        return;
    }
    commit(engine, tx);
    sync_all(engine);
}

static void prepare(struct engine *engine, struct transaction *tx) {
    append_kind(engine, tx, ARIES_PREPARE);
    tx->state = PREPARED;
    engine->counts.prepares++;
    sync_all(engine);
}

static void abort_first(struct engine *engine, struct transaction *tx) {
    append_kind(engine, tx, ARIES_ABORT);
    tx->state = ABORTING;
}

static void commit_and_sync(struct engine *engine, struct transaction *tx) {
    commit(engine, tx);
    if (draw(3)) sync_all(engine);
}

static void end_undo(struct engine *engine, struct transaction *tx) {
    append_kind(engine, tx, ARIES_END);
    finish(engine, tx);
}

static void step_of(struct engine *engine, struct transaction *tx, uint64_t what) {
    if (!tx->number) begin(engine, tx);
    else if (tx->state == PREPARED && what < 60) resolve(engine, tx);
    else if (tx->state == PREPARED) return;
    else if (tx->state == ABORTING && tx->count) undo(engine, tx);
    else if (tx->state == ABORTING) end_undo(engine, tx);
    else if (what < 70) update(engine, tx);
    else if (what < 76) roll_back_partly(engine, tx);
    else if (what < 80) roll_back(engine, tx);
    else if (what < 83 && tx->last) abort_first(engine, tx);
    else if (what < 87 && tx->last) prepare(engine, tx);
    else commit_and_sync(engine, tx);
}

static void step(struct engine *engine, int transactions) {
    struct transaction *tx = &engine->transactions[draw((uint64_t)transactions)];
    uint64_t what = draw(100);
    if (what < 8) flush(engine, !draw(4));
    else if (what < 14) checkpoint(engine);
    else if (what < 20) sync_all(engine);
    else if (what < 22 && !draw(transactions < 3 ? 1 : 3)) archive(engine);
    else step_of(engine, tx, what);
}

int run_engine(struct engine *engine, int steps, int transactions) {
    engine->failed = 0;
    if (setjmp(engine->stop)) return engine->failed;
    for (volatile int i = 0; i < steps && engine->history->length < LOG_ROOM - 20000; i++) step(engine, transactions);
    return 0;
}

/* CONTINUING */

static struct transaction *transaction_of(struct engine *engine, uint32_t number) {
    int i = 0;
    while (i < TRANSACTIONS && engine->transactions[i].number != number) i++;
    return i < TRANSACTIONS ? &engine->transactions[i] : NULL;
}

/* What a record does to a transaction that is in doubt. */
static void note(struct engine *engine, const struct aries_record *record) {
    if (record->kind == ARIES_CHECKPOINT_BEGIN || record->kind == ARIES_CHECKPOINT_END) return;
    if (record->tx >= engine->next_number) engine->next_number = record->tx + 1;
    struct transaction *tx = transaction_of(engine, record->tx);
    if (!tx) return;
    tx->last = record->lsn;
    if (record->kind == ARIES_UPDATE) {
        tx->pending[tx->count++] =
            (struct pending){record->lsn, record->prev, record->page, record->slot, record->before};
        tx->undo_next = record->lsn;
        engine->holders[record->page][record->slot] = tx->number;
    }
    if (record->kind == ARIES_CLR) tx->count--;
    if (record->kind == ARIES_CLR) tx->undo_next = record->next;
}

static void read_pages(struct engine *engine) {
    const uint8_t *image = engine->opened.store + ARIES_STORE_HEADER_BYTES;
    for (uint32_t page = 0; page < engine->page_count; page++, image += ARIES_PAGE_BYTES)
        need(aries_read_page(image, ARIES_PAGE_BYTES, page, &engine->pages[page]).number == 0, "an opened page");
}

static void take_in_doubt(struct engine *engine) {
    need(engine->opened.recovered.in_doubt <= TRANSACTIONS, "the transactions in doubt");
    for (size_t i = 0; i < engine->opened.recovered.in_doubt; i++) {
        engine->transactions[i].number = engine->opened.in_doubt[i];
        engine->transactions[i].state = PREPARED;
    }
}

void continue_engine(struct engine *engine) {
    static struct aries_record records[RECORDS];
    const struct aries_files_opened *opened = &engine->opened;
    struct aries_read read;
    engine->page_count = opened->page_count;
    engine->last_lsn = opened->last_lsn;
    engine->next_number = 1;
    engine->begin = 0;
    memset(engine->rec_lsn, 0, sizeof engine->rec_lsn);
    memset(engine->holders, 0, sizeof engine->holders);
    memset(engine->transactions, 0, sizeof engine->transactions);
    read_pages(engine);
    take_in_doubt(engine);
    struct aries_fault fault = aries_records(opened->log, opened->log_length, 0, records, RECORDS, &read);
    need(fault.number == 0 && read.given == read.records, "the log that was opened");
    need(read.base_lsn + read.records == opened->last_lsn, "the last LSN that was opened");
    for (size_t i = 0; i < read.given; i++) note(engine, &records[i]);
}
