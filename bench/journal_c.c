/* What the journal costs an engine in C, without the disk.
 *
 * usage: journal_c ROUNDS PENDING commit|undo|write
 *
 * Each round has 64 transactions, which update cells of 4,096 pages in turn, 16 times each with values of 32 bytes.
 * Then they commit, or are rolled back. PENDING is the length of the array of pending updates, at least 1,024. `write`
 * encodes as many updates with aries_write_record alone. Prints the nanoseconds of an update with its share of a
 * begin, and those of the rest, for each update. Take the least of many runs.
 *
 * Build: cc -std=c11 -O2 -D_GNU_SOURCE -I include bench/journal_c.c FOLDER/libaries_c.a bindings/c/heap.c
 *        -o journal_c */
#include "aries.h"

#include <stdio.h>
#include <stdlib.h>
#include <string.h>
#include <time.h>

enum { ACTIVE = 64, UPDATES = 16, STORE_BYTES = ARIES_STORE_HEADER_BYTES + ARIES_PAGES * ARIES_PAGE_BYTES };

static struct aries_engine engine;
static uint8_t frames[4096];
static size_t frame_bytes;

static double nanoseconds(void) {
    struct timespec now;
    clock_gettime(CLOCK_MONOTONIC, &now);
    return (double)now.tv_sec * 1e9 + (double)now.tv_nsec;
}

static void done(struct aries_fault fault) {
    if (fault.number == ARIES_OK) return;
    printf("fault %u at %llu\n", fault.number, (unsigned long long)fault.place);
    exit(1);
}

/* A journal of a new log over empty pages. */
static void open_engine(size_t pending) {
    uint8_t *store = malloc(STORE_BYTES);
    struct aries_page page = {.lsn = 0};
    size_t length;
    engine.transactions_count = ACTIVE;
    engine.transactions = calloc(ACTIVE, sizeof *engine.transactions);
    engine.pages_count = ARIES_PAGES;
    engine.pages = calloc(ARIES_PAGES, sizeof *engine.pages);
    engine.pending_count = pending;
    engine.pending = calloc(pending, sizeof *engine.pending);
    if (!store || !engine.transactions || !engine.pages || !engine.pending) exit(1);
    for (size_t slot = 0; slot < ARIES_SLOTS; slot++) page.slots[slot].length = ARIES_ABSENT;
    done(aries_write_store_header(ARIES_PAGES, 0, store, STORE_BYTES, &length));
    for (page.number = 0; page.number < ARIES_PAGES; page.number++)
        done(aries_write_page(&page, store + ARIES_STORE_HEADER_BYTES + page.number * ARIES_PAGE_BYTES,
            ARIES_PAGE_BYTES, &length));
    done(aries_engine_new(&engine, 1, 0, store, STORE_BYTES));
    free(store);
}

/* An update of a cell of the transaction's own 64 pages, by the journal or as a record alone. */
static void update(uint32_t tx, uint32_t turn, uint32_t choice, int is_record) {
    struct aries_image after = {.length = 32};
    uint32_t page = turn * (ARIES_PAGES / ACTIVE) + (choice >> 26);
    uint8_t slot = (uint8_t)(choice >> 20) % ARIES_SLOTS;
    size_t length = 0;
    memcpy(after.bytes, &choice, sizeof choice);
    if (is_record) {
        struct aries_record record = {
            .lsn = 1, .tx = 1, .page = page, .kind = ARIES_UPDATE, .slot = slot, .before = after, .after = after};
        done(aries_write_record(&record, frames, sizeof frames, &length));
    } else {
        done(aries_engine_update(&engine, tx, page, slot, &after, frames, sizeof frames, &length));
    }
    frame_bytes += length;
}

static void finish(uint32_t tx, int is_undone) {
    size_t length = 0;
    if (is_undone) done(aries_engine_roll_back(&engine, tx, frames, sizeof frames, &length));
    else done(aries_engine_turn(&engine, tx, ARIES_COMMIT, frames, sizeof frames, &length));
    frame_bytes += length;
}

int main(int words, char **word) {
    if (words < 4) return 2;
    long rounds = atol(word[1]);
    int is_undone = strcmp(word[3], "undo") == 0, is_record = strcmp(word[3], "write") == 0;
    uint32_t choice = 1, active[ACTIVE];
    double updating = 0, finishing = 0;
    open_engine((size_t)atol(word[2]));
    for (long round = 0; round < rounds; round++) {
        double first = nanoseconds();
        for (uint32_t turn = 0; turn < ACTIVE; turn++) done(aries_engine_begin(&engine, &active[turn]));
        for (int i = 0; i < UPDATES; i++)
            for (uint32_t turn = 0; turn < ACTIVE; turn++) {
                choice = choice * 1664525 + 1013904223;
                update(active[turn], turn, choice, is_record);
            }
        double second = nanoseconds();
        for (uint32_t turn = 0; turn < ACTIVE; turn++) finish(active[turn], is_undone);
        updating += second - first;
        finishing += nanoseconds() - second;
    }
    double updates = (double)rounds * ACTIVE * UPDATES;
    printf("%.1f ns an update, %.1f ns the rest, %.0f bytes\n", updating / updates, finishing / updates,
        (double)frame_bytes / updates);
    return 0;
}
