/* A heap of the program's own, which refuses each growth of memory in turn: every call that takes memory then answers 1
 * and leaves its buffers as they were, but for one growth, which is room for a log's offsets in advance and which it can
 * do without; and lets go of all that it took, refused or not. The status is 0, or the number of the first call of this
 * program's list that does not. */
#include "aries.h"

#include <stdbool.h>
#include <stdlib.h>
#include <string.h>

struct tried {
    bool ok;
    void *at;
};

struct tried rattle_alloc(size_t size, size_t align);
struct tried rattle_realloc(void *at, size_t kept, size_t size, size_t align);
void rattle_dealloc(void *at);

/* How many growths there were, which one is refused, 0 for none, and how many blocks are held. */
static size_t growths, refused, held;

static struct tried tried(void *at, bool is_new) {
    static char nothing;
    if (!at) return (struct tried){false, &nothing};
    held += is_new;
    return (struct tried){true, at};
}

struct tried rattle_alloc(size_t size, size_t align) {
    return ++growths == refused ? tried(NULL, true) : tried(malloc(size ? size : align), true);
}

struct tried rattle_realloc(void *at, size_t kept, size_t size, size_t align) {
    (void)kept;
    return ++growths == refused ? tried(NULL, false) : tried(realloc(at, size ? size : align), false);
}

void rattle_dealloc(void *at) {
    held--;
    free(at);
}

/* A log with a loser, one in doubt and a checkpoint, and the store beside it. */
static uint8_t log_bytes[4096], store_bytes[2048];
static size_t log_length, store_length;

/* What calls write, so much that none lacks room. */
static struct outs {
    uint8_t tail[4096], store[2048];
    uint32_t in_doubt[8];
    struct aries_record records[8];
    struct aries_entry transactions[8];
    struct aries_dirty dirty[8];
    struct aries_journal journal;
    struct aries_transaction_entry unfinished[2];
    struct aries_page_entry pages[1];
    struct aries_pending_entry pending[2];
} outs;

/* A log that a journal may continue, and its store, which a journal of a new log may begin with. */
static uint8_t ended_log[256], ended_store[2048];
static size_t ended_length;

static const struct aries_entry TRANSACTIONS[1] = {{.last = 2, .undo_next = 1, .tx = 1, .state = 2}};
static const struct aries_dirty DIRTY[1] = {{.rec_lsn = 1, .page = 0}};

static struct aries_fault do_recover(void) {
    struct aries_recovered made;
    return aries_recover(log_bytes, log_length, store_bytes, store_length, outs.tail, sizeof outs.tail, outs.store,
        sizeof outs.store, outs.in_doubt, 8, &made);
}

static struct aries_fault do_audit(void) {
    return aries_audit(log_bytes, log_length, store_bytes, store_length);
}

static struct aries_fault do_audit_from(void) {
    return aries_audit_from(log_bytes, log_length, store_bytes, store_length, store_bytes, store_length);
}

static struct aries_fault do_records(void) {
    struct aries_read read;
    return aries_records(log_bytes, log_length, 0, outs.records, 8, &read);
}

static struct aries_fault do_checkpoint(void) {
    struct aries_tables made;
    return aries_checkpoint(log_bytes, log_length, 4, outs.transactions, 8, outs.dirty, 8, &made);
}

static struct aries_fault do_unfinished(void) {
    struct aries_log_state state;
    return aries_unfinished(log_bytes, log_length, outs.transactions, 8, &state);
}

static struct aries_fault do_write_checkpoint_end(void) {
    size_t length;
    return aries_write_checkpoint_end(4, 3, TRANSACTIONS, 1, DIRTY, 1, outs.tail, sizeof outs.tail, &length);
}

static struct aries_fault do_fault_text(void) {
    struct aries_fault fault = {.number = 24, .place = 7};
    size_t length;
    return aries_fault_text(&fault, outs.tail, sizeof outs.tail, &length);
}

static struct aries_fault do_journal_new(void) {
    return aries_journal_new(2, 9, ended_store, store_length, &outs.journal, outs.pages, 1);
}

static struct aries_fault do_journal_open(void) {
    return aries_journal_open(ended_log, ended_length, ended_store, store_length, &outs.journal, outs.unfinished, 2,
        outs.pages, 1, outs.pending, 2);
}

static struct aries_fault (*const calls[])(void) = {do_recover, do_audit, do_audit_from, do_records, do_checkpoint,
    do_unfinished, do_write_checkpoint_end, do_fault_text, do_journal_new, do_journal_open};

static void add(const struct aries_record *record) {
    size_t length = 0;
    aries_write_record(record, log_bytes + log_length, sizeof log_bytes - log_length, &length);
    log_length += length;
}

static void make_files(void) {
    const struct aries_image absent = {.length = ARIES_ABSENT}, a = {.length = 1, .bytes = "a"};
    struct aries_page page = {.number = 0};
    size_t length = 0;
    aries_write_log_header(1, 0, log_bytes, sizeof log_bytes, &log_length);
    add(&(struct aries_record){.lsn = 1, .tx = 1, .kind = ARIES_UPDATE, .before = absent, .after = a});
    add(&(struct aries_record){.lsn = 2, .tx = 1, .prev = 1, .kind = ARIES_PREPARE});
    add(&(struct aries_record){.lsn = 3, .kind = ARIES_CHECKPOINT_BEGIN});
    aries_write_checkpoint_end(4, 3, TRANSACTIONS, 1, DIRTY, 1, log_bytes + log_length,
        sizeof log_bytes - log_length, &length);
    log_length += length;
    add(&(struct aries_record){.lsn = 5, .tx = 2, .slot = 1, .kind = ARIES_UPDATE, .before = absent, .after = a});
    for (size_t slot = 0; slot < ARIES_SLOTS; slot++) page.slots[slot] = absent;
    aries_write_store_header(1, 3, store_bytes, sizeof store_bytes, &store_length);
    aries_write_page(&page, store_bytes + store_length, sizeof store_bytes - store_length, &length);
    store_length += length;
}

/* Transaction 1 is unfinished: it changes a slot of the page. */
static void make_ended_files(void) {
    const struct aries_image a = {.length = 1, .bytes = "a"};
    struct aries_record record = {.lsn = 1, .tx = 1, .kind = ARIES_UPDATE, .after = a};
    struct aries_page page = {.number = 0, .lsn = 1};
    size_t length = 0;
    record.before.length = ARIES_ABSENT;
    aries_write_log_header(1, 0, ended_log, sizeof ended_log, &ended_length);
    aries_write_record(&record, ended_log + ended_length, sizeof ended_log - ended_length, &length);
    ended_length += length;
    for (size_t slot = 0; slot < ARIES_SLOTS; slot++) page.slots[slot].length = ARIES_ABSENT;
    page.slots[0] = a;
    aries_write_store_header(1, 0, ended_store, sizeof ended_store, &length);
    aries_write_page(&page, ended_store + length, sizeof ended_store - length, &length);
}

/* What the call answers while this growth is refused, 0 for none. */
static struct aries_fault tried_call(struct aries_fault (*call)(void), size_t growth) {
    refused = growth;
    growths = 0;
    memset(&outs, 0, sizeof outs);
    return call();
}

/* Whether the call answers 1, with nothing written, as long as a growth is refused, and then 0; but for one growth at
 * most, without which it answers and writes what it does with it. */
static bool is_right(struct aries_fault (*call)(void)) {
    static const struct outs untouched;
    static struct outs whole;
    if (tried_call(call, 0).number != ARIES_OK || held != 0) return false;
    memcpy(&whole, &outs, sizeof outs);
    size_t all = growths, done_without = 0;
    for (size_t growth = 1; growth <= all; growth++) {
        uint32_t number = tried_call(call, growth).number;
        if (held != 0 || (number != ARIES_OK && number != ARIES_NO_RESOURCE)) return false;
        if (memcmp(&outs, number == ARIES_OK ? &whole : &untouched, sizeof outs) != 0) return false;
        done_without += number == ARIES_OK;
    }
    return done_without <= 1;
}

/* Whether the calls that take no memory, other than those of a journal, do so. */
static bool is_without_memory(void) {
    const struct aries_image absent = {.length = ARIES_ABSENT}, a = {.length = 1, .bytes = "a"};
    struct aries_record record = {.lsn = 9, .tx = 1, .kind = ARIES_UPDATE, .before = absent, .after = a};
    struct aries_mark mark;
    struct aries_log_end end;
    size_t length;
    growths = 0;
    for (record.kind = ARIES_UPDATE; record.kind <= ARIES_PREPARE; record.kind++)
        aries_write_record(&record, outs.tail, sizeof outs.tail, &length);
    bool is_read = aries_log_begin(log_bytes, log_length, &mark).number == ARIES_OK;
    for (int lsn = 1; lsn <= 5; lsn++)
        is_read &= aries_next_record(log_bytes, log_length, &mark, &record).number == ARIES_OK;
    is_read &= aries_log_end(log_bytes, log_length, &end).number == ARIES_OK && end.last_lsn == 5;
    return is_read && growths == 0;
}

int main(void) {
    make_files();
    make_ended_files();
    if (!is_without_memory()) return 100;
    for (size_t i = 0; i < sizeof calls / sizeof calls[0]; i++)
        if (!is_right(calls[i])) return (int)i + 1;
    return 0;
}
