/* What a journal refuses: each number with its place, and all that was passed is as before. Then calls on arrays of
 * random bytes, which end at guard pages: each call returns, with a number that the header names. The status is 0, or 1
 * with the line that failed. */
#include "journal.h"

enum { TRANSACTIONS = 3, PENDING = 4, OUT = 128, LOG_ROOM = 4096 };

/* All that a call may write. */
static struct aries_engine engine;
static uint8_t *out, *store_bytes;
static size_t length;
static uint32_t tx;
static uint64_t lsn, begin_lsn;

static struct copy {
    struct aries_journal journal;
    struct aries_transaction_entry transactions[TRANSACTIONS];
    struct aries_page_entry pages[PAGES];
    struct aries_pending_entry pending[PENDING];
    uint8_t out[OUT];
    size_t length;
    uint32_t tx;
    uint64_t lsn;
} before, after;

static void copy(struct copy *to) {
    memset(to, 0, sizeof *to);
    memcpy(&to->journal, &engine.journal, sizeof to->journal);
    memcpy(to->transactions, engine.transactions, sizeof to->transactions);
    memcpy(to->pages, engine.pages, sizeof to->pages);
    memcpy(to->pending, engine.pending, sizeof to->pending);
    memcpy(to->out, out, sizeof to->out);
    to->length = length;
    to->tx = tx;
    to->lsn = lsn;
}

/* Whether the call is refused so, with nothing changed; with 64 the length is what is needed. */
static int is_refused(struct aries_fault fault, uint32_t number, uint64_t place, size_t needed) {
    copy(&after);
    if (number == ARIES_NO_ROOM) before.length = needed;
    int is_same = memcmp(&before, &after, sizeof after) == 0;
    length = 7;
    return is_fault(fault, number, place) && is_same;
}

/* Copies what a call may write, makes the call, and compares. */
#define refused(number, place, call) need((copy(&before), is_refused(call, number, place, 0)))
#define lacks_room(needed, call) need((copy(&before), is_refused(call, ARIES_NO_ROOM, 0, needed)))

static struct aries_fault update_in(size_t room, uint32_t of, uint32_t page, uint8_t slot, uint8_t bytes) {
    struct aries_image image = {.length = bytes};
    memset(image.bytes, 'v', sizeof image.bytes);
    return aries_engine_update(&engine, of, page, slot, &image, out + OUT - room, room, &length);
}

static struct aries_fault update(uint32_t of, uint32_t page, uint8_t slot) {
    return update_in(OUT, of, page, slot, 1);
}

static struct aries_fault turn(uint32_t of, uint8_t kind) {
    return aries_engine_turn(&engine, of, kind, out, OUT, &length);
}

static struct aries_fault undo(uint32_t of) {
    return aries_engine_undo(&engine, of, out, OUT, &length);
}

static uint32_t begin(void) {
    uint32_t number = 0;
    need(is_done(aries_engine_begin(&engine, &number)));
    return number;
}

static void check_cells_and_rooms(uint32_t a, uint32_t b) {
    refused(ARIES_NO_SUCH_PAGE, 0, update(a, PAGES, 0));
    refused(ARIES_NO_SUCH_SLOT, 0, update(a, 0, ARIES_SLOTS));
    refused(ARIES_NOT_WRITABLE, 0, update_in(OUT, a, 0, 0, ARIES_VALUE_BYTES + 1));
    refused(ARIES_NOT_WRITABLE, 0, update_in(OUT, a, 0, 0, ARIES_ABSENT - 1));
    lacks_room(80, update_in(79, a, 0, 0, ARIES_VALUE_BYTES));
    need(is_done(update_in(80, a, 0, 0, ARIES_VALUE_BYTES)) && length == 80);
    refused(ARIES_HELD, a, update(b, 0, 0));
    lacks_room(128, update_in(127, a, 0, 0, ARIES_VALUE_BYTES));
    lacks_room(39, aries_engine_undo(&engine, a, out, 38, &length));
    lacks_room(25, aries_engine_turn(&engine, a, ARIES_COMMIT, out, 24, &length));
    lacks_room(25, aries_engine_turn(&engine, b, ARIES_END, out, 24, &length));
    lacks_room(42 + 21 + 12, aries_engine_checkpoint(&engine, out, 74, &length, &begin_lsn));
    refused(ARIES_NOT_WRITABLE, 0, turn(a, ARIES_CHECKPOINT_BEGIN));
    refused(ARIES_NOT_WRITABLE, 0, turn(a, 0));
}

static void check_unknown(uint32_t none) {
    refused(ARIES_UNKNOWN_TRANSACTION, 0, update(none, 1, 1));
    refused(ARIES_UNKNOWN_TRANSACTION, 0, undo(none));
    refused(ARIES_UNKNOWN_TRANSACTION, 0, turn(none, ARIES_COMMIT));
    refused(ARIES_UNKNOWN_TRANSACTION, 0, aries_engine_cancel(&engine, none));
    refused(ARIES_UNKNOWN_TRANSACTION, 0, aries_engine_newest(&engine, none, &lsn));
}

static void check_states(uint32_t a, uint32_t b) {
    refused(ARIES_STILL_PENDING, 0, turn(a, ARIES_END));
    refused(ARIES_NOTHING_TO_UNDO, 0, undo(b));
    refused(ARIES_HAS_RECORDS, 0, aries_engine_cancel(&engine, a));
    need(is_done(turn(a, ARIES_ABORT)));
    refused(ARIES_FORBIDDEN, 1, turn(a, ARIES_COMMIT));
    refused(ARIES_FORBIDDEN, 1, update(a, 1, 1));
    need(is_done(turn(b, ARIES_PREPARE)));
    refused(ARIES_FORBIDDEN, 2, undo(b));
    refused(ARIES_FORBIDDEN, 2, aries_engine_newest(&engine, b, &lsn));
    refused(ARIES_FORBIDDEN, 2, turn(b, ARIES_PREPARE));
}

static void check_disk(void) {
    uint64_t last = engine.journal.last, page_lsn = engine.pages[0].page.lsn;
    refused(ARIES_NO_SUCH_LSN, 0, aries_engine_log_written(&engine, last + 1));
    refused(ARIES_NO_SUCH_PAGE, 0, aries_engine_page_to_write(&engine, PAGES));
    refused(ARIES_NO_SUCH_PAGE, 0, aries_engine_page_written(&engine, PAGES, 0));
    refused(ARIES_NO_SUCH_LSN, 0, aries_engine_page_written(&engine, 0, page_lsn + 1));
    refused(ARIES_LOG_NOT_WRITTEN, page_lsn, aries_engine_page_to_write(&engine, 0));
    need(is_done(aries_engine_log_written(&engine, page_lsn)) && engine.journal.written == page_lsn);
    need(is_done(aries_engine_page_to_write(&engine, 0)));
    need(is_done(aries_engine_page_written(&engine, 0, page_lsn)) && engine.pages[0].rec_lsn == 0);
}

static void check_full(void) {
    uint32_t c = begin();
    refused(ARIES_TOO_MANY_TRANSACTIONS, 0, aries_engine_begin(&engine, &tx));
    for (uint8_t slot = 0; slot < PENDING - 1; slot++) need(is_done(update(c, 3, slot)));
    refused(ARIES_NO_PENDING_ROOM, 0, update(c, 3, 9));
    need(is_done(undo(c)) && is_done(update(c, 3, 9)));
    engine.journal.last = UINT64_MAX - 3; /* as after very many records */
    refused(ARIES_LOG_FULL, 0, update(c, 3, 9));
    refused(ARIES_LOG_FULL, 0, aries_engine_checkpoint(&engine, out, OUT, &length, &begin_lsn));
    need(begin_lsn == 0);
    engine.transactions_count = 2;
    refused(ARIES_BAD_ARRAYS, 0, turn(c, ARIES_COMMIT));
    engine.transactions_count = TRANSACTIONS;
    need(is_done(turn(c, ARIES_COMMIT)));
    engine.journal.last = 9;
    engine.journal.next = UINT32_MAX;
    refused(ARIES_NO_NUMBER, 0, aries_engine_begin(&engine, &tx));
}

static void check_new(void) {
    uint8_t other[STORE_BYTES];
    make_store(other, 0);
    refused(ARIES_NOT_WRITABLE, 0, aries_engine_new(&engine, 3, 0, other, STORE_BYTES));
    refused(ARIES_NOT_WRITABLE, 0, aries_engine_new(&engine, 1, 1, other, STORE_BYTES));
    refused(ARIES_NOT_WRITABLE, 0, aries_engine_new(&engine, 2, (uint64_t)1 << 63, other, STORE_BYTES));
    refused(11, 0, aries_engine_new(&engine, 1, 0, other, STORE_BYTES - 1));
    other[STORE_BYTES - 1] ^= 1;
    refused(12, PAGES - 1, aries_engine_new(&engine, 1, 0, other, STORE_BYTES));
    make_store(other, 5);
    refused(ARIES_HAS_MASTER, 0, aries_engine_new(&engine, 2, 9, other, STORE_BYTES));
    make_store(other, 0);
    need(is_done(aries_write_page(&engine.pages[0].page, other + ARIES_STORE_HEADER_BYTES, ARIES_PAGE_BYTES, &length)));
    length = 7;
    refused(ARIES_PAGE_AHEAD, 0, aries_engine_new(&engine, 1, 0, other, STORE_BYTES));
    engine.pages_count--;
    refused(ARIES_BAD_ARRAYS, 0, aries_engine_new(&engine, 2, 9, other, STORE_BYTES));
    engine.pages_count++;
}

/* At a refusal of an opening its arrays are of no use, but the journal is as before. */
#define closed(number, place, call) \
    need((copy(&before), is_fault(call, number, place) \
        && memcmp(&before.journal, &engine.journal, sizeof engine.journal) == 0))

static void check_open(void) {
    uint8_t log[LOG_ROOM], other[STORE_BYTES];
    size_t end = 0, added = 0;
    struct aries_record record = {.lsn = 1, .tx = 1, .kind = ARIES_UPDATE};
    record.before.length = ARIES_ABSENT;
    need(is_done(aries_write_log_header(1, 0, log, sizeof log, &end)));
    need(is_done(aries_write_record(&record, log + end, sizeof log - end, &added)));
    make_store(other, 0);
    closed(6, 0, aries_engine_open(&engine, log, 7, other, STORE_BYTES));
    closed(ARIES_NOT_WRITABLE, 0, aries_engine_open(&engine, log, end + 3, other, STORE_BYTES));
    closed(10, 0, aries_engine_open(&engine, log, end, log, STORE_BYTES));
    closed(ARIES_PAGE_BEHIND, 0, aries_engine_open(&engine, log, end + added, other, STORE_BYTES));
    engine.pages_count--;
    closed(ARIES_BAD_ARRAYS, 0, aries_engine_open(&engine, log, end, other, STORE_BYTES));
    engine.pages_count++;
    engine.transactions_count = 0;
    closed(ARIES_TOO_MANY_TRANSACTIONS, 0, aries_engine_open(&engine, log, end + added, other, STORE_BYTES));
    engine.transactions_count = TRANSACTIONS;
    engine.pending_count = 0;
    closed(ARIES_NO_PENDING_ROOM, 0, aries_engine_open(&engine, log, end + added, other, STORE_BYTES));
    engine.pending_count = PENDING;
    need(is_done(aries_engine_open(&engine, log, end, other, STORE_BYTES)) && engine.journal.last == 0);
}

/* RANDOM ARRAYS */
static uint64_t seed = 1;

static uint64_t random_below(uint64_t bound) {
    seed ^= seed << 13;
    seed ^= seed >> 7;
    seed ^= seed << 17;
    return seed % bound;
}

/* Random bytes, but for many small numbers, so that calls come far. */
static void fill(void *at, size_t bytes) {
    uint8_t *byte = at;
    for (size_t i = 0; i < bytes; i++) byte[i] = (uint8_t)random_below(random_below(3) ? 2 : 256);
}

static struct aries_fault any_call(void) {
    struct aries_image image;
    uint8_t kind = (uint8_t)random_below(10);
    uint32_t of = (uint32_t)random_below(4), page = (uint32_t)random_below(PAGES + 1);
    size_t room = random_below(OUT + 1);
    uint8_t *end = out + OUT - room, slot = (uint8_t)random_below(ARIES_SLOTS + 1);
    fill(&image, sizeof image);
    switch (random_below(11)) {
    case 0: return aries_engine_begin(&engine, &tx);
    case 1: return aries_engine_cancel(&engine, of);
    case 2: return aries_engine_update(&engine, of, page, slot, &image, end, room, &length);
    case 3: return aries_engine_undo(&engine, of, end, room, &length);
    case 4: return aries_engine_turn(&engine, of, kind, end, room, &length);
    case 5: return aries_engine_newest(&engine, of, &lsn);
    case 6: return aries_engine_checkpoint(&engine, end, room, &length, &lsn);
    case 7: return aries_engine_log_written(&engine, random_below(4));
    case 8: return aries_engine_page_to_write(&engine, page);
    case 9: return aries_engine_page_written(&engine, page, random_below(4));
    default: return aries_engine_roll_back(&engine, of, end, room, &length);
    }
}

static void fill_all(void) {
    fill(engine.transactions, TRANSACTIONS * sizeof *engine.transactions);
    fill(engine.pages, PAGES * sizeof *engine.pages);
    fill(engine.pending, PENDING * sizeof *engine.pending);
    fill(&engine.journal, sizeof engine.journal);
    if (random_below(4)) engine.journal.transactions = random_below(TRANSACTIONS + 2);
    if (random_below(4)) engine.journal.pending = random_below(PENDING + 2);
}

static void check_random_arrays(long rounds) {
    for (long round = 0; round < rounds; round++) {
        fill_all();
        for (int call = 0; call < 8; call++) {
            uint32_t number = any_call().number;
            need(number == 0 || number == 64 || number == 65 || (number >= 70 && number <= 87));
        }
    }
}

int main(int words, char **word) {
    engine = guarded_engine(TRANSACTIONS, PAGES, PENDING);
    out = guarded(OUT);
    store_bytes = guarded(STORE_BYTES);
    make_store(store_bytes, 0);
    length = 7;
    need(is_done(aries_engine_new(&engine, 1, 0, store_bytes, STORE_BYTES)));
    uint32_t a = begin(), b = begin();
    check_unknown(b + 1);
    check_cells_and_rooms(a, b);
    check_states(a, b);
    check_disk();
    check_full();
    check_new();
    check_open();
    check_random_arrays(words > 1 ? atol(word[1]) : 20000);
    return 0;
}
