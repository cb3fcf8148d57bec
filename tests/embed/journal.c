/* An engine over a journal: it begins, updates, rolls back to a savepoint and wholly, prepares, commits, writes pages
 * and takes checkpoints. Its log is then cut at each byte, as a crash may leave it; it is recovered, audited, and
 * continued by a journal. A model in this file says what each cell has to hold: it replays the writes of the
 * transactions that have committed or are in doubt. Memory ends at guard pages. The status is 0, or 1 with the line
 * that failed.
 *
 * usage: journal [STEP]    a crash at each so many bytes; without it, at each byte */
#include "journal.h"

enum { LOG_ROOM = 1 << 16, RECORDS = 512, STATES = 16, TRANSACTIONS = 8, PENDING = 12 };

/* THE MODEL: each record in the order of the log. */
struct logged {
    uint32_t tx;
    uint8_t kind;
    uint8_t slot;
    uint32_t page;
    const char *before, *text; /* NULL for an absent value */
    int is_undone;
    size_t end; /* of its frame */
};

static struct logged records[RECORDS];
static size_t record_count;

/* What of the store was on the disk when the log had so many records. */
static struct state {
    size_t records;
    uint8_t store[STORE_BYTES];
} states[STATES];
static size_t state_count;

static struct aries_engine engine;
static uint8_t *log_bytes, *store_bytes;
static size_t log_length;

static int has(size_t count, uint32_t tx, uint8_t kind) {
    for (size_t i = 0; i < count; i++)
        if (records[i].tx == tx && records[i].kind == kind) return 1;
    return 0;
}

/* Prepared by the first records, and neither committed nor asked to roll back. */
static int is_in_doubt(size_t count, uint32_t tx) {
    return has(count, tx, ARIES_PREPARE) && !has(count, tx, ARIES_COMMIT) && !has(count, tx, ARIES_ABORT);
}

/* What the cells hold now; or, with this table, after a crash that left the first records. */
static const char *cells[PAGES][ARIES_SLOTS], *survivors[PAGES][ARIES_SLOTS];

static void find_survivors(size_t count) {
    memset(survivors, 0, sizeof survivors);
    for (size_t i = 0; i < count; i++) {
        const struct logged *record = &records[i];
        int is_change = record->kind == ARIES_UPDATE || record->kind == ARIES_CLR;
        if (is_change && (has(count, record->tx, ARIES_COMMIT) || is_in_doubt(count, record->tx)))
            survivors[record->page][record->slot] = record->text;
    }
}

static size_t image_bytes(const char *text) {
    return text ? 1 + strlen(text) : 1;
}

static void note(struct logged record, size_t length) {
    need(record_count < RECORDS);
    log_length += length;
    record.end = log_length;
    records[record_count++] = record;
    if (record.kind == ARIES_UPDATE || record.kind == ARIES_CLR) cells[record.page][record.slot] = record.text;
    need(engine.journal.last >= record_count);
}

/* The model undoes its newest pending update; the result is the length of the CLR. */
static size_t note_undo(uint32_t tx) {
    size_t place = record_count;
    while (place-- > 0)
        if (records[place].tx == tx && records[place].kind == ARIES_UPDATE && !records[place].is_undone) break;
    need(place < record_count);
    struct logged clr = records[place];
    records[place].is_undone = 1;
    clr.kind = ARIES_CLR;
    clr.text = clr.before;
    note(clr, 38 + image_bytes(clr.text));
    return 38 + image_bytes(clr.text);
}

/* THE ENGINE */
static void need_cells(const struct aries_engine *of, const char *texts[PAGES][ARIES_SLOTS]) {
    for (uint32_t page = 0; page < PAGES; page++)
        for (uint8_t slot = 0; slot < ARIES_SLOTS; slot++)
            need(is_image(&of->pages[page].page.slots[slot], texts[page][slot]));
}

static uint32_t begin(void) {
    uint32_t tx = 0;
    need(is_done(aries_engine_begin(&engine, &tx)));
    return tx;
}

static void update(uint32_t tx, uint32_t page, uint8_t slot, const char *text) {
    struct logged record = {.tx = tx, .kind = ARIES_UPDATE, .slot = slot, .page = page, .text = text};
    struct aries_image after = image_of(text);
    size_t length = 0, expected;
    record.before = cells[page][slot];
    expected = 30 + image_bytes(record.before) + image_bytes(text);
    uint8_t *out = guarded(expected); /* just enough */
    need(is_done(aries_engine_update(&engine, tx, page, slot, &after, out, expected, &length)) && length == expected);
    memcpy(log_bytes + log_length, out, length);
    note(record, length);
    need_cells(&engine, cells);
}

static void turn(uint32_t tx, uint8_t kind) {
    size_t length = 0;
    need(is_done(aries_engine_turn(&engine, tx, kind, log_bytes + log_length, LOG_ROOM - log_length, &length)));
    need(length == 25);
    note((struct logged){.tx = tx, .kind = kind}, length);
}

static void undo(uint32_t tx) {
    size_t length = 0;
    need(is_done(aries_engine_undo(&engine, tx, log_bytes + log_length, LOG_ROOM - log_length, &length)));
    need(length == note_undo(tx));
    need_cells(&engine, cells);
}

/* Rolls back so many updates with little room, in more than one call if it does not suffice, and then ends if asked. */
static void roll_back(uint32_t tx, uint64_t savepoint, size_t undone, int is_whole) {
    size_t room = 100, length = 0, expected = log_length;
    struct aries_fault fault;
    do {
        uint8_t *out = guarded(room);
        fault = is_whole ? aries_engine_roll_back(&engine, tx, out, room, &length)
                         : aries_engine_roll_back_to(&engine, tx, savepoint, out, room, &length);
        need(length <= room && (fault.number == ARIES_OK || length > 0));
        memcpy(log_bytes + expected, out, length);
        expected += length;
    } while (fault.number == ARIES_NO_ROOM);
    need(is_done(fault));
    while (undone-- > 0) note_undo(tx);
    if (is_whole) note((struct logged){.tx = tx, .kind = ARIES_END}, 25);
    need(log_length == expected && engine.journal.last == record_count);
    need_cells(&engine, cells);
}

static void note_store(void) {
    need(state_count < STATES);
    states[state_count].records = record_count;
    memcpy(states[state_count++].store, store_bytes, STORE_BYTES);
}

static void write_page(uint32_t page) {
    size_t length = 0;
    need(is_done(aries_engine_log_written(&engine, engine.journal.last)));
    need(is_done(aries_engine_page_to_write(&engine, page)));
    need(is_done(aries_write_page(&engine.pages[page].page,
        store_bytes + ARIES_STORE_HEADER_BYTES + page * ARIES_PAGE_BYTES, ARIES_PAGE_BYTES, &length)));
    need(is_done(aries_engine_page_written(&engine, page, engine.pages[page].page.lsn)));
    need(engine.pages[page].rec_lsn == 0);
    note_store();
}

static void checkpoint(void) {
    size_t length = 0;
    uint64_t begin = 0;
    need(is_done(aries_engine_checkpoint(&engine, log_bytes + log_length, LOG_ROOM - log_length, &length, &begin)));
    need(begin == engine.journal.last - 1);
    note((struct logged){.kind = ARIES_CHECKPOINT_BEGIN}, 13);
    note((struct logged){.kind = ARIES_CHECKPOINT_END}, length - 13);
    need(engine.journal.last == record_count);
    need(is_done(aries_engine_log_written(&engine, engine.journal.last)));
    uint64_t master = engine.journal.last - 1;
    need(is_done(aries_write_store_header(PAGES, master, store_bytes, ARIES_STORE_HEADER_BYTES, &length)));
    note_store();
}

/* So many updates that those of finished transactions have to leave the array of pending updates. */
static void work(size_t rounds) {
    static const char *const texts[] = {"x", NULL, "a longer value of forty-eight bytes, to the full"};
    for (size_t round = 0; round < rounds; round++) {
        uint32_t tx = begin();
        for (uint8_t slot = 0; slot < 4; slot++) update(tx, 2 + round % 2, slot, texts[(round + slot) % 3]);
        if (round % 3 != 0) turn(tx, ARIES_COMMIT);
        else roll_back(tx, 0, 4, 1);
    }
}

static void run_engine(void) {
    uint32_t a = begin(), b = begin(), c = begin(), reader = begin();
    uint64_t newest = 9;
    note_store();
    update(a, 0, 0, "a");
    update(b, 1, 1, "b");
    need(is_done(aries_engine_newest(&engine, a, &newest)) && newest == 1);
    need(is_done(aries_engine_newest(&engine, c, &newest)) && newest == 0);
    turn(a, ARIES_COMMIT);
    uint64_t savepoint = engine.journal.last;
    update(b, 0, 0, "b over a");
    update(b, 1, 2, "");
    update(b, 1, 1, NULL);
    roll_back(b, savepoint, 3, 0);
    need(is_done(aries_engine_newest(&engine, b, &newest)) && newest == 2);
    need(is_done(aries_engine_cancel(&engine, reader)));
    update(c, 0, 3, "in doubt");
    turn(c, ARIES_PREPARE);
    write_page(0); /* with what is not committed */
    update(b, 1, 1, "b again");
    checkpoint();
    work(9);
    write_page(2);
    undo(b);
    turn(b, ARIES_ABORT);
    roll_back(b, 0, 1, 1);
    checkpoint();
    work(6);
    turn(begin(), ARIES_COMMIT);
}

/* THE CRASHES */
static uint64_t numbers_in_doubt(size_t count) {
    uint64_t doubts = 0;
    for (uint32_t tx = 1; tx < engine.journal.next; tx++) doubts += is_in_doubt(count, tx);
    return doubts;
}

/* What is in doubt is held, and is rolled back; another transaction then changes the cell. */
static void decide(struct aries_engine *again, uint8_t *log, size_t length, const uint8_t *store, uint32_t tx) {
    struct aries_image after = image_of("after");
    size_t added = 0;
    uint32_t other = 0;
    need(is_done(aries_engine_begin(again, &other)));
    need(is_fault(aries_engine_update(again, other, 0, 3, &after, log, LOG_ROOM, &added), ARIES_HELD, tx));
    need(is_fault(aries_engine_roll_back(again, tx, log + length, LOG_ROOM - length, &added), ARIES_FORBIDDEN, 2));
    need(added == 0 && is_done(aries_engine_turn(again, tx, ARIES_ABORT, log + length, LOG_ROOM - length, &added)));
    length += added;
    need(is_done(aries_engine_roll_back(again, tx, log + length, LOG_ROOM - length, &added)));
    length += added;
    need(is_done(aries_engine_update(again, other, 0, 3, &after, log + length, LOG_ROOM - length, &added)));
    length += added;
    need(is_done(aries_engine_turn(again, other, ARIES_COMMIT, log + length, LOG_ROOM - length, &added)));
    need(is_done(aries_audit(log, length + added, store, STORE_BYTES)));
}

/* The log is cut to so many bytes, of which these records are whole. */
static void crash(struct aries_engine *again, uint8_t *log, size_t length, size_t count, const uint8_t *store) {
    static uint8_t made_store[STORE_BYTES], tail[LOG_ROOM];
    struct aries_recovered made;
    uint32_t in_doubt[TRANSACTIONS] = {0};
    memcpy(log, log_bytes, length);
    need(is_done(aries_audit(log, length, store, STORE_BYTES)));
    need(is_done(aries_recover(log, length, store, STORE_BYTES, tail, LOG_ROOM, made_store, STORE_BYTES, in_doubt,
        TRANSACTIONS, &made)));
    need(made.records == count && made.in_doubt == numbers_in_doubt(count));
    if (made.torn > 0)
        need(is_fault(aries_engine_open(again, log, length, made_store, STORE_BYTES), ARIES_NOT_WRITABLE, 0));
    length -= made.torn;
    memcpy(log + length, tail, made.tail_length);
    length += made.tail_length;
    need(is_done(aries_engine_open(again, log, length, made_store, STORE_BYTES)));
    need(again->journal.last == made.records + made.compensated + made.ended);
    need(again->journal.written == again->journal.last && again->journal.transactions == made.in_doubt);
    need_cells(again, survivors);
    if (made.in_doubt > 0) decide(again, log, length, made_store, in_doubt[0]);
}

/* A crash at each of the log's bytes, or at each so many of them. The store is as it was when the log had that much. */
static size_t check_crashes(size_t step) {
    struct aries_engine again = guarded_engine(TRANSACTIONS, PAGES, 2 * PENDING);
    uint8_t *log = guarded(LOG_ROOM);
    size_t count = 0, state = 0, crashes = 0;
    for (size_t length = 8; length <= log_length; length += step) {
        while (count < record_count && records[count].end <= length) count++;
        while (state + 1 < state_count && states[state + 1].records <= count) state++;
        find_survivors(count);
        crash(&again, log, length, count, states[state].store);
        crashes++;
    }
    return crashes;
}

int main(int words, char **word) {
    engine = guarded_engine(TRANSACTIONS, PAGES, PENDING);
    log_bytes = guarded(LOG_ROOM);
    store_bytes = guarded(STORE_BYTES);
    need(is_done(aries_write_log_header(1, 0, log_bytes, LOG_ROOM, &log_length)));
    make_store(store_bytes, 0);
    need(is_done(aries_engine_new(&engine, 1, 0, store_bytes, STORE_BYTES)) && engine.journal.last == 0);
    run_engine();
    printf("%zu crashes\n", check_crashes(words > 1 ? (size_t)atol(word[1]) : 1));
    return 0;
}
