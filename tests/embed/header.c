/* Every call of aries.h, and every field of its structs, on bytes that are worked by hand in docs/FORMATS.md and
 * docs/DEFINITIONS.md. Nothing compares the header with the proved source, so a wrong type in it is found here alone.
 * Needs no header of the C library. Prints the line and the text of each check that fails; the status is 1 if there is one. */
#include "aries.h"

int memcmp(const void *, const void *, size_t);
int printf(const char *, ...);

static int failed;

static void need_at(int holds, int line, const char *text) {
    if (holds) return;
    printf("line %d: %s\n", line, text);
    failed = 1;
}

#define need(holds) need_at(holds, __LINE__, #holds)

static int is_fault(struct aries_fault fault, uint32_t number, uint64_t place) {
    return fault.number == number && fault.place == place;
}

static int is_done(struct aries_fault fault) {
    return is_fault(fault, ARIES_OK, 0);
}

static int lacks_room(struct aries_fault fault) {
    return is_fault(fault, ARIES_NO_ROOM, 0);
}

/* Not writable; or, of a checkpoint, not there. */
static int is_unwritable(struct aries_fault fault) {
    return is_fault(fault, ARIES_NOT_WRITABLE, 0);
}

static const struct aries_image ABSENT = {.length = ARIES_ABSENT};
static const struct aries_image A = {.length = 1, .bytes = "a"};
static const struct aries_image B = {.length = 1, .bytes = "b"};

static int is_image(const struct aries_image *image, const struct aries_image *other) {
    if (image->length != other->length) return 0;
    return image->length == ARIES_ABSENT || memcmp(image->bytes, other->bytes, image->length) == 0;
}

/* A log or a store that is being written. */
struct text {
    uint8_t bytes[8192];
    size_t length;
};

static void add(struct text *text, const struct aries_record *record) {
    size_t length = 0;
    need(is_done(aries_write_record(record, text->bytes + text->length, sizeof text->bytes - text->length, &length)));
    text->length += length;
}

static void begin_log(struct text *log, uint32_t version, uint64_t base_lsn) {
    need(is_done(aries_write_log_header(version, base_lsn, log->bytes, sizeof log->bytes, &log->length)));
}

static void begin_store(struct text *store, uint32_t pages, uint64_t master) {
    need(is_done(aries_write_store_header(pages, master, store->bytes, sizeof store->bytes, &store->length)));
}

/* A page that holds this in slot 0. */
static void add_page(struct text *store, uint32_t number, uint64_t lsn, const struct aries_image *image) {
    struct aries_page page = {.lsn = lsn, .number = number};
    size_t length = 0;
    page.slots[0] = *image;
    for (int slot = 1; slot < ARIES_SLOTS; slot++) page.slots[slot] = ABSENT;
    need(is_done(aries_write_page(&page, store->bytes + store->length, sizeof store->bytes - store->length, &length)));
    store->length += length;
}

/* A store of one page, which holds this in slot 0. */
static void make_store(struct text *store, uint64_t lsn, const struct aries_image *image) {
    begin_store(store, 1, 0);
    add_page(store, 0, lsn, image);
}

static void check_headers(void) {
    static const uint8_t two[] = "ARIESLG2\0\0\0\0\0\0\1\2";
    static const uint8_t store[] = "ARIESPG1\0\0\1\3\0\0\0\0\0\0\0\0\0\0\0\7";
    uint8_t out[32] = {0};
    size_t length = 0;
    need(is_done(aries_write_log_header(1, 0, out, 8, &length)) && length == 8 && memcmp(out, "ARIESLG1", 8) == 0);
    need(is_done(aries_write_log_header(2, 258, out, 32, &length)) && length == 16 && memcmp(out, two, 16) == 0);
    length = 0;
    need(lacks_room(aries_write_log_header(2, 0, out, 15, &length)) && length == 16);
    need(is_unwritable(aries_write_log_header(1, 1, out, 32, &length)));
    need(is_unwritable(aries_write_log_header(3, 0, out, 32, &length)));
    need(is_unwritable(aries_write_log_header(2, (uint64_t)1 << 63, out, 32, &length)));
    need(is_done(aries_write_store_header(259, 7, out, 32, &length)));
    need(length == ARIES_STORE_HEADER_BYTES && memcmp(out, store, 24) == 0);
    need(is_unwritable(aries_write_store_header(0, 0, out, 32, &length)));
    need(is_unwritable(aries_write_store_header(ARIES_PAGES + 1, 0, out, 32, &length)));
    length = 0;
    need(lacks_room(aries_write_store_header(ARIES_PAGES, 0, out, 23, &length)) && length == 24);
}

static const uint8_t update[] = "\0\0\0\x1d\1\0\0\0\0\0\0\0\1\0\0\0\1\0\0\0\0\0\0\0\0\0\0\0\0\0\xff\1" "a";

static void check_frames(void) {
    static const uint8_t clr[] =
        "\0\0\0\x24\2\0\0\0\0\0\0\0\3\0\0\0\4\0\0\0\0\0\0\0\5\0\0\0\6\7\0\0\0\0\0\0\0\x08\1" "b";
    struct aries_record record = {.lsn = 1, .tx = 1, .kind = ARIES_UPDATE, .before = ABSENT, .after = A};
    uint8_t out[64] = {0};
    size_t length = 0;
    need(is_done(aries_write_record(&record, out, 64, &length)) && length == 33 && memcmp(out, update, 33) == 0);
    length = 0;
    need(lacks_room(aries_write_record(&record, out, 32, &length)) && length == 33);
    record.slot = ARIES_SLOTS;
    need(is_unwritable(aries_write_record(&record, out, 64, &length)));
    record = (struct aries_record){.lsn = 0, .tx = 1, .kind = ARIES_COMMIT};
    need(is_unwritable(aries_write_record(&record, out, 64, &length)));
    record = (struct aries_record){.lsn = 1, .tx = 0, .kind = ARIES_COMMIT};
    need(is_unwritable(aries_write_record(&record, out, 64, &length)));
    record = (struct aries_record){.lsn = 1, .tx = 1, .kind = 9};
    need(is_unwritable(aries_write_record(&record, out, 64, &length)));
    record = (struct aries_record){.lsn = 1, .tx = 1, .kind = ARIES_UPDATE, .before = ABSENT, .after = {.length = 49}};
    need(is_unwritable(aries_write_record(&record, out, 64, &length)));
    record = (struct aries_record){
        .lsn = 3, .tx = 4, .prev = 5, .page = 6, .slot = 7, .next = 8, .kind = ARIES_CLR, .after = B};
    need(is_done(aries_write_record(&record, out, 64, &length)) && length == 40 && memcmp(out, clr, 40) == 0);
}

/* The frame of the checkpoint end in the next log. */
static const uint8_t CHECKPOINT[] =
    "\0\0\0\x4f" "\7" "\0\0\0\0\0\0\0\x11" "\0\0\0\0\0\0\0\x10"
    "\0\0\0\2" "\0\0\0\1" "\0" "\0\0\0\0\0\0\0\x0b" "\0\0\0\0\0\0\0\x0b"
    "\0\0\0\5" "\2" "\0\0\0\0\0\0\0\x0c" "\0\0\0\0\0\0\0\x09"
    "\0\0\0\1" "\0\0\0\3" "\0\0\0\0\0\0\0\x0b";

/* Records of all kinds; the log is of version 2 with base LSN 10. */
static void write_all_kinds(struct text *log) {
    struct aries_entry transactions[2] = {
        {.last = 11, .undo_next = 11, .tx = 1, .state = 0}, {.last = 12, .undo_next = 9, .tx = 5, .state = 2}};
    struct aries_dirty dirty[1] = {{.rec_lsn = 11, .page = 3}};
    size_t length = 0;
    begin_log(log, 2, 10);
    add(log, &(struct aries_record){
        .lsn = 11, .tx = 1, .prev = 2, .page = 3, .slot = 4, .kind = ARIES_UPDATE, .before = ABSENT, .after = A});
    add(log, &(struct aries_record){
        .lsn = 12, .tx = 5, .prev = 6, .page = 7, .slot = 8, .next = 9, .kind = ARIES_CLR, .after = B});
    add(log, &(struct aries_record){.lsn = 13, .tx = 1, .prev = 11, .kind = ARIES_COMMIT});
    add(log, &(struct aries_record){.lsn = 14, .tx = 1, .prev = 11, .kind = ARIES_ABORT});
    add(log, &(struct aries_record){.lsn = 15, .tx = 1, .prev = 11, .kind = ARIES_END});
    add(log, &(struct aries_record){.lsn = 16, .kind = ARIES_CHECKPOINT_BEGIN});
    need(is_done(aries_write_checkpoint_end(17, 16, transactions, 2, dirty, 1, log->bytes + log->length,
        sizeof log->bytes - log->length, &length)));
    need(length == sizeof CHECKPOINT - 1 && memcmp(log->bytes + log->length, CHECKPOINT, length) == 0);
    log->length += length;
    add(log, &(struct aries_record){.lsn = 18, .tx = 5, .prev = 12, .kind = ARIES_PREPARE});
}

static void check_records(const struct text *log) {
    struct aries_record all[9], last[1];
    struct aries_read read;
    need(is_done(aries_records(log->bytes, log->length, 11, all, 9, &read)));
    need(read.base_lsn == 10 && read.records == 8 && read.torn == 0 && read.given == 8);
    for (uint8_t i = 0; i < 8; i++) need(all[i].lsn == 11u + i && all[i].kind == i + 1);
    need(all[0].tx == 1 && all[0].prev == 2 && all[0].page == 3 && all[0].slot == 4);
    need(is_image(&all[0].before, &ABSENT) && is_image(&all[0].after, &A));
    need(all[1].tx == 5 && all[1].prev == 6 && all[1].page == 7 && all[1].slot == 8 && all[1].next == 9);
    need(is_image(&all[1].after, &B));
    need(all[2].tx == 1 && all[3].prev == 11 && all[6].next == 16 && all[7].tx == 5 && all[7].prev == 12);
    need(is_done(aries_records(log->bytes, log->length - 1, 17, last, 1, &read)));
    need(read.records == 7 && read.torn == 24 && read.given == 1);
    need(last[0].lsn == 17 && last[0].kind == ARIES_CHECKPOINT_END);
    need(is_done(aries_records(log->bytes, log->length, 18, all, 0, &read)) && read.records == 8 && read.given == 0);
    need(is_fault(aries_records(log->bytes, 7, 1, all, 9, &read), 6, 0));
}

static void check_checkpoint(const struct text *log) {
    struct aries_entry transactions[3];
    struct aries_dirty dirty[2];
    struct aries_tables made = {0};
    need(is_done(aries_checkpoint(log->bytes, log->length, 17, transactions, 3, dirty, 2, &made)));
    need(made.begin == 16 && made.transactions == 2 && made.dirty == 1);
    need(transactions[0].tx == 1 && transactions[0].state == 0);
    need(transactions[0].last == 11 && transactions[0].undo_next == 11);
    need(transactions[1].tx == 5 && transactions[1].state == 2);
    need(transactions[1].last == 12 && transactions[1].undo_next == 9);
    need(dirty[0].page == 3 && dirty[0].rec_lsn == 11);
    made = (struct aries_tables){0};
    need(lacks_room(aries_checkpoint(log->bytes, log->length, 17, transactions, 1, dirty, 2, &made)));
    need(made.transactions == 2 && made.dirty == 1);
    need(is_unwritable(aries_checkpoint(log->bytes, log->length, 16, transactions, 3, dirty, 2, &made)));
}

static void check_tables_that_cannot_be_written(void) {
    struct aries_entry transactions[2] = {{.tx = 2}, {.tx = 1}};
    struct aries_dirty dirty[2] = {{.page = 1}, {.page = 1}};
    uint8_t out[128];
    size_t length = 0;
    need(is_unwritable(aries_write_checkpoint_end(2, 1, transactions, 2, dirty, 0, out, 128, &length)));
    need(is_unwritable(aries_write_checkpoint_end(2, 1, transactions, 0, dirty, 2, out, 128, &length)));
    transactions[0].state = 3;
    need(is_unwritable(aries_write_checkpoint_end(2, 1, transactions, 1, dirty, 0, out, 128, &length)));
    need(lacks_room(aries_write_checkpoint_end(2, 1, transactions, 0, dirty, 1, out, 40, &length)));
    need(length == 4 + 25 + 12);
}

static void check_pages(void) {
    static const uint8_t beginning[20] = {[15] = 1, [17] = 0x50, [19] = 1};
    struct text store = {.length = 0};
    struct aries_page page;
    uint8_t *image = store.bytes + ARIES_STORE_HEADER_BYTES;
    size_t length = 0;
    make_store(&store, 1, &A);
    need(store.length == ARIES_STORE_HEADER_BYTES + ARIES_PAGE_BYTES);
    need(memcmp(image, beginning, sizeof beginning) == 0 && image[80] == 'a' && image[81] == 0);
    need(is_done(aries_read_page(image, ARIES_PAGE_BYTES, 0, &page)));
    need(page.number == 0 && page.lsn == 1 && is_image(&page.slots[0], &A) && is_image(&page.slots[15], &ABSENT));
    need(is_fault(aries_read_page(image, ARIES_PAGE_BYTES, 1, &page), 12, 1));
    need(is_fault(aries_read_page(image, ARIES_PAGE_BYTES - 1, 0, &page), 12, 0));
    need(lacks_room(aries_write_page(&page, image, ARIES_PAGE_BYTES - 1, &length)));
    need(length == ARIES_PAGE_BYTES);
    page.slots[3] = (struct aries_image){.length = 0};
    page.slots[4].length = ARIES_VALUE_BYTES + 1;
    need(is_unwritable(aries_write_page(&page, image, ARIES_PAGE_BYTES, &length)));
    page.slots[4].length = ARIES_VALUE_BYTES;
    need(is_done(aries_write_page(&page, image, ARIES_PAGE_BYTES, &length)));
    need(is_done(aries_read_page(image, ARIES_PAGE_BYTES, 0, &page)));
    need(page.slots[3].length == 0 && page.slots[4].length == ARIES_VALUE_BYTES);
}

/* Transaction 1 is in doubt, 2 and 3 are losers, and the log ends with three torn bytes. The numbers of its report
 * differ, but for losers and ends, of which there always are as many. */
static void write_doubt(struct text *log) {
    begin_log(log, 1, 0);
    add(log, &(struct aries_record){.lsn = 1, .tx = 1, .kind = ARIES_UPDATE, .before = ABSENT, .after = A});
    add(log, &(struct aries_record){.lsn = 2, .tx = 1, .prev = 1, .kind = ARIES_PREPARE});
    for (uint8_t slot = 1; slot <= 2; slot++)
        add(log, &(struct aries_record){.lsn = 2u + slot, .tx = 2, .prev = slot == 1 ? 0 : 3, .slot = slot,
            .kind = ARIES_UPDATE, .before = ABSENT, .after = B});
    for (uint8_t slot = 0; slot <= 2; slot++)
        add(log, &(struct aries_record){.lsn = 5u + slot, .tx = 3, .prev = slot == 0 ? 0 : 4u + slot, .page = 1,
            .slot = slot, .kind = ARIES_UPDATE, .before = ABSENT, .after = A});
    log->length += 3;
}

static int is_report(const struct aries_recovered *made) {
    return made->records == 7 && made->torn == 3 && made->redo_from == 1 && made->redone == 6 && made->losers == 2
        && made->compensated == 5 && made->ended == 2 && made->pages == 4 && made->in_doubt == 1;
}

/* The tail of that log: the updates of 3 and then of 2 undone, the newest first, and behind each of the two an end. */
static void check_tail(const uint8_t *tail, const struct aries_recovered *made) {
    struct text expected = {.length = 0};
    for (uint64_t lsn = 8; lsn <= 10; lsn++)
        add(&expected, &(struct aries_record){.lsn = lsn, .tx = 3, .prev = lsn - 1, .page = 1,
            .slot = (uint8_t)(10 - lsn), .next = lsn == 10 ? 0 : 14 - lsn, .kind = ARIES_CLR, .after = ABSENT});
    add(&expected, &(struct aries_record){.lsn = 11, .tx = 3, .prev = 10, .kind = ARIES_END});
    add(&expected, &(struct aries_record){
        .lsn = 12, .tx = 2, .prev = 4, .slot = 2, .next = 3, .kind = ARIES_CLR, .after = ABSENT});
    add(&expected, &(struct aries_record){
        .lsn = 13, .tx = 2, .prev = 12, .slot = 1, .kind = ARIES_CLR, .after = ABSENT});
    add(&expected, &(struct aries_record){.lsn = 14, .tx = 2, .prev = 13, .kind = ARIES_END});
    need(made->tail_length == expected.length && memcmp(tail, expected.bytes, expected.length) == 0);
}

/* A store of four pages, of which all but the first two are empty. */
static void make_four_pages(struct text *store, uint64_t lsn, const struct aries_image *image, uint64_t next_lsn) {
    begin_store(store, 4, 0);
    add_page(store, 0, lsn, image);
    add_page(store, 1, next_lsn, &ABSENT);
    add_page(store, 2, 0, &ABSENT);
    add_page(store, 3, 0, &ABSENT);
}

struct outs {
    uint8_t tail[512], store[8192];
    uint32_t in_doubt[2];
    size_t tail_room, store_room, in_doubt_room;
    struct aries_recovered made;
};

static struct aries_fault recover(const struct text *log, const struct text *store, struct outs *outs) {
    return aries_recover(log->bytes, log->length, store->bytes, store->length, outs->tail, outs->tail_room, outs->store,
        outs->store_room, outs->in_doubt, outs->in_doubt_room, &outs->made);
}

static int is_nothing_out(const struct outs *outs) {
    return outs->tail[0] == 0 && outs->store[0] == 0 && outs->in_doubt[0] == 0;
}

/* Each room in turn is one too short; then each is just enough. */
static void check_recovery(void) {
    struct text log = {.length = 0}, store = {.length = 0}, expected = {.length = 0};
    struct outs outs = {.tail_room = 0, .store_room = 8192, .in_doubt_room = 2};
    write_doubt(&log);
    make_four_pages(&store, 0, &ABSENT, 0);
    make_four_pages(&expected, 13, &A, 10);
    need(lacks_room(recover(&log, &store, &outs)) && is_nothing_out(&outs));
    need(is_report(&outs.made) && outs.made.store_length == store.length);
    outs.tail_room = outs.made.tail_length - 1;
    need(lacks_room(recover(&log, &store, &outs)) && is_nothing_out(&outs));
    outs.tail_room++;
    outs.store_room = store.length - 1;
    need(lacks_room(recover(&log, &store, &outs)) && is_nothing_out(&outs));
    outs.store_room++;
    outs.in_doubt_room = 0;
    need(lacks_room(recover(&log, &store, &outs)) && is_nothing_out(&outs));
    outs.in_doubt_room++;
    store.length--;
    need(is_fault(recover(&log, &store, &outs), 11, 0) && is_nothing_out(&outs));
    store.length++;
    need(is_done(recover(&log, &store, &outs)));
    need(is_report(&outs.made) && outs.in_doubt[0] == 1 && outs.in_doubt[1] == 0);
    check_tail(outs.tail, &outs.made);
    need(outs.made.store_length == expected.length && memcmp(outs.store, expected.bytes, expected.length) == 0);
}

static void check_audits(void) {
    struct text log = {.length = 0}, store = {.length = 0}, base = {.length = 0};
    begin_log(&log, 1, 0);
    add(&log, &(struct aries_record){.lsn = 1, .tx = 1, .kind = ARIES_UPDATE, .before = ABSENT, .after = A});
    make_store(&store, 1, &A);
    need(is_done(aries_audit(log.bytes, log.length, store.bytes, store.length)));
    add(&log, &(struct aries_record){.lsn = 2, .tx = 2, .kind = ARIES_UPDATE, .before = A, .after = B});
    need(is_fault(aries_audit(log.bytes, log.length, store.bytes, store.length), 24, 2));
    begin_log(&log, 2, 5);
    add(&log, &(struct aries_record){.lsn = 6, .tx = 1, .kind = ARIES_UPDATE, .before = A, .after = B});
    make_store(&store, 6, &B);
    make_store(&base, 5, &A);
    need(is_done(aries_audit_from(log.bytes, log.length, store.bytes, store.length, base.bytes, base.length)));
    need(is_fault(aries_audit(log.bytes, log.length, store.bytes, store.length), 23, 6));
    make_store(&base, 6, &A);
    need(is_fault(aries_audit_from(log.bytes, log.length, store.bytes, store.length, base.bytes, base.length), 29, 0));
}

/* A journal and its arrays. */
static struct aries_journal journal;
static struct aries_transaction_entry transactions[2];
static struct aries_page_entry pages[1];
static struct aries_pending_entry pending[2];

/* The journal makes the update above, writes its page, and undoes it. */
static void check_journal(void) {
    uint8_t out[128];
    size_t length = 0;
    uint64_t lsn = 0;
    uint32_t tx = 0;
    need(is_done(aries_journal_begin(&journal, transactions, 2, &tx)) && tx == 1);
    need(is_done(aries_journal_update(&journal, transactions, 2, pages, 1, pending, 2, tx, 0, 0, &A, out, sizeof out,
        &length)));
    need(length == sizeof update - 1 && memcmp(out, update, length) == 0);
    need(journal.last == 1 && journal.written == 0 && journal.transactions == 1 && journal.pending == 1);
    need(journal.next == 2 && transactions[0].tx == 1 && transactions[0].state == 0);
    need(transactions[0].last == 1 && transactions[0].undo_next == 1 && transactions[0].below == 1);
    need(pages[0].rec_lsn == 1 && pages[0].writers[0] == 1 && pages[0].writers[1] == 0);
    need(pages[0].page.lsn == 1 && pages[0].page.number == 0 && is_image(&pages[0].page.slots[0], &A));
    need(pending[0].lsn == 1 && pending[0].prev == 0 && pending[0].tx == 1 && pending[0].page == 0);
    need(pending[0].slot == 0 && is_image(&pending[0].before, &ABSENT));
    need(is_fault(aries_journal_page_to_write(&journal, pages, 1, 0), ARIES_LOG_NOT_WRITTEN, 1));
    need(is_done(aries_journal_log_written(&journal, 1)) && journal.written == 1);
    need(is_done(aries_journal_page_to_write(&journal, pages, 1, 0)));
    need(is_done(aries_journal_page_written(pages, 1, 0, 1)) && pages[0].rec_lsn == 0);
    need(is_done(aries_journal_newest(&journal, transactions, 2, pending, 2, tx, &lsn)) && lsn == 1);
    need(is_done(aries_journal_undo(&journal, transactions, 2, pages, 1, pending, 2, tx, out, 128, &length)));
    need(length == 39 && journal.last == 2 && journal.written == 1 && is_image(&pages[0].page.slots[0], &ABSENT));
    need(is_done(aries_journal_checkpoint(&journal, transactions, 2, pages, 1, out, 128, &length)));
    need(length == 42 + 21 + 12 && journal.last == 4 && journal.written == 1);
    need(is_done(aries_journal_turn(&journal, transactions, 2, pending, 2, tx, ARIES_END, out, 128, &length)));
    need(length == 25 && journal.last == 5 && journal.written == 1 && journal.transactions == 0);
    need(is_done(aries_journal_begin(&journal, transactions, 2, &tx)) && tx == 2);
    need(is_done(aries_journal_cancel(&journal, transactions, 2, tx)) && journal.transactions == 0);
    need(journal.next == 3 && journal.written == 1);
}

static void check_journals(void) {
    struct text log = {.length = 0}, store = {.length = 0};
    make_store(&store, 0, &ABSENT);
    need(is_done(aries_journal_new(1, 0, store.bytes, store.length, &journal, pages, 1)));
    check_journal();
    begin_log(&log, 1, 0);
    need(is_done(aries_journal_open(log.bytes, log.length, store.bytes, store.length, &journal, transactions, 2, pages,
        1, pending, 2)));
    check_journal();
}

static void check_texts(void) {
    struct aries_fault fault = {.number = 24, .place = 7};
    uint8_t out[64] = {0};
    size_t length = 0;
    need(is_done(aries_fault_text(&fault, out, 64, &length)) && length == 20);
    need(memcmp(out, "dirty write at LSN 7", 21) == 0);
    length = 0;
    need(lacks_room(aries_fault_text(&fault, out, 19, &length)) && length == 20);
    fault.number = 19;
    need(is_unwritable(aries_fault_text(&fault, out, 64, &length)));
    fault = (struct aries_fault){.number = 12, .place = (uint64_t)1 << 32};
    need(is_unwritable(aries_fault_text(&fault, out, 64, &length)));
    fault = (struct aries_fault){.number = ARIES_NO_RESOURCE};
    need(is_done(aries_fault_text(&fault, out, 64, &length)) && length == 11 && memcmp(out, "no resource", 11) == 0);
}

/* The names of faults, each with the text that docs/FORMATS.md has for its number. */
static const struct named {
    uint32_t number;
    const char *text;
} NAMED[] = {
    {ARIES_BAD_LOG_HEADER, "bad log header"},
    {ARIES_BAD_LENGTH, "bad length at byte 7"},
    {ARIES_BAD_RECORD, "bad record at byte 7"},
    {ARIES_BAD_LSN, "bad LSN at byte 7"},
    {ARIES_BAD_STORE_HEADER, "bad store header"},
    {ARIES_STORE_SIZE, "bad store size"},
    {ARIES_BAD_PAGE, "bad image of page 7"},
    {ARIES_BAD_MASTER, "bad master"},
    {ARIES_NO_PAGE_OF_RECORD, "no such page at LSN 7"},
    {ARIES_PAGE_AHEAD_OF_LOG, "page 7 is ahead of the log"},
    {ARIES_BROKEN_CHAIN, "broken chain at LSN 7"},
    {ARIES_CHAIN, "wrong previous LSN at LSN 7"},
    {ARIES_AFTER_FINISH, "record after finish at LSN 7"},
    {ARIES_WRONG_COMPENSATION, "wrong compensation at LSN 7"},
    {ARIES_BEFORE_IMAGE, "wrong before image at LSN 7"},
    {ARIES_DIRTY_WRITE, "dirty write at LSN 7"},
    {ARIES_END_TOO_EARLY, "end too early at LSN 7"},
    {ARIES_PAGE_IMAGE, "wrong content of page 7"},
    {ARIES_TRANSACTION_TABLE, "wrong transaction table"},
    {ARIES_DIRTY_TABLE, "wrong dirty page table at page 7"},
    {ARIES_BAD_BASE, "bad base store"},
};

static void check_names(void) {
    uint8_t out[64];
    for (size_t i = 0; i < sizeof NAMED / sizeof NAMED[0]; i++) {
        struct aries_fault fault = {.number = NAMED[i].number, .place = 7};
        size_t length = 0, wanted = 0;
        while (NAMED[i].text[wanted]) wanted++;
        need(is_done(aries_fault_text(&fault, out, sizeof out, &length)) && length == wanted);
        need(memcmp(out, NAMED[i].text, wanted) == 0);
    }
}

/* The longest frames: an update with two values, and a checkpoint with full tables. */
static void check_longest(void) {
    static struct aries_entry entries[ARIES_TRANSACTIONS];
    static struct aries_dirty dirty[ARIES_PAGES];
    static uint8_t out[ARIES_CHECKPOINT_BYTES];
    struct aries_image longest = {.length = ARIES_VALUE_BYTES};
    struct aries_record record = {.lsn = 1, .tx = 1, .kind = ARIES_UPDATE, .before = longest, .after = longest};
    size_t begin = 0, length = 0;
    need(is_done(aries_write_record(&record, out, ARIES_FRAME_BYTES, &length)) && length == ARIES_FRAME_BYTES);
    record.kind = ARIES_CHECKPOINT_BEGIN;
    need(is_done(aries_write_record(&record, out, sizeof out, &begin)));
    for (uint32_t i = 0; i < ARIES_TRANSACTIONS; i++) entries[i].tx = i + 1;
    for (uint32_t i = 0; i < ARIES_PAGES; i++) dirty[i] = (struct aries_dirty){.rec_lsn = 1, .page = i};
    need(is_done(aries_write_checkpoint_end(2, 1, entries, ARIES_TRANSACTIONS, dirty, ARIES_PAGES, out + begin,
        sizeof out - begin, &length)));
    need(begin + length == ARIES_CHECKPOINT_BYTES);
}

/* Two stores of two pages, of which page 1 differs in its last byte, or in no byte. */
static void check_changed(void) {
    static uint8_t store[24 + 2048], other[24 + 2048];
    need(!aries_is_page_changed(store, other, 0) && !aries_is_page_changed(store, other, 1));
    other[24 + 2047] = 1;
    need(!aries_is_page_changed(store, other, 0) && aries_is_page_changed(store, other, 1));
    other[23] = 1;
    need(!aries_is_page_changed(store, other, 0));
}

int main(void) {
    struct text log = {.length = 0};
    check_names();
    check_longest();
    check_changed();
    check_headers();
    check_frames();
    write_all_kinds(&log);
    check_records(&log);
    check_checkpoint(&log);
    check_tables_that_cannot_be_written();
    check_pages();
    check_recovery();
    check_audits();
    check_journals();
    check_texts();
    return failed;
}
