/* A key-value store that writes its own log: the other way to use aries.h. It fills in each record, and encodes it with
 * aries_write_record. So it has to keep the laws of records itself (docs/DEFINITIONS.md), which the journal of the bank
 * does for that example. aries_files.h keeps the log and the store in a folder.
 *
 *   kv FOLDER     reads commands, a line each:
 *
 *     set KEY VALUE     remove KEY     get KEY     commit     roll-back     audit
 *
 * `commit` prints `committed` after the changes are durable. What was not committed is rolled back at the end. Key and
 * value have at most 47 bytes together.
 *
 * One transaction runs at a time, so it needs no locks. It never writes a page and takes no checkpoint: each opening
 * begins a new log by an archive, and an archive writes the pages that the store lacks. In the new log the numbers of
 * transactions begin again from 1, so the log need not be searched for those in use. */
#include "aries_files.h"

#include <stdio.h>
#include <stdlib.h>
#include <string.h>

enum { PAGES = 64, CHANGES = 256, FRAME_ROOM = 128, LINE = 256 };

/* A change of the transaction, with what undo needs. */
struct change {
    uint64_t prev;
    uint32_t page;
    uint8_t slot;
    struct aries_image before;
};

struct store {
    aries_files *files;
    struct aries_page pages[PAGES];
    uint64_t lsn;  /* of the last record */
    uint32_t tx;   /* the transaction: its number, */
    uint64_t prev; /* the LSN of its last record, 0 if it has none, */
    size_t count;  /* and how many changes it has made */
    struct change changes[CHANGES];
};

static void need(int holds, const char *what) {
    if (holds) return;
    fprintf(stderr, "%s\n", what);
    exit(1);
}

/* Appends a record of the transaction. */
static void append(struct store *store, struct aries_record record) {
    uint8_t frame[FRAME_ROOM];
    size_t length = 0;
    record.lsn = ++store->lsn;
    record.tx = store->tx;
    record.prev = store->prev;
    need(aries_write_record(&record, frame, sizeof frame, &length).number == ARIES_OK, "a record cannot be written");
    need(aries_files_append(store->files, frame, length) == ARIES_FILES_OK, "the log cannot be written");
    store->prev = record.lsn;
}

/* Puts an image into a page. The page then has all records up to the last one. */
static void put(struct store *store, uint32_t page, uint8_t slot, const struct aries_image *image) {
    store->pages[page].slots[slot] = *image;
    store->pages[page].lsn = store->lsn;
}

/* An update: write-ahead, so its record comes before the change. */
static void update(struct store *store, uint32_t page, uint8_t slot, const struct aries_image *after) {
    need(store->count < CHANGES, "the transaction is too long");
    struct change *change = &store->changes[store->count++];
    *change = (struct change){store->prev, page, slot, store->pages[page].slots[slot]};
    append(store, (struct aries_record){
        .kind = ARIES_UPDATE, .page = page, .slot = slot, .before = change->before, .after = *after});
    put(store, page, slot, after);
}

static void finish(struct store *store, uint8_t kind) {
    append(store, (struct aries_record){.kind = kind});
    store->tx++;
    store->prev = 0;
    store->count = 0;
}

static void commit(struct store *store) {
    finish(store, ARIES_COMMIT);
    need(aries_files_sync(store->files) == ARIES_FILES_OK, "the log cannot be synced");
    puts("committed");
}

/* Undoes the changes, the newest first. The UndoNxtLSN of a CLR is the PrevLSN of the update that it undoes. */
static void roll_back(struct store *store) {
    if (store->prev == 0) return;
    while (store->count > 0) {
        const struct change *change = &store->changes[--store->count];
        append(store, (struct aries_record){.kind = ARIES_CLR, .page = change->page, .slot = change->slot,
            .next = change->prev, .after = change->before});
        put(store, change->page, change->slot, &change->before);
    }
    finish(store, ARIES_END);
}

static void open_store(struct store *store, const char *folder) {
    struct aries_files_opened opened;
    need(aries_files_open(folder, 0, PAGES, &store->files, &opened) == ARIES_FILES_OK, "the folder cannot be opened");
    need(aries_files_archive(store->files, &opened) == ARIES_FILES_OK, "a new log cannot be begun");
    need(opened.page_count == PAGES, "it has another number of pages");
    for (uint32_t page = 0; page < PAGES; page++) {
        const uint8_t *image = opened.store + ARIES_STORE_HEADER_BYTES + (size_t)page * ARIES_PAGE_BYTES;
        struct aries_fault fault = aries_read_page(image, ARIES_PAGE_BYTES, page, &store->pages[page]);
        need(fault.number == ARIES_OK, "a page is damaged");
    }
    store->lsn = opened.last_lsn;
    store->tx = 1;
}

/* A cell holds a key, a byte 0, and a value. A key is in the page that its bytes choose. */
static uint32_t page_of(const char *key) {
    uint32_t hash = 2166136261u;
    for (; *key; key++) hash = (hash ^ (uint8_t)*key) * 16777619u;
    return hash % PAGES;
}

/* The slot that holds the key; else a free one, or ARIES_SLOTS if the page is full. */
static uint8_t slot_of(const struct aries_page *page, const char *key) {
    uint8_t free_slot = ARIES_SLOTS;
    for (uint8_t slot = 0; slot < ARIES_SLOTS; slot++) {
        const struct aries_image *image = &page->slots[slot];
        if (image->length == ARIES_ABSENT) free_slot = slot;
        else if (strncmp((const char *)image->bytes, key, image->length) == 0) return slot;
    }
    return free_slot;
}

static void set(struct store *store, const char *key, const char *value) {
    uint32_t page = page_of(key);
    uint8_t slot = slot_of(&store->pages[page], key);
    size_t key_length = strlen(key) + 1, length = key_length + strlen(value);
    struct aries_image image = {.length = (uint8_t)length};
    if (slot == ARIES_SLOTS || length > ARIES_VALUE_BYTES) {
        puts("no room");
        return;
    }
    memcpy(image.bytes, key, key_length);
    memcpy(image.bytes + key_length, value, length - key_length);
    update(store, page, slot, &image);
}

/* Removes a key, or prints its value. */
static void look_up(struct store *store, const char *key, int is_removed) {
    uint32_t page = page_of(key);
    uint8_t slot = slot_of(&store->pages[page], key);
    const struct aries_image *image = &store->pages[page].slots[slot % ARIES_SLOTS], absent = {.length = ARIES_ABSENT};
    size_t key_length = strlen(key) + 1;
    if (slot == ARIES_SLOTS || image->length == ARIES_ABSENT) puts("no such key");
    else if (is_removed) update(store, page, slot, &absent);
    else printf("%.*s\n", (int)(image->length - key_length), (const char *)image->bytes + key_length);
}

static void audit(struct store *store) {
    struct aries_fault fault;
    need(aries_files_audit(store->files, &fault) == ARIES_FILES_OK, "the files cannot be read");
    puts(fault.number == ARIES_OK ? "lawful" : "not lawful");
}

static void obey(struct store *store, const char *line) {
    char command[LINE], key[LINE], value[LINE];
    int given = sscanf(line, "%255s %255s %255s", command, key, value);
    if (given == 3 && strcmp(command, "set") == 0) set(store, key, value);
    else if (given == 2 && strcmp(command, "get") == 0) look_up(store, key, 0);
    else if (given == 2 && strcmp(command, "remove") == 0) look_up(store, key, 1);
    else if (given == 1 && strcmp(command, "commit") == 0) commit(store);
    else if (given == 1 && strcmp(command, "roll-back") == 0) roll_back(store);
    else if (given == 1 && strcmp(command, "audit") == 0) audit(store);
    else puts("no such command");
    fflush(stdout);
}

int main(int count, char **words) {
    static struct store store;
    char line[LINE];
    need(count == 2, "usage: kv FOLDER");
    open_store(&store, words[1]);
    while (fgets(line, sizeof line, stdin)) obey(&store, line);
    roll_back(&store);
    need(aries_files_close(store.files) == ARIES_FILES_OK, "the folder cannot be closed");
    return 0;
}
