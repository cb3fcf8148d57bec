/* What the tests of the journal share: memory that ends at a guard page, and an engine in such memory. */
#ifndef JOURNAL_H
#define JOURNAL_H
#define _DEFAULT_SOURCE /* for MAP_ANONYMOUS */

#include "aries.h"

#include <stdio.h>
#include <stdlib.h>
#include <string.h>
#include <sys/mman.h>
#include <unistd.h>

enum { PAGES = 4, STORE_BYTES = ARIES_STORE_HEADER_BYTES + PAGES * ARIES_PAGE_BYTES };

static inline void need_at(int holds, int line) {
    if (holds) return;
    printf("line %d\n", line);
    exit(1);
}

#define need(holds) need_at(holds, __LINE__)

static inline int is_fault(struct aries_fault fault, uint32_t number, uint64_t place) {
    if (fault.number == number && fault.place == place) return 1;
    printf("fault %u at %llu, not %u: ", fault.number, (unsigned long long)fault.place, number);
    return 0;
}

static inline int is_done(struct aries_fault fault) {
    return is_fault(fault, ARIES_OK, 0);
}

/* Bytes of which the last is the last one before a page that must not be touched. */
static inline void *guarded(size_t bytes) {
    size_t page = (size_t)sysconf(_SC_PAGESIZE), whole = (bytes + page - 1) / page * page;
    char *at = mmap(NULL, whole + page, PROT_READ | PROT_WRITE, MAP_PRIVATE | MAP_ANONYMOUS, -1, 0);
    need(at != MAP_FAILED && mprotect(at + whole, page, PROT_NONE) == 0);
    return at + whole - bytes;
}

static inline struct aries_engine guarded_engine(size_t transactions, size_t pages, size_t pending) {
    struct aries_engine engine;
    memset(&engine, 0, sizeof engine);
    engine.transactions = guarded(transactions * sizeof *engine.transactions);
    engine.transactions_count = transactions;
    engine.pages = guarded(pages * sizeof *engine.pages);
    engine.pages_count = pages;
    engine.pending = guarded(pending * sizeof *engine.pending);
    engine.pending_count = pending;
    return engine;
}

static inline struct aries_image image_of(const char *text) {
    struct aries_image image = {.length = ARIES_ABSENT};
    if (text) memcpy(image.bytes, text, image.length = (uint8_t)strlen(text));
    return image;
}

static inline int is_image(const struct aries_image *image, const char *text) {
    if (!text) return image->length == ARIES_ABSENT;
    return image->length == strlen(text) && memcmp(image->bytes, text, image->length) == 0;
}

/* A store of empty pages. */
static inline void make_store(uint8_t *store, uint64_t master) {
    struct aries_page page = {.lsn = 0};
    size_t length = 0;
    for (size_t slot = 0; slot < ARIES_SLOTS; slot++) page.slots[slot].length = ARIES_ABSENT;
    need(is_done(aries_write_store_header(PAGES, master, store, ARIES_STORE_HEADER_BYTES, &length)));
    for (uint32_t number = 0; number < PAGES; number++) {
        uint8_t *image = store + ARIES_STORE_HEADER_BYTES + number * ARIES_PAGE_BYTES;
        page.number = number;
        need(is_done(aries_write_page(&page, image, ARIES_PAGE_BYTES, &length)));
    }
}

#endif
