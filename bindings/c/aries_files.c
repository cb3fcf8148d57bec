/*
 * aries_files.c: see aries_files.h. docs/FILES.md says why each step is safe.
 *
 * A function that returns int returns 0 if it fails, with the cause in errno or by refuse(). The calls of the header
 * return the numbers of the header.
 */
#ifndef _DEFAULT_SOURCE
#define _DEFAULT_SOURCE /* for flock */
#endif
#ifndef _POSIX_C_SOURCE
#define _POSIX_C_SOURCE 200809L
#endif
#include "aries_files.h"
#include "aries_files_disk.h"

#include <dirent.h>

enum {
    RING = 1 << 20,   /* bytes of sums-N after its entries, with ARIES_FILES_ONE_SYNC */
    BUFFER = 1 << 16, /* bytes of the log that wait in memory for one large write */
    BATCH = 64,       /* pages of a batch */
    BLOCK = 4096,     /* what a write next to it must not harm is in a block of its own */
    LOG_HEADER = 16   /* bytes of the header of a log of version 2 */
};

/* A place in the log: how many bytes are before it, the LSN of the last record among them, and their CRC. */
struct position {
    uint64_t end, lsn;
    uint32_t crc;
};

struct aries_files {
    struct folder folder;
    int lock, log, store, sums, pages; /* descriptors, -1 if not open */
    uint32_t flags, page_count;
    int refusal;                  /* the number that this call returns; the handle is not stopped */
    int stopped, errno_when_stopped;
    uint64_t base_lsn, master;
    uint64_t checkpoint;          /* the LSN of the begin record of the last complete checkpoint in the log, or 0 */
    struct position appended, durable;
    uint64_t written;             /* bytes of the log that its file has */
    uint64_t entry;               /* the number of the newest entry of sums-N */
    uint64_t ring, ring_used;     /* bytes of the ring, 0 if there is none, and how many of them have pieces */
    uint8_t *piece, *buffer;      /* the buffer follows a head, so that a piece is one write */
    uint8_t *batch;               /* a block with a head, and images */
    uint8_t *log_bytes, *store_bytes;
    size_t store_length;
    uint64_t *page_lsns;          /* those of the pages in the store */
    uint32_t *in_doubt;
};

/* HOW A CALL ENDS */

static int refuse(struct aries_files *files, int number) {
    files->refusal = number;
    return 0;
}

static int is_stopped(const struct aries_files *files) {
    if (files->stopped) errno = files->errno_when_stopped;
    return files->stopped != 0;
}

/* Returns the number of the header for what was done or not. What the system refused stops the handle. */
static int result(struct aries_files *files, int is_done) {
    int refusal = files->refusal;
    files->refusal = 0;
    if (is_done || refusal || is_stopped(files)) return is_done ? ARIES_FILES_OK : refusal ? refusal : files->stopped;
    files->errno_when_stopped = errno;
    return files->stopped = errno == ENOMEM ? ARIES_FILES_MEMORY : ARIES_FILES_IO;
}

/* SUMS-N: two entries, written in turn, and with ARIES_FILES_ONE_SYNC a ring of pieces of the log */

/* An entry: magic 8, its number 8, the end 8, the CRC of the log to there 4, its own CRC 4. */
static void encode_entry(uint8_t *entry, uint64_t number, const struct position *at) {
    memcpy(entry, "ARIESSUM", 8);
    put_number(entry + 8, number, 8);
    put_number(entry + 16, at->end, 8);
    put_number(entry + 24, at->crc, 4);
    seal(entry);
}

/* The head of a piece: magic 4, the length of its frames 4, the number of the entry before it 8, its start 8, the CRC
 * of the log to its end 4, its own CRC 4. */
static void encode_piece_head(struct aries_files *files, uint64_t length) {
    uint8_t *head = files->piece;
    memcpy(head, "ARIE", 4);
    put_number(head + 4, length, 4);
    put_number(head + 8, files->entry, 8);
    put_number(head + 16, files->durable.end, 8);
    put_number(head + 24, files->appended.crc, 4);
    seal(head);
}

static int make_sums(struct aries_files *files, uint64_t base_lsn, const struct position *at) {
    char name[32];
    files->ring = files->flags & ARIES_FILES_ONE_SYNC ? RING : 0;
    files->ring_used = 0;
    files->entry = 2;
    close_file(&files->sums);
    uint8_t *bytes = calloc(1, 2 * BLOCK + files->ring);
    if (!bytes) return 0;
    encode_entry(bytes, files->entry, at);
    files->sums = put_file(&files->folder, name_of(name, "sums", base_lsn), bytes, 2 * BLOCK + files->ring);
    free(bytes);
    return files->sums >= 0;
}

/* What an opening finds out about the log. */
struct found {
    size_t length;       /* bytes of its file */
    uint64_t begin;      /* bytes of its header */
    struct position end; /* where the durable frames end */
    uint64_t in_file;    /* where those end that the newest entry covers; the ring may have more */
    int has_sums;
    int is_newer_unfit;  /* sums-N has a newer entry, of which the log lacks bytes */
    int are_pieces_lost; /* the file of the log has other bytes, or none, where the pieces of the ring go */
    uint8_t *batch;      /* the last batch of pages, NULL if there is none */
};

static uint64_t number_of_entry(const uint8_t *entry) {
    return is_head(entry, "ARIESSUM") ? number_at(entry + 8, 8) : 0;
}

/* Whether the log has all bytes up to the end that the entry names. */
static int fits(const uint8_t *entry, const uint8_t *log, uint64_t length) {
    if (number_of_entry(entry) == 0 || number_at(entry + 16, 8) > length) return 0;
    return crc32c(0, log, (size_t)number_at(entry + 16, 8)) == number_at(entry + 24, 4);
}

/* Finds the newest entry that fits. */
static int find_entry(struct aries_files *files, const uint8_t *sums, struct found *found) {
    int is_first_newer = number_of_entry(sums) > number_of_entry(sums + BLOCK);
    const uint8_t *entry = is_first_newer ? sums : sums + BLOCK;
    if (!fits(entry, files->log_bytes, found->length)) {
        found->is_newer_unfit = 1;
        entry = is_first_newer ? sums + BLOCK : sums;
        if (!fits(entry, files->log_bytes, found->length)) return 0;
    }
    files->entry = number_of_entry(entry);
    found->in_file = found->end.end = number_at(entry + 16, 8);
    found->end.crc = (uint32_t)number_at(entry + 24, 4);
    return 1;
}

/* Copies the next piece of the ring to the log in memory. Returns 0 if there is none. */
static int take_piece(struct aries_files *files, const uint8_t *ring, struct found *found) {
    const uint8_t *head = ring + files->ring_used;
    uint64_t room = files->ring - files->ring_used;
    if (room <= HEAD || !is_head(head, "ARIE")) return 0;
    if (number_at(head + 8, 8) != files->entry || number_at(head + 16, 8) != found->end.end) return 0;
    size_t length = (size_t)number_at(head + 4, 4);
    if (length > room - HEAD) return 0;
    uint32_t crc = crc32c(found->end.crc, head + HEAD, length);
    if (crc != number_at(head + 24, 4)) return 0;
    size_t at = (size_t)found->end.end, has = at < found->length ? found->length - at : 0;
    if (has < length || memcmp(files->log_bytes + at, head + HEAD, length) != 0) found->are_pieces_lost = 1;
    memcpy(files->log_bytes + at, head + HEAD, length);
    found->end.end += length;
    found->end.crc = crc;
    files->ring_used += HEAD + length;
    return 1;
}

/* Takes the pieces that follow the entry. If the ring follows a newer entry, that one was durable, and does not fit. */
static int take_pieces(struct aries_files *files, const uint8_t *ring, struct found *found) {
    uint8_t *log = realloc(files->log_bytes, found->length + files->ring + 1);
    if (!log) return 0;
    files->log_bytes = log;
    if (files->ring > HEAD && is_head(ring, "ARIE") && number_at(ring + 8, 8) > files->entry)
        return refuse(files, ARIES_FILES_DAMAGED);
    while (take_piece(files, ring, found)) continue;
    return 1;
}

/* Finds where the durable frames end. Without sums-N that is the end of the file. */
static int find_end(struct aries_files *files, struct found *found) {
    size_t length = 0;
    char name[32];
    found->in_file = found->end.end = found->length;
    files->sums = open_synced(&files->folder, name_of(name, "sums", files->base_lsn));
    if (files->sums < 0) return errno == ENOENT;
    found->has_sums = 1;
    uint8_t *sums = read_file(files->sums, &length);
    if (!sums) return 0;
    int is_found = length >= 2 * BLOCK && find_entry(files, sums, found);
    files->ring = is_found ? length - 2 * BLOCK : 0;
    is_found = is_found ? take_pieces(files, sums + 2 * BLOCK, found) : refuse(files, ARIES_FILES_DAMAGED);
    free(sums);
    return is_found;
}

/* THE LOG */

static int write_log(struct aries_files *files) {
    if (!write_at(files->log, files->buffer, files->appended.end - files->written, files->written)) return 0;
    files->written = files->appended.end;
    return 1;
}

/* Makes the log durable by a sync of sums-N and one of the log. The ring is empty after that. */
static int sync_both(struct aries_files *files) {
    uint8_t entry[HEAD];
    if (!write_log(files)) return 0;
    if (files->sums >= 0) {
        encode_entry(entry, ++files->entry, &files->appended);
        if (!write_at(files->sums, entry, HEAD, files->entry % 2 * BLOCK)) return 0;
        if (!sync_file(files->sums)) return 0;
    }
    if (!sync_file(files->log)) return 0;
    files->ring_used = 0;
    files->durable = files->appended;
    return 1;
}

/* Makes the log durable by one sync, that of sums-N, which gets the new frames as a piece. The file of the log gets
 * them before, but is synced only when the ring is full: so a kill leaves all that is durable in that file. */
static int sync_piece(struct aries_files *files, uint64_t length) {
    encode_piece_head(files, length);
    if (!write_log(files)) return 0;
    if (!write_at(files->sums, files->piece, HEAD + length, 2 * BLOCK + files->ring_used)) return 0;
    if (!sync_file(files->sums)) return 0;
    files->ring_used += HEAD + length;
    files->durable = files->appended;
    return 1;
}

static int sync_log(struct aries_files *files) {
    uint64_t length = files->appended.end - files->durable.end;
    int is_in_buffer = files->written == files->durable.end;
    if (length == 0) return 1;
    if (is_in_buffer && HEAD + length <= files->ring - files->ring_used) return sync_piece(files, length);
    return sync_both(files);
}

/* What frames have: the last LSN, and the LSN of the begin record of the last complete checkpoint. */
struct passed {
    uint64_t lsn, checkpoint;
};

/* Notes the begin record that a checkpoint end names. */
static void pass_frame(const uint8_t *frame, uint64_t base_lsn, struct passed *passed) {
    passed->lsn++;
    if (frame[4] != ARIES_CHECKPOINT_END || number_at(frame, 4) < 17) return;
    uint64_t begin = number_at(frame + 13, 8);
    if (begin > base_lsn && begin < passed->lsn) passed->checkpoint = begin;
}

/* Whether these are whole frames with the LSNs after passed->lsn. Passes those that are. */
static int are_frames(const uint8_t *frames, size_t length, uint64_t base_lsn, struct passed *passed) {
    for (size_t at = 0; at < length; at += 4 + number_at(frames + at, 4)) {
        if (length - at < 4 + 9 || number_at(frames + at, 4) < 9) return 0;
        if (length - at - 4 < number_at(frames + at, 4) || number_at(frames + at + 5, 8) != passed->lsn + 1) return 0;
        pass_frame(frames + at, base_lsn, passed);
    }
    return 1;
}

/* Appends to the buffer, or if there is no room, to the file. */
static int append(struct aries_files *files, const uint8_t *frames, size_t length) {
    struct passed passed = {files->appended.lsn, files->checkpoint};
    if (!are_frames(frames, length, files->base_lsn, &passed)) return refuse(files, ARIES_FILES_MISUSE);
    if (files->appended.end - files->written + length > BUFFER && !write_log(files)) return 0;
    if (length > BUFFER) {
        if (!write_at(files->log, frames, length, files->written)) return 0;
        files->written += length;
    } else {
        memcpy(files->buffer + (files->appended.end - files->written), frames, length);
    }
    files->appended.crc = crc32c(files->appended.crc, frames, length);
    files->appended.end += length;
    files->appended.lsn = passed.lsn;
    files->checkpoint = passed.checkpoint;
    return 1;
}

int aries_files_append(aries_files *files, const uint8_t *frames, size_t length) {
    return result(files, !is_stopped(files) && append(files, frames, length));
}

int aries_files_sync(aries_files *files) {
    return result(files, !is_stopped(files) && sync_log(files));
}

uint64_t aries_files_durable(const aries_files *files) {
    return files->durable.lsn;
}

/* THE STORE, AND THE FILE OF PAGES */

static uint64_t offset_of(const uint8_t *image) {
    return ARIES_STORE_HEADER_BYTES + number_at(image, 4) * ARIES_PAGE_BYTES;
}

static uint64_t page_lsn_of(const uint8_t *image) {
    return number_at(image + 8, 8);
}

/* The head of a batch: magic 8, count 4, how far the log was durable 8, the CRC of the log to there 4, the CRC of the
 * images 4, its own CRC 4. */
static void encode_batch_head(struct aries_files *files, size_t count) {
    uint8_t *head = files->batch;
    memset(head, 0, BLOCK);
    memcpy(head, "ARIESTWO", 8);
    put_number(head + 8, count, 4);
    put_number(head + 12, files->durable.end, 8);
    put_number(head + 20, files->durable.crc, 4);
    put_number(head + 24, crc32c(0, head + BLOCK, count * ARIES_PAGE_BYTES), 4);
    seal(head);
}

/* Writes the first images of files->batch: to the file of pages, and then to their places in the store. */
static int write_batch(struct aries_files *files, size_t count) {
    const uint8_t *image = files->batch + BLOCK;
    if (files->pages >= 0) {
        encode_batch_head(files, count);
        if (!write_at(files->pages, files->batch, BLOCK + count * ARIES_PAGE_BYTES, 0)) return 0;
        if (!sync_file(files->pages)) return 0;
    }
    for (size_t i = 0; i < count; i++, image += ARIES_PAGE_BYTES) {
        if (!write_at(files->store, image, ARIES_PAGE_BYTES, offset_of(image))) return 0;
        files->page_lsns[number_at(image, 4)] = page_lsn_of(image);
    }
    return sync_file(files->store);
}

/* Whether these are images of different pages of the store, none with a PageLSN below that in the store, or above the
 * last LSN. *newest is the largest PageLSN. */
static int are_images(const struct aries_files *files, const uint8_t *images, size_t count, uint64_t *newest) {
    uint8_t seen[ARIES_PAGES] = {0};
    struct aries_page page;
    for (; count > 0; count--, images += ARIES_PAGE_BYTES) {
        uint32_t number = (uint32_t)number_at(images, 4);
        if (number >= files->page_count || seen[number]++) return 0;
        if (aries_read_page(images, ARIES_PAGE_BYTES, number, &page).number != ARIES_OK) return 0;
        if (page.lsn < files->page_lsns[number]) return 0;
        if (page.lsn > *newest) *newest = page.lsn;
    }
    return *newest <= files->appended.lsn;
}

/* Writes pages, after the log is durable as far as they need it. */
static int write_pages(struct aries_files *files, const uint8_t *images, size_t count) {
    uint64_t newest = 0;
    if (!are_images(files, images, count, &newest)) return refuse(files, ARIES_FILES_MISUSE);
    if (newest > files->durable.lsn && !sync_log(files)) return 0;
    for (size_t done = 0; done < count; done += BATCH) {
        size_t some = count - done < BATCH ? count - done : BATCH;
        memcpy(files->batch + BLOCK, images + done * ARIES_PAGE_BYTES, some * ARIES_PAGE_BYTES);
        if (!write_batch(files, some)) return 0;
    }
    return 1;
}

/* Writes the pages of new_store that differ from those of old_store. */
static int write_changed(struct aries_files *files, const uint8_t *old_store, const uint8_t *new_store) {
    size_t count = 0;
    for (size_t at = ARIES_STORE_HEADER_BYTES; at < files->store_length; at += ARIES_PAGE_BYTES) {
        if (memcmp(old_store + at, new_store + at, ARIES_PAGE_BYTES) == 0) continue;
        memcpy(files->batch + BLOCK + count++ * ARIES_PAGE_BYTES, new_store + at, ARIES_PAGE_BYTES);
        if (count == BATCH && !write_batch(files, count)) return 0;
        if (count == BATCH) count = 0;
    }
    return count == 0 || write_batch(files, count);
}

/* Whether this is a whole batch, and the log, durable to `end`, continues the log of that batch. */
static int is_batch(const struct aries_files *files, const uint8_t *batch, size_t length, uint64_t end) {
    if (length < BLOCK || !is_head(batch, "ARIESTWO")) return 0;
    uint64_t count = number_at(batch + 8, 4), log_end = number_at(batch + 12, 8);
    return length - BLOCK >= count * ARIES_PAGE_BYTES && log_end <= end &&
           number_at(batch + 24, 4) == crc32c(0, batch + BLOCK, (size_t)count * ARIES_PAGE_BYTES) &&
           number_at(batch + 20, 4) == crc32c(0, files->log_bytes, (size_t)log_end);
}

/* Repairs a page in memory that is not as in the batch. It is as before the batch, or a mixture of sectors of both; its
 * PageLSN is in its first sector, so it is that of one of them. If sums-N is there, the batch is the last one that was
 * written, and only another program can have written a page with a larger one. */
static int restore_page(struct aries_files *files, const uint8_t *image, int has_sums, uint64_t *restored) {
    uint64_t at = offset_of(image);
    if (at + ARIES_PAGE_BYTES > files->store_length) return 1;
    uint8_t *page = files->store_bytes + at;
    if (page_lsn_of(page) > page_lsn_of(image)) return !has_sums || refuse(files, ARIES_FILES_FOREIGN);
    if (memcmp(page, image, ARIES_PAGE_BYTES) == 0) return 1;
    memcpy(page, image, ARIES_PAGE_BYTES);
    ++*restored;
    return 1;
}

static int restore_batch(struct aries_files *files, const struct found *found, uint64_t *restored) {
    const uint8_t *image = found->batch + BLOCK;
    for (uint64_t count = number_at(found->batch + 8, 4); count > 0; count--, image += ARIES_PAGE_BYTES)
        if (!restore_page(files, image, found->has_sums, restored)) return 0;
    return 1;
}

/* Repairs the pages, in memory, that a power cut may have torn: those of the last batch. */
static int restore_pages(struct aries_files *files, struct found *found, uint64_t *restored) {
    size_t length = 0;
    files->pages = open_synced(&files->folder, "pages");
    if (files->pages < 0) return errno == ENOENT;
    found->batch = read_file(files->pages, &length);
    if (!found->batch) return 0;
    return !is_batch(files, found->batch, length, found->end.end) || restore_batch(files, found, restored);
}

/* Writes the pages of the batch that are now as in it, if any was repaired. */
static int write_restored(struct aries_files *files, const struct found *found, uint64_t restored) {
    const uint8_t *image = found->batch + BLOCK;
    if (restored == 0) return 1;
    for (uint64_t count = number_at(found->batch + 8, 4); count > 0; count--, image += ARIES_PAGE_BYTES) {
        uint64_t at = offset_of(image);
        int is_as_image = at + ARIES_PAGE_BYTES <= files->store_length &&
                          memcmp(files->store_bytes + at, image, ARIES_PAGE_BYTES) == 0;
        if (is_as_image && !write_at(files->store, image, ARIES_PAGE_BYTES, at)) return 0;
    }
    return sync_file(files->store);
}

/* Sets the master, to 0 or to a checkpoint whose end the log has. */
static int set_master(struct aries_files *files, uint64_t master) {
    uint8_t bytes[8];
    if (master != 0 && master != files->master && master != files->checkpoint) return refuse(files, ARIES_FILES_MISUSE);
    put_number(bytes, master, 8);
    if (!sync_log(files) || !write_at(files->store, bytes, 8, 16) || !sync_file(files->store)) return 0;
    files->master = master;
    return 1;
}

int aries_files_write_pages(aries_files *files, const uint8_t *images, size_t count) {
    return result(files, !is_stopped(files) && write_pages(files, images, count));
}

int aries_files_set_master(aries_files *files, uint64_t master) {
    return result(files, !is_stopped(files) && set_master(files, master));
}

/* MAKING A DATABASE */

/* Whether there is no store, or one that no page was ever written to: a making of the database was interrupted. */
static int has_no_pages(struct aries_files *files) {
    size_t length = 0, at = ARIES_STORE_HEADER_BYTES;
    int file = open_file(&files->folder, "store", 0);
    if (file < 0) return errno == ENOENT;
    uint8_t *store = read_file(file, &length);
    close_file(&file);
    if (!store) return 0;
    while (at + ARIES_PAGE_BYTES <= length && page_lsn_of(store + at) == 0) at += ARIES_PAGE_BYTES;
    free(store);
    return at + ARIES_PAGE_BYTES > length || refuse(files, ARIES_FILES_MISSING);
}

static int sync_parent(const struct aries_files *files) {
    struct folder parent = {openat(files->folder.descriptor, "..", O_RDONLY | O_DIRECTORY | O_CLOEXEC), 0};
    int is_synced = parent.descriptor >= 0 && sync_folder(&parent);
    close_file(&parent.descriptor);
    return is_synced;
}

static int make_store(struct aries_files *files) {
    size_t length = ARIES_STORE_HEADER_BYTES + (size_t)files->page_count * ARIES_PAGE_BYTES, written = 0;
    uint8_t *store = malloc(length);
    struct aries_page page;
    if (!store) return 0;
    memset(&page, 0, sizeof page);
    memset(page.slots, ARIES_ABSENT, sizeof page.slots);
    (void)aries_write_store_header(files->page_count, 0, store, length, &written);
    for (size_t at = written; page.number < files->page_count; page.number++, at += written)
        (void)aries_write_page(&page, store + at, length - at, &written);
    int file = put_file(&files->folder, "store", store, length), is_made = file >= 0;
    free(store);
    close_file(&file);
    return is_made;
}

/* Makes a database of empty pages. The log comes last: without one, nothing was ever acknowledged. The folder is synced
 * once more after sums-N and the file of pages are made. */
static int make_database(struct aries_files *files) {
    uint8_t header[LOG_HEADER];
    size_t length = 0;
    if (files->page_count == 0) return refuse(files, ARIES_FILES_MISSING);
    if (files->page_count > ARIES_PAGES) return refuse(files, ARIES_FILES_MISUSE);
    (void)aries_write_log_header(1, 0, header, sizeof header, &length);
    int is_ready = has_no_pages(files) && sync_parent(files) && make_store(files) && sync_folder(&files->folder);
    files->log = is_ready ? put_file(&files->folder, "log", header, length) : -1;
    return files->log >= 0;
}

/* RECOVERY */

/* A recovery in memory. */
struct recovery {
    struct aries_recovered made;
    uint8_t *tail, *store;
    uint32_t *in_doubt;
};

static void free_recovery(struct recovery *it) {
    free(it->tail);
    free(it->store);
    free(it->in_doubt);
}

static int has_room(struct recovery *it, size_t tail_room, size_t store_room, size_t in_doubt_room) {
    free_recovery(it);
    it->tail = malloc(tail_room + 1);
    it->store = malloc(store_room + 1);
    it->in_doubt = malloc((in_doubt_room + 1) * sizeof *it->in_doubt);
    return it->tail && it->store && it->in_doubt;
}

/* Recovers a log and a store in memory. After ARIES_NO_ROOM the lengths that are needed are known. */
static int recover(struct aries_files *files, const uint8_t *log, size_t log_length, const uint8_t *store,
                   struct recovery *it, struct aries_fault *fault) {
    size_t tail_room = 2 * log_length, store_room = files->store_length, in_doubt_room = 64;
    do {
        if (!has_room(it, tail_room, store_room, in_doubt_room)) return 0;
        *fault = aries_recover(log, log_length, store, files->store_length, it->tail, tail_room, it->store, store_room,
                               it->in_doubt, in_doubt_room, &it->made);
        tail_room = it->made.tail_length;
        in_doubt_room = it->made.in_doubt;
    } while (fault->number == ARIES_NO_ROOM);
    errno = ENOMEM;
    if (fault->number == ARIES_NO_RESOURCE) return 0;
    return fault->number == ARIES_OK || refuse(files, ARIES_FILES_FAULT);
}

/* Says what the files have now. The handle keeps the memory of the recovery. */
static int hand_over(struct aries_files *files, struct recovery *it, struct aries_files_opened *opened) {
    free(files->store_bytes);
    free(files->in_doubt);
    files->store_bytes = it->store;
    files->in_doubt = it->in_doubt;
    it->store = NULL;
    it->in_doubt = NULL;
    opened->recovered = it->made;
    opened->base_lsn = files->base_lsn;
    opened->last_lsn = files->appended.lsn;
    opened->master = number_at(files->store_bytes + 16, 8);
    opened->page_count = files->page_count;
    opened->log_length = (size_t)files->appended.end;
    opened->store_length = files->store_length;
    opened->log = files->log_bytes;
    opened->store = files->store_bytes;
    opened->in_doubt = files->in_doubt;
    return 1;
}

/* THE AUDIT */

/* Audits bytes, over the base store if there is one. */
static int audit_bytes(struct aries_files *files, const uint8_t *log, size_t log_length, const uint8_t *store,
                       size_t store_length, struct aries_fault *fault) {
    size_t base_length = 0;
    char name[32];
    if (files->base_lsn == 0) return *fault = aries_audit(log, log_length, store, store_length), 1;
    int file = open_file(&files->folder, name_of(name, "base", files->base_lsn), 0);
    uint8_t *base = file >= 0 ? read_file(file, &base_length) : NULL;
    close_file(&file);
    if (base) *fault = aries_audit_from(log, log_length, store, store_length, base, base_length);
    free(base);
    return base != NULL;
}

static int audit(struct aries_files *files, struct aries_fault *fault) {
    size_t log_length = 0, store_length = 0;
    if (!sync_log(files)) return 0;
    uint8_t *log = read_file(files->log, &log_length);
    uint8_t *store = log ? read_file(files->store, &store_length) : NULL;
    int is_done = store && audit_bytes(files, log, log_length, store, store_length, fault);
    free(log);
    free(store);
    return is_done;
}

int aries_files_audit(aries_files *files, struct aries_fault *fault) {
    return result(files, !is_stopped(files) && audit(files, fault));
}

/* WHAT ANOTHER PROGRAM HAS WRITTEN to a folder that was not closed. No crash of an engine leaves what is refused here:
 * the log is durable up to a PageLSN before the page is written, and pages are written by way of the last batch. */

/* A recovery in place that was interrupted has to be finished first. */
static int has_no_tail(struct aries_files *files) {
    struct stat status;
    int has_tail = is_there(&files->folder, "log.tail", &status) ||
                   is_there(&files->folder, "log.tail.aries-new", &status);
    return !has_tail || refuse(files, ARIES_FILES_FOREIGN);
}

static int has_page_above(const struct aries_files *files, uint64_t lsn) {
    size_t at = ARIES_STORE_HEADER_BYTES;
    while (at + ARIES_PAGE_BYTES <= files->store_length && page_lsn_of(files->store_bytes + at) <= lsn)
        at += ARIES_PAGE_BYTES;
    return at + ARIES_PAGE_BYTES <= files->store_length;
}

/* Whether the pages are what the log makes of them. Another program has seen other records than those of the ring, if a
 * power cut took these from the file of the log. Without the base store nothing is known. */
static int are_pages_of_log(struct aries_files *files, const struct found *found) {
    struct aries_fault fault = {ARIES_OK, 0};
    if (!audit_bytes(files, files->log_bytes, (size_t)found->end.end, files->store_bytes, files->store_length, &fault))
        return errno == ENOENT;
    errno = ENOMEM;
    if (fault.number == ARIES_NO_RESOURCE) return 0;
    return fault.number != ARIES_PAGE_IMAGE || refuse(files, ARIES_FILES_FOREIGN);
}

/* Passes the log, and refuses pages that do not belong to it. If the log has another fault, the recovery finds it. */
static int is_own(struct aries_files *files, const struct found *found) {
    struct passed passed = {files->base_lsn, 0};
    if (found->end.end < found->begin) return 1;
    const uint8_t *frames = files->log_bytes + found->begin;
    int are_whole = are_frames(frames, (size_t)(found->end.end - found->begin), files->base_lsn, &passed);
    files->checkpoint = passed.checkpoint;
    if (!are_whole || !found->has_sums) return 1;
    if (has_page_above(files, passed.lsn)) return refuse(files, ARIES_FILES_FOREIGN);
    return !found->are_pieces_lost || are_pages_of_log(files, found);
}

/* OPENING */

/* Locks the file of the log, before it is read, until the handle is gone. A recovery in place locks it too. The name
 * must still be that of the file which is locked. */
static int lock_log(struct aries_files *files) {
    struct stat locked, named;
    if (!lock_file(files->log)) return errno == EWOULDBLOCK ? refuse(files, ARIES_FILES_BUSY) : 0;
    if (fstat(files->log, &locked) != 0) return 0;
    int is_named = is_there(&files->folder, "log", &named) && named.st_dev == locked.st_dev &&
                   named.st_ino == locked.st_ino;
    return is_named || refuse(files, ARIES_FILES_BUSY);
}

/* Opens the log, or makes a database. */
static int open_log(struct aries_files *files) {
    files->log = open_file(&files->folder, "log", 0);
    if (files->log < 0 && errno != ENOENT) return 0;
    if (files->log >= 0) return lock_log(files) && has_no_tail(files) && sync_to_read(files->log);
    return has_no_tail(files) && make_database(files);
}

static int read_log_and_store(struct aries_files *files, struct found *found) {
    struct stat status;
    if (!open_log(files)) return 0;
    files->store = open_synced(&files->folder, "store");
    if (files->store < 0 && errno == ENOENT) return refuse(files, ARIES_FILES_MISSING);
    if (files->store < 0 || fstat(files->store, &status) != 0) return 0;
    files->folder.mode = status.st_mode & 0777;
    files->log_bytes = read_file(files->log, &found->length);
    files->store_bytes = read_file(files->store, &files->store_length);
    if (!files->log_bytes || !files->store_bytes) return 0;
    struct aries_mark begin;
    int has_header = aries_log_begin(files->log_bytes, found->length, &begin).number == ARIES_OK;
    files->base_lsn = has_header ? begin.lsn : 0;
    found->begin = has_header ? begin.offset : found->length;
    return 1;
}

static int note_page_lsns(struct aries_files *files) {
    const uint8_t *image = files->store_bytes + ARIES_STORE_HEADER_BYTES;
    files->page_lsns = malloc((files->page_count + 1) * sizeof *files->page_lsns);
    if (!files->page_lsns) return 0;
    for (uint32_t page = 0; page < files->page_count; page++, image += ARIES_PAGE_BYTES)
        files->page_lsns[page] = page_lsn_of(image);
    return 1;
}

/* Takes over where the log ends without its torn tail. An entry or a piece of sums-N never ends within a frame. */
static int take_end(struct aries_files *files, struct found *found, const struct aries_recovered *made) {
    if (files->sums >= 0 && made->torn != 0) return refuse(files, ARIES_FILES_DAMAGED);
    found->end.end -= made->torn;
    if (files->sums < 0) found->end.crc = crc32c(0, files->log_bytes, (size_t)found->end.end);
    found->end.lsn = files->base_lsn + made->records;
    files->page_count = (uint32_t)made->pages;
    files->master = number_at(files->store_bytes + 16, 8);
    files->appended = files->durable = found->end;
    files->written = found->end.end;
    return note_page_lsns(files);
}

/* Makes sums-N as the flags have it. It gets a new entry if the newest one does not fit: else that one could fit later,
 * when the log has the same bytes again, and hide the pieces that follow the older one. */
static int put_sums(struct aries_files *files, int is_entry_needed) {
    char name[32];
    int has_ring = files->ring != 0, is_ring_asked = (files->flags & ARIES_FILES_ONE_SYNC) != 0;
    if (files->flags & ARIES_FILES_NO_SUMS) {
        close_file(&files->sums);
        files->ring = files->ring_used = 0;
        return remove_file(&files->folder, name_of(name, "sums", files->base_lsn));
    }
    if (files->sums < 0 || has_ring != is_ring_asked) return make_sums(files, files->base_lsn, &files->appended);
    return !is_entry_needed || sync_both(files);
}

static int make_pages(struct aries_files *files) {
    memset(files->batch, 0, BLOCK + BATCH * ARIES_PAGE_BYTES);
    files->pages = put_file(&files->folder, "pages", files->batch, BLOCK + BATCH * ARIES_PAGE_BYTES);
    return files->pages >= 0;
}

/* Makes the file of pages as the flags have it. If there was no sums-N, the one that was found may be of any time: it
 * is replaced, and the folder synced, before there is a sums-N again. */
static int put_pages(struct aries_files *files, const struct found *found) {
    int is_unwanted = (files->flags & ARIES_FILES_NO_PAGES) != 0, is_old = files->pages >= 0 && !found->has_sums;
    if (is_unwanted || is_old) close_file(&files->pages);
    if (is_unwanted && !remove_file(&files->folder, "pages")) return 0;
    if (!is_unwanted && files->pages < 0 && !make_pages(files)) return 0;
    return !is_old || sync_folder(&files->folder);
}

/* Writes the pieces to the file of the log, and makes what is missing in the folder. The sync of the folder also covers
 * what a process has renamed that was killed. */
static int complete_files(struct aries_files *files, const struct found *found) {
    const uint8_t *pieces = files->log_bytes + found->in_file;
    int has_pieces = found->end.end > found->in_file;
    if (has_pieces) {
        if (!write_at(files->log, pieces, found->end.end - found->in_file, found->in_file)) return 0;
        if (!sync_file(files->log)) return 0;
    }
    return put_pages(files, found) && put_sums(files, has_pieces || found->is_newer_unfit) &&
           sync_folder(&files->folder);
}

/* Cuts the log where the durable frames end. The cut is synced before anything is appended. */
static int cut_log(struct aries_files *files, const struct found *found, uint64_t *cut) {
    if (found->length <= found->end.end) return 1;
    *cut = found->length - found->end.end;
    return cut_file(files->log, found->end.end) && sync_file(files->log);
}

/* Appends the tail of the recovery, and then writes the pages that it changed. */
static int put_recovery(struct aries_files *files, const struct found *found, const struct recovery *it) {
    size_t kept = (size_t)found->end.end, length = (size_t)it->made.tail_length;
    uint8_t *log = realloc(files->log_bytes, kept + length + 1);
    if (!log) return 0;
    files->log_bytes = log;
    memcpy(log + kept, it->tail, length);
    return append(files, it->tail, length) && sync_log(files) && write_changed(files, files->store_bytes, it->store);
}

/* Whether this is the name of a file of another base LSN, or of a new file that was not renamed. */
static int is_leftover(const struct aries_files *files, const char *name) {
    if (strncmp(name, "base-", 5) != 0 && strncmp(name, "sums-", 5) != 0)
        return strcmp(name, "log.new") == 0 || strcmp(name, "store.new") == 0 || strcmp(name, "pages.new") == 0;
    const char *end = name + 5 + strspn(name + 5, "0123456789");
    if (end == name + 5) return 0;
    return strcmp(end, ".new") == 0 || (*end == 0 && strtoull(name + 5, NULL, 10) != files->base_lsn);
}

/* Removes what interrupted calls have left. A file that cannot be removed is tried again at the next opening. */
static int remove_leftovers(const struct aries_files *files) {
    int listed = openat(files->folder.descriptor, ".", O_RDONLY | O_DIRECTORY | O_CLOEXEC);
    DIR *names = listed < 0 ? NULL : fdopendir(listed);
    if (!names) return close_file(&listed), 0;
    for (struct dirent *it = readdir(names); it; it = readdir(names))
        if (is_leftover(files, it->d_name)) (void)remove_file(&files->folder, it->d_name);
    closedir(names);
    return 1;
}

static int open_database(struct aries_files *files, struct aries_files_opened *opened) {
    struct found found;
    struct recovery it;
    memset(&found, 0, sizeof found);
    memset(&it, 0, sizeof it);
    int is_read = read_log_and_store(files, &found) && find_end(files, &found) &&
                  restore_pages(files, &found, &opened->restored) && is_own(files, &found);
    int is_recovered = is_read && write_restored(files, &found, opened->restored) &&
                       recover(files, files->log_bytes, (size_t)found.end.end, files->store_bytes, &it, &opened->fault);
    int is_open = is_recovered && take_end(files, &found, &it.made) && complete_files(files, &found) &&
                  cut_log(files, &found, &opened->cut) && put_recovery(files, &found, &it) &&
                  remove_leftovers(files) && hand_over(files, &it, opened);
    if (!is_read) opened->restored = 0;
    free_recovery(&it);
    free(found.batch);
    return is_open;
}

static int open_folder(struct aries_files *files, const char *folder) {
    files->folder.descriptor = open(folder, O_RDONLY | O_DIRECTORY | O_CLOEXEC);
    return files->folder.descriptor >= 0;
}

/* A number of pages that no store has is refused before anything is made. If there is a log, it is ignored. */
static int is_allowed(struct aries_files *files, const char *folder) {
    struct stat status;
    if (files->page_count <= ARIES_PAGES) return 1;
    int has_log = open_folder(files, folder) && is_there(&files->folder, "log", &status);
    close_file(&files->folder.descriptor);
    return has_log || refuse(files, ARIES_FILES_MISUSE);
}

static int lock_folder(struct aries_files *files, const char *folder) {
    if (files->page_count > 0 && mkdir(folder, 0700) != 0 && errno != EEXIST) return 0;
    files->lock = open_folder(files, folder) ? open_file(&files->folder, "lock", O_CREAT) : -1;
    if (files->lock < 0) return 0;
    return lock_file(files->lock) || (errno == EWOULDBLOCK && refuse(files, ARIES_FILES_BUSY));
}

static void free_files(struct aries_files *files) {
    int error = errno;
    close_file(&files->log);
    close_file(&files->store);
    close_file(&files->sums);
    close_file(&files->pages);
    close_file(&files->folder.descriptor);
    close_file(&files->lock);
    free(files->piece);
    free(files->batch);
    free(files->log_bytes);
    free(files->store_bytes);
    free(files->page_lsns);
    free(files->in_doubt);
    free(files);
    errno = error;
}

int aries_files_open(const char *folder, uint32_t flags, uint32_t page_count, aries_files **files,
                     struct aries_files_opened *opened) {
    *files = NULL;
    memset(opened, 0, sizeof *opened);
    if (flags > (ARIES_FILES_NO_SUMS | ARIES_FILES_NO_PAGES | ARIES_FILES_ONE_SYNC)) return ARIES_FILES_MISUSE;
    struct aries_files *it = calloc(1, sizeof *it);
    if (!it) return ARIES_FILES_MEMORY;
    it->folder.descriptor = it->lock = it->log = it->store = it->sums = it->pages = -1;
    it->flags = flags;
    it->page_count = page_count;
    it->folder.mode = 0600;
    it->piece = malloc(HEAD + BUFFER);
    it->batch = malloc(BLOCK + BATCH * ARIES_PAGE_BYTES);
    if (it->piece) it->buffer = it->piece + HEAD;
    int is_ready = it->piece && it->batch && is_allowed(it, folder) && lock_folder(it, folder);
    int failed = result(it, is_ready && open_database(it, opened));
    if (failed) free_files(it);
    else *files = it;
    return failed;
}

/* ARCHIVE, CLOSING */

/* Puts a new log in place, after its base store and its sums-N. The names of these have the base LSN, so the rename of
 * the log replaces all three. */
static int begin_log(struct aries_files *files, const uint8_t *base, const uint8_t *header, size_t length) {
    struct position start = {length, files->appended.lsn, crc32c(0, header, length)};
    char name[32];
    int file = put_file(&files->folder, name_of(name, "base", start.lsn), base, files->store_length);
    if (file < 0) return 0;
    close_file(&file);
    if (!(files->flags & ARIES_FILES_NO_SUMS) && !make_sums(files, start.lsn, &start)) return 0;
    if (!sync_folder(&files->folder)) return 0;
    file = put_file(&files->folder, "log", header, length);
    if (file < 0) return 0;
    close_file(&files->log);
    files->log = file;
    if (!sync_folder(&files->folder)) return 0;
    files->base_lsn = start.lsn;
    files->appended = files->durable = start;
    files->written = length;
    files->checkpoint = 0;
    return remove_leftovers(files);
}

/* Writes the pages that the store lacks, sets the master to 0, and begins the new log. With master 0 the store belongs
 * to the old log and to the new one. */
static int replace_log(struct aries_files *files, const uint8_t *store, struct recovery *it) {
    size_t length = 0;
    uint8_t *log = malloc(LOG_HEADER), *old_log = files->log_bytes;
    if (!log) return 0;
    (void)aries_write_log_header(2, files->appended.lsn, log, LOG_HEADER, &length);
    int is_done = write_changed(files, store, it->store) && set_master(files, 0);
    memset(it->store + 16, 0, 8);
    is_done = is_done && begin_log(files, it->store, log, length);
    if (is_done) files->log_bytes = log;
    free(is_done ? old_log : log);
    return is_done;
}

static int archive(struct aries_files *files, struct aries_files_opened *opened) {
    size_t log_length = 0, store_length = 0;
    struct recovery it;
    if (!sync_log(files)) return 0;
    if (files->appended.lsn == files->base_lsn) return 1;
    memset(&it, 0, sizeof it);
    uint8_t *log = read_file(files->log, &log_length);
    uint8_t *store = log ? read_file(files->store, &store_length) : NULL;
    int is_done = store && recover(files, log, log_length, store, &it, &opened->fault);
    if (is_done && (it.made.tail_length != 0 || it.made.in_doubt != 0))
        is_done = refuse(files, ARIES_FILES_UNFINISHED);
    is_done = is_done && replace_log(files, store, &it) && hand_over(files, &it, opened);
    if (is_done) opened->cut = opened->restored = 0;
    free(log);
    free(store);
    free_recovery(&it);
    return is_done;
}

int aries_files_archive(aries_files *files, struct aries_files_opened *opened) {
    return result(files, !is_stopped(files) && archive(files, opened));
}

/* Removes sums-N and the file of pages. The log is synced before its pieces are removed. */
static int remove_additions(struct aries_files *files) {
    char name[32];
    if (files->ring && !sync_file(files->log)) return 0;
    if (!remove_file(&files->folder, name_of(name, "sums", files->base_lsn))) return 0;
    if (!remove_file(&files->folder, "pages")) return 0;
    return sync_folder(&files->folder);
}

int aries_files_close(aries_files *files) {
    int failed = result(files, !is_stopped(files) && sync_log(files) && remove_additions(files));
    free_files(files);
    return failed;
}

uint32_t aries_files_crc32c(uint32_t crc, const uint8_t *bytes, size_t length) {
    return crc32c(crc, bytes, length);
}
