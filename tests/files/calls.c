/*
 * calls.c: what the calls of aries_files.h refuse, on real files.
 *
 * usage: calls TEST FOLDER      FOLDER is there and empty. Prints the line of the first check that fails.
 */
#define _GNU_SOURCE
#include "aries_files.h"

#include <errno.h>
#include <fcntl.h>
#include <stdio.h>
#include <stdlib.h>
#include <string.h>
#include <sys/file.h>
#include <sys/stat.h>
#include <unistd.h>

#define NEED(holds) need((holds) != 0, __LINE__, #holds)

enum { ROOM = 1 << 16 };

static aries_files *files;
static struct aries_files_opened opened;
static uint8_t frame[ROOM];
static size_t length;

static void need(int holds, int line, const char *what) {
    if (holds) return;
    printf("calls.c:%d: %s (errno: %s)\n", line, what, strerror(errno));
    exit(1);
}

static int open_db(uint32_t flags) {
    return aries_files_open("db", flags, 2, &files, &opened);
}

/* At the last of so many locks that are asked for, another file gets the name of the log. */
static int locks_to_come;
int __real_flock(int file, int operation);
int __wrap_flock(int file, int operation) {
    if (locks_to_come && --locks_to_come == 0) NEED(rename("db/other", "db/log") == 0);
    return __real_flock(file, operation);
}

static int is_there(const char *path) {
    struct stat status;
    return lstat(path, &status) == 0;
}

static int run(const char *command) {
    return system(command) == 0;
}

/* RECORDS */

static int append(struct aries_record record) {
    if (aries_write_record(&record, frame, sizeof frame, &length).number) return -1;
    return aries_files_append(files, frame, length);
}

/* An update of slot 0 of page 1 by transaction 1. */
static int append_update(uint64_t lsn, uint64_t prev, uint8_t before, uint8_t after) {
    struct aries_record record = {.lsn = lsn, .prev = prev, .tx = 1, .kind = ARIES_UPDATE, .page = 1};
    record.before = before ? (struct aries_image){1, {before}} : (struct aries_image){ARIES_ABSENT, {0}};
    record.after = (struct aries_image){1, {after}};
    return append(record);
}

static int append_commit(uint64_t lsn) {
    return append((struct aries_record){.lsn = lsn, .prev = lsn - 1, .tx = 1, .kind = ARIES_COMMIT});
}

static int append_begin(uint64_t lsn) {
    return append((struct aries_record){.lsn = lsn, .kind = ARIES_CHECKPOINT_BEGIN});
}

static int append_end(uint64_t lsn, uint64_t begin) {
    if (aries_write_checkpoint_end(lsn, begin, NULL, 0, NULL, 0, frame, sizeof frame, &length).number) return -1;
    return aries_files_append(files, frame, length);
}

/* TESTS */

static void arguments(void) {
    NEED(aries_files_open("db", 0, ARIES_PAGES + 1, &files, &opened) == ARIES_FILES_MISUSE && !is_there("db"));
    NEED(aries_files_open("db", 8, 2, &files, &opened) == ARIES_FILES_MISUSE && !is_there("db"));
    NEED(mkdir("db", 0700) == 0);
    NEED(aries_files_open("db", 0, UINT32_MAX, &files, &opened) == ARIES_FILES_MISUSE && !is_there("db/lock"));
    NEED(open_db(0) == 0 && aries_files_close(files) == 0);
    NEED(aries_files_open("db", 0, ARIES_PAGES + 1, &files, &opened) == 0 && opened.page_count == 2);
    NEED(aries_files_close(files) == 0);
}

/* The log that was opened has another name, or none, when it is locked. */
static void replaced_log(void) {
    NEED(open_db(0) == 0 && aries_files_close(files) == 0 && run("cp db/log db/other && cp -r db before"));
    locks_to_come = 2;
    NEED(open_db(0) == ARIES_FILES_BUSY && locks_to_come == 0 && run("rm before/other && diff -r db before"));
    NEED(open_db(0) == 0 && aries_files_close(files) == 0);
}

/* Whether another program can lock the log. */
static int can_lock(void) {
    int file = open("db/log", O_RDWR), status = flock(file, LOCK_EX | LOCK_NB);
    NEED(file >= 0 && (status == 0 || errno == EWOULDBLOCK) && close(file) == 0);
    return status == 0;
}

static void locks(void) {
    NEED(open_db(0) == 0 && !can_lock());
    NEED(aries_files_close(files) == 0 && can_lock());
    NEED(open_db(ARIES_FILES_ONE_SYNC) == 0 && !can_lock());
    NEED(append_update(1, 0, 0, 'a') == 0 && append_commit(2) == 0);
    NEED(aries_files_archive(files, &opened) == 0 && opened.base_lsn == 2 && !can_lock());
    NEED(aries_files_close(files) == 0 && can_lock());
    int file = open("db/log", O_RDWR);
    NEED(file >= 0 && flock(file, LOCK_EX | LOCK_NB) == 0 && run("cp -r db before"));
    NEED(open_db(0) == ARIES_FILES_BUSY && run("diff -r db before"));
    NEED(close(file) == 0 && open_db(0) == 0 && aries_files_close(files) == 0);
}

static void masters(void) {
    NEED(open_db(0) == 0 && aries_files_set_master(files, 1) == ARIES_FILES_MISUSE);
    NEED(append_update(1, 0, 0, 'a') == 0 && append_commit(2) == 0 && append_begin(3) == 0);
    NEED(aries_files_set_master(files, 2) == ARIES_FILES_MISUSE && aries_files_durable(files) == 0);
    NEED(aries_files_set_master(files, 3) == ARIES_FILES_MISUSE);
    NEED(append_end(4, 3) == 0 && aries_files_set_master(files, 4) == ARIES_FILES_MISUSE);
    NEED(aries_files_set_master(files, 3) == 0 && aries_files_durable(files) == 4);
    NEED(aries_files_set_master(files, 0) == 0 && aries_files_set_master(files, 3) == 0);
    NEED(aries_files_close(files) == 0 && open_db(0) == 0 && opened.master == 3);
    NEED(append_begin(5) == 0 && append_end(6, 5) == 0 && aries_files_set_master(files, 3) == 0);
    NEED(aries_files_close(files) == 0 && open_db(0) == 0 && opened.master == 3);
    NEED(aries_files_set_master(files, 5) == 0 && aries_files_set_master(files, 3) == ARIES_FILES_MISUSE);
    NEED(aries_files_archive(files, &opened) == 0 && aries_files_set_master(files, 5) == ARIES_FILES_MISUSE);
    NEED(aries_files_close(files) == 0 && open_db(0) == 0 && opened.base_lsn == 6 && aries_files_close(files) == 0);
}

static void older_images(void) {
    static uint8_t image[ARIES_PAGE_BYTES];
    struct aries_page page;
    NEED(open_db(0) == 0 && append_update(1, 0, 0, 'a') == 0 && append_update(2, 1, 'a', 'b') == 0);
    NEED(append_commit(3) == 0 && aries_files_close(files) == 0 && open_db(0) == 0);
    NEED(aries_read_page(opened.store + 24 + ARIES_PAGE_BYTES, ARIES_PAGE_BYTES, 1, &page).number == 0);
    page.lsn = 1;
    NEED(aries_write_page(&page, image, sizeof image, &length).number == 0 && run("cp db/store before"));
    NEED(aries_files_write_pages(files, image, 1) == ARIES_FILES_MISUSE && run("cmp db/store before"));
    page.lsn = 3;
    NEED(aries_write_page(&page, image, sizeof image, &length).number == 0);
    NEED(aries_files_write_pages(files, image, 1) == 0);
    page.lsn = 2;
    NEED(aries_write_page(&page, image, sizeof image, &length).number == 0);
    NEED(aries_files_write_pages(files, image, 1) == ARIES_FILES_MISUSE && aries_files_close(files) == 0);
}

/* A transaction that has not finished is durable, and the folder is copied as a kill leaves it. */
static void leave_killed(uint32_t flags) {
    NEED(open_db(flags) == 0 && append_update(1, 0, 0, 'a') == 0 && aries_files_sync(files) == 0);
    NEED(run("cp -r db killed") && aries_files_close(files) == 0 && run("rm -r db && mv killed db"));
}

static void other_flags(void) {
    leave_killed(ARIES_FILES_ONE_SYNC);
    NEED(open_db(ARIES_FILES_NO_SUMS) == 0 && opened.recovered.losers == 1);
    NEED(aries_files_close(files) == 0);
}

static void interrupted_recovery(void) {
    NEED(open_db(0) == 0 && aries_files_close(files) == 0);
    NEED(run("touch db/log.tail && cp -r db before"));
    NEED(open_db(0) == ARIES_FILES_FOREIGN && run("diff -r db before && mv db/log.tail db/log.tail.aries-new"));
    NEED(open_db(0) == ARIES_FILES_FOREIGN && run("rm db/log.tail.aries-new"));
    NEED(open_db(0) == 0 && aries_files_close(files) == 0);
    NEED(run("rm db/log && touch db/log.tail"));
    NEED(open_db(0) == ARIES_FILES_FOREIGN && !is_there("db/log"));
}

static uint8_t *bytes_of(const char *path, size_t *read) {
    FILE *file = fopen(path, "rb");
    uint8_t *bytes = malloc(ROOM);
    NEED(file && bytes);
    *read = fread(bytes, 1, ROOM, file);
    fclose(file);
    return bytes;
}

static void put_bytes(const char *path, const char *how, const uint8_t *bytes, size_t count) {
    FILE *file = fopen(path, how);
    NEED(file && fwrite(bytes, 1, count, file) == count && fclose(file) == 0);
}

/* What `aries recover --in-place --replace` does with a folder if it does not look at the other files. */
static void recover_in_place(int is_store_replaced, uint64_t losers) {
    static uint8_t tail[ROOM], store[ROOM];
    size_t log_length, store_length;
    uint32_t in_doubt;
    struct aries_recovered made;
    uint8_t *old_log = bytes_of("db/log", &log_length), *old_store = bytes_of("db/store", &store_length);
    struct aries_fault fault = aries_recover(old_log, log_length, old_store, store_length, tail, ROOM, store, ROOM,
        &in_doubt, 1, &made);
    NEED(fault.number == 0 && made.losers == losers && made.compensated == losers);
    put_bytes("db/log", "ab", tail, (size_t)made.tail_length);
    if (is_store_replaced) put_bytes("db/store", "wb", store, store_length);
    free(old_log);
    free(old_store);
}

static void another_program(uint32_t flags) {
    leave_killed(flags);
    recover_in_place(0, 1);
    NEED(open_db(flags) == 0 && opened.cut > 0 && opened.recovered.losers == 1 && opened.last_lsn == 3);
    NEED(aries_files_close(files) == 0 && run("rm -r db"));
    leave_killed(flags);
    recover_in_place(1, 1);
    NEED(run("cp -r db before") && open_db(flags) == ARIES_FILES_FOREIGN && run("diff -r db before"));
    NEED(run("rm db/sums-0 db/pages") && open_db(flags) == 0 && opened.last_lsn == 3 && opened.recovered.losers == 0);
    NEED(aries_files_close(files) == 0);
}

/* An update of a slot of page 1 that is committed, with values of 48 bytes. */
static void commit_long(uint64_t lsn, uint8_t slot, uint8_t before, uint8_t after) {
    struct aries_record record = {.lsn = lsn, .tx = (uint32_t)lsn, .kind = ARIES_UPDATE, .page = 1, .slot = slot};
    record.before.length = before ? ARIES_VALUE_BYTES : ARIES_ABSENT;
    record.after.length = ARIES_VALUE_BYTES;
    memset(record.before.bytes, before, ARIES_VALUE_BYTES);
    memset(record.after.bytes, after, ARIES_VALUE_BYTES);
    NEED(append(record) == 0);
    struct aries_record commit = {.lsn = lsn + 1, .prev = lsn, .tx = (uint32_t)lsn, .kind = ARIES_COMMIT};
    NEED(append(commit) == 0);
}

/* Writes page 1 as a recovery of the log makes it, up to some LSN. */
static void write_page_1(uint64_t lsn) {
    static uint8_t tail[ROOM], store[ROOM];
    struct aries_mark mark;
    struct aries_record record;
    struct aries_recovered made;
    size_t log_length;
    uint32_t in_doubt;
    NEED(aries_files_sync(files) == 0);
    uint8_t *log = bytes_of("db/log", &log_length);
    NEED(aries_log_begin(log, log_length, &mark).number == 0);
    while (mark.lsn < lsn) NEED(aries_next_record(log, log_length, &mark, &record).number == 0);
    struct aries_fault fault = aries_recover(log, (size_t)mark.offset, opened.store, opened.store_length, tail, ROOM,
        store, ROOM, &in_doubt, 1, &made);
    NEED(fault.number == 0 && made.tail_length == 0);
    NEED(aries_files_write_pages(files, store + 24 + ARIES_PAGE_BYTES, 1) == 0);
    free(log);
}

/* A power cut leaves the first sector of a page new and the others old, and another program recovers it. The page
 * changed after its image was made, so the program gives it a PageLSN above that in the batch. */
static void another_with_a_torn_page(void) {
    size_t store_length, torn_length;
    NEED(open_db(0) == 0);
    for (uint8_t slot = 0; slot < ARIES_SLOTS; slot++) commit_long(2u * slot + 1, slot, 0, 'a');
    write_page_1(32);
    uint8_t *old = bytes_of("db/store", &store_length);
    commit_long(33, 15, 'a', 'b');
    commit_long(35, 0, 'a', 'c');
    write_page_1(34);
    uint8_t *torn = bytes_of("db/store", &torn_length);
    NEED(torn_length == store_length && memcmp(torn + 1536, old + 1536, 512) != 0);
    memcpy(torn + 1536, old + 1536, 512);
    put_bytes("db/store", "wb", torn, torn_length);
    NEED(run("cp -r db killed"));
    NEED(aries_files_close(files) == 0 && run("rm -r db && mv killed db"));
    recover_in_place(1, 0);
    NEED(run("cp -r db before") && open_db(0) == ARIES_FILES_FOREIGN && run("diff -r db before"));
    free(old);
    free(torn);
}

static void another_with_two_syncs(void) {
    another_program(0);
}

static void another_with_one_sync(void) {
    another_program(ARIES_FILES_ONE_SYNC);
}

static const struct {
    const char *name;
    void (*run)(void);
} tests[] = {
    {"arguments", arguments},
    {"locks", locks},
    {"replaced-log", replaced_log},
    {"masters", masters},
    {"older-images", older_images},
    {"other-flags", other_flags},
    {"interrupted-recovery", interrupted_recovery},
    {"another-two-syncs", another_with_two_syncs},
    {"another-one-sync", another_with_one_sync},
    {"another-torn-page", another_with_a_torn_page},
};

int main(int count, char **words) {
    size_t i = 0;
    if (count != 3 || chdir(words[2]) != 0) return 2;
    while (i < sizeof tests / sizeof *tests && strcmp(tests[i].name, words[1]) != 0) i++;
    if (i == sizeof tests / sizeof *tests) return 2;
    tests[i].run();
    return 0;
}
