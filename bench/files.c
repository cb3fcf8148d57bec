/* What the protections of aries_files.h cost: commits per second with and without each, by turns in one run.
 *
 * usage: files FOLDER [ROUNDS] [SECONDS]
 *
 * FOLDER is on the disk to measure; a folder `files` is made in it. Each commit has two updates and a commit record,
 * up to 281 bytes. Groups of 1, 10 and 100 commits are made durable by one sync; then the same with 16 pages written
 * after each 100 commits. Each round measures each choice of protections once, for SECONDS (0.5), and begins with
 * another one. It prints the median of ROUNDS (9), and the median and the quartiles of the ratio to the choice without
 * protections.
 *
 * Build: cc -std=c11 -O2 -D_GNU_SOURCE -I include -I bindings/c bench/files.c bindings/c/aries_files.c
 *        bindings/c/heap.c FOLDER/libaries_c.a -o files */
#include "aries_files.h"

#include <stdio.h>
#include <stdlib.h>
#include <string.h>
#include <time.h>
#include <unistd.h>

enum { PAGES = 64, CHOICES = 6, ROUNDS = 31 };

static const struct choice {
    const char *name;
    uint32_t flags;
} choices[CHOICES] = {
    {"none", ARIES_FILES_NO_SUMS | ARIES_FILES_NO_PAGES},
    {"sums-N", ARIES_FILES_NO_PAGES},
    {"sums-N, one sync", ARIES_FILES_NO_PAGES | ARIES_FILES_ONE_SYNC},
    {"pages", ARIES_FILES_NO_SUMS},
    {"both", 0},
    {"both, one sync", ARIES_FILES_ONE_SYNC},
};

static aries_files *files;
static uint64_t lsn;
static struct aries_page pages[PAGES];

static void need(int holds, const char *what) {
    if (holds) return;
    perror(what);
    exit(1);
}

static double seconds_now(void) {
    struct timespec now;
    clock_gettime(CLOCK_MONOTONIC, &now);
    return (double)now.tv_sec + 1e-9 * (double)now.tv_nsec;
}

/* Appends the frame of a record to `frames`, and returns where the next one begins. */
static size_t add(uint8_t *frames, size_t at, size_t room, const struct aries_record *record) {
    size_t length;
    need(aries_write_record(record, frames + at, room - at, &length).number == 0, "aries_write_record");
    return at + length;
}

static void commit(uint32_t tx) {
    uint8_t frames[600];
    size_t end = 0;
    uint64_t prev = 0;
    for (uint32_t i = 0; i < 2; i++) {
        struct aries_record it = {.lsn = ++lsn, .prev = prev, .tx = tx, .kind = ARIES_UPDATE};
        it.page = (tx * 2 + i) % PAGES;
        it.slot = (uint8_t)(tx / 32 % ARIES_SLOTS);
        it.before = pages[it.page].slots[it.slot];
        it.after.length = ARIES_VALUE_BYTES;
        memset(it.after.bytes, 'a' + (int)(tx % 26), ARIES_VALUE_BYTES);
        end = add(frames, end, sizeof frames, &it);
        pages[it.page].slots[it.slot] = it.after;
        pages[it.page].lsn = prev = lsn;
    }
    struct aries_record it = {.lsn = ++lsn, .prev = prev, .tx = tx, .kind = ARIES_COMMIT};
    end = add(frames, end, sizeof frames, &it);
    need(aries_files_append(files, frames, end) == 0, "aries_files_append");
}

static void write_pages(uint32_t first, uint32_t count) {
    static uint8_t images[PAGES * ARIES_PAGE_BYTES];
    size_t length;
    for (uint32_t i = 0; i < count; i++) {
        const struct aries_page *page = &pages[(first + i) % PAGES];
        uint8_t *image = images + i * ARIES_PAGE_BYTES;
        need(aries_write_page(page, image, ARIES_PAGE_BYTES, &length).number == 0, "aries_write_page");
    }
    need(aries_files_write_pages(files, images, count) == 0, "aries_files_write_pages");
}

/* Opens a new database. */
static void open_new(const char *folder, uint32_t flags) {
    static const char *const names[] = {"log", "store", "lock", "sums-0", "pages"};
    struct aries_files_opened opened;
    char path[700];
    for (size_t i = 0; i < sizeof names / sizeof *names; i++) {
        snprintf(path, sizeof path, "%s/files/%s", folder, names[i]);
        unlink(path);
    }
    snprintf(path, sizeof path, "%s/files", folder);
    need(aries_files_open(path, flags, PAGES, &files, &opened) == 0, "aries_files_open");
    lsn = 0;
    for (uint32_t page = 0; page < PAGES; page++) {
        const uint8_t *image = opened.store + ARIES_STORE_HEADER_BYTES + page * ARIES_PAGE_BYTES;
        need(aries_read_page(image, ARIES_PAGE_BYTES, page, &pages[page]).number == 0, "aries_read_page");
    }
}

/* Returns the seconds of a commit. */
static double measure(const char *folder, uint32_t flags, uint32_t group, double seconds, uint32_t pages_each) {
    open_new(folder, flags);
    double start = seconds_now();
    uint32_t tx = 0;
    do {
        commit(++tx);
        if (tx % group == 0) need(aries_files_sync(files) == 0, "aries_files_sync");
        if (pages_each && tx % 100 == 0) write_pages(tx, pages_each);
    } while (tx < 10 || seconds_now() - start < seconds);
    need(aries_files_sync(files) == 0, "aries_files_sync");
    double taken = (seconds_now() - start) / tx;
    need(aries_files_close(files) == 0, "aries_files_close");
    return taken;
}

static int ascending(const void *a, const void *b) {
    double left = *(const double *)a, right = *(const double *)b;
    return (left > right) - (left < right);
}

/* Prints a choice: its commits per second, and its ratios to `none`. */
static void print(const char *name, const double *none, const double *taken, int rounds) {
    double times[ROUNDS], ratios[ROUNDS];
    for (int round = 0; round < rounds; round++) {
        times[round] = taken[round];
        ratios[round] = none[round] / taken[round];
    }
    qsort(times, (size_t)rounds, sizeof *times, ascending);
    qsort(ratios, (size_t)rounds, sizeof *ratios, ascending);
    printf("  %-16s %9.0f commits/s   %.2f of none", name, 1 / times[rounds / 2], ratios[rounds / 2]);
    printf(" (%.2f to %.2f)\n", ratios[rounds / 4], ratios[rounds - 1 - rounds / 4]);
}

static void compare(const char *folder, int rounds, double seconds, uint32_t group, uint32_t pages_each) {
    double taken[CHOICES][ROUNDS];
    for (int i = 0; i < rounds * CHOICES; i++) {
        int round = i / CHOICES, choice = (i + round) % CHOICES;
        taken[choice][round] = measure(folder, choices[choice].flags, group, seconds, pages_each);
    }
    printf("groups of %u, %u pages after each 100 commits\n", group, pages_each);
    for (int choice = 0; choice < CHOICES; choice++) print(choices[choice].name, taken[0], taken[choice], rounds);
}

int main(int argc, char **argv) {
    int rounds = argc > 2 ? atoi(argv[2]) : 9;
    double seconds = argc > 3 ? atof(argv[3]) : 0.5;
    if (argc < 2 || rounds < 1 || rounds > ROUNDS) {
        fputs("usage: files FOLDER [ROUNDS] [SECONDS]\n", stderr);
        return 2;
    }
    for (uint32_t pages_each = 0; pages_each <= 16; pages_each += 16)
        for (uint32_t group = 1; group <= 100; group *= 10) compare(argv[1], rounds, seconds, group, pages_each);
    return 0;
}
