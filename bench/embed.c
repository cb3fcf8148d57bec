/* What a recovery through the library costs, beside the program's.
 *
 * usage: embed LOG STORE [RUNS]    the least milliseconds of a recovery and an audit of these files, of 5 runs
 *        embed tiny                the nanoseconds of a recovery of a log of two records
 *
 * All of it runs in a thread with a stack of 32 KB: a call that takes more ends the program. Files are read before the
 * clock starts, and nothing is written. Compare with bench/between.c, which tells the same of the program.
 *
 * Build: cc -std=c11 -O2 -D_GNU_SOURCE -I include bench/embed.c FOLDER/libaries_c.a bindings/c/heap.c -pthread -o embed */
#include "aries.h"

#include <pthread.h>
#include <stdio.h>
#include <stdlib.h>
#include <string.h>
#include <time.h>

enum { STACK_BYTES = 32 * 1024, TINY_RUNS = 100000, IN_DOUBT_ROOM = 1024 };

struct bytes {
    uint8_t *at;
    size_t length;
};

struct work {
    struct bytes log, store;
    int runs, is_tiny;
};

static double milliseconds(void) {
    struct timespec now;
    clock_gettime(CLOCK_MONOTONIC, &now);
    return (double)now.tv_sec * 1e3 + (double)now.tv_nsec * 1e-6;
}

/* Room that was written to, so that no page of it is met for the first time while the clock runs. */
static struct bytes room_of(size_t length) {
    struct bytes room = {malloc(length + 1), length};
    if (!room.at) abort();
    memset(room.at, 1, length + 1);
    return room;
}

static struct bytes file_of(const char *path) {
    FILE *file = fopen(path, "rb");
    if (!file || fseek(file, 0, SEEK_END) != 0) abort();
    struct bytes read = room_of((size_t)ftell(file));
    rewind(file);
    if (fread(read.at, 1, read.length, file) != read.length) abort();
    fclose(file);
    return read;
}

static void stop_at(struct aries_fault fault) {
    if (fault.number == ARIES_OK) return;
    fprintf(stderr, "fault %u at %llu\n", fault.number, (unsigned long long)fault.place);
    exit(1);
}

static struct bytes part(struct bytes bytes, size_t length) {
    return (struct bytes){bytes.at, length};
}

/* A transaction's update and its commit, and a store of one empty page. */
static void make_tiny(struct work *work) {
    struct aries_image absent = {.length = ARIES_ABSENT}, value = {.length = 1, .bytes = "a"};
    struct aries_record records[] = {
        {.kind = ARIES_UPDATE, .lsn = 1, .tx = 1, .before = absent, .after = value},
        {.kind = ARIES_COMMIT, .lsn = 2, .tx = 1, .prev = 1},
    };
    struct aries_page page = {0};
    size_t end = 0, length = 0;
    work->log = room_of(256);
    stop_at(aries_write_log_header(1, 0, work->log.at, 256, &end));
    for (size_t i = 0; i < 2; i++, end += length)
        stop_at(aries_write_record(&records[i], work->log.at + end, 256 - end, &length));
    work->log.length = end;
    work->store = room_of(ARIES_STORE_HEADER_BYTES + ARIES_PAGE_BYTES);
    for (size_t slot = 0; slot < ARIES_SLOTS; slot++) page.slots[slot] = absent;
    stop_at(aries_write_store_header(1, 0, work->store.at, work->store.length, &end));
    stop_at(aries_write_page(&page, work->store.at + end, work->store.length - end, &length));
}

struct made {
    struct bytes tail, store;
    struct aries_recovered told;
};

static double recovered_in(const struct work *work, struct made *made) {
    static uint32_t in_doubt[IN_DOUBT_ROOM];
    double begin = milliseconds();
    stop_at(aries_recover(work->log.at, work->log.length, work->store.at, work->store.length, made->tail.at,
        made->tail.length, made->store.at, made->store.length, in_doubt, IN_DOUBT_ROOM, &made->told));
    return milliseconds() - begin;
}

/* The audit of what was recovered: the log and its tail in one piece, and the new store. */
static double audited_in(struct bytes log, struct bytes store) {
    double begin = milliseconds();
    stop_at(aries_audit(log.at, log.length, store.at, store.length));
    return milliseconds() - begin;
}

static struct bytes new_log(const struct work *work, const struct made *made) {
    size_t kept = work->log.length - made->told.torn;
    struct bytes log = room_of(kept + made->told.tail_length);
    memcpy(log.at, work->log.at, kept);
    memcpy(log.at + kept, made->tail.at, made->told.tail_length);
    return log;
}

static void *measure(void *given) {
    struct work *work = given;
    struct made made = {room_of(2 * work->log.length), room_of(work->store.length), {0}};
    double recovery = 1e9, audit = 1e9, begin = milliseconds();
    for (int run = 0; run < (work->is_tiny ? TINY_RUNS : work->runs); run++) {
        double took = recovered_in(work, &made);
        if (took < recovery) recovery = took;
    }
    if (work->is_tiny) {
        printf("%.0f ns a recovery of two records\n", (milliseconds() - begin) * 1e6 / TINY_RUNS);
        return NULL;
    }
    struct bytes log = new_log(work, &made), store = part(made.store, made.told.store_length);
    for (int run = 0; run < work->runs; run++) {
        double took = audited_in(log, store);
        if (took < audit) audit = took;
    }
    printf("recovery %.1f ms, audit %.1f ms\n", recovery, audit);
    return NULL;
}

int main(int count, char **words) {
    struct work work = {.runs = 5};
    work.is_tiny = count == 2 && strcmp(words[1], "tiny") == 0;
    if (work.is_tiny) {
        make_tiny(&work);
    } else if (count == 3 || count == 4) {
        work.log = file_of(words[1]);
        work.store = file_of(words[2]);
        if (count == 4) work.runs = atoi(words[3]);
    } else {
        fputs("usage: embed LOG STORE [RUNS] | embed tiny\n", stderr);
        return 2;
    }
    pthread_attr_t how;
    pthread_t thread;
    if (pthread_attr_init(&how) != 0 || pthread_attr_setstacksize(&how, STACK_BYTES) != 0) abort();
    if (pthread_create(&thread, &how, measure, &work) != 0) abort();
    return pthread_join(thread, NULL);
}
