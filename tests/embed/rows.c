/* Runs the worked rows through the C interface, and compares bytes, reports and faults with the files of each row.
 *
 *   rows FOLDER        the folder has the rows and their `index`; a line for each line of it, as `two-losers 4 16: ok`
 *
 * Lines of slow devices, which a caller in C does not have, are recovered like the others. */
#include "aries.h"

#include <stdarg.h>
#include <stdbool.h>
#include <stdio.h>
#include <stdlib.h>
#include <string.h>

enum { MOST_IN_DOUBT = 1024, NAME_ROOM = 512, TEXT_ROOM = 32 * 1024 };

struct bytes {
    uint8_t *at;
    size_t length;
};

static void *memory(size_t length) {
    void *memory = calloc(length ? length : 1, 1);
    if (memory) return memory;
    fputs("memory\n", stderr);
    exit(2);
}

/* What a file of a row holds; nothing where there is none. */
static struct bytes file_of(const char *row, const char *name) {
    char path[NAME_ROOM];
    snprintf(path, sizeof path, "%s/%s", row, name);
    FILE *file = fopen(path, "rb");
    if (!file) return (struct bytes){memory(0), 0};
    fseek(file, 0, SEEK_END);
    size_t length = (size_t)ftell(file);
    struct bytes bytes = {memory(length), length};
    rewind(file);
    bytes.length = fread(bytes.at, 1, bytes.length, file);
    fclose(file);
    return bytes;
}

static bool are_same(const uint8_t *one, size_t length, struct bytes other) {
    return length == other.length && memcmp(one, other.at, length) == 0;
}

/* What `aries` would print. */
struct text {
    char at[TEXT_ROOM];
    size_t length;
};

static void say(struct text *text, const char *format, ...) {
    va_list words;
    va_start(words, format);
    text->length += (size_t)vsnprintf(text->at + text->length, sizeof text->at - text->length, format, words);
    va_end(words);
}

static void say_fault(struct text *text, struct aries_fault fault) {
    uint8_t words[128];
    size_t length = 0;
    aries_fault_text(&fault, words, sizeof words, &length);
    say(text, "fault %u: %.*s\n", fault.number, (int)length, (const char *)words);
}

static void say_report(struct text *text, const struct aries_recovered *made, const uint32_t *in_doubt) {
    static const char *const names[] = {
        "records", "torn", "redo-from", "redone", "losers", "compensated", "ended", "pages"};
    const uint64_t numbers[] = {made->records, made->torn, made->redo_from, made->redone, made->losers,
        made->compensated, made->ended, made->pages};
    for (size_t i = 0; i < 8; i++) say(text, "%s %llu\n", names[i], (unsigned long long)numbers[i]);
    if (made->in_doubt > 0) say(text, "in-doubt %llu\n", (unsigned long long)made->in_doubt);
    for (uint64_t i = 0; i < made->in_doubt; i++) say(text, "transaction %u\n", in_doubt[i]);
}

/* A recovery with the room that is needed: what it prints, and the bytes. */
struct recovery {
    struct aries_fault fault;
    struct aries_recovered made;
    struct text printed;
    struct bytes tail, store;
    uint32_t in_doubt[MOST_IN_DOUBT];
};

/* The first call has no room at all, and tells how much is needed. */
static void recover(struct bytes log, struct bytes store, struct recovery *out) {
    memset(out, 0, sizeof *out);
    out->tail.at = memory(0);
    out->store.at = memory(0);
    size_t in_doubt_room = 0;
    do {
        free(out->tail.at);
        free(out->store.at);
        out->tail = (struct bytes){memory(out->made.tail_length), out->made.tail_length};
        out->store = (struct bytes){memory(out->made.store_length), out->made.store_length};
        out->fault = aries_recover(log.at, log.length, store.at, store.length, out->tail.at, out->tail.length,
            out->store.at, out->store.length, out->in_doubt, in_doubt_room, &out->made);
        in_doubt_room = out->made.in_doubt;
    } while (out->fault.number == ARIES_NO_ROOM && in_doubt_room <= MOST_IN_DOUBT
        && (out->made.tail_length > out->tail.length || out->made.store_length > out->store.length));
    if (out->fault.number == ARIES_OK) say_report(&out->printed, &out->made, out->in_doubt);
    else say_fault(&out->printed, out->fault);
}

static void let_go(struct recovery *recovery) {
    free(recovery->tail.at);
    free(recovery->store.at);
}

/* Whether the log without its torn bytes, and behind it the tail, are these bytes. */
static bool is_new_log(struct bytes log, const struct recovery *recovery, struct bytes expected) {
    size_t kept = log.length - recovery->made.torn, length = recovery->made.tail_length;
    if (kept + length != expected.length) return false;
    return memcmp(log.at, expected.at, kept) == 0 && memcmp(recovery->tail.at, expected.at + kept, length) == 0;
}

static bool is_new_store(const struct recovery *recovery, struct bytes expected) {
    return are_same(recovery->store.at, recovery->made.store_length, expected);
}

static bool is_recovery_right(const char *row) {
    struct bytes log = file_of(row, "log"), store = file_of(row, "store"), printed = file_of(row, "printed");
    struct bytes out_log = file_of(row, "out-log"), out_store = file_of(row, "out-store");
    struct recovery it;
    recover(log, store, &it);
    bool is_right = are_same((const uint8_t *)it.printed.at, it.printed.length, printed);
    if (it.fault.number == ARIES_OK) is_right &= is_new_log(log, &it, out_log) && is_new_store(&it, out_store);
    let_go(&it);
    free(log.at);
    free(store.at);
    free(printed.at);
    free(out_log.at);
    free(out_store.at);
    return is_right;
}

static struct aries_fault audit(struct bytes log, struct bytes store, const struct bytes *base) {
    if (!base) return aries_audit(log.at, log.length, store.at, store.length);
    return aries_audit_from(log.at, log.length, store.at, store.length, base->at, base->length);
}

static bool is_audit_right(const char *row, bool is_over_base) {
    struct bytes log = file_of(row, "log"), store = file_of(row, "store"), base = file_of(row, "base");
    struct bytes audited = file_of(row, "audited");
    struct text said = {.length = 0};
    struct aries_fault fault = audit(log, store, is_over_base ? &base : NULL);
    if (fault.number == ARIES_OK) say(&said, "lawful\n");
    else say_fault(&said, fault);
    bool is_right = are_same((const uint8_t *)said.at, said.length, audited);
    free(log.at);
    free(store.at);
    free(base.at);
    free(audited.at);
    return is_right;
}

static bool ends_with(const struct text *text, struct bytes end) {
    return text->length >= end.length && memcmp(text->at + text->length - end.length, end.at, end.length) == 0;
}

/* Cuts of the row's new log, with a store on the way: each is lawful, and a recovery of it gives the row's files. */
struct cuts {
    const char *row;
    unsigned page;
    size_t first, last;
    bool is_over_base;
};

static bool are_cuts_right(const struct cuts *cuts) {
    char name[32];
    snprintf(name, sizeof name, "store-%u", cuts->page);
    struct bytes whole = file_of(cuts->row, "out-log"), store = file_of(cuts->row, name);
    struct bytes base = file_of(cuts->row, "base"), out_store = file_of(cuts->row, "out-store");
    struct bytes last_lines = file_of(cuts->row, "last-lines");
    bool is_right = cuts->first <= cuts->last && cuts->last <= whole.length;
    for (size_t length = cuts->first; is_right && length <= cuts->last; length++) {
        struct bytes log = {whole.at, length};
        struct recovery it;
        is_right = audit(log, store, cuts->is_over_base ? &base : NULL).number == ARIES_OK;
        recover(log, store, &it);
        is_right &= it.fault.number == ARIES_OK && ends_with(&it.printed, last_lines);
        is_right = is_right && is_new_log(log, &it, whole) && is_new_store(&it, out_store);
        let_go(&it);
    }
    free(whole.at);
    free(store.at);
    free(base.at);
    free(out_store.at);
    free(last_lines.at);
    return is_right;
}

/* Whether what a line of the index asks for comes out right. */
static bool is_line_right(const char *folder, const char *line) {
    char name[128], what[32], row[NAME_ROOM];
    struct cuts cuts = {.row = row};
    int words = sscanf(line, "%127s %31s %u %zu %zu", name, what, &cuts.page, &cuts.first, &cuts.last);
    if (words < 2) return false;
    snprintf(row, sizeof row, "%s/%s", folder, name);
    if (strcmp(what, "audit") == 0) return is_audit_right(row, false);
    if (strcmp(what, "audit-over") == 0) return is_audit_right(row, true);
    cuts.is_over_base = strcmp(what, "cuts-over") == 0;
    if (words == 5) return are_cuts_right(&cuts);
    return is_recovery_right(row);
}

int main(int count, char **words) {
    if (count != 2) return 2;
    char path[NAME_ROOM], line[NAME_ROOM];
    snprintf(path, sizeof path, "%s/index", words[1]);
    FILE *index = fopen(path, "r");
    if (!index) return 2;
    bool are_right = true;
    while (fgets(line, sizeof line, index)) {
        line[strcspn(line, "\n")] = 0;
        bool is_right = is_line_right(words[1], line);
        are_right &= is_right;
        printf("%s: %s\n", line, is_right ? "ok" : "FAILED");
        fflush(stdout);
    }
    fclose(index);
    return are_right ? 0 : 1;
}
