/*
 * check.c: makes crash states of running engines, opens each, and checks what was opened.
 *
 * usage: check [--seed N] [--states N] [--steps N] [--every N] [--flags N] [--disk N] [--small] [--errors] [--again]
 *              [--exhaust] [--another] [--stop]
 *
 * It runs engines, each with its own seed, until there are so many crash states. A moment is a call that changed
 * something; a crash state is made at one of --every moments. --flags is as in aries_files.h; 8 chooses one sync or two
 * at each opening. --small: short runs. --errors: writes and syncs fail. --again: a life writes the same bytes as the
 * one before, in smaller pieces. --exhaust: all choices of a power cut in turn, at most 4,000 of a moment. --another:
 * before the last opening of a crash state another program recovers the log and the store in place, as `aries recover
 * --in-place --replace` did without a look at the other files. --stop: end at the first mistake.
 */
#include "disk.h"
#include "engine.h"

#include <stdarg.h>
#include <stdio.h>
#include <stdlib.h>
#include <string.h>

enum { STORE_ROOM = ARIES_STORE_HEADER_BYTES + PAGES * ARIES_PAGE_BYTES, EITHER = 8 };

static struct {
    unsigned long runs, lives, states, cuts, kills, interrupted, exhausted, moments;
    unsigned long closed, foreign, by_others, repeated, cut_logs, tails, restored, in_doubt, new_logs;
    unsigned long damaged, damage_found, damage_cut, wrong;
    unsigned long recovered, refused; /* by another program; refused by the opening */
} counts;
static struct counts engine_counts;

static struct {
    unsigned long seed, states;
    uint32_t flags;
    int steps, every, is_small, has_errors, is_again, is_exhaustive, is_another, is_stopping;
} options = {1, 1000, 0, 120, 12, 0, 0, 0, 0, 0, 0};

static struct engine engine;
static struct history history;
static uint32_t page_count;
static unsigned long seed;
static int life, is_busy, is_trying; /* is_trying: a crash state that no life continues */

static uint32_t some_flags(void) {
    if (!(options.flags & EITHER)) return options.flags;
    return draw(2) ? ARIES_FILES_ONE_SYNC : 0;
}

static int open_files(aries_files **files, struct aries_files_opened *opened) {
    return aries_files_open("db", some_flags(), page_count, files, opened);
}

static void end_process(aries_files *files) {
    kill_process(disk);
    aries_files_close(files);
}

/* What is wrong; the last words win. Returns 0. */
static char mistake[256];
static int wrong(const char *text, ...) {
    va_list arguments;
    va_start(arguments, text);
    vsnprintf(mistake, sizeof mistake, text, arguments);
    va_end(arguments);
    return 0;
}

/* CHOICES: at random, or all in turn */

enum { CHOICES = 4096 };
static int is_in_turn, chosen[CHOICES], limits[CHOICES], depth, place;

int choose(int count, int chance) {
    if (!is_in_turn && count == 2) return draw(8) < (uint64_t)chance;
    if (!is_in_turn) return chance == 8 ? count - 1 : chance == 0 ? 0 : (int)draw((uint64_t)count);
    need(place < CHOICES, "the room for choices");
    if (place == depth) limits[depth++] = count;
    return chosen[place++];
}

int choose_chance(const int *chances, int count) {
    return is_in_turn ? 4 : chances[draw((uint64_t)count)];
}

static int has_next_turn(void) {
    while (place && chosen[place - 1] + 1 == limits[place - 1]) chosen[--place] = 0;
    depth = place;
    if (place) chosen[place - 1]++;
    place = 0;
    return depth > 0;
}

/* WHAT AN OPENING HAS TO FIND */

static uint64_t number_at(const uint8_t *at, int bytes) {
    uint64_t number = 0;
    for (int i = 0; i < bytes; i++) number = number << 8 | at[i];
    return number;
}

/* The states of transactions at the end of the log, by the checker's own reading. */
enum { NONE, COMMITTED, IN_DOUBT, ENDED, NUMBERS = 1 << 16 };
static uint8_t states[NUMBERS];
static struct aries_record records[RECORDS];
static struct aries_read read;

static void note_state(const struct aries_record *record) {
    need(record->tx < NUMBERS, "the numbers of transactions");
    uint8_t *state = &states[record->tx];
    if (record->kind == ARIES_COMMIT) *state = COMMITTED;
    if (record->kind == ARIES_PREPARE) *state = IN_DOUBT;
    if (record->kind == ARIES_ABORT || (record->kind == ARIES_END && *state != COMMITTED)) *state = ENDED;
}

static int read_states(const uint8_t *log, size_t length) {
    memset(states, NONE, sizeof states);
    if (aries_records(log, length, 0, records, RECORDS, &read).number) return wrong("the log cannot be read");
    for (size_t i = 0; i < read.given; i++) note_state(&records[i]);
    return 1;
}

static int is_same_image(const struct aries_image *a, const struct aries_image *b) {
    return a->length == b->length && (a->length == ARIES_ABSENT || memcmp(a->bytes, b->bytes, a->length) == 0);
}

static int is_same_page(const struct aries_page *found, const struct aries_page *expected) {
    int slot = 0;
    while (slot < ARIES_SLOTS && is_same_image(&found->slots[slot], &expected->slots[slot])) slot++;
    return slot == ARIES_SLOTS || wrong("slot %d of page %u is not the winners'", slot, (unsigned)expected->number);
}

static struct aries_page expected_pages[PAGES];

static int read_base(const uint8_t *base) {
    int is_well = 1;
    for (uint32_t page = 0; page < page_count && is_well; page++) {
        const uint8_t *image = base + ARIES_STORE_HEADER_BYTES + page * ARIES_PAGE_BYTES;
        is_well = aries_read_page(image, ARIES_PAGE_BYTES, page, &expected_pages[page]).number == 0;
    }
    return is_well || wrong("a page of the base cannot be read");
}

static void apply_winners(void) {
    for (size_t i = 0; i < read.given; i++) {
        const struct aries_record *record = &records[i];
        int is_change = record->kind == ARIES_UPDATE || record->kind == ARIES_CLR;
        if (!is_change || (states[record->tx] != COMMITTED && states[record->tx] != IN_DOUBT)) continue;
        expected_pages[record->page].slots[record->slot] = record->after;
    }
}

static int are_in_doubt(const uint32_t *in_doubt, size_t count) {
    size_t found = 0;
    for (uint32_t number = 0; number < NUMBERS; number++) {
        if (states[number] != IN_DOUBT) continue;
        if (found == count || in_doubt[found++] != number) return wrong("transaction %u is in doubt", (unsigned)number);
    }
    return found == count || wrong("a transaction is in doubt that is not");
}

/* The slots have what the winners wrote, by the checker's own reading of the log. */
static int are_winners(const struct aries_files_opened *opened, const uint8_t *base) {
    if (!read_states(opened->log, opened->log_length) || !read_base(base)) return 0;
    apply_winners();
    int is_well = are_in_doubt(opened->in_doubt, opened->recovered.in_doubt);
    for (uint32_t page = 0; page < page_count && is_well; page++) {
        const uint8_t *image = opened->store + ARIES_STORE_HEADER_BYTES + page * ARIES_PAGE_BYTES;
        struct aries_page found;
        if (aries_read_page(image, ARIES_PAGE_BYTES, page, &found).number) return wrong("a page is torn");
        is_well = is_same_page(&found, &expected_pages[page]);
    }
    return is_well;
}

/* What was written to the log that was opened: that of the history, or the one that an archive was beginning. */
struct expected {
    uint64_t base_lsn;
    const uint8_t *log, *base;
    size_t length, acknowledged;
};

static uint8_t next_header[16], next_base[STORE_ROOM];

static int expect(const struct aries_files_opened *opened, struct expected *it) {
    *it = (struct expected){history.base_lsn, history.log, history.base, history.length, history.acknowledged};
    if (opened->base_lsn == history.base_lsn)
        return opened->master == history.master || opened->master == history.next_master || wrong("another master");
    if (!history.is_archiving || opened->base_lsn != history.next_base_lsn) return wrong("another base LSN");
    if (opened->master != 0) return wrong("a master in a new log");
    (void)aries_write_log_header(2, opened->base_lsn, next_header, sizeof next_header, &it->length);
    encode_pages(history.next_base, page_count, next_base, sizeof next_base);
    it->base_lsn = opened->base_lsn;
    it->log = next_header;
    it->acknowledged = it->length;
    it->base = next_base;
    return 1;
}

static int is_known(const char *name, const char *const *known) {
    while (*known && strcmp(name, *known) != 0) known++;
    return *known != NULL;
}

static int are_names(uint64_t base_lsn) {
    const char *names[32];
    char base[32], sums[32];
    snprintf(base, sizeof base, "base-%lu", (unsigned long)base_lsn);
    snprintf(sums, sizeof sums, "sums-%lu", (unsigned long)base_lsn);
    const char *known[] = {"log", "store", "lock", "pages", sums, base, NULL};
    int count = names_of(disk, names, 32);
    while (count > 0 && is_known(names[count - 1], known)) count--;
    return count == 0 || wrong("%s is left", names[count - 1]);
}

static int is_file(const char *name, const uint8_t *bytes, size_t length) {
    size_t there = 0;
    const uint8_t *file = file_of(disk, name, &there);
    return (file && there == length && memcmp(file, bytes, length) == 0) || wrong("%s is not as it has to be", name);
}

/* Whether the log and the pages are exactly what a recovery makes of the first `end` bytes that were written. */
static int is_recovery_of(const struct expected *it, size_t end, const struct aries_files_opened *opened) {
    static uint8_t tail[2 * LOG_ROOM], store[STORE_ROOM];
    static uint32_t in_doubt[64];
    struct aries_recovered made;
    struct aries_fault fault = aries_recover(it->log, end, it->base, opened->store_length, tail, sizeof tail, store,
        sizeof store, in_doubt, 64, &made);
    if (fault.number) return wrong("what was written cannot be recovered: fault %u", fault.number);
    if (end + made.tail_length != opened->log_length || memcmp(opened->log + end, tail, made.tail_length) != 0)
        return wrong("the log has what nobody wrote");
    size_t pages = opened->store_length - ARIES_STORE_HEADER_BYTES;
    int is_same = memcmp(opened->store + ARIES_STORE_HEADER_BYTES, store + ARIES_STORE_HEADER_BYTES, pages) == 0;
    return is_same || wrong("a page is not what the log makes of it");
}

static size_t after_frame(const struct expected *it, size_t end) {
    return end < it->length ? end + 4 + (size_t)number_at(it->log + end, 4) : end + 1;
}

static size_t same_bytes(const struct expected *it, const struct aries_files_opened *opened) {
    size_t same = 0;
    while (same < it->length && same < opened->log_length && it->log[same] == opened->log[same]) same++;
    return same;
}

/* Whether the log is what a recovery makes of the first frames that were written, with all that were acknowledged. */
static int is_log(const struct expected *it, const struct aries_files_opened *opened) {
    size_t same = same_bytes(it, opened), end = it->acknowledged;
    if (end == 0) end = it->log[7] == '2' ? 16 : 8;
    if (same < it->acknowledged)
        return wrong("acknowledged to byte %zu, right to %zu of %zu", it->acknowledged, same, opened->log_length);
    while (end <= same && !is_recovery_of(it, end, opened)) end = after_frame(it, end);
    return end <= same;
}

static int is_right(const struct aries_files_opened *opened, aries_files *files) {
    struct expected it;
    struct aries_fault fault = {0, 0};
    char name[32];
    snprintf(name, sizeof name, "base-%lu", (unsigned long)opened->base_lsn);
    if (!is_file("log", opened->log, opened->log_length)) return 0;
    if (!is_file("store", opened->store, opened->store_length)) return 0;
    if (!expect(opened, &it) || !are_names(it.base_lsn) || !is_log(&it, opened)) return 0;
    if (it.base_lsn && !is_file(name, it.base, opened->store_length)) return 0;
    if (aries_files_audit(files, &fault) || fault.number) return wrong("the audit finds fault %u", fault.number);
    return are_winners(opened, it.base);
}

/* CRASH STATES */

static struct disk *crash(const struct disk *from, int is_kill) {
    counts.states++;
    counts.kills += (unsigned long)is_kill;
    counts.cuts += (unsigned long)!is_kill;
    return is_kill ? copy_of_disk(from) : disk_after_cut(from);
}

/* An opening that is killed, or at which a call fails, and what is left of it. */
static int interrupt_opening(aries_files **files, struct aries_files_opened *opened) {
    int has_failure = options.has_errors && !draw(3), is_kill = !draw(4);
    long at = 1 + (long)draw(draw(2) ? 10 : 40);
    arm_disk(disk, has_failure ? 0 : at);
    if (has_failure) fail_calls(disk, draw(2) ? at : 0, draw(2) ? at : 0);
    int failed = open_files(files, opened);
    if (!failed) end_process(*files);
    else if (!is_killed(disk) && !(has_failure && failed == ARIES_FILES_IO)) return wrong("opening: %d", failed);
    if (is_shown) printf("  the opening is interrupted at call %ld%s\n", calls_of(disk), is_kill ? ", a kill" : "");
    struct disk *before = disk;
    disk = crash(before, is_kill);
    free_disk(before);
    counts.interrupted++;
    return 1;
}

static void count_opening(const struct aries_files_opened *opened) {
    counts.restored += opened->restored;
    counts.tails += opened->recovered.tail_length > 0;
    counts.in_doubt += opened->recovered.in_doubt;
    counts.cut_logs += opened->cut > 0;
    counts.new_logs += opened->base_lsn != history.base_lsn;
}

/* Another program recovers the log and the store in place, if they can be recovered. It leaves sums-N and the pages. */
static void recover_by_another(void) {
    static uint8_t log[LOG_ROOM], tail[2 * LOG_ROOM], store[STORE_ROOM];
    static uint32_t in_doubt[64];
    struct aries_recovered made;
    size_t log_length = 0, store_length = 0;
    const uint8_t *old_log = file_of(disk, "log", &log_length), *old_store = file_of(disk, "store", &store_length);
    if (!old_log || !old_store || log_length > LOG_ROOM - sizeof tail / 4) return;
    memcpy(log, old_log, log_length);
    struct aries_fault fault = aries_recover(log, log_length, old_store, store_length, tail, sizeof tail, store,
        sizeof store, in_doubt, 64, &made);
    if (fault.number || log_length + made.tail_length > LOG_ROOM) return;
    memcpy(log + log_length - made.torn, tail, made.tail_length);
    put_synced(disk, "log", log, log_length - (size_t)made.torn + (size_t)made.tail_length);
    put_synced(disk, "store", store, store_length);
    counts.recovered++;
}

static int is_same_file(const struct disk *before, const char *name) {
    size_t length = 0;
    const uint8_t *bytes = file_of(before, name, &length);
    return is_file(name, bytes, length);
}

/* Refused, since another program has written to the folder: nothing is changed. */
static int is_refused(const struct disk *before, const struct aries_files_opened *opened) {
    const char *names[32];
    int count = names_of(before, names, 32), there = names_of(disk, names, 32);
    counts.refused++;
    if (there != count || opened->restored) return wrong("refused, and changed");
    while (count > 0 && is_same_file(before, names[count - 1])) count--;
    return count == 0;
}

static int open_and_check(aries_files **files, struct aries_files_opened *opened) {
    struct disk *before = copy_of_disk(disk);
    int failed = open_files(files, opened), is_well = 0;
    if (failed == ARIES_FILES_FOREIGN && options.is_another && is_trying) is_well = is_refused(before, opened);
    else if (failed) wrong("opening: %d, fault %u", failed, opened->fault.number);
    else is_well = is_right(opened, *files);
    if (!failed) count_opening(opened);
    free_disk(before);
    return is_well;
}

/* Opens a crash state after so many interrupted openings. Returns 0 if anything is wrong; else the handle is open, or
 * the opening was refused, since another program has recovered the files. */
static int settle(int interruptions, aries_files **files, struct aries_files_opened *opened) {
    for (int i = 0; i < interruptions; i++)
        if (!interrupt_opening(files, opened)) return 0;
    arm_disk(disk, 0);
    if (options.is_another && is_trying) recover_by_another();
    if (options.is_another && is_trying) return open_and_check(files, opened);
    int failed = open_files(files, opened);
    if (failed) return wrong("opening: %d, fault %u", failed, opened->fault.number);
    count_opening(opened);
    return is_right(opened, *files);
}

/* Closed or killed, and opened again: nothing changes. */
static int stays(aries_files *files, const struct aries_files_opened *opened) {
    struct aries_files_opened again;
    aries_files *other = NULL;
    size_t log_length = opened->log_length, store_length = opened->store_length;
    uint8_t *log = malloc(log_length), *store = malloc(store_length);
    need(log && store, "memory");
    memcpy(log, opened->log, log_length);
    memcpy(store, opened->store, store_length);
    if (draw(2)) aries_files_close(files);
    else end_process(files);
    arm_disk(disk, 0);
    int failed = open_files(&other, &again);
    int is_same = !failed && again.log_length == log_length && memcmp(again.log, log, log_length) == 0 &&
                  again.store_length == store_length && memcmp(again.store, store, store_length) == 0;
    if (other) aries_files_close(other);
    free(log);
    free(store);
    return is_same || wrong("opened again it is not the same");
}

/* Prints a mistake, and by the same choices again how its crash state came about. */
static void report(const struct disk *from, uint64_t state, int is_kill, int interruptions) {
    aries_files *files;
    struct aries_files_opened opened;
    unsigned long number = counts.states;
    uint64_t now = draw_state;
    if (++counts.wrong > 5 && !options.is_stopping) return;
    printf("WRONG: %s\n  crash state %lu, seed %lu, life %d, ", mistake, number, seed, life);
    printf("call %ld: %zu bytes written, %zu acknowledged\n", calls_of(from), history.length, history.acknowledged);
    draw_state = state;
    is_shown = 1;
    place = 0;
    disk = crash(from, is_kill);
    is_in_turn = 0;
    settle(interruptions, &files, &opened);
    is_shown = 0;
    draw_state = now;
    counts.states = number;
    if (options.is_stopping) exit(1);
}

static size_t length_of_log(void) {
    size_t length = 0;
    (void)file_of(disk, "log", &length);
    return length;
}

/* After a kill the file of the log had all that is durable, also with one sync: other programs find it there. */
static int had_all(const struct aries_files_opened *opened, size_t had) {
    size_t durable = opened->log_length - (size_t)opened->recovered.tail_length;
    return durable <= had || !had || wrong("the log of a killed engine had %zu bytes of %zu", had, durable);
}

static void try_state(const struct disk *from, int is_kill, int interruptions) {
    aries_files *files = NULL;
    struct aries_files_opened opened;
    uint64_t state = draw_state;
    int was_in_turn = is_in_turn;
    disk = crash(from, is_kill);
    is_in_turn = 0;
    is_trying = 1;
    size_t had = length_of_log();
    int is_well = settle(interruptions, &files, &opened);
    if (is_well && files && is_kill && !interruptions && !options.is_another) is_well = had_all(&opened, had);
    if (is_well && files && !draw(4)) is_well = stays(files, &opened);
    else if (is_well && files) end_process(files);
    is_in_turn = was_in_turn;
    if (!is_well) report(from, state, is_kill, interruptions);
    is_in_turn = was_in_turn;
    is_trying = 0;
    free_disk(disk);
}

/* Opens a log in which an acknowledged bit is another one. It is refused; or, in the bytes of the last sync, taken for
 * bytes that were never synced. It is never accepted. */
static int open_damaged(size_t at, uint8_t byte) {
    aries_files *files;
    struct aries_files_opened opened;
    arm_disk(disk, 0);
    counts.damaged++;
    if (open_files(&files, &opened)) return ++counts.damage_found, 1;
    int has_it = opened.log_length > at && opened.log[at] == byte && memcmp(opened.log, history.log, at) == 0;
    int is_accepted = has_it && opened.log_length >= history.acknowledged && opened.cut == 0;
    counts.damage_cut += opened.log_length < history.acknowledged || opened.log[at] != history.log[at];
    end_process(files);
    return !is_accepted || wrong("another bit at %zu is accepted", at);
}

static void damage(const struct disk *from) {
    size_t length = 0, sums_length = 0;
    char sums[32];
    snprintf(sums, sizeof sums, "sums-%lu", (unsigned long)history.base_lsn);
    disk = disk_after_cut(from);
    const uint8_t *log = file_of(disk, "log", &length);
    int has_files = log && file_of(disk, sums, &sums_length) && !history.is_archiving;
    if (has_files && history.acknowledged > 16 && length >= history.acknowledged) {
        size_t at = 16 + draw(history.acknowledged - 16);
        uint8_t byte = log[at] ^ (uint8_t)(1 << draw(8));
        set_byte(disk, "log", at, byte);
        if (!open_damaged(at, byte)) report(from, draw_state, 0, 0);
    }
    free_disk(disk);
}

static void try_all(const struct disk *from) {
    int count = 0;
    memset(chosen, 0, sizeof chosen);
    depth = place = 0;
    is_in_turn = 1;
    do try_state(from, 0, 0);
    while (++count < 4000 && has_next_turn());
    is_in_turn = 0;
    counts.exhausted += count < 4000;
}

static void try_some(const struct disk *from) {
    if (!options.flags && !draw(4)) damage(from);
    for (uint64_t count = 1 + draw(3); count; count--) try_state(from, !draw(6), (int)draw(4));
}

/* A crash may come now. */
static void at_moment(void) {
    if (is_busy || !disk || is_killed(disk) || draw((uint64_t)options.every)) return;
    struct disk *from = disk;
    is_busy = 1;
    counts.moments++;
    if (options.is_exhaustive) try_all(from);
    else try_some(from);
    disk = from;
    is_busy = 0;
}

/* WHAT OTHERS DO WITH A CLOSED FOLDER */

static struct {
    uint8_t *bytes;
    size_t length;
} foreign;

/* Keeps a file of pages, to put it into the folder of another database later. */
static void keep_foreign(void) {
    size_t length;
    const uint8_t *bytes = file_of(disk, "pages", &length);
    if (!bytes || !length || draw(4)) return;
    foreign.bytes = realloc(foreign.bytes, length);
    need(foreign.bytes != NULL, "memory");
    foreign.length = length;
    memcpy(foreign.bytes, bytes, length);
}

static void put_foreign(void) {
    size_t length;
    if (!foreign.bytes || file_of(disk, "pages", &length) || draw(2)) return;
    put_synced(disk, "pages", foreign.bytes, foreign.length);
    counts.foreign++;
}

/* Another program appends a record. It is durable, so it counts as acknowledged. */
static void append_by_another(void) {
    uint8_t frame[16];
    size_t length, log_length;
    struct aries_record record = {.kind = ARIES_CHECKPOINT_BEGIN};
    const uint8_t *log = file_of(disk, "log", &log_length);
    if (draw(2) || log_length != history.length || aries_records(log, log_length, 0, &record, 0, &read).number) return;
    record.lsn = read.base_lsn + read.records + 1;
    need(aries_write_record(&record, frame, sizeof frame, &length).number == 0, "a record");
    append_synced(disk, "log", frame, length);
    memcpy(history.log + history.length, frame, length);
    history.length += length;
    history.acknowledged = history.length;
    counts.by_others++;
}

/* RUNS */

static void begin_history(void) {
    uint8_t *log = history.log ? history.log : malloc(LOG_ROOM);
    uint8_t *base = history.base ? history.base : malloc(STORE_ROOM);
    struct aries_page pages[PAGES];
    need(log && base, "memory");
    memset(&history, 0, sizeof history);
    memset(pages, 0, sizeof pages);
    history.log = log;
    history.base = base;
    history.base_length = ARIES_STORE_HEADER_BYTES + page_count * ARIES_PAGE_BYTES;
    for (uint32_t page = 0; page < PAGES; page++) {
        memset(pages[page].slots, ARIES_ABSENT, sizeof pages[page].slots);
        pages[page].number = page;
    }
    encode_pages(pages, page_count, base, history.base_length);
    (void)aries_write_log_header(1, 0, log, LOG_ROOM, &history.length);
}

/* From now on the history is what was opened. */
static void continue_history(const struct aries_files_opened *opened) {
    if (opened->base_lsn != history.base_lsn)
        encode_pages(history.next_base, page_count, history.base, history.base_length);
    history.base_lsn = opened->base_lsn;
    memcpy(history.log, opened->log, opened->log_length);
    history.length = history.acknowledged = opened->log_length;
    history.is_archiving = 0;
    history.master = history.next_master = opened->master;
}

static void make_files(void) {
    after_change = at_moment;
    need(open_files(&engine.files, &engine.opened) == 0, "making the files");
    after_change = NULL;
    history.acknowledged = history.length;
}

static void fail_some_calls(int steps) {
    long at = 1 + (long)draw((uint64_t)(2 * steps));
    if (draw(2)) fail_calls(disk, draw(2) ? at : 0, draw(2) ? at : 0);
}

static void add_counts(void) {
    engine_counts.commits += engine.counts.commits;
    engine_counts.undone += engine.counts.undone;
    engine_counts.prepares += engine.counts.prepares;
    engine_counts.checkpoints += engine.counts.checkpoints;
    engine_counts.archives += engine.counts.archives;
    memset(&engine.counts, 0, sizeof engine.counts);
}

/* Closes the folder. Returns whether it is closed. */
static int close_files(void) {
    after_change = at_moment;
    int is_closed = aries_files_close(engine.files) == 0;
    after_change = NULL;
    if (is_closed) history.acknowledged = history.length;
    counts.closed += (unsigned long)is_closed;
    return is_closed;
}

/* A life of the engine, to its end by a crash or by closing. Returns whether the folder was closed. */
static int live(void) {
    int steps = options.is_small ? 1 + (int)draw((uint64_t)options.steps) : 10 + (int)draw((uint64_t)options.steps);
    int is_closed = 0;
    continue_engine(&engine);
    arm_disk(disk, draw(3) ? 1 + (long)draw((uint64_t)(2 * steps)) : 0);
    if (options.has_errors) fail_some_calls(steps);
    after_change = after_acknowledgement = at_moment;
    int failed = run_engine(&engine, steps, options.is_small ? 2 : 3 + (int)draw(18));
    after_change = after_acknowledgement = NULL;
    need(!failed || failed == ARIES_FILES_IO, "the end of an engine");
    add_counts();
    if (!failed && !draw(5)) is_closed = close_files();
    else end_process(engine.files);
    return is_closed;
}

/* The crash at the end of a life, and the opening of the next one. */
static int crash_and_open(void) {
    struct disk *from = disk;
    int is_kill = !draw(4), interruptions = (int)draw(4);
    uint64_t state = draw_state;
    disk = crash(from, is_kill);
    int is_well = settle(interruptions, &engine.files, &engine.opened);
    if (is_well) continue_history(&engine.opened);
    else report(from, state, is_kill, interruptions);
    free_disk(from);
    return is_well;
}

static int live_and_crash(void) {
    counts.lives++;
    int is_closed = live();
    is_busy = 1;
    keep_foreign();
    if (is_closed) put_foreign();
    if (is_closed) append_by_another();
    int is_well = crash_and_open();
    is_busy = 0;
    arm_disk(disk, 0);
    return is_well;
}

static void run(void) {
    int lives = 1 + (int)draw(4), is_well = 1;
    page_count = 1 + (uint32_t)draw(options.is_small ? 2 : draw(3) ? 4 : 9);
    disk = new_disk();
    begin_history();
    memset(&engine, 0, sizeof engine);
    engine.history = &history;
    make_files();
    for (life = 1; life <= lives && is_well; life++) is_well = live_and_crash();
    if (is_well) end_process(engine.files);
    free_disk(disk);
    disk = NULL;
}

/* THE SAME BYTES AGAIN: a life writes a piece that is too large for the ring, and is interrupted. The next one writes
 * the very same bytes in smaller pieces. */

enum { UPDATES = 30, AGAIN_ROOM = 128 * (UPDATES + 1) };

static struct {
    uint8_t frames[AGAIN_ROOM];
    size_t ends[UPDATES + 1], length;
} same;

static void make_frames(void) {
    struct aries_image before = {.length = ARIES_ABSENT};
    same.length = 0;
    for (uint64_t i = 0; i <= UPDATES; i++) {
        uint8_t kind = i < UPDATES ? ARIES_UPDATE : ARIES_COMMIT;
        struct aries_record record = {.lsn = i + 1, .prev = i, .tx = 1, .kind = kind, .before = before};
        size_t length;
        record.after.length = ARIES_VALUE_BYTES;
        memset(record.after.bytes, 'a' + (int)(i % 26), ARIES_VALUE_BYTES);
        need(aries_write_record(&record, same.frames + same.length, 128, &length).number == 0, "a record");
        same.ends[i] = same.length += length;
        before = record.after;
    }
}

static void append_and_sync(const uint8_t *frames, size_t length) {
    memcpy(history.log + history.length, frames, length);
    history.length += length;
    need(aries_files_append(engine.files, frames, length) == 0, "appending again");
    need(aries_files_sync(engine.files) == 0, "syncing again");
    history.acknowledged = history.length;
    at_moment();
}

static void write_pieces(void) {
    for (size_t i = 0, from = 0; i <= UPDATES; i++) {
        if (i % 7 && i < UPDATES) continue;
        append_and_sync(same.frames + from, same.ends[i] - from);
        from = same.ends[i];
    }
}

static void write_more(void) {
    for (uint64_t i = 0; i < 8; i++) {
        struct aries_record record = {.lsn = UPDATES + 2 + i, .kind = ARIES_CHECKPOINT_BEGIN};
        uint8_t frame[16];
        size_t length;
        need(aries_write_record(&record, frame, sizeof frame, &length).number == 0, "a record");
        append_and_sync(frame, length);
    }
}

static void write_at_once(void) {
    memcpy(history.log + history.length, same.frames, same.length);
    history.length += same.length;
    need(aries_files_append(engine.files, same.frames, same.length) == 0, "appending");
    arm_disk(disk, 1 + (long)draw(7));
    aries_files_sync(engine.files);
    end_process(engine.files);
}

static void write_again(void) {
    history.length = history.acknowledged = 8;
    life = 2;
    after_change = at_moment;
    write_pieces();
    write_more();
    after_change = NULL;
    counts.repeated++;
}

static void run_again(void) {
    page_count = 1;
    life = 1;
    counts.lives += 2;
    disk = new_disk();
    begin_history();
    need(open_files(&engine.files, &engine.opened) == 0, "making the files");
    history.acknowledged = history.length;
    make_frames();
    write_at_once();
    struct disk *from = disk;
    uint64_t state = draw_state;
    is_busy = 1;
    disk = crash(from, 0);
    int is_well = settle(0, &engine.files, &engine.opened);
    if (!is_well) report(from, state, 0, 0);
    is_busy = 0;
    free_disk(from);
    if (is_well && engine.opened.log_length == 8) write_again();
    if (is_well) end_process(engine.files);
    free_disk(disk);
    disk = NULL;
}

/* THE PROGRAM */

static unsigned long number_of(const char *text) {
    char *end;
    unsigned long number = strtoul(text, &end, 10);
    need(*text && !*end, "an option needs a number");
    return number;
}

static int take_option(const char *name, const char *value) {
    int *flag = strcmp(name, "--small") == 0     ? &options.is_small
                : strcmp(name, "--errors") == 0  ? &options.has_errors
                : strcmp(name, "--again") == 0   ? &options.is_again
                : strcmp(name, "--exhaust") == 0 ? &options.is_exhaustive
                : strcmp(name, "--another") == 0 ? &options.is_another
                : strcmp(name, "--stop") == 0    ? &options.is_stopping
                                                 : NULL;
    if (flag) return *flag = 1;
    need(value != NULL, "an option needs a number");
    if (strcmp(name, "--seed") == 0) options.seed = number_of(value);
    else if (strcmp(name, "--states") == 0) options.states = number_of(value);
    else if (strcmp(name, "--steps") == 0) options.steps = (int)number_of(value);
    else if (strcmp(name, "--every") == 0) options.every = (int)number_of(value);
    else if (strcmp(name, "--flags") == 0) options.flags = (uint32_t)number_of(value);
    else if (strcmp(name, "--disk") == 0) disk_kind = (int)number_of(value);
    else need(0, name);
    return 2;
}

static void print_counts(void) {
    printf("runs %lu, lives %lu, moments %lu", counts.runs, counts.lives, counts.moments);
    printf(" (every choice at %lu)\n", counts.exhausted);
    printf("crash states %lu: power cuts %lu, kills %lu; ", counts.states, counts.cuts, counts.kills);
    printf("of these at an opening %lu\n", counts.interrupted);
    printf("engine: commits %lu, undone %lu, ", engine_counts.commits, engine_counts.undone);
    printf("prepares %lu, checkpoints %lu, ", engine_counts.prepares, engine_counts.checkpoints);
    printf("archives %lu, closed %lu; ", engine_counts.archives, counts.closed);
    printf("others put pages %lu, appended %lu; ", counts.foreign, counts.by_others);
    printf("written again %lu\n", counts.repeated);
    printf("openings: cut %lu, with a tail %lu, pages repaired %lu, ", counts.cut_logs, counts.tails, counts.restored);
    printf("in doubt %lu, new logs %lu\n", counts.in_doubt, counts.new_logs);
    if (options.is_another)
        printf("recovered by another program %lu: refused %lu\n", counts.recovered, counts.refused);
    printf("changed bits %lu: refused %lu, cut off %lu\n", counts.damaged, counts.damage_found, counts.damage_cut);
    printf("wrong %lu\n", counts.wrong);
}

int main(int argc, char **argv) {
    static const uint8_t digits[] = "123456789";
    setvbuf(stdout, NULL, _IOLBF, 0);
    for (int i = 1; i < argc;) i += take_option(argv[i], argv[i + 1]);
    need(aries_files_crc32c(0, digits, 9) == 0xe3069283u, "the CRC-32C of nine digits");
    is_old_kept = 1;
    for (seed = options.seed; counts.states < options.states; seed++) {
        draw_state = seed * 7919;
        counts.runs++;
        if (options.is_again) run_again();
        else run();
    }
    print_counts();
    return counts.wrong != 0;
}
