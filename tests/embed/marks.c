/* Reads logs record by record, finds their ends, and what an engine that continues them has to know.
 *
 *   marks FILE..       for each file, which may hold any bytes, what each call returns, in lines that tests/marks.py
 *                      compares with its own reading */
#include "aries.h"

#include <inttypes.h>
#include <stdio.h>
#include <stdlib.h>
#include <string.h>

enum { MOST_UNFINISHED = 64 };

static uint8_t *bytes_of(const char *path, size_t *length) {
    FILE *file = fopen(path, "rb");
    if (!file) exit(2);
    fseek(file, 0, SEEK_END);
    *length = (size_t)ftell(file);
    rewind(file);
    /* Exactly as many bytes as the file has, so that valgrind sees a read after them. */
    uint8_t *bytes = malloc(*length ? *length : 1);
    if (!bytes || fread(bytes, 1, *length, file) != *length) exit(2);
    fclose(file);
    return bytes;
}

static void show_records(const uint8_t *log, size_t length) {
    struct aries_mark mark = {77, 78};
    struct aries_record record = {.lsn = 79};
    struct aries_fault fault = aries_log_begin(log, length, &mark);
    printf("begin %u %" PRIu64 " %" PRIu64 "\n", fault.number, mark.lsn, mark.offset);
    while (fault.number == ARIES_OK) {
        struct aries_mark before = mark;
        fault = aries_next_record(log, length, &mark, &record);
        if (fault.number != ARIES_OK) {
            int is_kept = mark.lsn == before.lsn && mark.offset == before.offset;
            printf("stop %u %" PRIu64 " %d\n", fault.number, fault.place, is_kept);
        } else
            printf("record %" PRIu64 " %u %u %" PRIu64 " %" PRIu64 " %u %u %" PRIu64 "\n", record.lsn, record.kind,
                record.tx, record.prev, record.next, record.page, record.slot, mark.offset);
    }
}

static void show_end(const uint8_t *log, size_t length) {
    struct aries_log_end end = {.length = 77};
    struct aries_fault fault = aries_log_end(log, length, &end);
    printf("end %u", fault.number);
    if (fault.number == ARIES_OK)
        printf(" %" PRIu64 " %" PRIu64 " %" PRIu64 " %u %" PRIu64, end.length, end.last_lsn, end.torn,
            end.damage.number, end.damage.place);
    printf("\n");
}

static void show_unfinished(const uint8_t *log, size_t length) {
    struct aries_log_state state = {77, 78, 79};
    struct aries_entry unfinished[MOST_UNFINISHED];
    struct aries_fault fault = aries_unfinished(log, length, unfinished, 0, &state);
    if (fault.number == ARIES_NO_ROOM)
        fault = aries_unfinished(log, length, unfinished, (size_t)state.unfinished, &state);
    printf("state %u %" PRIu64 " %" PRIu64 " %" PRIu64 " %" PRIu64 "\n", fault.number, fault.place, state.last_lsn,
        state.highest, state.unfinished);
    if (fault.number != ARIES_OK) return;
    for (uint64_t i = 0; i < state.unfinished; i++)
        printf("unfinished %u %u %" PRIu64 " %" PRIu64 "\n", unfinished[i].tx, unfinished[i].state, unfinished[i].last,
            unfinished[i].undo_next);
}

/* Marks that are none of the log: the call returns, and reads no byte outside. */
static void try_marks(const uint8_t *log, size_t length) {
    static const uint64_t numbers[] = {0, 1, 7, 8, 9, 15, 16, 17, 40, UINT64_MAX - 1, UINT64_MAX};
    struct aries_record record;
    for (size_t i = 0; i < sizeof numbers / sizeof numbers[0]; i++)
        for (size_t back = 0; back < 20; back++) {
            struct aries_mark mark = {numbers[i], length - back};
            aries_next_record(log, length, &mark, &record);
            mark = (struct aries_mark){numbers[i], numbers[back % (sizeof numbers / sizeof numbers[0])]};
            aries_next_record(log, length, &mark, &record);
        }
}

int main(int count, char **files) {
    for (int i = 1; i < count; i++) {
        size_t length;
        uint8_t *log = bytes_of(files[i], &length);
        printf("file %d\n", i - 1);
        show_records(log, length);
        show_end(log, length);
        show_unfinished(log, length);
        try_marks(log, length);
        free(log);
    }
    return 0;
}
