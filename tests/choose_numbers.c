/* Writes a log of transactions of one record each, whose numbers are chosen to meet in one place of a table, or are spread.
 *
 * usage: choose_numbers COUNT KIND > LOG   KIND is one of
 *   spread    commits, numbers far apart
 *   index     commits of blocks of 16 numbers that have one bucket in the audit's index of blocks (crates/audit/src/number_table.rt)
 *   map       commits of blocks that have one place in a hash map of the kit with less than 131,072 places
 *   places    aborts of numbers that are equal modulo 256 (crates/audit/src/unfinished_table.rt) */
#include <stdint.h>
#include <stdio.h>
#include <stdlib.h>
#include <string.h>

enum { COMMIT = 3, ABORT = 4 };

static const uint32_t FACTOR = 0x9E3779B9u, BLOCKS = 1u << 28;

static uint32_t hash_of(uint32_t key)
{
    uint64_t a = 0x243f6a8885a308d3u ^ ((uint64_t)key | (uint64_t)key << 32), b = 0x9e3779b97f4a7c15u ^ 8;
    unsigned __int128 product = (unsigned __int128)a * b;
    uint64_t folded = (uint64_t)product ^ (uint64_t)(product >> 64);
    return (uint32_t)(folded ^ folded >> 32);
}

static uint32_t inverse_of(uint32_t factor)
{
    uint32_t inverse = factor;
    for (int turn = 0; turn < 5; turn++)
        inverse *= 2 - factor * inverse;
    return inverse;
}

/* The next block from a step on that meets the others, and the step after it. */
static uint32_t next_block(const char *kind, uint32_t *step, uint32_t bound)
{
    for (;;) {
        uint32_t at = (*step)++;
        if (strcmp(kind, "index") == 0 && at * inverse_of(FACTOR) < BLOCKS)
            return at * inverse_of(FACTOR);
        if (strcmp(kind, "map") == 0 && (hash_of(at) & 131071) < bound)
            return at;
        if (strcmp(kind, "spread") == 0)
            return (uint32_t)((uint64_t)at * 2654435761u % (BLOCKS - 57));
    }
}

static void put(uint8_t *to, uint64_t value, int bytes)
{
    for (int place = bytes; place-- > 0; value >>= 8)
        to[place] = (uint8_t)value;
}

int main(int count, char **words)
{
    if (count != 3)
        return 2;
    uint64_t records = strtoull(words[1], NULL, 10);
    const char *kind = words[2];
    int is_places = strcmp(kind, "places") == 0;
    uint32_t step = 1, bound = (uint32_t)(records * 131072 / BLOCKS) + 2;
    fwrite("ARIESLG1", 1, 8, stdout);
    for (uint64_t lsn = 1; lsn <= records; lsn++) {
        uint64_t transaction = is_places ? 256 * lsn : (uint64_t)next_block(kind, &step, bound) * 16 + 1;
        uint8_t frame[25];
        put(frame, 21, 4);
        put(frame + 4, is_places ? ABORT : COMMIT, 1);
        put(frame + 5, lsn, 8);
        put(frame + 13, transaction, 4);
        put(frame + 17, 0, 8);
        fwrite(frame, 1, sizeof frame, stdout);
    }
    return 0;
}
