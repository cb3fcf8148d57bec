/*
 * disk.h: a disk in memory under the POSIX calls of a program (linked with --wrap), and what a power cut leaves of it.
 *
 * Each file has the bytes that the disk surely has, and a list of what was done since its last sync: writes and cuts.
 * The folder has the names that the disk surely has, and what was made, renamed and removed since its last sync. A
 * power cut chooses
 *   - of each write each sector of 512 bytes, or the part of it that was written, alone;
 *   - the size: one that the file had since its sync (a cut happens if its size or a later one is chosen);
 *   - for what was not written in a file that grew: zeros, or what was there before in this file or another;
 *   - each change of the folder alone; and whether a new folder is there at all, until its parent is synced.
 */
#ifndef DISK_H
#define DISK_H

#include <stddef.h>
#include <stdint.h>

struct disk;

extern struct disk *disk;          /* the one that the calls use */
extern void (*after_change)(void); /* called after each call that changed something */
extern int disk_kind;              /* 1: bytes of the log arrive in order; 2: a write to the store is not divided */
extern int is_old_kept;            /* whether places that were not written may have old bytes */
extern int is_shown;               /* whether choices are printed */

/* Defined by the program: a number below `count`; a chance, out of 8, which this choice or several give to 1. */
int choose(int count, int chance);
int choose_chance(const int *chances, int count);

struct disk *new_disk(void);
struct disk *copy_of_disk(const struct disk *from);
struct disk *disk_after_cut(const struct disk *from);
void free_disk(struct disk *it);

/* Counts the calls that change the disk or sync it from now on. At call `die_at` the process is killed: this call and
 * all later ones do nothing and fail. 0: never. */
void arm_disk(struct disk *it, long die_at);
long calls_of(const struct disk *it);
void kill_process(struct disk *it);
int is_killed(const struct disk *it);

/* Lets calls fail: from this call on a write finds no space after the end of its first sector; at the first sync from
 * this call on, some of what was to be synced is lost and forgotten. 0: none. */
void fail_calls(struct disk *it, long write_at, long sync_at);

/* The bytes of a file as a reader sees them; NULL if there is none. */
const uint8_t *file_of(const struct disk *it, const char *name, size_t *length);
int names_of(const struct disk *it, const char **names, int room);

/* What other programs do, synced. */
void put_synced(struct disk *it, const char *name, const uint8_t *bytes, size_t length);
void append_synced(struct disk *it, const char *name, const uint8_t *bytes, size_t length);
void set_byte(struct disk *it, const char *name, size_t at, uint8_t byte);

/* A pseudo-random number below `below`, by SplitMix64. */
uint64_t draw(uint64_t below);
extern uint64_t draw_state;

#endif
