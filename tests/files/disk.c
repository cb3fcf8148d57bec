#define _GNU_SOURCE
#include "disk.h"

#include <dirent.h>
#include <errno.h>
#include <fcntl.h>
#include <stdio.h>
#include <stdlib.h>
#include <string.h>
#include <sys/stat.h>
#include <sys/types.h>

enum { FILES = 24, CHANGES = 64, DESCRIPTORS = 64, NAME = 32, SECTOR = 512 };
enum { FOLDER = 1000, PARENT = 1001, FIRST_DESCRIPTOR = 2000 };

struct bytes {
    uint8_t *at;
    size_t length, room;
};

/* A write, or a cut to `size`. */
struct change_of_file {
    int is_cut;
    size_t at, length, size; /* size: of the file after it */
    uint8_t *bytes;
};

struct file {
    int is_used;
    struct bytes synced, cached, old;
    struct change_of_file *changes;
    int count, room;
};

struct name {
    char name[NAME];
    int file;
};

struct names {
    struct name of[FILES];
    int count;
};

/* A file was made (from is empty), renamed, or removed (to is empty). */
struct change_of_names {
    char from[NAME], to[NAME];
    int file;
};

struct disk {
    struct file files[FILES];
    struct names synced, cached;
    struct change_of_names changes[CHANGES];
    int change_count;
    struct bytes old; /* what a file had that is gone */
    int has_folder, is_folder_synced;
    int descriptors[DESCRIPTORS];
    long calls, die_at, fail_write, fail_sync;
    int is_killed;
};

struct disk *disk;
void (*after_change)(void);
int disk_kind, is_old_kept, is_shown;
uint64_t draw_state = 1;

uint64_t draw(uint64_t below) {
    uint64_t z = draw_state += 0x9e3779b97f4a7c15u;
    z = (z ^ z >> 30) * 0xbf58476d1ce4e5b9u;
    z = (z ^ z >> 27) * 0x94d049bb133111ebu;
    return below ? (z ^ z >> 31) % below : 0;
}

/* BYTES */

static void make_room(struct bytes *it, size_t length) {
    if (length <= it->room) return;
    it->room = length < 256 ? 256 : 2 * length;
    it->at = realloc(it->at, it->room);
    if (!it->at) abort();
}

static void resize(struct bytes *it, size_t length) {
    make_room(it, length);
    if (length > it->length) memset(it->at + it->length, 0, length - it->length);
    it->length = length;
}

static void put_bytes(struct bytes *it, size_t at, const uint8_t *bytes, size_t length) {
    if (at + length > it->length) resize(it, at + length);
    if (length) memcpy(it->at + at, bytes, length);
}

static void copy_bytes(struct bytes *to, const struct bytes *from) {
    to->length = 0;
    put_bytes(to, 0, from->at, from->length);
}

/* NAMES */

static int find(const struct names *names, const char *name) {
    int i = 0;
    while (i < names->count && strcmp(names->of[i].name, name) != 0) i++;
    return i < names->count ? i : -1;
}

static void remove_name(struct names *names, const char *name) {
    int i = find(names, name);
    if (i >= 0) names->of[i] = names->of[--names->count];
}

static void set_name(struct names *names, const char *name, int file) {
    int i = find(names, name);
    if (i < 0 && names->count == FILES) abort();
    if (i < 0) i = names->count++;
    snprintf(names->of[i].name, NAME, "%s", name);
    names->of[i].file = file;
}

static void apply(struct names *names, const struct change_of_names *change) {
    if (change->from[0]) remove_name(names, change->from);
    if (change->to[0]) set_name(names, change->to, change->file);
}

/* DISKS */

static void forget_changes(struct file *file) {
    for (int i = 0; i < file->count; i++) free(file->changes[i].bytes);
    file->count = 0;
}

static struct change_of_file *new_change(struct file *file) {
    if (file->count == file->room) {
        file->room = file->room ? 2 * file->room : 16;
        file->changes = realloc(file->changes, (size_t)file->room * sizeof *file->changes);
        if (!file->changes) abort();
    }
    memset(&file->changes[file->count], 0, sizeof *file->changes);
    return &file->changes[file->count++];
}

static void add_write(struct file *file, size_t at, const uint8_t *bytes, size_t length, size_t size) {
    struct change_of_file *change = new_change(file);
    change->at = at;
    change->length = length;
    change->size = size;
    change->bytes = malloc(length + 1);
    if (!change->bytes) abort();
    memcpy(change->bytes, bytes, length);
}

static void add_cut(struct file *file, size_t size) {
    struct change_of_file *change = new_change(file);
    change->is_cut = 1;
    change->at = change->size = size;
}

struct disk *new_disk(void) {
    struct disk *it = calloc(1, sizeof *it);
    if (!it) abort();
    memset(it->descriptors, -1, sizeof it->descriptors);
    return it;
}

void free_disk(struct disk *it) {
    for (int i = 0; i < FILES; i++) {
        forget_changes(&it->files[i]);
        free(it->files[i].changes);
        free(it->files[i].synced.at);
        free(it->files[i].cached.at);
        free(it->files[i].old.at);
    }
    free(it->old.at);
    free(it);
}

static void copy_file(struct file *to, const struct file *from) {
    to->is_used = from->is_used;
    copy_bytes(&to->synced, &from->synced);
    copy_bytes(&to->cached, &from->cached);
    copy_bytes(&to->old, &from->old);
    for (int i = 0; i < from->count; i++) {
        const struct change_of_file *it = &from->changes[i];
        if (it->is_cut) add_cut(to, it->size);
        else add_write(to, it->at, it->bytes, it->length, it->size);
    }
}

struct disk *copy_of_disk(const struct disk *from) {
    struct disk *it = new_disk();
    it->synced = from->synced;
    it->cached = from->cached;
    memcpy(it->changes, from->changes, sizeof it->changes);
    it->change_count = from->change_count;
    it->has_folder = from->has_folder;
    it->is_folder_synced = from->is_folder_synced;
    copy_bytes(&it->old, &from->old);
    for (int i = 0; i < FILES; i++) copy_file(&it->files[i], &from->files[i]);
    return it;
}

/* WHAT A POWER CUT LEAVES OF A FILE */

struct remains {
    struct bytes *bytes;
    uint8_t *is_known; /* for each byte up to `room` */
    size_t room;
    int chance;
    const char *name;
};

static int is_whole(const struct remains *it) {
    return (disk_kind & 2) && strcmp(it->name, "store") == 0;
}

/* Keeps some sectors of a write. */
static void keep_some(struct remains *it, const struct change_of_file *write, int number) {
    size_t end = write->at + write->length, to;
    for (size_t at = write->at; at < end; at = to) {
        to = is_whole(it) ? end : (at / SECTOR + 1) * SECTOR;
        if (to > end) to = end;
        int is_kept = choose(2, it->chance);
        if (is_shown)
            printf("    %s: write %d, bytes %zu to %zu: %s\n", it->name, number, at, to, is_kept ? "kept" : "lost");
        if (!is_kept) continue;
        put_bytes(it->bytes, at, write->bytes + (at - write->at), to - at);
        memset(it->is_known + at, 1, to - at);
    }
}

static void cut_remains(struct remains *it, size_t size) {
    if (size >= it->bytes->length) return;
    resize(it->bytes, size);
    memset(it->is_known + size, 0, it->room - size);
}

/* Old bytes where nothing was written: of this file or of one that is gone. */
static void fill(struct remains *it, const struct file *file, const struct bytes *others) {
    for (size_t i = 0; i < it->bytes->length; i++) {
        const struct bytes *old = i < file->old.length ? &file->old : others;
        if (!it->is_known[i]) it->bytes->at[i] = i < old->length ? old->at[i] : 0;
    }
    if (is_shown) printf("    %s: old bytes where nothing was written\n", it->name);
}

/* A log whose bytes arrive in order; cuts are kept or lost alone. */
static void cut_in_order(const struct file *file, struct remains *it) {
    size_t left = 0;
    for (int i = 0; i < file->count; i++) left += file->changes[i].length;
    if (left) left = (size_t)choose((int)left + 1, 4);
    if (is_shown) printf("    %s: %zu bytes arrive\n", it->name, left);
    for (int i = 0; i < file->count; i++) {
        const struct change_of_file *change = &file->changes[i];
        size_t some = change->length < left ? change->length : left;
        if (change->is_cut && choose(2, 4)) cut_remains(it, change->size);
        if (some) put_bytes(it->bytes, change->at, change->bytes, some);
        left -= some;
    }
}

/* How many bytes there may be, and whether the size has changed since the last sync. */
static size_t largest_of(const struct file *file, int *has_sizes) {
    size_t largest = file->synced.length, before = largest;
    *has_sizes = 0;
    for (int i = 0; i < file->count; i++) {
        const struct change_of_file *change = &file->changes[i];
        if (change->size != before) *has_sizes = 1;
        if (change->at + change->length > largest) largest = change->at + change->length;
        if (change->size > largest) largest = change->size;
        before = change->size;
    }
    return largest;
}

static int is_all_known(const struct remains *it) {
    return it->bytes->length == 0 || memchr(it->is_known, 0, it->bytes->length) == NULL;
}

static void keep_changes(const struct file *file, struct remains *it, int sizes) {
    for (int i = 0; i < file->count; i++) {
        const struct change_of_file *change = &file->changes[i];
        if (!change->is_cut) keep_some(it, change, i + 1);
        else if (i < sizes) cut_remains(it, change->size);
    }
}

static void cut_file(const struct disk *from, const struct file *file, struct bytes *bytes, const char *name) {
    static const int chances[8] = {0, 1, 4, 4, 4, 7, 8, 8};
    struct remains it = {bytes, NULL, 0, 4, name};
    int has_sizes;
    copy_bytes(bytes, &file->synced);
    if (!file->count) return;
    it.room = largest_of(file, &has_sizes);
    it.is_known = calloc(1, it.room + 1);
    if (!it.is_known) abort();
    memset(it.is_known, 1, bytes->length);
    if ((disk_kind & 1) && strcmp(name, "log") == 0) {
        cut_in_order(file, &it);
    } else {
        it.chance = choose_chance(chances, 8);
        int sizes = has_sizes ? choose(file->count + 1, it.chance) : file->count;
        size_t size = has_sizes && sizes ? file->changes[sizes - 1].size : file->synced.length;
        keep_changes(file, &it, sizes);
        if (is_shown && has_sizes) printf("    %s: size %zu of %zu\n", name, size, file->cached.length);
        resize(bytes, size);
        if (!is_all_known(&it) && is_old_kept && choose(2, 3)) fill(&it, file, &from->old);
    }
    free(it.is_known);
}

/* WHAT A POWER CUT LEAVES */

static void cut_names(const struct disk *from, struct disk *it) {
    static const int chances[6] = {0, 4, 4, 4, 7, 8};
    int chance = choose_chance(chances, 6);
    it->synced = from->synced;
    for (int i = 0; i < from->change_count; i++) {
        const struct change_of_names *change = &from->changes[i];
        int is_kept = choose(2, chance);
        if (is_shown) printf("    folder: '%s' to '%s': %s\n", change->from, change->to, is_kept ? "kept" : "lost");
        if (is_kept) apply(&it->synced, change);
    }
    it->cached = it->synced;
}

struct disk *disk_after_cut(const struct disk *from) {
    struct disk *it = new_disk();
    copy_bytes(&it->old, &from->old);
    it->has_folder = from->has_folder && (from->is_folder_synced || choose(2, 4));
    it->is_folder_synced = it->has_folder;
    if (!it->has_folder) return it;
    cut_names(from, it);
    for (int i = 0; i < it->synced.count; i++) {
        struct file *to = &it->files[it->synced.of[i].file];
        const struct file *file = &from->files[it->synced.of[i].file];
        if (to->is_used) continue;
        to->is_used = 1;
        cut_file(from, file, &to->synced, it->synced.of[i].name);
        copy_bytes(&to->cached, &to->synced);
        copy_bytes(&to->old, &file->old);
    }
    return it;
}

/* WHAT THE TESTS DO */

void arm_disk(struct disk *it, long die_at) {
    it->calls = it->is_killed = 0;
    it->die_at = die_at;
}

long calls_of(const struct disk *it) {
    return it->calls;
}

void kill_process(struct disk *it) {
    it->is_killed = 1;
}

int is_killed(const struct disk *it) {
    return it->is_killed;
}

void fail_calls(struct disk *it, long write_at, long sync_at) {
    it->fail_write = write_at;
    it->fail_sync = sync_at;
}

static struct file *named(struct disk *it, const char *name) {
    return &it->files[it->cached.of[find(&it->cached, name)].file];
}

const uint8_t *file_of(const struct disk *it, const char *name, size_t *length) {
    int i = find(&it->cached, name);
    if (i < 0) return NULL;
    const struct bytes *bytes = &it->files[it->cached.of[i].file].cached;
    *length = bytes->length;
    return bytes->length ? bytes->at : (const uint8_t *)"";
}

int names_of(const struct disk *it, const char **names, int room) {
    for (int i = 0; i < it->cached.count && i < room; i++) names[i] = it->cached.of[i].name;
    return it->cached.count;
}

static int is_named(const struct names *names, int file) {
    int i = 0;
    while (i < names->count && names->of[i].file != file) i++;
    return i < names->count;
}

static int is_open(const struct disk *it, int file) {
    int i = 0;
    while (i < DESCRIPTORS && it->descriptors[i] != file) i++;
    return i < DESCRIPTORS;
}

static int is_in_use(const struct disk *it, int file) {
    int i = 0;
    while (i < it->change_count && it->changes[i].file != file) i++;
    return i < it->change_count || is_open(it, file) || is_named(&it->cached, file) || is_named(&it->synced, file);
}

static int new_file(struct disk *it) {
    int i = 0;
    while (i < FILES && is_in_use(it, i)) i++;
    if (i == FILES) abort();
    struct file *file = &it->files[i];
    if (file->is_used && file->cached.length) copy_bytes(&it->old, &file->cached);
    forget_changes(file);
    file->synced.length = file->cached.length = file->old.length = 0;
    file->is_used = 1;
    return i;
}

void put_synced(struct disk *it, const char *name, const uint8_t *bytes, size_t length) {
    int i = new_file(it);
    put_bytes(&it->files[i].synced, 0, bytes, length);
    copy_bytes(&it->files[i].cached, &it->files[i].synced);
    set_name(&it->cached, name, i);
    set_name(&it->synced, name, i);
}

void append_synced(struct disk *it, const char *name, const uint8_t *bytes, size_t length) {
    struct file *file = named(it, name);
    put_bytes(&file->cached, file->cached.length, bytes, length);
    copy_bytes(&file->synced, &file->cached);
    forget_changes(file);
}

void set_byte(struct disk *it, const char *name, size_t at, uint8_t byte) {
    struct file *file = named(it, name);
    file->cached.at[at] = file->synced.at[at] = byte;
}

/* THE CALLS */

/* A call that changes something begins. Returns 0 if the process was killed. */
static int begins(void) {
    if (!disk->is_killed) disk->calls++;
    if (disk->die_at && disk->calls >= disk->die_at) disk->is_killed = 1;
    if (disk->is_killed) errno = EIO;
    return !disk->is_killed;
}

static int ends(int result) {
    int error = errno;
    if (after_change) after_change();
    errno = error;
    return result;
}

static int descriptor_of(int file) {
    int i = 0;
    while (i < DESCRIPTORS && disk->descriptors[i] >= 0) i++;
    if (i == DESCRIPTORS) abort();
    disk->descriptors[i] = file;
    return FIRST_DESCRIPTOR + i;
}

static struct file *open_file(int descriptor) {
    return &disk->files[disk->descriptors[descriptor - FIRST_DESCRIPTOR]];
}

static void change_names(const char *from, const char *to, int file) {
    if (disk->change_count == CHANGES) abort();
    struct change_of_names *change = &disk->changes[disk->change_count++];
    snprintf(change->from, NAME, "%s", from);
    snprintf(change->to, NAME, "%s", to);
    change->file = file;
    apply(&disk->cached, change);
}

static int refused(int error) {
    errno = error;
    return -1;
}

int __wrap_mkdir(const char *path, mode_t mode) {
    (void)path, (void)mode;
    if (disk->has_folder) return refused(EEXIST);
    if (!begins()) return -1;
    disk->has_folder = 1;
    return ends(0);
}

int __wrap_open(const char *path, int flags, ...) {
    (void)path, (void)flags;
    return disk->has_folder ? FOLDER : refused(ENOENT);
}

static void cut_cached(struct file *file, size_t length) {
    copy_bytes(&file->old, &file->cached);
    resize(&file->cached, length);
    add_cut(file, length);
}

int __wrap_openat(int folder, const char *name, int flags, ...) {
    (void)folder;
    if (strcmp(name, "..") == 0) return PARENT;
    if (strcmp(name, ".") == 0) return FOLDER;
    int i = find(&disk->cached, name), is_new = i < 0 && (flags & O_CREAT);
    if (i < 0 && !is_new) return refused(ENOENT);
    if ((is_new || (flags & O_TRUNC)) && !begins()) return -1;
    int file = is_new ? new_file(disk) : disk->cached.of[i].file, descriptor = descriptor_of(file);
    if (is_new) change_names("", name, file);
    else if (flags & O_TRUNC) cut_cached(&disk->files[file], 0);
    return is_new || (flags & O_TRUNC) ? ends(descriptor) : descriptor;
}

int __wrap_close(int descriptor) {
    if (descriptor >= FIRST_DESCRIPTOR) disk->descriptors[descriptor - FIRST_DESCRIPTOR] = -1;
    return 0;
}

int __wrap_flock(int descriptor, int operation) {
    (void)descriptor, (void)operation;
    return 0;
}

int __wrap_fchmod(int descriptor, mode_t mode) {
    (void)descriptor, (void)mode;
    return 0;
}

static int tell_status(int file, struct stat *status) {
    memset(status, 0, sizeof *status);
    status->st_size = (off_t)disk->files[file].cached.length;
    status->st_ino = (ino_t)file + 1;
    status->st_mode = 0600;
    return 0;
}

int __wrap_fstat(int descriptor, struct stat *status) {
    return tell_status(disk->descriptors[descriptor - FIRST_DESCRIPTOR], status);
}

int __wrap_fstatat(int folder, const char *name, struct stat *status, int flags) {
    int i = find(&disk->cached, name);
    (void)folder, (void)flags;
    return i < 0 ? refused(ENOENT) : tell_status(disk->cached.of[i].file, status);
}

/* Drops the cache of a file that has nothing to be synced. */
int __wrap_posix_fadvise(int descriptor, off_t at, off_t length, int advice) {
    struct file *file = open_file(descriptor);
    (void)at, (void)length, (void)advice;
    if (!file->count) copy_bytes(&file->cached, &file->synced);
    return 0;
}

ssize_t __wrap_pread(int descriptor, void *to, size_t length, off_t at) {
    const struct bytes *bytes = &open_file(descriptor)->cached;
    if ((size_t)at >= bytes->length) return 0;
    if (length > bytes->length - (size_t)at) length = bytes->length - (size_t)at;
    memcpy(to, bytes->at + at, length);
    return (ssize_t)length;
}

/* Some writes are interrupted, and some are short: these end at the end of a sector. */
ssize_t __wrap_pwrite(int descriptor, const void *bytes, size_t length, off_t at) {
    size_t first = SECTOR - (size_t)at % SECTOR;
    if (!draw(40)) return refused(EINTR);
    if (length > first && !disk_kind && !draw(20)) length = first + draw((length - first - 1) / SECTOR + 1) * SECTOR;
    if (!begins()) return -1;
    struct file *file = open_file(descriptor);
    int fails = disk->fail_write && disk->calls == disk->fail_write;
    if (fails) length = length > first ? first : 0;
    if (fails) disk->fail_write = disk->calls + 1;
    put_bytes(&file->cached, (size_t)at, bytes, length);
    if (length) add_write(file, (size_t)at, bytes, length, file->cached.length);
    ends(0);
    return fails && !length ? refused(ENOSPC) : (ssize_t)length;
}

int __wrap_ftruncate(int descriptor, off_t length) {
    if (!begins()) return -1;
    cut_cached(open_file(descriptor), (size_t)length);
    return ends(0);
}

static void sync_names(void) {
    for (int i = 0; i < disk->change_count; i++) apply(&disk->synced, &disk->changes[i]);
    disk->change_count = 0;
}

/* What an earlier failed sync has lost stays lost. */
static void sync_changes(struct file *file) {
    for (int i = 0; i < file->count; i++) {
        const struct change_of_file *change = &file->changes[i];
        if (change->is_cut) resize(&file->synced, change->size);
        else put_bytes(&file->synced, change->at, change->bytes, change->length);
    }
    forget_changes(file);
}

static int fail_sync(struct file *file) {
    struct bytes left = {0, 0, 0};
    cut_file(disk, file, &left, "failed sync");
    copy_bytes(&file->synced, &left);
    free(left.at);
    forget_changes(file);
    disk->fail_sync = 0;
    return refused(EIO);
}

static int sync_descriptor(int descriptor) {
    if (!begins()) return -1;
    if (descriptor == PARENT) disk->is_folder_synced = 1;
    if (descriptor == FOLDER) sync_names();
    if (descriptor < FIRST_DESCRIPTOR) return ends(0);
    struct file *file = open_file(descriptor);
    if (disk->fail_sync && disk->calls >= disk->fail_sync && file->count) return fail_sync(file);
    sync_changes(file);
    return ends(0);
}

int __wrap_fsync(int descriptor) {
    return sync_descriptor(descriptor);
}

int __wrap_fdatasync(int descriptor) {
    return sync_descriptor(descriptor);
}

int __wrap_renameat(int from_folder, const char *from, int to_folder, const char *to) {
    int i = find(&disk->cached, from);
    (void)from_folder, (void)to_folder;
    if (!begins()) return -1;
    if (i < 0) return refused(ENOENT);
    change_names(from, to, disk->cached.of[i].file);
    return ends(0);
}

int __wrap_unlinkat(int folder, const char *name, int flags) {
    (void)folder, (void)flags;
    if (find(&disk->cached, name) < 0) return refused(ENOENT);
    if (!begins()) return -1;
    change_names(name, "", -1);
    return ends(0);
}

struct listing {
    struct names names;
    int at;
    struct dirent entry;
};

DIR *__wrap_fdopendir(int descriptor) {
    struct listing *it = calloc(1, sizeof *it);
    (void)descriptor;
    if (it) it->names = disk->cached;
    return (DIR *)it;
}

struct dirent *__wrap_readdir(DIR *listing) {
    struct listing *it = (struct listing *)listing;
    if (it->at == it->names.count) return NULL;
    snprintf(it->entry.d_name, NAME, "%s", it->names.of[it->at++].name);
    return &it->entry;
}

int __wrap_closedir(DIR *listing) {
    free(listing);
    return 0;
}
