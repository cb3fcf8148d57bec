/* Loaded before a program: notes each call that changes a file of a folder, or makes it durable, in a file of events.
 * tests/embed/power.py reads them, and makes what a power cut may leave.
 *
 *   POWER_FOLDER  the folder, an absolute path without links
 *   POWER_EVENTS  the file of events
 *
 * An event is its kind, a byte; a descriptor, 4 bytes; an offset, 8; a length, 8; and so many bytes, of a name or of
 * what is written. Numbers are as the processor has them.
 *
 *   P  a program begins           O  the descriptor is that of this name       C  it is closed
 *   M  the name is made           Z  its length becomes 0                      S  it is synced (noted after the call)
 *   W  bytes are written there    T  the length becomes the offset             G  the length becomes at least the offset
 *   R  the file is renamed: the old name has the offset as length              U  the name is removed
 *
 * All but O and S are noted before the call, by one write: after a kill the last event may be without its call. */
#define _GNU_SOURCE
#include <dlfcn.h>
#include <fcntl.h>
#include <stdarg.h>
#include <stdint.h>
#include <stdio.h>
#include <stdlib.h>
#include <string.h>
#include <sys/stat.h>
#include <unistd.h>

enum { HEAD = 21, PATH = 4096 };

typedef int open_call(const char *, int, ...);
typedef int openat_call(int, const char *, int, ...);
typedef int close_call(int);
typedef ssize_t write_call(int, const void *, size_t);
typedef ssize_t pwrite_call(int, const void *, size_t, off_t);
typedef int fsync_call(int);
typedef int fdatasync_call(int);
typedef int ftruncate_call(int, off_t);
typedef int fallocate_call(int, int, off_t, off_t);
typedef int posix_fallocate_call(int, off_t, off_t);
typedef int renameat_call(int, const char *, int, const char *);
typedef int unlinkat_call(int, const char *, int);
#define NEXT(name) ((name##_call *)dlsym(RTLD_NEXT, #name))

static int events = -1;

static void note(char kind, int file, int64_t offset, const void *bytes, size_t length) {
    uint8_t *event = malloc(HEAD + length);
    int64_t its_length = (int64_t)length;
    if (!event) abort();
    event[0] = (uint8_t)kind;
    memcpy(event + 1, &file, 4);
    memcpy(event + 5, &offset, 8);
    memcpy(event + 13, &its_length, 8);
    if (length > 0) memcpy(event + HEAD, bytes, length);
    if (NEXT(write)(events, event, HEAD + length) != (ssize_t)(HEAD + length)) abort();
    free(event);
}

__attribute__((constructor)) static void begin(void) {
    events = NEXT(open)(getenv("POWER_EVENTS"), O_WRONLY | O_CREAT | O_APPEND | O_CLOEXEC, 0600);
    if (events < 0) abort();
    note('P', 0, 0, NULL, 0);
}

/* The name in the folder of this descriptor, "" for the folder itself; NULL for all that is elsewhere. */
static const char *name_of(int file, char path[PATH]) {
    char link[64];
    const char *folder = getenv("POWER_FOLDER");
    snprintf(link, sizeof link, "/proc/self/fd/%d", file);
    ssize_t length = readlink(link, path, PATH - 1);
    size_t prefix = strlen(folder);
    if (length < (ssize_t)prefix || strncmp(path, folder, prefix) != 0) return NULL;
    path[length] = 0;
    if (path[prefix] == 0) return path + prefix;
    return path[prefix] == '/' ? path + prefix + 1 : NULL;
}

static int is_of_the_folder(int file) {
    char path[PATH];
    return name_of(file, path) != NULL;
}

static int is_the_folder(int file) {
    char path[PATH];
    const char *name = name_of(file, path);
    return name && !*name;
}

static int opened(int file) {
    char path[PATH];
    const char *name = file < 0 ? NULL : name_of(file, path);
    if (name) note('O', file, 0, name, strlen(name));
    return file;
}

int open(const char *path, int flags, ...) {
    va_list more;
    va_start(more, flags);
    mode_t mode = flags & O_CREAT ? va_arg(more, mode_t) : 0;
    va_end(more);
    return opened(NEXT(open)(path, flags, mode));
}

int openat(int folder, const char *name, int flags, ...) {
    va_list more;
    va_start(more, flags);
    mode_t mode = flags & O_CREAT ? va_arg(more, mode_t) : 0;
    va_end(more);
    if (is_the_folder(folder) && !strchr(name, '/')) {
        int is_there = faccessat(folder, name, F_OK, 0) == 0;
        if (flags & O_CREAT && !is_there) note('M', 0, 0, name, strlen(name));
        if (flags & O_TRUNC && is_there) note('Z', 0, 0, name, strlen(name));
    }
    return opened(NEXT(openat)(folder, name, flags, mode));
}

int close(int file) {
    if (file >= 0 && is_of_the_folder(file)) note('C', file, 0, NULL, 0);
    return NEXT(close)(file);
}

ssize_t pwrite(int file, const void *bytes, size_t length, off_t offset) {
    if (is_of_the_folder(file)) note('W', file, offset, bytes, length);
    return NEXT(pwrite)(file, bytes, length, offset);
}

ssize_t write(int file, const void *bytes, size_t length) {
    if (is_of_the_folder(file)) note('W', file, lseek(file, 0, SEEK_CUR), bytes, length);
    return NEXT(write)(file, bytes, length);
}

int fsync(int file) {
    int answer = NEXT(fsync)(file);
    if (answer == 0 && is_of_the_folder(file)) note('S', file, 0, NULL, 0);
    return answer;
}

int fdatasync(int file) {
    int answer = NEXT(fdatasync)(file);
    if (answer == 0 && is_of_the_folder(file)) note('S', file, 0, NULL, 0);
    return answer;
}

int ftruncate(int file, off_t length) {
    if (is_of_the_folder(file)) note('T', file, length, NULL, 0);
    return NEXT(ftruncate)(file, length);
}

int fallocate(int file, int mode, off_t offset, off_t length) {
    if (is_of_the_folder(file) && mode == 0) note('G', file, offset + length, NULL, 0);
    return NEXT(fallocate)(file, mode, offset, length);
}

int posix_fallocate(int file, off_t offset, off_t length) {
    if (is_of_the_folder(file)) note('G', file, offset + length, NULL, 0);
    return NEXT(posix_fallocate)(file, offset, length);
}

int renameat(int folder, const char *name, int new_folder, const char *new_name) {
    size_t length = strlen(name), new_length = strlen(new_name);
    char names[2 * PATH];
    if (is_the_folder(folder)) {
        if (!is_the_folder(new_folder) || length + new_length > sizeof names) abort();
        memcpy(names, name, length);
        memcpy(names + length, new_name, new_length);
        note('R', 0, (int64_t)length, names, length + new_length);
    }
    return NEXT(renameat)(folder, name, new_folder, new_name);
}

int unlinkat(int folder, const char *name, int flags) {
    int is_there = faccessat(folder, name, F_OK, 0) == 0;
    if (is_there && is_the_folder(folder)) note('U', 0, 0, name, strlen(name));
    return NEXT(unlinkat)(folder, name, flags);
}

/* The same calls, as programs name them whose offsets have 64 bits by _FILE_OFFSET_BITS. */
int open64(const char *, int, ...) __attribute__((alias("open")));
int openat64(int, const char *, int, ...) __attribute__((alias("openat")));
ssize_t pwrite64(int, const void *, size_t, off_t) __attribute__((alias("pwrite")));
int ftruncate64(int, off_t) __attribute__((alias("ftruncate")));
int fallocate64(int, int, off_t, off_t) __attribute__((alias("fallocate")));
int posix_fallocate64(int, off_t, off_t) __attribute__((alias("posix_fallocate")));
