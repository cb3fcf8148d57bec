/* Loaded before a program: kills it at one of its calls that change files, before the call is done. Half of a write is
 * done first, but nothing of a page's image, 1,024 bytes, since the kernel writes these as a whole or not at all.
 *
 *   DIE_AT      at which of these calls, from 1 on
 *   DIE_FROM    counts only from the opening of the first file on whose name begins so
 *   DIE_MASTER  counts only from the first write of a master on
 *   DIE_PAGES   counts the images of pages alone, and kills after the call
 */
#define _GNU_SOURCE
#include <dlfcn.h>
#include <fcntl.h>
#include <signal.h>
#include <stdarg.h>
#include <stdlib.h>
#include <string.h>
#include <unistd.h>

enum { PAGE_IMAGE = 1024, STORE_HEADER = 24, MASTER = 8, MASTER_OFFSET = 16 };

typedef ssize_t pwrite_call(int, const void *, size_t, off_t);
typedef int openat_call(int, const char *, int, ...);
typedef int fsync_call(int);
typedef int fdatasync_call(int);
typedef int ftruncate_call(int, off_t);
typedef int renameat_call(int, const char *, int, const char *);
typedef int unlinkat_call(int, const char *, int);
#define NEXT(name) ((name##_call *)dlsym(RTLD_NEXT, #name))

static long counted;
static int has_begun;

static int is_last(void) {
    const char *at = getenv("DIE_AT");
    int is_to_begin = getenv("DIE_FROM") || getenv("DIE_MASTER");
    if (!at || (is_to_begin && !has_begun)) return 0;
    return ++counted == atol(at);
}

static void die_at_last(void) {
    if (!getenv("DIE_PAGES") && is_last()) raise(SIGKILL);
}

static int is_page(size_t length, off_t offset) {
    return length == PAGE_IMAGE && offset % PAGE_IMAGE == STORE_HEADER;
}

int openat(int folder, const char *name, int flags, ...) {
    const char *from = getenv("DIE_FROM");
    va_list more;
    va_start(more, flags);
    mode_t mode = flags & O_CREAT ? va_arg(more, mode_t) : 0;
    va_end(more);
    if (from && strncmp(name, from, strlen(from)) == 0) has_begun = 1;
    if (flags & O_CREAT) die_at_last();
    return NEXT(openat)(folder, name, flags, mode);
}

ssize_t pwrite(int file, const void *bytes, size_t length, off_t offset) {
    int are_pages_meant = getenv("DIE_PAGES") != NULL;
    if (getenv("DIE_MASTER") && length == MASTER && offset == MASTER_OFFSET) has_begun = 1;
    if ((is_page(length, offset) || !are_pages_meant) && is_last()) {
        if (are_pages_meant) NEXT(pwrite)(file, bytes, length, offset);
        else if (!is_page(length, offset)) NEXT(pwrite)(file, bytes, length / 2, offset);
        raise(SIGKILL);
    }
    return NEXT(pwrite)(file, bytes, length, offset);
}

int fsync(int file) {
    die_at_last();
    return NEXT(fsync)(file);
}

int fdatasync(int file) {
    die_at_last();
    return NEXT(fdatasync)(file);
}

int ftruncate(int file, off_t length) {
    die_at_last();
    return NEXT(ftruncate)(file, length);
}

int renameat(int folder, const char *name, int new_folder, const char *new_name) {
    die_at_last();
    return NEXT(renameat)(folder, name, new_folder, new_name);
}

int unlinkat(int folder, const char *name, int flags) {
    die_at_last();
    return NEXT(unlinkat)(folder, name, flags);
}

/* The same calls, as programs name them whose offsets have 64 bits by _FILE_OFFSET_BITS. */
int openat64(int, const char *, int, ...) __attribute__((alias("openat")));
ssize_t pwrite64(int, const void *, size_t, off_t) __attribute__((alias("pwrite")));
int ftruncate64(int, off_t) __attribute__((alias("ftruncate")));
