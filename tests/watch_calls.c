/* Loaded before a program (LD_PRELOAD), counts its calls on the folder that WATCHED names and on the files in it:
 *
 *   KILL_BEFORE  kills the program before the call with this number, from 1 on
 *   KILL_WITHIN  kills it when half of that call is done if the call is a write, and after any other call
 *   KILL_AFTER   kills it after that call
 *   FAIL_AT      the call with this number does nothing, and fails with EIO
 *   CALLS        a file in which each call that changed or synced something is noted, a line each, and one that
 *                FAIL_AT named, with the file if it is a read
 *
 * Build: cc -O1 -shared -fPIC -o watch_calls.so watch_calls.c -ldl */
#define _GNU_SOURCE
#include <dlfcn.h>
#include <errno.h>
#include <fcntl.h>
#include <signal.h>
#include <stdarg.h>
#include <stdint.h>
#include <stdio.h>
#include <stdlib.h>
#include <string.h>
#include <unistd.h>

enum { MOST_FILES = 1024 };

static long calls;
static char *names[MOST_FILES]; /* of each watched file that is open */
static const char *read_name;   /* of the file that is about to be read, else NULL */

#define NEXT(type, name) ((type)dlsym(RTLD_NEXT, name))
typedef int open_call(const char *, int, ...);
typedef int file_call(int);
typedef int path_call(const char *);
typedef ssize_t read_call(int, void *, size_t);
typedef ssize_t write_call(int, const void *, size_t);
typedef int cut_call(int, off_t);
typedef int rename_call(const char *, const char *);

/* What a path is called in the watched folder, `.` if it is the folder; NULL if it lies elsewhere. */
static const char *name_of(const char *path) {
    const char *folder = getenv("WATCHED");
    size_t length = folder ? strlen(folder) : 0;
    if (length == 0 || strncmp(path, folder, length) != 0)
        return NULL;
    if (path[length] == 0)
        return ".";
    return path[length] == '/' ? path + length + 1 : NULL;
}

static const char *open_name(int file) { return file >= 0 && file < MOST_FILES ? names[file] : NULL; }

static int is_at(const char *setting) {
    const char *number = getenv(setting);
    return number && calls == atol(number);
}

/* Notes a call, and as hexadecimal digits the bytes that it wrote. */
static void note(const uint8_t *bytes, ssize_t count, const char *format, ...) {
    int error = errno;
    FILE *notes = getenv("CALLS") ? fopen(getenv("CALLS"), "a") : NULL;
    if (!notes)
        return;
    va_list more;
    va_start(more, format);
    vfprintf(notes, format, more);
    va_end(more);
    for (ssize_t at = 0; at < count; at++)
        fprintf(notes, "%02x", bytes[at]);
    fputc('\n', notes);
    fclose(notes);
    errno = error;
}

/* Counts a call that is about to be made. Whether it is to fail. */
static int begins(void) {
    calls++;
    if (is_at("KILL_BEFORE"))
        raise(SIGKILL);
    if (!is_at("FAIL_AT"))
        return 0;
    note(NULL, 0, read_name ? "fail read %s" : "fail", read_name);
    errno = EIO;
    return 1;
}

static void ends(void) {
    int error = errno;
    if (is_at("KILL_AFTER") || is_at("KILL_WITHIN"))
        raise(SIGKILL);
    errno = error;
}

static int open_watched(open_call *call, const char *name, const char *path, int flags, mode_t mode) {
    if (begins())
        return -1;
    int file = call(path, flags, mode);
    if (file >= MOST_FILES)
        abort();
    if (file >= 0)
        names[file] = strdup(name);
    if (file >= 0 && flags & O_CREAT)
        note(NULL, 0, "make %s", name);
    ends();
    return file;
}

int open(const char *path, int flags, ...) {
    va_list more;
    va_start(more, flags);
    mode_t mode = flags & O_CREAT ? va_arg(more, mode_t) : 0;
    va_end(more);
    open_call *call = NEXT(open_call *, "open");
    const char *name = name_of(path);
    return name ? open_watched(call, name, path, flags, mode) : call(path, flags, mode);
}

ssize_t read(int file, void *bytes, size_t length) {
    read_call *call = NEXT(read_call *, "read");
    if (!open_name(file))
        return call(file, bytes, length);
    read_name = open_name(file);
    int fails = begins();
    read_name = NULL;
    if (fails)
        return -1;
    ssize_t count = call(file, bytes, length);
    ends();
    return count;
}

ssize_t write(int file, const void *bytes, size_t length) {
    write_call *call = NEXT(write_call *, "write");
    if (!open_name(file))
        return call(file, bytes, length);
    if (begins())
        return -1;
    int is_half = is_at("KILL_WITHIN");
    ssize_t count = call(file, bytes, is_half ? length / 2 : length);
    if (is_half)
        raise(SIGKILL);
    if (count > 0)
        note(bytes, count, "write %s %lld ", open_name(file), (long long)(lseek(file, 0, SEEK_CUR) - count));
    ends();
    return count;
}

int ftruncate(int file, off_t length) {
    cut_call *call = NEXT(cut_call *, "ftruncate");
    if (!open_name(file))
        return call(file, length);
    if (begins())
        return -1;
    int failed = call(file, length);
    if (!failed)
        note(NULL, 0, "cut %s %lld", open_name(file), (long long)length);
    ends();
    return failed;
}

static int sync_watched(file_call *call, int file) {
    if (!open_name(file))
        return call(file);
    if (begins())
        return -1;
    int failed = call(file);
    if (!failed)
        note(NULL, 0, "sync %s", open_name(file));
    ends();
    return failed;
}

int fsync(int file) { return sync_watched(NEXT(file_call *, "fsync"), file); }

int fdatasync(int file) { return sync_watched(NEXT(file_call *, "fdatasync"), file); }

int close(int file) {
    file_call *call = NEXT(file_call *, "close");
    if (!open_name(file))
        return call(file);
    if (begins())
        return -1;
    free(names[file]);
    names[file] = NULL;
    int failed = call(file);
    ends();
    return failed;
}

int rename(const char *path, const char *new_path) {
    rename_call *call = NEXT(rename_call *, "rename");
    const char *name = name_of(path), *new_name = name_of(new_path);
    if (!name || !new_name)
        return call(path, new_path);
    if (begins())
        return -1;
    int failed = call(path, new_path);
    if (!failed)
        note(NULL, 0, "rename %s %s", name, new_name);
    ends();
    return failed;
}

int unlink(const char *path) {
    path_call *call = NEXT(path_call *, "unlink");
    const char *name = name_of(path);
    if (!name)
        return call(path);
    if (begins())
        return -1;
    int failed = call(path);
    if (!failed)
        note(NULL, 0, "remove %s", name);
    ends();
    return failed;
}
