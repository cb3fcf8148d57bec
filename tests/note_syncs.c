/* Loaded before a program (LD_PRELOAD), notes what it syncs, a line `fsync PATH` each, in the file that SYNCS names; a sync
 * of a folder then fails with the errno FOLDER_ERRNO, where that is set, and those after the first with the errno
 * NEXT_FOLDER_ERRNO, where that is set too. Build: cc -O1 -shared -fPIC -o note_syncs.so note_syncs.c -ldl */
#define _GNU_SOURCE
#include <dlfcn.h>
#include <errno.h>
#include <fcntl.h>
#include <stdio.h>
#include <stdlib.h>
#include <sys/stat.h>
#include <unistd.h>

int fsync(int file) {
    char link[64], path[4096];
    snprintf(link, sizeof link, "/proc/self/fd/%d", file);
    ssize_t length = readlink(link, path, sizeof path);
    int notes = open(getenv("SYNCS"), O_CREAT | O_WRONLY | O_APPEND, 0644);
    if (length > 0)
        dprintf(notes, "fsync %.*s\n", (int)length, path);
    close(notes);
    struct stat what;
    static int folders;
    const char *fails = getenv("FOLDER_ERRNO"), *next = getenv("NEXT_FOLDER_ERRNO");
    if (fails && fstat(file, &what) == 0 && S_ISDIR(what.st_mode)) {
        errno = atoi(folders++ && next ? next : fails);
        return -1;
    }
    int (*sync)(int) = (int (*)(int))dlsym(RTLD_NEXT, "fsync");
    return sync(file);
}
