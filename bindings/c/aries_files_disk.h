/*
 * aries_files_disk.h: numbers, CRC-32C and calls on files. A part of aries_files.c, which includes it.
 */
#ifndef ARIES_FILES_DISK_H
#define ARIES_FILES_DISK_H

#include <errno.h>
#include <fcntl.h>
#include <inttypes.h>
#include <stddef.h>
#include <stdint.h>
#include <stdio.h>
#include <stdlib.h>
#include <string.h>
#include <sys/file.h>
#include <sys/stat.h>
#include <unistd.h>

/* NUMBERS, CRC-32C, HEADS */

enum { HEAD = 32 }; /* bytes of an entry of sums-N, and of the heads of a piece and of a batch */

static void put_number(uint8_t *at, uint64_t number, int bytes) {
    for (; bytes > 0; number >>= 8) at[--bytes] = (uint8_t)number;
}

static uint64_t number_at(const uint8_t *at, int bytes) {
    uint64_t number = 0;
    for (int i = 0; i < bytes; i++) number = number << 8 | at[i];
    return number;
}

/* crc_tables[k][n] is the CRC of the byte n followed by k zeros. It is linear, so eight bytes determine all others. */
#define ONE(n, a, b, c, d, e, f, g, h) \
    (((n) & 1 ? a : 0u) ^ ((n) & 2 ? b : 0u) ^ ((n) & 4 ? c : 0u) ^ ((n) & 8 ? d : 0u) ^ ((n) & 16 ? e : 0u) ^ \
     ((n) & 32 ? f : 0u) ^ ((n) & 64 ? g : 0u) ^ ((n) & 128 ? h : 0u))
#define FOUR(n, ...) ONE(n, __VA_ARGS__), ONE(n + 1, __VA_ARGS__), ONE(n + 2, __VA_ARGS__), ONE(n + 3, __VA_ARGS__)
#define ROW(n, ...) FOUR(n, __VA_ARGS__), FOUR(n + 4, __VA_ARGS__), FOUR(n + 8, __VA_ARGS__), FOUR(n + 12, __VA_ARGS__)
#define ROWS(n, ...) ROW(n, __VA_ARGS__), ROW(n + 16, __VA_ARGS__), ROW(n + 32, __VA_ARGS__), ROW(n + 48, __VA_ARGS__)
#define TABLE(...) {ROWS(0, __VA_ARGS__), ROWS(64, __VA_ARGS__), ROWS(128, __VA_ARGS__), ROWS(192, __VA_ARGS__)}

static const uint32_t crc_tables[8][256] = {
    TABLE(0xf26b8303u, 0xe13b70f7u, 0xc79a971fu, 0x8ad958cfu, 0x105ec76fu, 0x20bd8edeu, 0x417b1dbcu, 0x82f63b78u),
    TABLE(0x13a29877u, 0x274530eeu, 0x4e8a61dcu, 0x9d14c3b8u, 0x3fc5f181u, 0x7f8be302u, 0xff17c604u, 0xfbc3faf9u),
    TABLE(0xa541927eu, 0x4f6f520du, 0x9edea41au, 0x38513ec5u, 0x70a27d8au, 0xe144fb14u, 0xc76580d9u, 0x8b277743u),
    TABLE(0xdd45aab8u, 0xbf672381u, 0x7b2231f3u, 0xf64463e6u, 0xe964b13du, 0xd725148bu, 0xaba65fe7u, 0x52a0c93fu),
    TABLE(0x38116facu, 0x7022df58u, 0xe045beb0u, 0xc5670b91u, 0x8f2261d3u, 0x1ba8b557u, 0x37516aaeu, 0x6ea2d55cu),
    TABLE(0xef306b19u, 0xdb8ca0c3u, 0xb2f53777u, 0x6006181fu, 0xc00c303eu, 0x85f4168du, 0x0e045bebu, 0x1c08b7d6u),
    TABLE(0x68032cc8u, 0xd0065990u, 0xa5e0c5d1u, 0x4e2dfd53u, 0x9c5bfaa6u, 0x3d5b83bdu, 0x7ab7077au, 0xf56e0ef4u),
    TABLE(0x493c7d27u, 0x9278fa4eu, 0x211d826du, 0x423b04dau, 0x847609b4u, 0x0d006599u, 0x1a00cb32u, 0x34019664u)};

static uint32_t crc_after(uint32_t crc, const uint8_t *at) {
    const uint32_t(*t)[256] = crc_tables;
    return t[7][(crc ^ at[0]) & 255] ^ t[6][(crc >> 8 ^ at[1]) & 255] ^ t[5][(crc >> 16 ^ at[2]) & 255] ^
           t[4][(crc >> 24 ^ at[3]) & 255] ^ t[3][at[4]] ^ t[2][at[5]] ^ t[1][at[6]] ^ t[0][at[7]];
}

static uint32_t crc_of_eights(uint32_t crc, const uint8_t *bytes, size_t count) {
    for (; count > 0; count--, bytes += 8) crc = crc_after(crc, bytes);
    return crc;
}

/* The CRC-32C of some bytes after bytes with this CRC. */
static uint32_t crc32c(uint32_t crc, const uint8_t *bytes, size_t length) {
    crc = crc_of_eights(~crc, bytes, length / 8);
    for (size_t i = length - length % 8; i < length; i++) crc = crc >> 8 ^ crc_tables[0][(crc ^ bytes[i]) & 255];
    return ~crc;
}

/* An entry and each head end with the CRC of their other bytes. */
static void seal(uint8_t *head) {
    put_number(head + HEAD - 4, crc32c(0, head, HEAD - 4), 4);
}

static int is_head(const uint8_t *head, const char *magic) {
    return memcmp(head, magic, strlen(magic)) == 0 && number_at(head + HEAD - 4, 4) == crc32c(0, head, HEAD - 4);
}

/* FILES: these return 0, -1 or NULL with errno if the system refuses something */

/* A folder, and the mode of new files in it. */
struct folder {
    int descriptor;
    mode_t mode;
};

static int write_at(int file, const uint8_t *bytes, size_t length, uint64_t offset) {
    while (length > 0) {
        ssize_t count = pwrite(file, bytes, length, (off_t)offset);
        if (count < 0 && errno == EINTR) continue;
        if (count == 0) errno = ENOSPC;
        if (count <= 0) return 0;
        bytes += count;
        offset += (uint64_t)count;
        length -= (size_t)count;
    }
    return 1;
}

static int read_all(int file, uint8_t *bytes, size_t length) {
    for (size_t done = 0; done < length;) {
        ssize_t count = pread(file, bytes + done, length - done, (off_t)done);
        if (count < 0 && errno == EINTR) continue;
        if (count == 0) errno = EIO;
        if (count <= 0) return 0;
        done += (size_t)count;
    }
    return 1;
}

static int sync_file(int file) {
    int status;
    while ((status = fdatasync(file)) != 0 && errno == EINTR) continue;
    return status == 0;
}

static int sync_folder(const struct folder *folder) {
    int status;
    while ((status = fsync(folder->descriptor)) != 0 && errno == EINTR) continue;
    return status == 0;
}

static int cut_file(int file, uint64_t length) {
    int status;
    while ((status = ftruncate(file, (off_t)length)) != 0 && errno == EINTR) continue;
    return status == 0;
}

static int open_file(const struct folder *folder, const char *name, int flags) {
    int file;
    flags |= O_RDWR | O_CLOEXEC | O_NOFOLLOW;
    while ((file = openat(folder->descriptor, name, flags, folder->mode)) < 0 && errno == EINTR) continue;
    return file;
}

static void close_file(int *file) {
    int error = errno;
    if (*file >= 0) close(*file);
    *file = -1;
    errno = error;
}

/* Locks a file until its descriptor is closed. If another program has locked it, errno is EWOULDBLOCK. */
static int lock_file(int file) {
    int status;
    while ((status = flock(file, LOCK_EX | LOCK_NB)) != 0 && errno == EINTR) continue;
    return status == 0;
}

/* Makes sure that the disk has what will be read: if a process was killed, only the cache of the system may have it.
 * After a failed sync that cache may have what the disk lacks, so it is dropped. */
static int sync_to_read(int file) {
    if (!sync_file(file)) return 0;
    (void)posix_fadvise(file, 0, 0, POSIX_FADV_DONTNEED);
    return 1;
}

static int open_synced(const struct folder *folder, const char *name) {
    int file = open_file(folder, name, 0);
    if (file >= 0 && !sync_to_read(file)) close_file(&file);
    return file;
}

/* Whether there is a file with this name; *status is of it. */
static int is_there(const struct folder *folder, const char *name, struct stat *status) {
    return fstatat(folder->descriptor, name, status, AT_SYMLINK_NOFOLLOW) == 0;
}

/* Returns the bytes of a whole file, or NULL. */
static uint8_t *read_file(int file, size_t *length) {
    struct stat status;
    if (fstat(file, &status) != 0) return NULL;
    *length = (size_t)status.st_size;
    uint8_t *bytes = malloc(*length + 1);
    if (bytes && read_all(file, bytes, *length)) return bytes;
    free(bytes);
    return NULL;
}

/* Makes a file, or replaces it: a power cut leaves the old one or the new one, and after a sync of the folder the new
 * one. It is locked before it has its name, since the log of an open folder is always locked. Returns its descriptor,
 * or -1. */
static int put_file(const struct folder *folder, const char *name, const uint8_t *bytes, size_t length) {
    char new_name[40];
    snprintf(new_name, sizeof new_name, "%s.new", name);
    int file = open_file(folder, new_name, O_CREAT | O_TRUNC);
    int is_put = file >= 0 && lock_file(file) && fchmod(file, folder->mode) == 0 &&
                 write_at(file, bytes, length, 0) && sync_file(file) &&
                 renameat(folder->descriptor, new_name, folder->descriptor, name) == 0;
    if (!is_put) close_file(&file);
    return file;
}

static int remove_file(const struct folder *folder, const char *name) {
    return unlinkat(folder->descriptor, name, 0) == 0 || errno == ENOENT;
}

static const char *name_of(char name[32], const char *kind, uint64_t base_lsn) {
    snprintf(name, 32, "%s-%" PRIu64, kind, base_lsn);
    return name;
}

#endif
