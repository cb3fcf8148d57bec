/*
 * aries_files.h: a folder with a log and a store that survives a power cut. For C99 and later, C++ and POSIX, over
 * aries.h. It is tested, not proved. docs/FILES.md describes the files, the protocol, and why each step is safe.
 *
 * WHAT IT DOES. An engine that writes a log and pages needs files. These calls open the files (repair and recovery
 * included), make the log durable, write pages, set the master, and begin a new log. Each call may be interrupted
 * anywhere, any number of times. Pages in memory, locks and transactions are left to the engine.
 *
 * THE FOLDER. N is the base LSN of the log, 0 for a log of version 1.
 *
 *     log        the log                           store      the store
 *     base-N     the base store, if N is above 0   lock       is locked while the folder is open
 *     sums-N     how far the log is whole          pages      a copy of the last batch of pages
 *
 * sums-N and pages exist only while the folder is open, and after a crash. aries_files_close removes them: a closed
 * folder is a plain log and a plain store. A folder that has only these, such as a backup, can be opened. After a
 * crash the folder recovers itself when it is opened: run no other program on it before it was opened and closed. If
 * one has changed pages, aries_files_open returns ARIES_FILES_FOREIGN. What one has only appended to the log is cut
 * off.
 *
 * WHAT IS ASSUMED OF THE DISK. What a successful fsync or fdatasync covers stays on the disk. Everything else may be
 * there or not after a power cut, in any order: single sectors of 512 bytes, sizes of files, renames. Bytes that are
 * missing read as zeros or as anything. A sector that was being written is old or new, and no other bytes change.
 *
 * ERRORS. Each call returns 0 or a number below. After ARIES_FILES_IO and ARIES_FILES_MEMORY the handle is stopped:
 * from then on each call returns the same number and does nothing. (A failed sync must not be repeated, because the
 * system may have dropped what it could not write.) Close the handle, remove the cause, and open the folder again. Then
 * the log has everything that was durable, and of the records after that either none or the first few.
 *
 * THREADS. Only one thread at a time may use a handle. Threads may use different handles at the same time.
 */
#ifndef ARIES_FILES_H
#define ARIES_FILES_H

#include "aries.h"

#ifdef __cplusplus
extern "C" {
#endif

typedef struct aries_files aries_files;

enum {
    ARIES_FILES_OK = 0,
    ARIES_FILES_IO = 1,        /* the system refused something; errno says why: ENOSPC, EIO, EACCES, and others */
    ARIES_FILES_MEMORY = 2,    /* memory was refused */
    ARIES_FILES_BUSY = 3,      /* another handle has the folder open, or another program has locked its log */
    ARIES_FILES_MISSING = 4,   /* there is no log and page_count is 0, or only one of log and store is there */
    ARIES_FILES_DAMAGED = 5,   /* the log lacks what was durable; no power cut does that. Nothing was changed */
    ARIES_FILES_FAULT = 6,     /* the log or the store is not lawful: see `fault`. At most torn pages were repaired */
    ARIES_FILES_MISUSE = 7,    /* the arguments are not allowed here. Nothing was done */
    ARIES_FILES_UNFINISHED = 8, /* no archive, because a transaction is unfinished or in doubt. Nothing was done */
    ARIES_FILES_FOREIGN = 9    /* another program has written to the folder before it was closed, or a recovery in
                                * place was interrupted there: see docs/FILES.md. Nothing was changed */
};

/* Flags. They may differ from one opening to the next. */
enum {
    /* No sums-N, or no file of pages. These two are for tests and benchmarks: without sums-N a power cut has to leave
     * the log in order, and without the file of pages it has to leave each page whole. */
    ARIES_FILES_NO_SUMS = 1,
    ARIES_FILES_NO_PAGES = 2,
    /* A commit syncs one file instead of two: sums-N also gets the frames, up to 1 MiB of them. After a power cut the
     * log without sums-N may lack commits. */
    ARIES_FILES_ONE_SYNC = 4
};

/* What was found, and what was done. The pointers are valid until the folder is closed or archived. */
struct aries_files_opened {
    struct aries_fault fault;         /* with ARIES_FILES_FAULT */
    struct aries_recovered recovered; /* what the recovery did */
    uint64_t cut;                     /* bytes cut off the end of the log: a torn tail, or more */
    uint64_t restored;                /* torn pages that were repaired */
    uint64_t base_lsn, last_lsn;      /* of the log; the next record has last_lsn + 1 */
    uint64_t master;                  /* of the store */
    uint32_t page_count;
    size_t log_length, store_length;
    const uint8_t *log;               /* the log as it is in the file now */
    const uint8_t *store;             /* the store as it is in the file now; page n is at 24 + 1,024 n */
    const uint32_t *in_doubt;         /* the transactions in doubt, recovered.in_doubt of them */
};

/*
 * Opens a folder. If there is no folder, or no log in it, it makes a database of page_count empty pages; with a
 * page_count of 0 it returns ARIES_FILES_MISSING instead. If there is a log, page_count is ignored; else it is at most
 * ARIES_PAGES. After ARIES_FILES_MISUSE nothing was made, not even the folder. The log is locked by flock until the
 * handle is gone, so `aries recover --in-place` and an open folder exclude each other. Everything in *opened is on the
 * disk when this returns. If it fails, *files is NULL and nothing stays open.
 */
int aries_files_open(const char *folder, uint32_t flags, uint32_t page_count, aries_files **files,
                     struct aries_files_opened *opened);

/*
 * Appends whole frames to the log. Their LSNs follow each other, and the first is the one after the last LSN. They are
 * durable after the next aries_files_sync.
 */
int aries_files_append(aries_files *files, const uint8_t *frames, size_t length);

/* Makes everything that was appended durable. To acknowledge many commits at once, append them all and sync once. */
int aries_files_sync(aries_files *files);

/* Returns the LSN of the last record that is durable. */
uint64_t aries_files_durable(const aries_files *files);

/*
 * Writes the images of `count` pages, 1,024 bytes each; no page may occur twice. If a PageLSN is not durable yet, it
 * syncs the log first. When this returns, the images are on the disk, and a checkpoint that begins from now on need not
 * list these pages. After a power cut each page is the old image or the new one. If the PageLSN of an image is below
 * that of the page in the store, it returns ARIES_FILES_MISUSE, and writes none of the images.
 */
int aries_files_write_pages(aries_files *files, const uint8_t *images, size_t count);

/*
 * Makes the log durable, and then sets the master. It may be the LSN of the begin record of the last checkpoint whose
 * end record is in the log that was opened, or was appended; what it is already; or 0. With any other LSN the call
 * returns ARIES_FILES_MISUSE, and does nothing. aries_engine_checkpoint gives this LSN.
 */
int aries_files_set_master(aries_files *files, uint64_t master);

/*
 * Begins a new log of version 2 after the last LSN. base-N of the new log is what the pages hold now. Pages that the
 * store lacks are written, and the master becomes 0. In the new log no PrevLSN leads to the old one, and the numbers of
 * transactions may begin at 1 again. The old log and its base store are removed; to keep them, link them to other names
 * first. If the log has no records, nothing is changed. With any other result than 0, *opened is unchanged except for
 * its `fault`.
 */
int aries_files_archive(aries_files *files, struct aries_files_opened *opened);

/* Makes the log durable and audits the files, over the base store if there is one. The verdict is *fault. */
int aries_files_audit(aries_files *files, struct aries_fault *fault);

/*
 * Makes the log durable unless the handle is stopped, removes sums-N and pages, and frees the handle. Whatever this
 * returns, the handle is gone. If it does not return 0, the next opening repairs the folder, as after a crash.
 */
int aries_files_close(aries_files *files);

/* Returns the CRC-32C of some bytes. `crc` is that of the bytes before them, 0 if there are none. */
uint32_t aries_files_crc32c(uint32_t crc, const uint8_t *bytes, size_t length);

#ifdef __cplusplus
}
#endif
#endif
