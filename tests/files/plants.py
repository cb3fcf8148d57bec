"""Mistakes that are planted into bindings/c/aries_files.c and aries_files_disk.h, one at a time: a sync that is left out,
an order that is swapped, a check that is missing. tests/files.py tries whether check.c finds them.

Each has a name, what it is, the texts that it replaces, how check.c runs, and whether it is found: QUICK, within 2,000 crash
states; RARE, at a later one; NEVER, since the protocol does not need it, or since the disk is better than what is assumed.
"""
QUICK, RARE, NEVER = "quick", "rare", "never"

SMALL = ("--small", "--steps", "14", "--every", "3")
TWO_SYNCS, ONE_SYNC = ("--flags", "0"), ("--flags", "4")
AGAIN = (("--again", "--every", "3", "--flags", "4"),)
ANOTHER = (("--another", "--flags", "0"), ("--another", "--flags", "4"))


def ways(*options, has_errors=True):
    """The ways to run check.c, in turn until one finds the mistake."""
    return tuple((*options, *more) for more in ((), ("--errors",), SMALL) if has_errors or "--errors" not in more)


PLANTS = []


def plant(name, what, *edits, found=QUICK, runs=ways(*TWO_SYNCS)):
    PLANTS.append((name, what, edits, found, runs))


# What a protection is for.
plant("no-sums", "sums-N is left out", runs=ways("--flags", "1"))
plant("no-sums-in-order", "the same, on a disk that keeps the bytes of a log in order", found=NEVER,
      runs=ways("--flags", "1", "--disk", "1", has_errors=False))
plant("no-pages", "the file of pages is left out", runs=ways("--flags", "2"))
plant("no-pages-whole", "the same, on a disk that writes pages whole", found=NEVER,
      runs=ways("--flags", "2", "--disk", "2", has_errors=False))
plant("neither", "both are left out, on a disk that does both", found=NEVER,
      runs=ways("--flags", "3", "--disk", "3", has_errors=False))

# Syncs that are left out.
SYNC_SUMS = ("        if (!sync_file(files->sums)) return 0;\n    }\n", "    }\n")
SYNC_LOG = ("    if (!sync_file(files->log)) return 0;\n    files->ring_used = 0;", "    files->ring_used = 0;")
plant("new-file", "a new file is not synced before its rename",
      ("write_at(file, bytes, length, 0) && sync_file(file) &&", "write_at(file, bytes, length, 0) &&"))
plant("commit-sums", "commit: sums-N is not synced", SYNC_SUMS)
plant("commit-log", "commit: the log is not synced", SYNC_LOG)
plant("batch-pages", "batch: the file of pages is not synced", ("        if (!sync_file(files->pages)) return 0;\n", ""))
plant("batch-store", "batch: the store is not synced", ("page_lsn_of(image);\n    }\n    return sync_file(files->store);\n", "page_lsn_of(image);\n    }\n    return 1;\n"))
plant("repaired", "opening: repaired pages are not synced", ("at)) return 0;\n    }\n    return sync_file(files->store);\n", "at)) return 0;\n    }\n    return 1;\n"),
      found=RARE)
plant("master", "the master is not synced", ("bytes, 8, 16) || !sync_file(files->store)) return 0;", "bytes, 8, 16)) return 0;"))
plant("closing-folder", "closing: the folder is not synced",
      ('"pages")) return 0;\n    return sync_folder(&files->folder);', '"pages")) return 0;\n    return 1;'))
plant("making-folder", "making: the folder is not synced between store and log",
      ("make_store(files) && sync_folder(&files->folder);", "make_store(files);"))
plant("making-parent", "making: the parent of the folder is not synced", ("sync_parent(files) && ", ""))
plant("opening-all", "opening: no file is synced before it is read",
      ("    if (!sync_file(file)) return 0;\n    (void)posix", "    (void)posix"))
plant("opening-log", "opening: log is not synced before it is read",
      ("has_no_tail(files) && sync_to_read(files->log);", "has_no_tail(files);"))
for FILE, FOUND in (("store", RARE), ("pages", RARE)):
    plant(f"opening-{FILE}", f"opening: {FILE} is not synced before it is read",
          (f'open_synced(&files->folder, "{FILE}")', f'open_file(&files->folder, "{FILE}", 0)'), found=FOUND)
plant("opening-sums", "opening: sums-N is not synced before it is read",
      ('open_synced(&files->folder, name_of(name, "sums", files->base_lsn))',
       'open_file(&files->folder, name_of(name, "sums", files->base_lsn), 0)'))
plant("opening-cache", "opening: the cache is not dropped",
      ("    (void)posix_fadvise(file, 0, 0, POSIX_FADV_DONTNEED);\n", ""), found=RARE)
plant("again", "a failed sync is tried again",
      ("while ((status = fdatasync(file)) != 0 && errno == EINTR) continue;",
       "while ((status = fdatasync(file)) != 0 && errno == EIO) return fdatasync(file) == 0;"), found=RARE)
plant("opening-folder", "opening: the folder is not synced after sums-N and pages are made",
      ("found->is_newer_unfit) &&\n           sync_folder(&files->folder);", "found->is_newer_unfit);"))
CUT = ("return cut_file(files->log, found->end.end) && sync_file(files->log);", "return cut_file(files->log, found->end.end);")
plant("opening-cut", "opening: the cut and the tail are under one sync", CUT, found=NEVER)
plant("opening-cut-no-sums", "the same without sums-N, on a disk that keeps the bytes of a log in order", CUT, found=RARE,
      runs=ways("--flags", "1", "--disk", "1", has_errors=False))
plant("archive-before", "archive: the folder is not synced before the new log",
      ('    if (!sync_folder(&files->folder)) return 0;\n    file = put_file(&files->folder, "log"',
       '    file = put_file(&files->folder, "log"'), found=RARE)
SWITCHED = "    files->log = file;\n    if (!sync_folder(&files->folder)) return 0;\n"
plant("archive-after", "archive: the folder is not synced after the new log", (SWITCHED, "    files->log = file;\n"))

# Orders that are swapped.
plant("sync-order", "commit: the log is synced before sums-N",
      ("        if (!sync_file(files->sums)) return 0;\n    }\n    if (!sync_file(files->log)) return 0;\n",
       "        if (!sync_file(files->log) || !sync_file(files->sums)) return 0;\n"
       "    } else if (!sync_file(files->log)) return 0;\n"), found=NEVER)
plant("pages-first", "pages are written before their log is synced",
      ("    if (newest > files->durable.lsn && !sync_log(files)) return 0;\n", ""))
plant("store-first", "opening: pages are written before the tail is synced",
      ("sync_log(files) && write_changed(files, files->store_bytes, it->store);",
       "write_changed(files, files->store_bytes, it->store) && sync_log(files);"))
plant("master-first", "the master is set before the log is synced",
      ("if (!sync_log(files) || !write_at(files->store, bytes, 8, 16) || !sync_file(files->store)) return 0;",
       "if (!write_at(files->store, bytes, 8, 16) || !sync_file(files->store) || !sync_log(files)) return 0;"))
BASE = ('    int file = put_file(&files->folder, name_of(name, "base", start.lsn), base, files->store_length);\n'
        "    if (file < 0) return 0;\n    close_file(&file);\n")
plant("base-last", "archive: the base store comes after the new log", (BASE, "    int file;\n"),
      (SWITCHED, SWITCHED + BASE.replace("int file", "file") + "    if (!sync_folder(&files->folder)) return 0;\n"))
SUMS = "    if (!(files->flags & ARIES_FILES_NO_SUMS) && !make_sums(files, start.lsn, &start)) return 0;\n"
plant("sums-last", "archive: sums-N comes after the new log", (SUMS, ""),
      (SWITCHED, SWITCHED + SUMS + "    if (!sync_folder(&files->folder)) return 0;\n"), found=NEVER)
plant("master-last", "archive: the master becomes 0 after the new log",
      ("write_changed(files, store, it->store) && set_master(files, 0);", "write_changed(files, store, it->store);"),
      ("    if (is_done) files->log_bytes = log;\n",
       "    is_done = is_done && set_master(files, 0);\n    if (is_done) files->log_bytes = log;\n"))
plant("removed-first", "archive: the old base store and sums-N are removed before the new log",
      ('    file = put_file(&files->folder, "log", header, length);\n',
       "    uint64_t base_lsn = files->base_lsn;\n    files->base_lsn = start.lsn;\n    remove_leftovers(files);\n"
       "    files->base_lsn = base_lsn;\n"
       '    file = put_file(&files->folder, "log", header, length);\n'), found=RARE)

# Checks that are missing, and other forms of the files.
plant("one-entry", "sums-N has one entry", ("entry, HEAD, files->entry % 2 * BLOCK", "entry, HEAD, 0"))
plant("one-sector", "both entries are in one sector", ("files->entry % 2 * BLOCK", "files->entry % 2 * HEAD"),
      ("number_of_entry(sums + BLOCK)", "number_of_entry(sums + HEAD)"), ("? sums : sums + BLOCK", "? sums : sums + HEAD"),
      ("? sums + BLOCK : sums", "? sums + HEAD : sums"), found=NEVER)
plant("log-unchecked", "the CRC of the log is not compared",
      ("    return crc32c(0, log, (size_t)number_at(entry + 16, 8)) == number_at(entry + 24, 4);\n", "    return 1;\n"))
plant("batch-unchecked", "the CRC of the images is not compared",
      ("           number_at(batch + 24, 4) == crc32c(0, batch + BLOCK, (size_t)count * ARIES_PAGE_BYTES) &&\n", ""), found=RARE)
plant("batch-of-others", "the log of a batch is not compared", (" && log_end <= end &&", " &&"),
      ("number_at(batch + 20, 4) == crc32c(0, files->log_bytes, (size_t)log_end);", "1;"), found=RARE)
plant("batch-older", "an older image replaces a newer page",
      ("    if (page_lsn_of(page) > page_lsn_of(image)) return !has_sums || refuse(files, ARIES_FILES_FOREIGN);\n", ""), found=RARE)
plant("batch-newer", "only pages with another PageLSN are repaired",
      ("if (memcmp(page, image, ARIES_PAGE_BYTES) == 0) return 1;", "if (page_lsn_of(page) == page_lsn_of(image)) return 1;"), found=RARE)

# With one sync.
ONE = ways(*ONE_SYNC)
plant("ring-piece", "one sync: the piece is not synced",
      ("    if (!sync_file(files->sums)) return 0;\n    files->ring_used +=", "    files->ring_used +="), runs=ONE)
plant("ring-first", "one sync: the piece is synced before its frames are in the file of the log",
      ("    if (!write_log(files)) return 0;\n    if (!write_at(files->sums, files->piece", "    if (!write_at(files->sums, files->piece"),
      ("    if (!sync_file(files->sums)) return 0;\n    files->ring_used +=",
       "    if (!sync_file(files->sums) || !write_log(files)) return 0;\n    files->ring_used +="), runs=ONE)
plant("ring-log", "one sync: the ring is full, and the log is not synced", SYNC_LOG, runs=ONE)
plant("ring-entry", "one sync: the ring is full, and the new entry is not synced", SYNC_SUMS, runs=ONE)
plant("ring-crc", "one sync: the CRC of a piece is not compared",
      ("    if (crc != number_at(head + 24, 4)) return 0;\n", ""), runs=ONE)
plant("ring-closing", "one sync: closing does not sync the log",
      ("    if (files->ring && !sync_file(files->log)) return 0;\n", ""), runs=ONE)
plant("ring-opening", "one sync: at opening, pieces are not synced before the entry that covers them",
      ("        if (!sync_file(files->log)) return 0;\n    }\n    return put_pages", "    }\n    return put_pages"),
      (SYNC_LOG[0], "    if (files->appended.end != files->durable.end && !sync_file(files->log)) return 0;\n"
       "    files->ring_used = 0;"), runs=ONE)
plant("ring-unfit", "one sync: at opening, an entry that does not fit is not replaced",
      ("has_pieces || found->is_newer_unfit", "has_pieces"), runs=AGAIN)
PIECE = "number_at(head + 8, 8) != files->entry || number_at(head + 16, 8) != found->end.end"
plant("ring-number", "one sync: the entry of a piece is not compared", (PIECE, "number_at(head + 16, 8) != found->end.end"),
      found=NEVER, runs=ONE)
plant("ring-start", "one sync: the start of a piece is not compared", (PIECE, "number_at(head + 8, 8) != files->entry"),
      found=NEVER, runs=ONE)

# Another program recovers the log and the store in place after a crash.
plant("another-above", "another program: a page above the log is not refused",
      ("    if (has_page_above(files, passed.lsn)) return refuse(files, ARIES_FILES_FOREIGN);\n", ""), runs=ANOTHER)
plant("another-pieces", "another program: lost pieces are not audited",
      ("return !found->are_pieces_lost || are_pages_of_log(files, found);", "return 1;"), found=RARE, runs=ANOTHER[1:])
plant("old-pages", "opening: an old file of pages stays when sums-N is made",
      ("is_old = files->pages >= 0 && !found->has_sums;", "is_old = 0;"), found=RARE)
