/* The audit of a folder that nobody has open. It reads the files as they are, and recovers and changes nothing. */
#define _FILE_OFFSET_BITS 64
#include "bank.h"

#include <stdio.h>
#include <stdlib.h>
#include <string.h>

struct bytes {
    uint8_t *at;
    size_t length;
};

/* The whole file. Ends the program if it cannot be read. */
static struct bytes read_file(const char *folder, const char *name) {
    char path[4096];
    struct bytes bytes = {NULL, 0};
    snprintf(path, sizeof path, "%s/%s", folder, name);
    FILE *file = fopen(path, "rb");
    if (file && fseek(file, 0, SEEK_END) == 0) bytes.length = (size_t)ftell(file);
    if (file) bytes.at = malloc(bytes.length + 1);
    if (file) rewind(file);
    if (!bytes.at || fread(bytes.at, 1, bytes.length, file) != bytes.length) {
        perror(path);
        exit(1);
    }
    fclose(file);
    return bytes;
}

struct aries_fault audit_folder(const char *folder) {
    struct bytes log = read_file(folder, "log"), store = read_file(folder, "store"), base = {NULL, 0};
    struct aries_record none;
    struct aries_read read;
    struct aries_fault fault = aries_records(log.at, log.length, 0, &none, 0, &read);
    if (fault.number == ARIES_OK && read.base_lsn == 0) {
        fault = aries_audit(log.at, log.length, store.at, store.length);
    } else if (fault.number == ARIES_OK) {
        char name[32];
        snprintf(name, sizeof name, "base-%llu", (unsigned long long)read.base_lsn);
        base = read_file(folder, name);
        fault = aries_audit_from(log.at, log.length, store.at, store.length, base.at, base.length);
    }
    free(log.at);
    free(store.at);
    free(base.at);
    return fault;
}
