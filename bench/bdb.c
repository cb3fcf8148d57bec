/* Makes what a crash leaves of a Berkeley DB environment: a B-tree of 65,536 records of 8 to 16 bytes, updated by transactions of
 * eight updates each, sixteen at a time, until the log has as many bytes as asked for. Then the process ends without a word, and the
 * last sixteen transactions are unfinished. bench/engines.py compiles and runs this, and times db_recover on the result.
 *
 * usage: bdb FOLDER BYTES   prints `bytes N updates N` */
#include <db.h>
#include <stdio.h>
#include <stdlib.h>
#include <string.h>
#include <unistd.h>

enum { RECORDS = 65536, UPDATES = 8, TOGETHER = 16 };

static DB_ENV *env;
static DB *db;
static unsigned long long state = 1;

static void must(int error, const char *what)
{
    if (error != 0) {
        fprintf(stderr, "%s: %s\n", what, db_strerror(error));
        exit(1);
    }
}

static unsigned next_number(void)
{
    state = state * 6364136223846793005ull + 1442695040888963407ull;
    return (unsigned)(state >> 33);
}

static void put(DB_TXN *transaction, unsigned key_number)
{
    unsigned char value[16] = {0};
    DBT key, data;
    memset(&key, 0, sizeof key);
    memset(&data, 0, sizeof data);
    unsigned n = next_number();
    memcpy(value, &n, sizeof n);
    unsigned char name[4] = {(unsigned char)(key_number >> 24), (unsigned char)(key_number >> 16), (unsigned char)(key_number >> 8),
        (unsigned char)key_number};
    key.data = name;
    key.size = sizeof name;
    data.data = value;
    data.size = 8 + n % 9;
    must(db->put(db, transaction, &key, &data, 0), "put");
}

static unsigned long long log_bytes(void)
{
    DB_LSN lsn;
    DB_LOG_STAT *stat;
    memset(&lsn, 0, sizeof lsn);
    must(env->log_stat(env, &stat, 0), "log_stat");
    unsigned long long bytes = (unsigned long long)(stat->st_cur_file - 1) * stat->st_lg_size + stat->st_cur_offset;
    free(stat);
    return bytes;
}

int main(int argc, char **argv)
{
    if (argc != 3) {
        fprintf(stderr, "usage: bdb FOLDER BYTES\n");
        return 2;
    }
    unsigned long long wanted = strtoull(argv[2], NULL, 10);
    must(db_env_create(&env, 0), "db_env_create");
    must(env->set_cachesize(env, 0, 64 << 20, 1), "set_cachesize");
    must(env->set_flags(env, DB_TXN_WRITE_NOSYNC, 1), "set_flags");
    must(env->open(env, argv[1], DB_CREATE | DB_INIT_TXN | DB_INIT_LOG | DB_INIT_MPOOL, 0600), "open");
    must(db_create(&db, env, 0), "db_create");
    must(db->open(db, NULL, "records", NULL, DB_BTREE, DB_CREATE | DB_AUTO_COMMIT, 0600), "open records");
    DB_TXN *transaction;
    must(env->txn_begin(env, NULL, &transaction, 0), "begin");
    for (unsigned key = 0; key < RECORDS; key++)
        put(transaction, key);
    must(transaction->commit(transaction, 0), "commit");
    must(env->txn_checkpoint(env, 0, 0, DB_FORCE), "checkpoint");
    unsigned long long start = log_bytes(), updates = 0;
    unsigned range = RECORDS / TOGETHER;
    DB_TXN *open[TOGETHER];
    for (unsigned seat = 0; seat < TOGETHER; seat++)
        must(env->txn_begin(env, NULL, &open[seat], 0), "begin");
    for (unsigned round = 1; log_bytes() - start < wanted; round++) {
        for (unsigned seat = 0; seat < TOGETHER; seat++) {
            put(open[seat], seat * range + next_number() % range);
            updates++;
        }
        if (round % UPDATES == 0) {
            for (unsigned seat = 0; seat < TOGETHER; seat++) {
                must(open[seat]->commit(open[seat], 0), "commit");
                must(env->txn_begin(env, NULL, &open[seat], 0), "begin");
            }
        }
    }
    must(env->log_flush(env, NULL), "log_flush");
    printf("bytes %llu updates %llu\n", log_bytes() - start, updates);
    fflush(stdout);
    _exit(0);
}
