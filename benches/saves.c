/* Measures saves of a store that stays open: after no change, after one change, and after a hundred changes. Each save is on the disk when
 * its call returns.
 *
 * cc -O2 -DHAVE_GDBM .. benches/saves.c -lgdbm .. -o saves, with one -DHAVE_ for the installed store (benches/run does it)
 * usage: saves FILE N ROUNDS   prints three medians in microseconds; FILE is a store with the pairs 0 to N - 1 of benches/pairs.h */
#include "pairs.h"
#include <stdio.h>
#include <stdlib.h>
#include <time.h>

enum { MOST_ROUNDS = 101 };

/* Each store has functions that open it, store one pair again, and save all pairs that were stored since the last save. They return 0 on
 * success. */
#ifdef HAVE_BODDURCI
#include "boddurci_files.h"

static boddurci_base *base;

static int opens(const char *path)
{
    boddurci_fault fault;
    base = boddurci_open_files(path, 0, &fault);
    return base == NULL;
}

static int stores(void)
{
    uint32_t status = boddurci_store(boddurci_take(base), (const uint8_t *)key, KEY_BYTES, (const uint8_t *)value, VALUE_BYTES, 1);
    boddurci_give(base);
    return status != BODDURCI_DONE;
}

static int saves(void)
{
    boddurci_fault fault;
    return boddurci_save(base, &fault) != BODDURCI_DONE || fault.system != 0;
}
#endif

#ifdef HAVE_GDBM
#include <gdbm.h>

static GDBM_FILE db;

static int opens(const char *path)
{
    db = gdbm_open(path, 0, GDBM_WRITER, 0644, NULL);
    return db == NULL;
}

static int stores(void)
{
    datum name = {key, KEY_BYTES}, data = {value, VALUE_BYTES};
    return gdbm_store(db, name, data, GDBM_REPLACE);
}

static int saves(void)
{
    return gdbm_sync(db);
}
#endif

#ifdef HAVE_LMDB
#include <lmdb.h>

static MDB_env *env;
static MDB_txn *txn;
static MDB_dbi dbi;

static int opens(const char *path)
{
    return mdb_env_create(&env) || mdb_env_set_mapsize(env, (size_t)4 << 30) || mdb_env_open(env, path, MDB_NOSUBDIR, 0644)
        || mdb_txn_begin(env, NULL, 0, &txn) || mdb_dbi_open(txn, NULL, 0, &dbi);
}

static int stores(void)
{
    MDB_val name = {KEY_BYTES, key}, data = {VALUE_BYTES, value};
    return mdb_put(txn, dbi, &name, &data, 0);
}

static int saves(void)
{
    return mdb_txn_commit(txn) || mdb_txn_begin(env, NULL, 0, &txn);
}
#endif

#ifdef HAVE_SQLITE
#include <sqlite3.h>

static sqlite3 *db;
static sqlite3_stmt *step;

static int opens(const char *path)
{
    return sqlite3_open(path, &db) || sqlite3_prepare_v2(db, "insert or replace into pairs values (?, ?)", -1, &step, NULL)
        || sqlite3_exec(db, "begin", NULL, NULL, NULL);
}

static int stores(void)
{
    sqlite3_bind_blob(step, 1, key, KEY_BYTES, SQLITE_STATIC);
    sqlite3_bind_blob(step, 2, value, VALUE_BYTES, SQLITE_STATIC);
    int bad = sqlite3_step(step) != SQLITE_DONE;
    return sqlite3_reset(step) || bad;
}

static int saves(void)
{
    return sqlite3_exec(db, "commit; begin", NULL, NULL, NULL);
}
#endif

static double now(void)
{
    struct timespec t;
    clock_gettime(CLOCK_MONOTONIC, &t);
    return (double)t.tv_sec * 1e6 + (double)t.tv_nsec * 1e-3;
}

static int by_size(const void *one, const void *other)
{
    double a = *(const double *)one, b = *(const double *)other;
    return (a > b) - (a < b);
}

/* Returns the median time of a save after `changes` changes. Each round changes different pairs. */
static double median(unsigned changes, unsigned n, unsigned rounds)
{
    double times[MOST_ROUNDS];
    for (unsigned round = 0; round < rounds; round++) {
        for (unsigned i = 0; i < changes; i++) {
            make((unsigned)(mixed((uint64_t)round << 32 | i) % n), (char)(changes + round));
            if (stores())
                exit(3);
        }
        double from = now();
        if (saves())
            exit(4);
        times[round] = now() - from;
    }
    qsort(times, rounds, sizeof *times, by_size);
    return times[rounds / 2];
}

int main(int argc, char **argv)
{
    if (argc != 4)
        return 64;
    unsigned n = (unsigned)strtoul(argv[2], NULL, 10), rounds = (unsigned)strtoul(argv[3], NULL, 10);
    if (n == 0 || rounds == 0 || rounds > MOST_ROUNDS || opens(argv[1]) || saves())
        return 2;
    static const unsigned counts[3] = {0, 1, 100};
    for (unsigned i = 0; i < 3; i++)
        printf("%.1f%c", median(counts[i], n, rounds), i == 2 ? '\n' : ' ');
    return 0;
}
