/* Measures increments of counters by processes that share one store. Each increment is on the disk before its process begins the next one,
 * or with -DLATER only in the page cache of the system. Each process opens the store once.
 *
 * cc -O2 -DHAVE_LMDB benches/shared.c -llmdb -o shared, with one -DHAVE_ for the store, and perhaps -DLATER (benches/run does it)
 * usage: shared PATH PROCESSES SECONDS
 *
 * It makes a store of COUNTERS counters at PATH, and prints the increments per second of all processes together. The status is 5 if the sum
 * of the counters is not the number of increments. */
#define _GNU_SOURCE
#include "pairs.h"
#include <fcntl.h>
#include <stdio.h>
#include <stdlib.h>
#include <sys/mman.h>
#include <sys/wait.h>
#include <time.h>
#include <unistd.h>

enum { COUNTERS = 20000, MOST_PROCESSES = 64 };

#ifdef LATER
enum { IS_LATER = 1 };
#else
enum { IS_LATER = 0 };
#endif

/* Each store has five functions, which return 0 on success. `begins` makes the store with all counters at 0, and closes it. A process calls
 * `opens`, then `increments` once per increment, and then `closes`. `sums` opens the store, adds the counters up, and closes it. */
#ifdef HAVE_BODDURCI
#include "boddurci_files.h"

static boddurci_shared *shared;
static uint32_t program;

static int begins(const char *path)
{
    boddurci_base *base = boddurci_open_files(path, 0, NULL);
    if (base == NULL)
        return 1;
    boddurci *db = boddurci_take(base);
    uint64_t zero = 0;
    uint32_t status = BODDURCI_DONE;
    for (unsigned i = 0; i < COUNTERS && status == BODDURCI_DONE; i++) {
        make_key(key, i);
        status = boddurci_store(db, (uint8_t *)key, KEY_BYTES, (uint8_t *)&zero, sizeof zero, 0);
    }
    boddurci_give(base);
    int bad = status != BODDURCI_DONE || boddurci_save(base, NULL) != BODDURCI_DONE;
    boddurci_close_files(base);
    return bad;
}

static int opens(const char *path)
{
    shared = boddurci_open_shared(path, IS_LATER ? BODDURCI_NO_FLUSH : 0, NULL);
    return shared == NULL || boddurci_shared_wait(shared, -1) != BODDURCI_DONE || boddurci_shared_stock(shared, "counter", &program) != BODDURCI_DONE;
}

static int increments(unsigned i)
{
    uint64_t end = 0, word;
    boddurci_fault fault;
    make_key(key, i);
    return boddurci_shared_run(shared, program, (uint8_t *)key, KEY_BYTES, BODDURCI_NO_BYTES, 0, 0, 0, &end, &word, &fault) != BODDURCI_DONE
        || end != 1 || fault.system != 0;
}

static int closes(void)
{
    boddurci_close_shared(shared);
    return 0;
}

static int sums(const char *path, uint64_t *sum)
{
    boddurci_base *base = boddurci_open_files(path, BODDURCI_READ_ONLY, NULL);
    int bad = base == NULL;
    for (unsigned i = 0; i < COUNTERS && !bad; i++) {
        uint64_t count = 0;
        size_t length;
        make_key(key, i);
        bad = boddurci_fetch(boddurci_take(base), (uint8_t *)key, KEY_BYTES, (uint8_t *)&count, sizeof count, &length) != BODDURCI_DONE;
        boddurci_give(base);
        *sum += count;
    }
    boddurci_close_files(base);
    return bad;
}
#endif

/* Each increment is a transaction, or has the lock of its key if it is not flushed. */
#ifdef HAVE_TDB
#include <signal.h>
#include <stdbool.h>
#include <sys/stat.h>
#include <tdb.h>

static TDB_CONTEXT *db;

static int put_in(uint64_t count)
{
    TDB_DATA of = {(unsigned char *)key, KEY_BYTES}, data = {(unsigned char *)&count, sizeof count};
    return tdb_store(db, of, data, TDB_REPLACE);
}

static int get_from(uint64_t *count)
{
    TDB_DATA of = {(unsigned char *)key, KEY_BYTES}, data = tdb_fetch(db, of);
    if (data.dsize != sizeof *count)
        return 1;
    memcpy(count, data.dptr, sizeof *count);
    free(data.dptr);
    return 0;
}

static int opens(const char *path)
{
    db = tdb_open(path, 10007, 0, O_RDWR | O_CREAT, 0644);
    return db == NULL;
}

static int closes(void)
{
    return tdb_close(db);
}

static int begins(const char *path)
{
    int bad = opens(path) || tdb_transaction_start(db);
    for (unsigned i = 0; i < COUNTERS && !bad; i++) {
        make_key(key, i);
        bad = put_in(0);
    }
    return bad || tdb_transaction_commit(db) || closes();
}

static int increments(unsigned i)
{
    uint64_t count;
    make_key(key, i);
    TDB_DATA of = {(unsigned char *)key, KEY_BYTES};
    if (IS_LATER)
        return tdb_chainlock(db, of) || get_from(&count) || put_in(count + 1) || tdb_chainunlock(db, of);
    return tdb_transaction_start(db) || get_from(&count) || put_in(count + 1) || tdb_transaction_commit(db);
}

static int sums(const char *path, uint64_t *sum)
{
    int bad = opens(path);
    for (unsigned i = 0; i < COUNTERS && !bad; i++) {
        uint64_t count = 0;
        make_key(key, i);
        bad = get_from(&count);
        *sum += count;
    }
    return bad || closes();
}
#endif

#ifdef HAVE_LMDB
#include <lmdb.h>

static MDB_env *env;
static MDB_dbi dbi;

static int opens(const char *path)
{
    MDB_txn *txn;
    return mdb_env_create(&env) || mdb_env_set_mapsize(env, (size_t)1 << 30) || mdb_env_open(env, path, MDB_NOSUBDIR | (IS_LATER ? MDB_NOSYNC : 0), 0644)
        || mdb_txn_begin(env, NULL, 0, &txn) || mdb_dbi_open(txn, NULL, 0, &dbi) || mdb_txn_commit(txn);
}

static int closes(void)
{
    mdb_env_close(env);
    return 0;
}

static int put_in(MDB_txn *txn, uint64_t count)
{
    MDB_val of = {KEY_BYTES, key}, data = {sizeof count, &count};
    return mdb_put(txn, dbi, &of, &data, 0);
}

static int get_from(MDB_txn *txn, uint64_t *count)
{
    MDB_val of = {KEY_BYTES, key}, data;
    if (mdb_get(txn, dbi, &of, &data) || data.mv_size != sizeof *count)
        return 1;
    memcpy(count, data.mv_data, sizeof *count);
    return 0;
}

static int begins(const char *path)
{
    MDB_txn *txn;
    int bad = opens(path) || mdb_txn_begin(env, NULL, 0, &txn);
    for (unsigned i = 0; i < COUNTERS && !bad; i++) {
        make_key(key, i);
        bad = put_in(txn, 0);
    }
    return bad || mdb_txn_commit(txn) || closes();
}

static int increments(unsigned i)
{
    MDB_txn *txn;
    uint64_t count;
    make_key(key, i);
    return mdb_txn_begin(env, NULL, 0, &txn) || get_from(txn, &count) || put_in(txn, count + 1) || mdb_txn_commit(txn);
}

static int sums(const char *path, uint64_t *sum)
{
    MDB_txn *txn;
    int bad = opens(path) || mdb_txn_begin(env, NULL, MDB_RDONLY, &txn);
    for (unsigned i = 0; i < COUNTERS && !bad; i++) {
        uint64_t count = 0;
        make_key(key, i);
        bad = get_from(txn, &count);
        *sum += count;
    }
    if (bad)
        return 1;
    mdb_txn_abort(txn);
    return closes();
}
#endif

#ifdef HAVE_SQLITE
#include <sqlite3.h>

static sqlite3 *db;
static sqlite3_stmt *step;

static int opens_with(const char *path, const char *text, const char *statement)
{
    return sqlite3_open(path, &db) || sqlite3_busy_timeout(db, 600000)
        || sqlite3_exec(db, IS_LATER ? "pragma journal_mode = wal; pragma synchronous = off" : "pragma journal_mode = wal; pragma synchronous = full", NULL, NULL, NULL)
        || sqlite3_exec(db, text, NULL, NULL, NULL)
        || sqlite3_prepare_v2(db, statement, -1, &step, NULL);
}

static int closes(void)
{
    return sqlite3_finalize(step) || sqlite3_close(db);
}

static int steps(void)
{
    int bad = sqlite3_bind_blob(step, 1, key, KEY_BYTES, SQLITE_STATIC) || sqlite3_step(step) != SQLITE_DONE;
    return sqlite3_reset(step) || bad || sqlite3_changes(db) != 1;
}

static int begins(const char *path)
{
    int bad = opens_with(path, "create table counters (name blob primary key, value integer) without rowid; begin", "insert into counters values (?, 0)");
    for (unsigned i = 0; i < COUNTERS && !bad; i++) {
        make_key(key, i);
        bad = steps();
    }
    return bad || sqlite3_exec(db, "commit", NULL, NULL, NULL) || closes();
}

static int opens(const char *path)
{
    return opens_with(path, "", "update counters set value = value + 1 where name = ?");
}

static int increments(unsigned i)
{
    make_key(key, i);
    return steps();
}

static int sums(const char *path, uint64_t *sum)
{
    if (opens_with(path, "", "select sum(value) from counters") || sqlite3_step(step) != SQLITE_ROW)
        return 1;
    *sum = (uint64_t)sqlite3_column_int64(step, 0);
    return closes();
}
#endif

static double now(void)
{
    struct timespec t;
    clock_gettime(CLOCK_MONOTONIC, &t);
    return (double)t.tv_sec + (double)t.tv_nsec * 1e-9;
}

/* Increments random counters for `seconds`. Returns the number of increments, or UINT64_MAX on failure. */
static uint64_t work(const char *path, unsigned process, double seconds)
{
    uint64_t count = 0;
    if (opens(path))
        return UINT64_MAX;
    for (double until = now() + seconds; now() < until; count++)
        if (increments((unsigned)(mixed((uint64_t)process << 32 | count) % COUNTERS)))
            return UINT64_MAX;
    return closes() ? UINT64_MAX : count;
}

int main(int argc, char **argv)
{
    if (argc != 4)
        return 64;
    unsigned processes = (unsigned)strtoul(argv[2], NULL, 10);
    double seconds = atof(argv[3]);
    uint64_t *done = mmap(NULL, MOST_PROCESSES * sizeof *done, PROT_READ | PROT_WRITE, MAP_SHARED | MAP_ANONYMOUS, -1, 0);
    if (processes == 0 || processes > MOST_PROCESSES || done == MAP_FAILED || begins(argv[1]))
        return 2;
    for (unsigned i = 0; i < processes; i++) {
        pid_t child = fork();
        if (child < 0)
            return 3;
        if (child == 0) {
            done[i] = work(argv[1], i, seconds);
            _exit(done[i] == UINT64_MAX);
        }
    }
    int status, bad = 0;
    while (wait(&status) > 0)
        bad |= status;
    if (bad)
        return 4;
    uint64_t count = 0, sum = 0;
    for (unsigned i = 0; i < processes; i++)
        count += done[i];
    if (sums(argv[1], &sum) || sum != count)
        return 5;
    printf("%.1f\n", (double)count / seconds);
    return 0;
}
