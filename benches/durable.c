/* Measures durable increments of counters by threads. Each increment is on the disk before its thread begins the next one.
 *
 * cc -O2 -DHAVE_GDBM .. benches/durable.c -lgdbm .. -pthread -o durable, with one -DHAVE_ for the store (benches/run does it)
 * usage: durable PATH THREADS SECONDS
 *
 * It makes a store of COUNTERS counters at PATH, increments random counters for SECONDS, closes the store and opens it again. It prints the
 * increments per second. The status is 5 if the sum of the counters cannot be read or is not the number of increments. */
#define _GNU_SOURCE
#include "pairs.h"
#include <fcntl.h>
#include <pthread.h>
#include <stdio.h>
#include <stdlib.h>
#include <time.h>
#include <unistd.h>

enum { COUNTERS = 10000, MOST_THREADS = 64 };

/* Each store has four functions, which return 0 on success. `begins` makes the store with all counters at 0, and opens it for the threads.
 * `increments` makes one durable increment. `closes` closes the store. `sums` opens it again, adds the counters up, and closes it. */
#ifdef HAVE_BODDURCI
#include "boddurci_files.h"

static boddurci_base *base;
static uint32_t program;

static int saves(void)
{
    boddurci_fault fault;
    return boddurci_save(base, &fault) != BODDURCI_DONE || fault.system != 0;
}

static int begins(const char *path, unsigned threads)
{
    base = boddurci_open_files(path, 0, NULL);
    if (base == NULL)
        return 1;
    boddurci *db = boddurci_take(base);
    uint32_t status = boddurci_stock(db, "counter", &program);
    uint64_t zero = 0;
    for (unsigned i = 0; i < COUNTERS && status == BODDURCI_DONE; i++) {
        make_key(key, i);
        status = boddurci_store(db, (uint8_t *)key, KEY_BYTES, (uint8_t *)&zero, sizeof zero, 0);
    }
    boddurci_give(base);
    return status != BODDURCI_DONE || saves();
}

static int increments(unsigned thread, unsigned i)
{
    char own[KEY_BYTES];
    uint64_t end = 0, word;
    make_key(own, i);
    uint32_t status = boddurci_run(boddurci_take(base), program, (uint8_t *)own, KEY_BYTES, BODDURCI_NO_BYTES, 0, 0, 0, &end, &word);
    boddurci_give(base);
    return status != BODDURCI_DONE || end != 1 || saves();
}

static int closes(void)
{
    boddurci_close_files(base);
    return 0;
}

static int sums(const char *path, uint64_t *sum)
{
    base = boddurci_open_files(path, BODDURCI_READ_ONLY, NULL);
    int bad = base == NULL;
    for (unsigned i = 0; i < COUNTERS && !bad; i++) {
        uint64_t count = 0;
        size_t length;
        make_key(key, i);
        bad = boddurci_fetch(boddurci_take(base), (uint8_t *)key, KEY_BYTES, (uint8_t *)&count, sizeof count, &length) != BODDURCI_DONE;
        boddurci_give(base);
        *sum += count;
    }
    boddurci_close_files(base);
    return bad;
}
#endif

/* A session of dbm, connected by pipes. HAVE_SESSION is the path of the program. */
#ifdef HAVE_SESSION
#include <sys/wait.h>

static pid_t child;
static FILE *lines, *answers;
static char answer[200];

static int opens(const char *path, const char *option)
{
    int to[2], from[2];
    if (pipe2(to, O_CLOEXEC) || pipe2(from, O_CLOEXEC) || (child = fork()) < 0)
        return 1;
    if (child == 0) {
        if (dup2(to[0], 0) == 0 && dup2(from[1], 1) == 1)
            execl(HAVE_SESSION, HAVE_SESSION, "session", path, option, (char *)NULL);
        _exit(127);
    }
    close(to[0]);
    close(from[1]);
    lines = fdopen(to[1], "w");
    answers = fdopen(from[0], "r");
    return !lines || !answers;
}

static int asks(const char *before, unsigned i, const char *after)
{
    make_key(key, i);
    fputs(before, lines);
    for (unsigned byte = 0; byte < KEY_BYTES; byte++)
        fprintf(lines, "%02x", (unsigned char)key[byte]);
    fputs(after, lines);
    return fflush(lines) || !fgets(answer, sizeof answer, answers);
}

static int closes(void)
{
    int status;
    fclose(lines);
    return waitpid(child, &status, 0) != child || status != 0 || fclose(answers);
}

static int begins(const char *path, unsigned threads)
{
    int bad = threads != 1 || opens(path, NULL);
    for (unsigned i = 0; i < COUNTERS && !bad; i++)
        bad = asks("put ", i, " 0000000000000000\n") || strcmp(answer, "stored\n");
    if (bad || closes() || opens(path, "--save-every=1"))
        return 1;
    fputs(".program @counter\n", lines);
    return fflush(lines) || !fgets(answer, sizeof answer, answers) || strcmp(answer, "program 0\n");
}

static int increments(unsigned thread, unsigned i)
{
    return asks("run ", i, " 0 . . 0\n") || strcmp(answer, "ran 1 0\n");
}

static int sums(const char *path, uint64_t *sum)
{
    int bad = opens(path, NULL);
    for (unsigned i = 0; i < COUNTERS && !bad; i++) {
        uint64_t digits;
        bad = asks("get ", i, "\n") || sscanf(answer, "found %16lx\n", &digits) != 1;
        *sum += __builtin_bswap64(digits);
    }
    return closes() || bad;
}
#endif

#ifdef HAVE_GDBM
#include <gdbm.h>

static GDBM_FILE db;
static pthread_mutex_t mutex = PTHREAD_MUTEX_INITIALIZER;

static int puts_count(const char *name, uint64_t count)
{
    datum of = {(char *)name, KEY_BYTES}, data = {(char *)&count, sizeof count};
    return gdbm_store(db, of, data, GDBM_REPLACE);
}

static int gets_count(const char *name, uint64_t *count)
{
    datum of = {(char *)name, KEY_BYTES}, data = gdbm_fetch(db, of);
    if (data.dsize != sizeof *count)
        return 1;
    memcpy(count, data.dptr, sizeof *count);
    free(data.dptr);
    return 0;
}

static int begins(const char *path, unsigned threads)
{
    db = gdbm_open(path, 0, GDBM_NEWDB, 0644, NULL);
    int bad = db == NULL;
    for (unsigned i = 0; i < COUNTERS && !bad; i++) {
        make_key(key, i);
        bad = puts_count(key, 0);
    }
    return bad || gdbm_sync(db);
}

static int increments(unsigned thread, unsigned i)
{
    char own[KEY_BYTES];
    uint64_t count;
    make_key(own, i);
    pthread_mutex_lock(&mutex);
    int bad = gets_count(own, &count) || puts_count(own, count + 1) || gdbm_sync(db);
    pthread_mutex_unlock(&mutex);
    return bad;
}

static int closes(void)
{
    return gdbm_close(db);
}

static int sums(const char *path, uint64_t *sum)
{
    db = gdbm_open(path, 0, GDBM_READER, 0644, NULL);
    int bad = db == NULL;
    for (unsigned i = 0; i < COUNTERS && !bad; i++) {
        uint64_t count = 0;
        make_key(key, i);
        bad = gets_count(key, &count);
        *sum += count;
    }
    return bad || gdbm_close(db);
}
#endif

#ifdef HAVE_LMDB
#include <lmdb.h>

static MDB_env *env;
static MDB_dbi dbi;

static int opens(const char *path)
{
    MDB_txn *txn;
    return mdb_env_create(&env) || mdb_env_set_mapsize(env, (size_t)1 << 30) || mdb_env_open(env, path, MDB_NOSUBDIR, 0644)
        || mdb_txn_begin(env, NULL, 0, &txn) || mdb_dbi_open(txn, NULL, 0, &dbi) || mdb_txn_commit(txn);
}

static int puts_count(MDB_txn *txn, char *name, uint64_t count)
{
    MDB_val of = {KEY_BYTES, name}, data = {sizeof count, &count};
    return mdb_put(txn, dbi, &of, &data, 0);
}

static int gets_count(MDB_txn *txn, char *name, uint64_t *count)
{
    MDB_val of = {KEY_BYTES, name}, data;
    if (mdb_get(txn, dbi, &of, &data) || data.mv_size != sizeof *count)
        return 1;
    memcpy(count, data.mv_data, sizeof *count);
    return 0;
}

static int begins(const char *path, unsigned threads)
{
    MDB_txn *txn;
    int bad = opens(path) || mdb_txn_begin(env, NULL, 0, &txn);
    for (unsigned i = 0; i < COUNTERS && !bad; i++) {
        make_key(key, i);
        bad = puts_count(txn, key, 0);
    }
    return bad || mdb_txn_commit(txn);
}

static int increments(unsigned thread, unsigned i)
{
    char own[KEY_BYTES];
    MDB_txn *txn;
    uint64_t count;
    make_key(own, i);
    return mdb_txn_begin(env, NULL, 0, &txn) || gets_count(txn, own, &count) || puts_count(txn, own, count + 1) || mdb_txn_commit(txn);
}

static int closes(void)
{
    mdb_env_close(env);
    return 0;
}

static int sums(const char *path, uint64_t *sum)
{
    MDB_txn *txn;
    int bad = opens(path) || mdb_txn_begin(env, NULL, MDB_RDONLY, &txn);
    for (unsigned i = 0; i < COUNTERS && !bad; i++) {
        uint64_t count = 0;
        make_key(key, i);
        bad = gets_count(txn, key, &count);
        *sum += count;
    }
    if (bad)
        return 1;
    mdb_txn_abort(txn);
    return closes();
}
#endif

/* The threads share one connection under a mutex. Separate connections are slower, since a thread that finds the file locked sleeps. */
#ifdef HAVE_SQLITE
#include <sqlite3.h>

static sqlite3 *db;
static sqlite3_stmt *step;
static pthread_mutex_t mutex = PTHREAD_MUTEX_INITIALIZER;

static int opens(const char *path, const char *text)
{
    return sqlite3_open(path, &db) || sqlite3_exec(db, "pragma journal_mode = wal; pragma synchronous = full", NULL, NULL, NULL)
        || sqlite3_exec(db, text, NULL, NULL, NULL);
}

static int steps(const char *name)
{
    int bad = sqlite3_bind_blob(step, 1, name, KEY_BYTES, SQLITE_STATIC) || sqlite3_step(step) != SQLITE_DONE;
    return sqlite3_reset(step) || bad || sqlite3_changes(db) != 1;
}

static int begins(const char *path, unsigned threads)
{
    int bad = opens(path, "create table counters (name blob primary key, value integer) without rowid; begin")
        || sqlite3_prepare_v2(db, "insert into counters values (?, 0)", -1, &step, NULL);
    for (unsigned i = 0; i < COUNTERS && !bad; i++) {
        make_key(key, i);
        bad = steps(key);
    }
    return bad || sqlite3_finalize(step) || sqlite3_exec(db, "commit", NULL, NULL, NULL)
        || sqlite3_prepare_v2(db, "update counters set value = value + 1 where name = ?", -1, &step, NULL);
}

static int increments(unsigned thread, unsigned i)
{
    char own[KEY_BYTES];
    make_key(own, i);
    pthread_mutex_lock(&mutex);
    int bad = steps(own);
    pthread_mutex_unlock(&mutex);
    return bad;
}

static int closes(void)
{
    return sqlite3_finalize(step) || sqlite3_close(db);
}

static int sums(const char *path, uint64_t *sum)
{
    if (opens(path, "") || sqlite3_prepare_v2(db, "select sum(value) from counters", -1, &step, NULL) || sqlite3_step(step) != SQLITE_ROW)
        return 1;
    *sum = (uint64_t)sqlite3_column_int64(step, 0);
    return closes();
}
#endif

/* Measures the flush alone: an increment overwrites a block in place and calls fdatasync. All blocks of the file exist before the
 * measurement, and each block belongs to one thread. A block begins with the number of its writes. */
#ifdef HAVE_FLUSH
enum { BLOCK = 4096, BLOCKS = 256 };

static int file;
static unsigned crew;
static uint64_t blocks[BLOCKS][BLOCK / 8];

static int begins(const char *path, unsigned threads)
{
    crew = threads;
    file = open(path, O_RDWR | O_CREAT, 0644);
    return file < 0 || write(file, blocks, sizeof blocks) != sizeof blocks || fsync(file);
}

static int increments(unsigned thread, unsigned i)
{
    unsigned at = i % (BLOCKS / crew) * crew + thread;
    blocks[at][0]++;
    return pwrite(file, blocks[at], BLOCK, (off_t)at * BLOCK) != BLOCK || fdatasync(file);
}

static int closes(void)
{
    memset(blocks, 0, sizeof blocks);
    return close(file);
}

static int sums(const char *path, uint64_t *sum)
{
    file = open(path, O_RDONLY);
    if (file < 0 || read(file, blocks, sizeof blocks) != sizeof blocks)
        return 1;
    for (unsigned at = 0; at < BLOCKS; at++)
        *sum += blocks[at][0];
    return close(file);
}
#endif

static double now(void)
{
    struct timespec t;
    clock_gettime(CLOCK_MONOTONIC, &t);
    return (double)t.tv_sec + (double)t.tv_nsec * 1e-9;
}

static double until;
static unsigned numbers[MOST_THREADS];
static uint64_t done[MOST_THREADS];

static void *work(void *number)
{
    unsigned thread = *(unsigned *)number;
    uint64_t count = 0;
    for (; now() < until; count++) {
        if (increments(thread, (unsigned)(mixed((uint64_t)thread << 32 | count) % COUNTERS)))
            exit(4);
    }
    done[thread] = count;
    return NULL;
}

int main(int argc, char **argv)
{
    if (argc != 4)
        return 64;
    pthread_t all[MOST_THREADS];
    unsigned threads = (unsigned)strtoul(argv[2], NULL, 10);
    if (threads == 0 || threads > MOST_THREADS || begins(argv[1], threads))
        return 2;
    double from = now();
    until = from + atof(argv[3]);
    for (unsigned i = 0; i < threads; i++) {
        numbers[i] = i;
        if (pthread_create(&all[i], NULL, work, &numbers[i]))
            return 3;
    }
    uint64_t count = 0, sum = 0;
    for (unsigned i = 0; i < threads; i++) {
        pthread_join(all[i], NULL);
        count += done[i];
    }
    double took = now() - from;
    if (closes() || sums(argv[1], &sum) || sum != count)
        return 5;
    printf("%.1f\n", (double)count / took);
    return 0;
}
