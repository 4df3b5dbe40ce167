/* Does the work of bindings/c/bench.c with stores other than Boddurci: N stores, N fetches and N increments (fetch, add, store) of 16-byte
 * keys and 8-byte values, in files of a folder. It syncs nothing.
 *
 * cc -O2 -DHAVE_GDBM .. benches/peers.c -lgdbm .. -o peers, with one -DHAVE_ for each installed store (benches/run does it)
 * usage: peers STORE FOLDER N     prints: STORE stores fetches increments, each per second */
#include <stdint.h>
#include <stdio.h>
#include <stdlib.h>
#include <string.h>
#include <time.h>
#include <fcntl.h>
#include <sys/types.h>

enum { KEY_BYTES = 16, VALUE_BYTES = 8 };

/* A store: functions that open the store, and that store and fetch one pair. `tick` is called after each write. */
typedef struct {
    const char *name;
    int (*open)(const char *path);
    int (*put)(char *key, uint64_t *value);
    int (*get)(char *key, uint64_t *value);
    void (*tick)(void);
} store;

static void no_tick(void)
{
}

#ifdef HAVE_APR
#include <apr_general.h>
#include <apr_sdbm.h>
static apr_sdbm_t *apr;

static int apr_begin(const char *path)
{
    apr_pool_t *pool;
    apr_initialize();
    apr_pool_create(&pool, NULL);
    return apr_sdbm_open(&apr, path, APR_READ | APR_WRITE | APR_CREATE | APR_TRUNCATE, APR_OS_DEFAULT, pool);
}

static int apr_put(char *key, uint64_t *value)
{
    apr_sdbm_datum_t name = {key, KEY_BYTES}, data = {(char *)value, VALUE_BYTES};
    return apr_sdbm_store(apr, name, data, APR_SDBM_REPLACE);
}

static int apr_get(char *key, uint64_t *value)
{
    apr_sdbm_datum_t name = {key, KEY_BYTES}, data;
    if (apr_sdbm_fetch(apr, &data, name) || data.dsize != VALUE_BYTES)
        return 1;
    memcpy(value, data.dptr, VALUE_BYTES);
    return 0;
}
#endif

#ifdef HAVE_GDBM
#include <gdbm.h>
static GDBM_FILE gdbm;

static int gdbm_begin(const char *path)
{
    gdbm = gdbm_open(path, 0, GDBM_NEWDB, 0600, NULL);
    return gdbm == NULL;
}

static int gdbm_put(char *key, uint64_t *value)
{
    datum name = {key, KEY_BYTES}, data = {(char *)value, VALUE_BYTES};
    return gdbm_store(gdbm, name, data, GDBM_REPLACE);
}

static int gdbm_get(char *key, uint64_t *value)
{
    datum name = {key, KEY_BYTES}, data = gdbm_fetch(gdbm, name);
    if (data.dsize != VALUE_BYTES)
        return 1;
    memcpy(value, data.dptr, VALUE_BYTES);
    free(data.dptr);
    return 0;
}
#endif

#ifdef HAVE_LMDB
#include <lmdb.h>
static MDB_env *lmdb;
static MDB_dbi table;
static MDB_txn *txn;
static unsigned in_txn;

static int lmdb_begin(const char *path)
{
    return mdb_env_create(&lmdb) || mdb_env_set_mapsize(lmdb, (size_t)4 << 30) || mdb_env_open(lmdb, path, MDB_NOSUBDIR | MDB_NOSYNC | MDB_WRITEMAP, 0600)
        || mdb_txn_begin(lmdb, NULL, 0, &txn) || mdb_dbi_open(txn, NULL, MDB_CREATE, &table);
}

static int lmdb_put(char *key, uint64_t *value)
{
    MDB_val name = {KEY_BYTES, key}, data = {VALUE_BYTES, value};
    return mdb_put(txn, table, &name, &data, 0);
}

static int lmdb_get(char *key, uint64_t *value)
{
    MDB_val name = {KEY_BYTES, key}, data;
    if (mdb_get(txn, table, &name, &data))
        return 1;
    memcpy(value, data.mv_data, VALUE_BYTES);
    return 0;
}

/* LMDB commits every 1,000 writes. */
static void lmdb_tick(void)
{
    if (++in_txn < 1000)
        return;
    mdb_txn_commit(txn);
    mdb_txn_begin(lmdb, NULL, 0, &txn);
    in_txn = 0;
}
#endif

#ifdef HAVE_TDB
#include <sys/stat.h>
#include <tdb.h>
static TDB_CONTEXT *tdb;

static int tdb_begin(const char *path)
{
    tdb = tdb_open(path, 20011, TDB_NOSYNC | TDB_CLEAR_IF_FIRST, O_RDWR | O_CREAT | O_TRUNC, 0600);
    return tdb == NULL;
}

static int tdb_put(char *key, uint64_t *value)
{
    TDB_DATA name = {(unsigned char *)key, KEY_BYTES}, data = {(unsigned char *)value, VALUE_BYTES};
    return tdb_store(tdb, name, data, 0);
}

static int tdb_get(char *key, uint64_t *value)
{
    TDB_DATA name = {(unsigned char *)key, KEY_BYTES}, data = tdb_fetch(tdb, name);
    if (data.dsize != VALUE_BYTES)
        return 1;
    memcpy(value, data.dptr, VALUE_BYTES);
    free(data.dptr);
    return 0;
}
#endif

#ifdef HAVE_DB
#include <db.h>
static DB *bdb;

static int db_begin(const char *path)
{
    return db_create(&bdb, NULL, 0) || bdb->set_cachesize(bdb, 0, 256 << 20, 1) || bdb->open(bdb, NULL, path, NULL, DB_HASH, DB_CREATE | DB_TRUNCATE, 0600);
}

static DBT db_bytes(void *bytes, unsigned length)
{
    DBT datum;
    memset(&datum, 0, sizeof datum);
    datum.data = bytes;
    datum.size = length;
    return datum;
}

static int db_put(char *key, uint64_t *value)
{
    DBT name = db_bytes(key, KEY_BYTES), data = db_bytes(value, VALUE_BYTES);
    return bdb->put(bdb, NULL, &name, &data, 0);
}

static int db_get(char *key, uint64_t *value)
{
    DBT name = db_bytes(key, KEY_BYTES), data = db_bytes(NULL, 0);
    if (bdb->get(bdb, NULL, &name, &data, 0))
        return 1;
    memcpy(value, data.data, VALUE_BYTES);
    return 0;
}
#endif

static const store stores[] = {
#ifdef HAVE_APR
    {"apr", apr_begin, apr_put, apr_get, no_tick},
#endif
#ifdef HAVE_GDBM
    {"gdbm", gdbm_begin, gdbm_put, gdbm_get, no_tick},
#endif
#ifdef HAVE_LMDB
    {"lmdb", lmdb_begin, lmdb_put, lmdb_get, lmdb_tick},
#endif
#ifdef HAVE_TDB
    {"tdb", tdb_begin, tdb_put, tdb_get, no_tick},
#endif
#ifdef HAVE_DB
    {"db", db_begin, db_put, db_get, no_tick},
#endif
    {NULL, NULL, NULL, NULL, no_tick},
};

static double now(void)
{
    struct timespec t;
    clock_gettime(CLOCK_MONOTONIC, &t);
    return (double)t.tv_sec + (double)t.tv_nsec * 1e-9;
}

static void name(char *key, unsigned i)
{
    snprintf(key, 17, "key%013u", (unsigned)(i * 2654435761u));
}

/* Does the work with a store. Returns 0, or 2 to 4 for the part that failed. */
static int measure(const store *s, unsigned n)
{
    char key[32];
    uint64_t value, sum = 0;
    double a = now();
    for (unsigned i = 0; i < n; i++) {
        name(key, i);
        value = i;
        if (s->put(key, &value))
            return 2;
        s->tick();
    }
    double b = now();
    for (unsigned i = 0; i < n; i++) {
        name(key, i);
        if (s->get(key, &value))
            return 3;
        sum += value;
    }
    double c = now();
    for (unsigned i = 0; i < n; i++) {
        name(key, i);
        if (s->get(key, &value))
            return 4;
        value++;
        if (s->put(key, &value))
            return 4;
        s->tick();
    }
    double d = now();
    if (sum != (uint64_t)n * (n - 1) / 2)
        return 4;
    printf("%s %.0f %.0f %.0f\n", s->name, n / (b - a), n / (c - b), n / (d - c));
    return 0;
}

int main(int argc, char **argv)
{
    char path[512];
    if (argc != 4)
        return 64;
    snprintf(path, sizeof path, "%s/%s", argv[2], argv[1]);
    for (const store *s = stores; s->name; s++)
        if (!strcmp(s->name, argv[1]))
            return s->open(path) ? 1 : measure(s, (unsigned)atoi(argv[3]));
    return 64;
}
