/* Stores or fetches one pair in a process, as a shell command would, with a store other than Boddurci. A stored pair is on the disk when
 * the process ends.
 *
 * cc -O2 -DHAVE_GDBM .. benches/one.c -lgdbm .. -o one, with one -DHAVE_ for the installed store (benches/run does it)
 * usage: one FILE fill N       stores N pairs of 16-byte keys and 100-byte values
 *        one FILE store I      stores pair I again
 *        one FILE fetch I      fetches pair I; the status is 1 if it is missing */
#include "pairs.h"
#include <stdio.h>
#include <stdlib.h>

#ifdef HAVE_GDBM
#include <gdbm.h>

static int work(const char *path, int fills, int stores, unsigned n)
{
    int mode = fills ? GDBM_NEWDB : stores ? GDBM_WRITER | GDBM_SYNC : GDBM_READER, bad = 0;
    GDBM_FILE db = gdbm_open(path, 0, mode, 0644, NULL);
    if (!db)
        return 2;
    for (unsigned i = fills ? 0 : n; i < (fills ? n : n + 1) && !bad; i++) {
        make(i, stores ? 's' : 'f');
        datum name = {key, KEY_BYTES}, data = {value, VALUE_BYTES};
        if (fills || stores) {
            bad = gdbm_store(db, name, data, GDBM_REPLACE);
        } else {
            datum found = gdbm_fetch(db, name);
            bad = found.dptr == NULL;
        }
    }
    gdbm_close(db);
    return bad;
}
#endif

#ifdef HAVE_LMDB
#include <lmdb.h>

static int work(const char *path, int fills, int stores, unsigned n)
{
    MDB_env *env;
    MDB_txn *txn;
    MDB_dbi dbi;
    int bad = mdb_env_create(&env) || mdb_env_set_mapsize(env, (size_t)4 << 30)
        || mdb_env_open(env, path, MDB_NOSUBDIR | (fills || stores ? 0 : MDB_RDONLY), 0644)
        || mdb_txn_begin(env, NULL, fills || stores ? 0 : MDB_RDONLY, &txn) || mdb_dbi_open(txn, NULL, 0, &dbi);
    for (unsigned i = fills ? 0 : n; i < (fills ? n : n + 1) && !bad; i++) {
        make(i, stores ? 's' : 'f');
        MDB_val name = {KEY_BYTES, key}, data = {VALUE_BYTES, value};
        bad = fills || stores ? mdb_put(txn, dbi, &name, &data, 0) : mdb_get(txn, dbi, &name, &data);
    }
    if (bad)
        return 1;
    if (fills || stores)
        bad = mdb_txn_commit(txn);
    else
        mdb_txn_abort(txn);
    mdb_env_close(env);
    return bad;
}
#endif

#ifdef HAVE_SQLITE
#include <sqlite3.h>

static int work(const char *path, int fills, int stores, unsigned n)
{
    sqlite3 *db;
    sqlite3_stmt *step;
    int bad = sqlite3_open(path, &db);
    if (!bad && fills)
        bad = sqlite3_exec(db, "create table pairs (name blob primary key, data blob) without rowid; begin", NULL, NULL, NULL);
    const char *text = fills || stores ? "insert or replace into pairs values (?, ?)" : "select data from pairs where name = ?";
    bad = bad || sqlite3_prepare_v2(db, text, -1, &step, NULL);
    for (unsigned i = fills ? 0 : n; i < (fills ? n : n + 1) && !bad; i++) {
        make(i, stores ? 's' : 'f');
        sqlite3_bind_blob(step, 1, key, KEY_BYTES, SQLITE_STATIC);
        if (fills || stores)
            sqlite3_bind_blob(step, 2, value, VALUE_BYTES, SQLITE_STATIC);
        bad = sqlite3_step(step) != (fills || stores ? SQLITE_DONE : SQLITE_ROW);
        sqlite3_reset(step);
    }
    if (bad)
        return 1;
    if (fills)
        bad = sqlite3_exec(db, "commit", NULL, NULL, NULL);
    sqlite3_finalize(step);
    return bad || sqlite3_close(db);
}
#endif

int main(int argc, char **argv)
{
    if (argc != 4)
        return 64;
    return work(argv[1], !strcmp(argv[2], "fill"), !strcmp(argv[2], "store"), (unsigned)strtoul(argv[3], NULL, 10));
}
