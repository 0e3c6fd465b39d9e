/* LMDB, no sync, write map: two puts under word numbers, and a commit. */
#include "peer.h"
#include <lmdb.h>

static const char *path = "/dev/shm/rukwetid-peer.mdb";
static const char *lock = "/dev/shm/rukwetid-peer.mdb-lock";

static MDB_env *env;
static MDB_dbi words;

static MDB_val as_val(uint64_t *number)
{
    return (MDB_val){ sizeof *number, number };
}

static void put(MDB_txn *txn, uint64_t word, uint64_t value)
{
    MDB_val key = as_val(&word), data = as_val(&value);
    must(mdb_put(txn, words, &key, &data, 0) == 0, "mdb_put");
}

static void transaction(uint64_t word, uint64_t first, uint64_t second)
{
    MDB_txn *txn;
    must(mdb_txn_begin(env, NULL, 0, &txn) == 0, "mdb_txn_begin");
    put(txn, word, first);
    put(txn, word + 1, second);
    must(mdb_txn_commit(txn) == 0, "mdb_txn_commit");
}

static uint64_t value_of(uint64_t word)
{
    MDB_txn *txn;
    MDB_val key = as_val(&word), data;
    must(mdb_txn_begin(env, NULL, MDB_RDONLY, &txn) == 0, "mdb_txn_begin");
    must(mdb_get(txn, words, &key, &data) == 0, "mdb_get");
    uint64_t value = *(uint64_t *)data.mv_data;
    mdb_txn_abort(txn);
    return value;
}

int main(void)
{
    remove(path);
    remove(lock);
    must(mdb_env_create(&env) == 0, "mdb_env_create");
    int flags = MDB_NOSUBDIR | MDB_NOSYNC | MDB_WRITEMAP;
    must(mdb_env_open(env, path, flags, 0600) == 0, "mdb_env_open");
    MDB_txn *txn;
    must(mdb_txn_begin(env, NULL, 0, &txn) == 0, "mdb_txn_begin");
    must(mdb_dbi_open(txn, NULL, MDB_INTEGERKEY, &words) == 0, "mdb_dbi_open");
    for (uint64_t word = 0; word < WORDS; word++)
        put(txn, word, 0);
    must(mdb_txn_commit(txn) == 0, "mdb_txn_commit");
    measure();
    mdb_env_close(env);
    remove(path);
    remove(lock);
}
