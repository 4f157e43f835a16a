/* LMDB with its own durability: a block is a value under its number, and a commit is synced. It lets one thread write at a
 * time. */
#include "store.h"
#include <errno.h>
#include <lmdb.h>
#include <stdio.h>

static MDB_env *env;
static MDB_dbi table;

static void must(int code, const char *what)
{
    if (code != 0) {
        errno = code;
        fail(what);
    }
}

void open_store(const char *folder)
{
    char path[4096];
    MDB_txn *txn;
    snprintf(path, sizeof path, "%s/blocks.mdb", folder);
    must(mdb_env_create(&env), "mdb_env_create");
    must(mdb_env_set_mapsize(env, (size_t)1 << 30), "mdb_env_set_mapsize");
    must(mdb_env_open(env, path, MDB_NOSUBDIR, 0600), "mdb_env_open");
    must(mdb_txn_begin(env, NULL, 0, &txn), "mdb_txn_begin");
    must(mdb_dbi_open(txn, NULL, MDB_INTEGERKEY | MDB_CREATE, &table), "mdb_dbi_open");
    must(mdb_txn_commit(txn), "mdb_txn_commit");
}

void commit_blocks(const uint32_t *blocks, int count, const unsigned char *bytes)
{
    MDB_txn *txn;
    must(mdb_txn_begin(env, NULL, 0, &txn), "mdb_txn_begin");
    for (int k = 0; k < count; k++) {
        uint32_t block = blocks[k];
        MDB_val key = {sizeof block, &block}, value = {BLOCK_BYTES, (void *)(bytes + k * BLOCK_BYTES)};
        must(mdb_put(txn, table, &key, &value, 0), "mdb_put");
    }
    must(mdb_txn_commit(txn), "mdb_txn_commit");
}

void open_client(int number)
{
    (void)number;
}

void close_client(void)
{
}

void close_store(void)
{
    mdb_env_close(env);
}
