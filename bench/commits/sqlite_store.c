/* SQLite in WAL mode with synchronous=FULL: a block is a row, and a commit is synced. Each thread has a
 * connection, and waits while another one writes. */
#include "store.h"
#include <sqlite3.h>
#include <stdio.h>
#include <stdlib.h>

static char path[4096];
static _Thread_local sqlite3 *db;
static _Thread_local sqlite3_stmt *begin, *put, *commit;

static void must(int code, int wanted)
{
    if (code != wanted) {
        fprintf(stderr, "sqlite: %s\n", sqlite3_errmsg(db));
        exit(1);
    }
}

static sqlite3_stmt *prepared(const char *text)
{
    sqlite3_stmt *statement;
    must(sqlite3_prepare_v2(db, text, -1, &statement, NULL), SQLITE_OK);
    return statement;
}

static void step(sqlite3_stmt *statement)
{
    must(sqlite3_step(statement), SQLITE_DONE);
    must(sqlite3_reset(statement), SQLITE_OK);
}

/* A connection of this thread. */
static void connect(void)
{
    must(sqlite3_open(path, &db), SQLITE_OK);
    must(sqlite3_busy_timeout(db, 60000), SQLITE_OK);
    must(sqlite3_exec(db, "pragma journal_mode=wal; pragma synchronous=full", NULL, NULL, NULL), SQLITE_OK);
}

void open_store(const char *folder)
{
    snprintf(path, sizeof path, "%s/blocks.db", folder);
    connect();
    must(sqlite3_exec(db, "create table blocks (number integer primary key, bytes blob)", NULL, NULL, NULL), SQLITE_OK);
}

void open_client(int number)
{
    if (number > 0)
        connect();
    begin = prepared("begin immediate");
    put = prepared("insert or replace into blocks values (?, ?)");
    commit = prepared("commit");
}

void commit_blocks(const uint32_t *blocks, int count, const unsigned char *bytes)
{
    step(begin);
    for (int k = 0; k < count; k++) {
        must(sqlite3_bind_int64(put, 1, blocks[k]), SQLITE_OK);
        must(sqlite3_bind_blob(put, 2, bytes + k * BLOCK_BYTES, BLOCK_BYTES, SQLITE_STATIC), SQLITE_OK);
        step(put);
    }
    step(commit);
}

void close_client(void)
{
    sqlite3_finalize(begin);
    sqlite3_finalize(put);
    sqlite3_finalize(commit);
    must(sqlite3_close(db), SQLITE_OK);
}

void close_store(void)
{
}
