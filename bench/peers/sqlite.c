/* SQLite, WAL, synchronous off: two updates by prepared statements, and a commit. */
#include "peer.h"
#include <sqlite3.h>

static const char *path = "/dev/shm/rukwetid-peer.db";
static const char *wal = "/dev/shm/rukwetid-peer.db-wal";
static const char *shm = "/dev/shm/rukwetid-peer.db-shm";

static sqlite3 *db;
static sqlite3_stmt *begin, *update, *commit, *look;

static void run(const char *sql)
{
    must(sqlite3_exec(db, sql, NULL, NULL, NULL) == SQLITE_OK, sql);
}

static sqlite3_stmt *prepared(const char *sql)
{
    sqlite3_stmt *statement;
    must(sqlite3_prepare_v2(db, sql, -1, &statement, NULL) == SQLITE_OK, sql);
    return statement;
}

static void step(sqlite3_stmt *statement)
{
    must(sqlite3_step(statement) == SQLITE_DONE, "sqlite3_step");
    sqlite3_reset(statement);
}

static void put(uint64_t word, uint64_t value)
{
    sqlite3_bind_int64(update, 1, (sqlite3_int64)value);
    sqlite3_bind_int64(update, 2, (sqlite3_int64)word);
    step(update);
}

static void transaction(uint64_t word, uint64_t first, uint64_t second)
{
    step(begin);
    put(word, first);
    put(word + 1, second);
    step(commit);
}

static uint64_t value_of(uint64_t word)
{
    sqlite3_bind_int64(look, 1, (sqlite3_int64)word);
    must(sqlite3_step(look) == SQLITE_ROW, "sqlite3_step");
    uint64_t value = (uint64_t)sqlite3_column_int64(look, 0);
    sqlite3_reset(look);
    return value;
}

static void clear(void)
{
    remove(path);
    remove(wal);
    remove(shm);
}

int main(void)
{
    clear();
    must(sqlite3_open(path, &db) == SQLITE_OK, "sqlite3_open");
    run("PRAGMA journal_mode = WAL");
    run("PRAGMA synchronous = OFF");
    run("CREATE TABLE words (word INTEGER PRIMARY KEY, value INTEGER)");
    run("WITH RECURSIVE n(word) AS (SELECT 0 UNION ALL SELECT word + 1 FROM n WHERE word < 511)"
        " INSERT INTO words SELECT word, 0 FROM n");
    begin = prepared("BEGIN IMMEDIATE");
    update = prepared("UPDATE words SET value = ?1 WHERE word = ?2");
    commit = prepared("COMMIT");
    look = prepared("SELECT value FROM words WHERE word = ?1");
    measure();
    sqlite3_finalize(begin);
    sqlite3_finalize(update);
    sqlite3_finalize(commit);
    sqlite3_finalize(look);
    sqlite3_close(db);
    clear();
}
