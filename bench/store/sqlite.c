/* The same saves and loads by C sqlite, for bench/store.py: the arguments are `save`, `load` or `open`, the path of a file or `:memory:`, and how many
   slots and saves there are. `fill` saves all in one transaction, and `sync` writes a page and waits for the disk, as often as there are saves. */
#include <fcntl.h>
#include <sqlite3.h>
#include <stdio.h>
#include <stdlib.h>
#include <string.h>
#include <unistd.h>

enum { TEXT = 92, PAGE = 4096 };

/* The chain of one Taken on message 1000100001, from 144 to 155, up to its text and behind its length. */
static const unsigned char HEAD[] =
    "\x01\x00\x00\x00\x00\x3b\x9c\x50\xa1\x00\x01\x01\x01\x00\x01\x38\x6d\x43\x80\x04sme1\x04sme1\x00\x01\x01\x03"
    "144\x01\x01\x03"
    "155\x00\x00\x00\x01\x00\x38\x6d\x43\x80\x38\x71\x38\x00\x5c";

enum { CHAIN = sizeof HEAD - 1 + TEXT + 2 };

static const char *TABLES =
    "CREATE TABLE IF NOT EXISTS life (one INTEGER PRIMARY KEY CHECK (one = 1), incarnation INTEGER NOT NULL);"
    "CREATE TABLE IF NOT EXISTS slots (id INTEGER NOT NULL, place INTEGER NOT NULL, promised INTEGER NOT NULL, voted INTEGER NOT NULL, "
    "chain BLOB NOT NULL, PRIMARY KEY (id, place))";

static const char *PUT =
    "INSERT INTO slots (id, place, promised, voted, chain) VALUES (?1, ?2, ?3, ?4, ?5) "
    "ON CONFLICT (id, place) DO UPDATE SET promised = excluded.promised, voted = excluded.voted, chain = excluded.chain";

static void check(int is, int wanted, const char *what) {
    if (is != wanted) {
        fprintf(stderr, "%s: %d\n", what, is);
        exit(1);
    }
}

static void name_message(unsigned char *chain, unsigned long id) {
    for (int place = 8; place >= 1; place--, id >>= 8)
        chain[place] = id & 0xff;
}

static void save(sqlite3 *db, long slots, long saves) {
    sqlite3_stmt *put;
    unsigned char chain[CHAIN] = {0};
    memcpy(chain, HEAD, sizeof HEAD - 1);
    memset(chain + sizeof HEAD - 1, 'x', TEXT);
    check(sqlite3_prepare_v2(db, PUT, -1, &put, 0), SQLITE_OK, "prepare");
    for (long turn = 0; turn < saves; turn++) {
        name_message(chain, 1000100001 + turn % slots);
        sqlite3_bind_int64(put, 1, 1000100001 + turn % slots);
        sqlite3_bind_int64(put, 2, 0);
        /* the first round, and then the second, so that no save finds what it saves: SQLite would not write it */
        sqlite3_bind_int64(put, 3, 262144 * (turn / slots % 2 + 1) + 17);
        sqlite3_bind_int64(put, 4, 262144 * (turn / slots % 2 + 1) + 17);
        sqlite3_bind_blob(put, 5, chain, CHAIN, SQLITE_STATIC);
        check(sqlite3_step(put), SQLITE_DONE, "save");
        sqlite3_reset(put);
    }
    sqlite3_finalize(put);
}

static void load(sqlite3 *db) {
    sqlite3_stmt *all;
    long rows = 0, octets = 0;
    check(sqlite3_prepare_v2(db, "SELECT rowid, id, place, promised, voted, chain FROM slots ORDER BY id, place", -1, &all, 0), SQLITE_OK, "prepare");
    while (sqlite3_step(all) == SQLITE_ROW) {
        int length = sqlite3_column_bytes(all, 5);
        char *copy = malloc(length + 1);
        memcpy(copy, sqlite3_column_blob(all, 5), length);
        octets += length;
        rows++;
    }
    sqlite3_finalize(all);
    printf("%ld rows of %ld octets\n", rows, octets);
}

static void sync_often(const char *path, long saves) {
    static char page[PAGE];
    int file = open(path, O_CREAT | O_WRONLY, 0600);
    for (long turn = 0; turn < saves; turn++) {
        check(pwrite(file, page, PAGE, turn % 1000 * PAGE), PAGE, "write");
        check(fdatasync(file), 0, "fdatasync");
    }
    close(file);
}

int main(int count, char **words) {
    if (count != 5)
        return 1;
    const char *way = words[1], *path = words[2];
    long slots = atol(words[3]), saves = atol(words[4]);
    sqlite3 *db;
    if (!strcmp(way, "sync")) {
        sync_often(path, saves);
        return 0;
    }
    check(sqlite3_open(path, &db), SQLITE_OK, "open");
    check(sqlite3_exec(db, "PRAGMA journal_mode=WAL; PRAGMA synchronous=FULL", 0, 0, 0), SQLITE_OK, "pragma");
    check(sqlite3_exec(db, TABLES, 0, 0, 0), SQLITE_OK, "tables");
    if (!strcmp(way, "fill"))
        check(sqlite3_exec(db, "BEGIN", 0, 0, 0), SQLITE_OK, "begin");
    if (!strcmp(way, "save") || !strcmp(way, "fill"))
        save(db, slots, saves);
    if (!strcmp(way, "fill"))
        check(sqlite3_exec(db, "COMMIT", 0, 0, 0), SQLITE_OK, "commit");
    if (!strcmp(way, "load"))
        load(db);
    sqlite3_close(db);
    return 0;
}
