/* beside PEER CALLS LABEL: the labels of labels.h stored in a peer, then a call on the first of them, then so many calls on that label, or
   on each in turn where LABEL is -1. Every answer is held to the frame that was stored. Says how often memory was asked for, to store and
   in those calls. Its files go into the folder that it runs in. */
#include <stdint.h>
#include <stdio.h>
#include <stdlib.h>
#include <string.h>
#include <unistd.h>

#include <Judy.h>
#include <lmdb.h>
#include <sqlite3.h>

/* A label, and the same with no byte zero: 00 as 01 01 and 01 as 01 02, which keeps the order. */
struct label {
    unsigned size;
    const char *bytes, *no_zero;
};

static const struct label labels[] = {
#include "labels.h"
};
enum { COUNT = sizeof labels / sizeof labels[0] };

static void must(int good, const char *what) {
    if (!good) {
        fprintf(stderr, "beside: %s\n", what);
        exit(1);
    }
}

/* How often memory was asked for, where the linker wraps the calls; else 0. */
static long asked;
#ifdef ASKED
void *__real_malloc(size_t size);
void *__real_calloc(size_t count, size_t size);
void *__real_realloc(void *old, size_t size);
void *__wrap_malloc(size_t size) { return asked++, __real_malloc(size); }
void *__wrap_calloc(size_t count, size_t size) { return asked++, __real_calloc(count, size); }
void *__wrap_realloc(void *old, size_t size) { return asked++, __real_realloc(old, size); }
#endif

/* SQLite in memory: a table with the label as its key, ordered by it alone or an ordinary one with an index beside it. */
static sqlite3 *database;
static sqlite3_stmt *statement;

static void prepare(const char *text) {
    must(sqlite3_prepare_v2(database, text, -1, &statement, NULL) == SQLITE_OK, "no SQLite statement");
}

static void sqlite_bind(const struct label *label) {
    must(sqlite3_bind_blob(statement, 1, label->bytes, (int)label->size, SQLITE_STATIC) == SQLITE_OK, "SQLite takes no label");
}

static void sqlite_store(const char *table) {
    must(sqlite3_open(":memory:", &database) == SQLITE_OK, "no SQLite");
    must(sqlite3_exec(database, table, NULL, NULL, NULL) == SQLITE_OK, "no SQLite table");
    prepare("INSERT INTO labels VALUES (?1, ?2)");
    for (int i = 0; i < COUNT; i++) {
        sqlite_bind(&labels[i]);
        must(sqlite3_bind_int64(statement, 2, i + 1) == SQLITE_OK, "SQLite takes no frame");
        must(sqlite3_step(statement) == SQLITE_DONE, "SQLite stores no label");
        sqlite3_reset(statement);
    }
    sqlite3_finalize(statement);
}

static void sqlite_alone(void) { sqlite_store("CREATE TABLE labels (label BLOB PRIMARY KEY, frame INTEGER) WITHOUT ROWID"); }
static void sqlite_rowid(void) { sqlite_store("CREATE TABLE labels (label BLOB PRIMARY KEY, frame INTEGER)"); }
static void sqlite_to_find(void) { prepare("SELECT frame FROM labels WHERE label = ?1"); }
static void sqlite_to_check(void) { prepare("PRAGMA integrity_check"); }

static uint64_t sqlite_find(const struct label *label) {
    sqlite_bind(label);
    must(sqlite3_step(statement) == SQLITE_ROW, "SQLite finds no label");
    uint64_t frame = (uint64_t)sqlite3_column_int64(statement, 0);
    sqlite3_reset(statement);
    return frame;
}

static uint64_t sqlite_check(const struct label *label) {
    must(sqlite3_step(statement) == SQLITE_ROW, "SQLite says nothing");
    must(strcmp((const char *)sqlite3_column_text(statement, 0), "ok") == 0, "SQLite calls it damaged");
    must(sqlite3_step(statement) == SQLITE_DONE, "SQLite says more");
    sqlite3_reset(statement);
    return (uint64_t)(label - labels) + 1;
}

/* LMDB on a file: a get in a transaction that stays open, or in one of its own. */
static MDB_txn *transaction;
static MDB_dbi table;

static MDB_val lmdb_key(const struct label *label) { return (MDB_val){label->size, (void *)label->bytes}; }

static void lmdb_store(void) {
    MDB_env *environment;
    unlink("lmdb");
    unlink("lmdb-lock");
    must(mdb_env_create(&environment) == 0, "no LMDB");
    must(mdb_env_open(environment, "lmdb", MDB_NOSUBDIR | MDB_NOSYNC, 0600) == 0, "no LMDB file");
    must(mdb_txn_begin(environment, NULL, 0, &transaction) == 0, "no LMDB transaction");
    must(mdb_dbi_open(transaction, NULL, 0, &table) == 0, "no LMDB table");
    for (int i = 0; i < COUNT; i++) {
        uint64_t frame = (uint64_t)i + 1;
        MDB_val key = lmdb_key(&labels[i]), value = {sizeof frame, &frame};
        must(mdb_put(transaction, table, &key, &value, MDB_NOOVERWRITE) == 0, "LMDB stores no label");
    }
    must(mdb_txn_commit(transaction) == 0, "LMDB commits nothing");
    must(mdb_txn_begin(environment, NULL, MDB_RDONLY, &transaction) == 0, "no LMDB transaction to read");
}

static void lmdb_closed(void) { mdb_txn_reset(transaction); }

static uint64_t lmdb_find(const struct label *label) {
    uint64_t frame;
    MDB_val key = lmdb_key(label), value;
    must(mdb_get(transaction, table, &key, &value) == 0 && value.mv_size == sizeof frame, "LMDB finds no label");
    memcpy(&frame, value.mv_data, sizeof frame);
    return frame;
}

static uint64_t lmdb_alone(const struct label *label) {
    must(mdb_txn_renew(transaction) == 0, "LMDB renews nothing");
    uint64_t frame = lmdb_find(label);
    mdb_txn_reset(transaction);
    return frame;
}

/* JudySL, whose keys end at their first zero. */
static Pvoid_t judy;

static void judy_store(void) {
    for (int i = 0; i < COUNT; i++) {
        PPvoid_t value = JudySLIns(&judy, (const uint8_t *)labels[i].no_zero, PJE0);
        must(value != PPJERR && *value == NULL, "Judy stores no label");
        *(Word_t *)value = (Word_t)i + 1;
    }
}

static uint64_t judy_find(const struct label *label) {
    PPvoid_t value = JudySLGet(judy, (const uint8_t *)label->no_zero, PJE0);
    must(value != NULL, "Judy finds no label");
    return *(Word_t *)value;
}

/* What the loop and a call cost by themselves. */
static void none(void) {}

static uint64_t nothing(const struct label *label) { return (uint64_t)(label - labels) + 1; }

static const struct peer {
    const char *name;
    void (*store)(void), (*ready)(void);
    uint64_t (*call)(const struct label *);
} peers[] = {
    {"nothing", none, none, nothing},
    {"sqlite-find", sqlite_alone, sqlite_to_find, sqlite_find},
    {"sqlite-check", sqlite_alone, sqlite_to_check, sqlite_check},
    {"sqlite-rowid-find", sqlite_rowid, sqlite_to_find, sqlite_find},
    {"sqlite-rowid-check", sqlite_rowid, sqlite_to_check, sqlite_check},
    {"lmdb-find", lmdb_store, none, lmdb_find},
    {"lmdb-txn-find", lmdb_store, lmdb_closed, lmdb_alone},
    {"judysl-find", judy_store, none, judy_find},
};

int main(int argc, char **argv) {
    must(argc == 4, "beside PEER CALLS LABEL");
    const struct peer *peer = peers, *end = peers + sizeof peers / sizeof peers[0];
    while (peer < end && strcmp(peer->name, argv[1]) != 0) peer++;
    must(peer < end, "no such peer");
    int calls = atoi(argv[2]), label = atoi(argv[3]);
    long before = asked;
    peer->store();
    long stored = asked - before;
    peer->ready();
    must(peer->call(&labels[0]) == 1, "not the first frame");
    before = asked;
    for (int n = 0; n < calls; n++) {
        int i = label < 0 ? n % COUNT : label;
        must(peer->call(&labels[i]) == (uint64_t)i + 1, "not the frame that was stored");
    }
    printf("%ld %ld\n", stored, asked - before);
    return 0;
}
