/* Pairs of words in a map of this library, in LMDB and in SQLite, each in a file, with so many changes in a transaction.
   None of the three waits for the disk: a process that is killed loses nothing, a machine that stops may.

     ordered_speed ENGINE FILE PAIRS PHASES TOGETHER

   Phases, in this order: 1 inserts the pairs, 2 looks each up, 3 goes over all by rising key, 4 takes each out, 5 loads as many
   by rising key at once. It writes a line for each, with its microseconds for each pair. */
#include "../../c/envy.h"
#include <lmdb.h>
#include <sqlite3.h>
#include <stdio.h>
#include <stdlib.h>
#include <string.h>
#include <time.h>
#include <unistd.h>

static void must(int holds, const char *what) {
    if (holds) return;
    fprintf(stderr, "ordered_speed: %s\n", what);
    exit(1);
}

/* Keys are all different, and in no order. */
static uint64_t key_of(uint64_t i) { return (i * 0x9E3779B97F4A7C15) >> 1; }

typedef struct engine {
    const char *name;
    void (*open)(const char *path, uint64_t pairs);
    void (*insert)(uint64_t key, uint64_t value);
    uint64_t (*get)(uint64_t key);
    uint64_t (*scan)(uint64_t *sum);
    void (*take_out)(uint64_t key);
    void (*begin)(void);
    void (*commit)(void);
    void (*load)(uint64_t pairs);
} engine;

/* how many changes a transaction has */
static uint64_t together = 1;

/* ---- this library */

static envy map = ENVY_INIT;
/* the whole array, and the open transaction of it; a change alone is a call of the map of the whole array */
static envy_map whole;
static uint32_t slot;

static void envy_open(const char *path, uint64_t pairs) {
    uint32_t pages = (uint32_t)(2 * (pairs / 14 + 16) + 2), rows = 256;
    /* half of the rows are in use */
    envy_setup setup = {
        .segments = 2 * pages / rows + 4, .rows = rows, .pages = pages, .shadows = together > 1 ? 384 : 32, .frames = together > 1 ? 512 : 256, .entries = 4096,
        .policy = ENVY_GREEDY, .part = 2, .limit = 100, .mark = 256,
    };
    whole = (envy_map){0, 32 * pages};
    must(envy_open_mapped(&map, path, &setup, ENVY_CREATE) == ENVY_DONE, "format");
}

static void map_insert(uint64_t key, uint64_t value) {
    envy_old before;
    must((together > 1 ? envy_map_insert(&map, slot, &whole, key, value, &before)
                       : envy_index_insert(&map, key, value, &before)) == ENVY_DONE, "insert");
}

static uint64_t map_get(uint64_t key) {
    uint64_t value;
    must(envy_index_get(&map, key, &value) == ENVY_DONE, "get");
    return value;
}

/* Pairs that a scan is asked for at a time. */
enum { AT_ONCE = 64 };

static uint64_t map_scan(uint64_t *sum) {
    envy_pair pair[AT_ONCE];
    uint64_t n = 0, key = 0;
    size_t count;
    do {
        must(envy_index_scan(&map, key, pair, AT_ONCE, &count) == ENVY_DONE, "scan");
        for (size_t i = 0; i < count; i++) *sum += pair[i].value;
        if (count) key = pair[count - 1].key + 1; /* no key of this program is the last of all */
        n += count;
    } while (count == AT_ONCE);
    return n;
}

static void map_remove(uint64_t key) {
    uint64_t value;
    must((together > 1 ? envy_map_remove(&map, slot, &whole, key, &value)
                       : envy_index_remove(&map, key, &value)) == ENVY_DONE, "remove");
}

static void map_begin(void) {
    if (together > 1) must(envy_map_begin(&map, &slot) == ENVY_DONE, "begin");
}

static void map_commit(void) {
    if (together > 1) must(envy_map_commit(&map, slot) == ENVY_DONE, "commit");
}

static void map_load(uint64_t pairs) {
    envy_pair *list = malloc(pairs * sizeof *list);
    must(list != NULL, "memory");
    for (uint64_t i = 0; i < pairs; i++) list[i] = (envy_pair){i, i};
    must(envy_map_load(&map, &whole, list, pairs) == ENVY_DONE, "load");
    free(list);
}

/* ---- LMDB */

static MDB_env *environment;
static MDB_dbi table;
static MDB_txn *reading, *writing;

static void lmdb_open(const char *path, uint64_t pairs) {
    MDB_txn *txn;
    must(!mdb_env_create(&environment) && !mdb_env_set_mapsize(environment, 1 << 20 | (pairs * 256 & ~4095ull)), "create");
    must(!mdb_env_open(environment, path, MDB_NOSUBDIR | MDB_NOSYNC | MDB_WRITEMAP, 0600), "open");
    must(!mdb_txn_begin(environment, NULL, 0, &txn), "begin");
    must(!mdb_dbi_open(txn, NULL, MDB_INTEGERKEY, &table) && !mdb_txn_commit(txn), "table");
    must(!mdb_txn_begin(environment, NULL, MDB_RDONLY, &reading), "begin to read");
    mdb_txn_reset(reading);
}

static void lmdb_insert(uint64_t key, uint64_t value) {
    MDB_val k = {sizeof key, &key}, v = {sizeof value, &value};
    must(!mdb_put(writing, table, &k, &v, 0), "put");
}

static void lmdb_begin(void) { must(!mdb_txn_begin(environment, NULL, 0, &writing), "begin"); }

static void lmdb_commit(void) { must(!mdb_txn_commit(writing), "commit"); }

static uint64_t lmdb_get(uint64_t key) {
    MDB_val k = {sizeof key, &key}, v;
    uint64_t value;
    must(!mdb_txn_renew(reading) && !mdb_get(reading, table, &k, &v), "get");
    memcpy(&value, v.mv_data, sizeof value);
    mdb_txn_reset(reading);
    return value;
}

static uint64_t lmdb_scan(uint64_t *sum) {
    MDB_cursor *cursor;
    MDB_val k, v;
    uint64_t n = 0, value;
    must(!mdb_txn_renew(reading) && !mdb_cursor_open(reading, table, &cursor), "cursor");
    for (; !mdb_cursor_get(cursor, &k, &v, MDB_NEXT); n++) {
        memcpy(&value, v.mv_data, sizeof value);
        *sum += value;
    }
    mdb_cursor_close(cursor);
    mdb_txn_reset(reading);
    return n;
}

static void lmdb_remove(uint64_t key) {
    MDB_val k = {sizeof key, &key};
    must(!mdb_del(writing, table, &k, NULL), "del");
}

static void lmdb_load(uint64_t pairs) {
    lmdb_begin();
    for (uint64_t i = 0; i < pairs; i++) {
        MDB_val k = {sizeof i, &i}, v = {sizeof i, &i};
        must(!mdb_put(writing, table, &k, &v, MDB_APPEND), "append");
    }
    lmdb_commit();
}

/* ---- SQLite */

static sqlite3 *base;
static sqlite3_stmt *put_one, *get_one, *take_one, *all;

static sqlite3_stmt *prepared(const char *text) {
    sqlite3_stmt *made;
    must(sqlite3_prepare_v2(base, text, -1, &made, NULL) == SQLITE_OK, text);
    return made;
}

static void sqlite_open(const char *path, uint64_t pairs) {
    (void)pairs;
    must(sqlite3_open(path, &base) == SQLITE_OK, "open");
    must(sqlite3_exec(base, "pragma journal_mode = wal; pragma synchronous = off; create table t(k integer primary key, v integer)",
                      NULL, NULL, NULL) == SQLITE_OK, "table");
    put_one = prepared("insert or replace into t values (?, ?)");
    get_one = prepared("select v from t where k = ?");
    take_one = prepared("delete from t where k = ?");
    all = prepared("select k, v from t order by k");
}

static void sqlite_insert(uint64_t key, uint64_t value) {
    sqlite3_bind_int64(put_one, 1, (int64_t)key);
    sqlite3_bind_int64(put_one, 2, (int64_t)value);
    must(sqlite3_step(put_one) == SQLITE_DONE && sqlite3_reset(put_one) == SQLITE_OK, "insert");
}

static uint64_t sqlite_get(uint64_t key) {
    sqlite3_bind_int64(get_one, 1, (int64_t)key);
    must(sqlite3_step(get_one) == SQLITE_ROW, "select");
    uint64_t value = (uint64_t)sqlite3_column_int64(get_one, 0);
    sqlite3_reset(get_one);
    return value;
}

static uint64_t sqlite_scan(uint64_t *sum) {
    uint64_t n = 0;
    for (; sqlite3_step(all) == SQLITE_ROW; n++) *sum += (uint64_t)sqlite3_column_int64(all, 1);
    sqlite3_reset(all);
    return n;
}

static void sqlite_remove(uint64_t key) {
    sqlite3_bind_int64(take_one, 1, (int64_t)key);
    must(sqlite3_step(take_one) == SQLITE_DONE && sqlite3_reset(take_one) == SQLITE_OK, "delete");
}

static void sqlite_do(const char *text) {
    if (together > 1) must(sqlite3_exec(base, text, NULL, NULL, NULL) == SQLITE_OK, text);
}

static void sqlite_begin(void) { sqlite_do("begin"); }

static void sqlite_commit(void) { sqlite_do("commit"); }

static void sqlite_load(uint64_t pairs) {
    must(sqlite3_exec(base, "begin", NULL, NULL, NULL) == SQLITE_OK, "begin");
    for (uint64_t i = 0; i < pairs; i++) sqlite_insert(i, i);
    must(sqlite3_exec(base, "commit", NULL, NULL, NULL) == SQLITE_OK, "commit");
}

/* ---- phases */

static const engine engines[] = {
    {"envy", envy_open, map_insert, map_get, map_scan, map_remove, map_begin, map_commit, map_load},
    {"lmdb", lmdb_open, lmdb_insert, lmdb_get, lmdb_scan, lmdb_remove, lmdb_begin, lmdb_commit, lmdb_load},
    {"sqlite", sqlite_open, sqlite_insert, sqlite_get, sqlite_scan, sqlite_remove, sqlite_begin, sqlite_commit, sqlite_load},
};

static double seconds(void) {
    struct timespec now;
    clock_gettime(CLOCK_MONOTONIC, &now);
    return (double)now.tv_sec + 1e-9 * (double)now.tv_nsec;
}

/* Change i of so many begins a transaction, or ends one. */
static void before(const engine *e, uint64_t i) {
    if (i % together == 0) e->begin();
}

static void after(const engine *e, uint64_t i, uint64_t pairs) {
    if (i % together == together - 1 || i == pairs - 1) e->commit();
}

static void run(const engine *e, uint64_t pairs, int phase) {
    uint64_t sum = 0;
    switch (phase) {
    case 1:
        for (uint64_t i = 0; i < pairs; i++) before(e, i), e->insert(key_of(i), i), after(e, i, pairs);
        break;
    case 2:
        for (uint64_t i = 0; i < pairs; i++) must(e->get(key_of(i * 7919 % pairs)) == i * 7919 % pairs, "a wrong value");
        break;
    case 3:
        must(e->scan(&sum) == pairs && sum == pairs * (pairs - 1) / 2, "a scan misses pairs");
        break;
    case 4:
        for (uint64_t i = 0; i < pairs; i++) before(e, i), e->take_out(key_of(i * 7919 % pairs)), after(e, i, pairs);
        break;
    case 5:
        e->load(pairs);
        break;
    }
}

int main(int words, char **word) {
    static const char *const names[] = {"", "insert", "get", "scan", "remove", "load"};
    if (words != 6) return 2;
    uint64_t pairs = strtoull(word[3], NULL, 10);
    together = strtoull(word[5], NULL, 10);
    for (size_t i = 0; i < sizeof engines / sizeof *engines; i++) {
        if (strcmp(engines[i].name, word[1])) continue;
        engines[i].open(word[2], pairs);
        for (int phase = 1; phase <= atoi(word[4]); phase++) {
            double began = seconds();
            run(&engines[i], pairs, phase);
            printf("%s %s %.3f\n", word[1], names[phase], 1e6 * (seconds() - began) / (double)pairs);
        }
        return 0;
    }
    return 2;
}
