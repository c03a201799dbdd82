/* What the test programs over SQLite share. */
#ifndef CLIENT_TESTS_COMMON_H
#define CLIENT_TESTS_COMMON_H

#include <sqlite3.h>
#include <stdarg.h>
#include <stdint.h>
#include <stdio.h>
#include <stdlib.h>
#include <string.h>

static inline uint64_t drawn(uint64_t *seed) {
    *seed ^= *seed << 13;
    *seed ^= *seed >> 7;
    *seed ^= *seed << 17;
    return *seed * 0x2545F4914F6CDD1Du >> 11;
}

static inline void die(sqlite3 *db, const char *what) {
    fprintf(stderr, "%s: %s\n", what, db ? sqlite3_errmsg(db) : "");
    exit(2);
}

static inline void run(sqlite3 *db, const char *format, ...) {
    va_list words;
    va_start(words, format);
    char *sql = sqlite3_vmprintf(format, words);
    va_end(words);
    if (!sql || sqlite3_exec(db, sql, NULL, NULL, NULL)) die(db, sql);
    sqlite3_free(sql);
}

static inline sqlite3_stmt *prepared(sqlite3 *db, const char *sql) {
    sqlite3_stmt *s;
    if (sqlite3_prepare_v3(db, sql, -1, SQLITE_PREPARE_PERSISTENT, &s, NULL)) die(db, sql);
    return s;
}

static inline sqlite3_int64 number(sqlite3 *db, const char *sql) {
    sqlite3_stmt *s = prepared(db, sql);
    if (sqlite3_step(s) != SQLITE_ROW) die(db, sql);
    sqlite3_int64 n = sqlite3_column_int64(s, 0);
    sqlite3_finalize(s);
    return n;
}

/* The extension that the environment's EXTENSION names, loaded for the whole process. */
static inline void load_extension(void) {
    const char *path = getenv("EXTENSION");
    sqlite3 *db;
    char *error = NULL;
    if (!path || !*path) return;
    if (sqlite3_open(":memory:", &db)) die(NULL, "no memory");
    sqlite3_enable_load_extension(db, 1);
    if (sqlite3_load_extension(db, path, NULL, &error)) die(NULL, error ? error : path);
    sqlite3_close(db);
}

/* A connection, after its pragmas. */
static inline sqlite3 *opened(const char *uri, char **pragmas) {
    sqlite3 *db = NULL;
    if (sqlite3_open_v2(uri, &db, SQLITE_OPEN_READWRITE | SQLITE_OPEN_CREATE | SQLITE_OPEN_URI, NULL)) die(db, uri);
    for (; *pragmas; pragmas++) run(db, "pragma %s", *pragmas);
    return db;
}

#endif
