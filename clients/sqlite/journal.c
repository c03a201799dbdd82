/* Journals in memory. A commit brings the whole transaction to the disk at once, so SQLite's rollback journal is asked for
   only while the process lives. A journal is found by its name, as a file is, and lives as long as its database is open. */
#include "parts.h"
#include <stdlib.h>
#include <string.h>

typedef struct journal {
    struct journal *next;
    char *name;
    uint8_t *bytes;
    sqlite3_int64 size, room;
} journal;

typedef struct handle {
    sqlite3_file base;
    journal *journal;
} handle;

static journal *journals;

int journal_handle_size(void) { return (int)sizeof(handle); }

static journal **place_of(const char *name) {
    journal **p = &journals;
    while (*p && strcmp((*p)->name, name)) p = &(*p)->next;
    return p;
}

int journal_is_there(const char *name) { return *place_of(name) != NULL; }

int journal_is_hot(const char *name) {
    const journal *j = *place_of(name);
    return j && j->size && j->bytes[0];
}

int journal_drop(const char *name) {
    journal **p = place_of(name), *j = *p;
    if (!j) return 0;
    *p = j->next;
    free(j->bytes);
    free(j->name);
    free(j);
    return 1;
}

static journal *of(sqlite3_file *f) { return ((handle *)f)->journal; }

static int read_it(sqlite3_file *f, void *to, int n, sqlite3_int64 at) {
    const journal *j = of(f);
    sqlite3_int64 there = at >= j->size ? 0 : j->size - at;
    if (there > n) there = n;
    if (there) memcpy(to, j->bytes + at, (size_t)there);
    memset((char *)to + there, 0, (size_t)(n - there));
    return there == n ? SQLITE_OK : SQLITE_IOERR_SHORT_READ;
}

/* Makes room for so many bytes, and twice as many at a time. */
static int grow(journal *j, sqlite3_int64 size) {
    if (size <= j->room) return SQLITE_OK;
    uint8_t *bytes = realloc(j->bytes, (size_t)size * 2);
    if (!bytes) return SQLITE_IOERR_NOMEM;
    j->bytes = bytes;
    j->room = size * 2;
    return SQLITE_OK;
}

static int write_it(sqlite3_file *f, const void *from, int n, sqlite3_int64 at) {
    journal *j = of(f);
    int rc = grow(j, at + n);
    if (rc) return rc;
    if (at > j->size) memset(j->bytes + j->size, 0, (size_t)(at - j->size));
    memcpy(j->bytes + at, from, (size_t)n);
    if (at + n > j->size) j->size = at + n;
    return SQLITE_OK;
}

static int truncate_it(sqlite3_file *f, sqlite3_int64 size) {
    journal *j = of(f);
    if (size < j->size) j->size = size;
    return SQLITE_OK;
}

static int tell_size(sqlite3_file *f, sqlite3_int64 *size) {
    *size = of(f)->size;
    return SQLITE_OK;
}

static int close_it(sqlite3_file *f) { return (void)f, SQLITE_OK; }
static int sync_it(sqlite3_file *f, int flags) { return (void)f, (void)flags, SQLITE_OK; }
static int lock_it(sqlite3_file *f, int level) { return (void)f, (void)level, SQLITE_OK; }
static int check_it(sqlite3_file *f, int *reserved) { return (void)f, *reserved = 0, SQLITE_OK; }
static int control_it(sqlite3_file *f, int op, void *arg) { return (void)f, (void)op, (void)arg, SQLITE_NOTFOUND; }
static int sector_of(sqlite3_file *f) { return (void)f, 512; }
static int traits_of(sqlite3_file *f) { return (void)f, SQLITE_IOCAP_POWERSAFE_OVERWRITE; }

static const sqlite3_io_methods methods = {
    .iVersion = 1, .xClose = close_it, .xRead = read_it, .xWrite = write_it, .xTruncate = truncate_it, .xSync = sync_it,
    .xFileSize = tell_size, .xLock = lock_it, .xUnlock = lock_it, .xCheckReservedLock = check_it,
    .xFileControl = control_it, .xSectorSize = sector_of, .xDeviceCharacteristics = traits_of,
};

int journal_open(const char *name, sqlite3_file *f) {
    journal **p = place_of(name);
    if (!*p) {
        journal *made = calloc(1, sizeof *made);
        if (!made) return SQLITE_NOMEM;
        if (!(made->name = strdup(name))) {
            free(made);
            return SQLITE_NOMEM;
        }
        *p = made;
    }
    ((handle *)f)->journal = *p;
    f->pMethods = &methods;
    return SQLITE_OK;
}
