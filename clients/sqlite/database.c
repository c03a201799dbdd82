/* Databases: each an array, which all connections of the process share, with SQLite's locks kept here. */
#define _GNU_SOURCE
#include "envy_text.h"
#include "parts.h"
#include <errno.h>
#include <stdlib.h>
#include <string.h>
#include <unistd.h>

typedef struct handle handle;

typedef struct database {
    struct database *next;
    char *name;
    char *journal; /* its name */
    int users;
    options options;
    bytes bytes;
    sqlite3_mutex *lock;
    unsigned readers;
    handle *reserved, *pending, *exclusive;
    uint64_t reads, writes, batches;
} database;

struct handle {
    sqlite3_file base;
    database *database;
    int level; /* of SQLite's locks */
};

static const uint64_t KIND = 0x31306c7153796e65; /* "enySql01" */
static database *databases;

int database_handle_size(void) { return (int)sizeof(handle); }

sqlite3_mutex *common_lock(void) { return sqlite3_mutex_alloc(SQLITE_MUTEX_STATIC_VFS2); }

static database *enter(sqlite3_file *f) {
    database *d = ((handle *)f)->database;
    sqlite3_mutex_enter(d->lock);
    return d;
}

static int leave(database *d, int rc) {
    sqlite3_mutex_leave(d->lock);
    return rc;
}

static int answer(uint32_t code, int otherwise) {
    switch (code) {
    case ENVY_DONE: return SQLITE_OK;
    case ENVY_NO_MEMORY: return SQLITE_IOERR_NOMEM;
    case ENVY_RANGE: return SQLITE_FULL;
    default: return otherwise;
    }
}

/* ---- opening and closing ---- */

static void free_database(database *d) {
    sqlite3_mutex_free(d->lock);
    free(d->name);
    sqlite3_free(d->journal);
    free(d);
}

/* If a transaction was left unfinished, what it wrote isn't synced: the file opens as of the last commit. */
static int close_it(sqlite3_file *f) {
    database *d = ((handle *)f)->database;
    int rc = SQLITE_OK;
    sqlite3_mutex_enter(common_lock());
    if (!--d->users) {
        for (database **p = &databases; *p; p = &(*p)->next)
            if (*p == d) {
                *p = d->next;
                break;
            }
        if (bytes_close(&d->bytes, !journal_is_hot(d->journal))) rc = SQLITE_IOERR_CLOSE;
        journal_drop(d->journal);
        free_database(d);
    }
    sqlite3_mutex_leave(common_lock());
    return rc;
}

/* What SQLite is answered for an array that couldn't be opened. */
static int refused(uint32_t code) {
    switch (code) {
    case ENVY_LOCKED: return SQLITE_BUSY;
    case ENVY_NO_MEMORY: return SQLITE_NOMEM;
    case ENVY_OFF: return SQLITE_IOERR;
    case BYTES_OTHER_KIND:
    case ENVY_NO_JOURNAL:
    case ENVY_OTHER_JOURNAL:
    case ENVY_UNFORMATTED:
    case ENVY_OLDER: return SQLITE_NOTADB;
    case BYTES_MAPPED:
    case BYTES_DURABLE: return SQLITE_MISUSE;
    case ENVY_SYSTEM: return SQLITE_CANTOPEN;
    default: return code >= ENVY_BROKEN_FIELDS && code <= ENVY_BROKEN_UNDOS ? SQLITE_CORRUPT : SQLITE_CANTOPEN;
    }
}

static int open_array(database *d, const char *name) {
    char *why = NULL;
    int rc = options_read(name, &d->options, &why);
    /* a journal that a process left in a file must be found */
    if (!rc && !access(d->journal, F_OK)) d->options.journal_is_file = 1;
    if (!rc) {
        uint32_t code = bytes_open(&d->bytes, name, KIND, &d->options.bytes);
        rc = code ? refused(code) : SQLITE_OK;
        if (code) sqlite3_log(rc, "envy: %s: %s", name, code == ENVY_SYSTEM ? strerror(errno) : bytes_text(code));
    } else if (why) {
        sqlite3_log(rc, "envy: %s: %s", name, why);
    }
    sqlite3_free(why);
    return rc;
}

static int make_database(const char *name, database **made) {
    database *d = calloc(1, sizeof *d);
    if (!d) return SQLITE_NOMEM;
    int rc = SQLITE_NOMEM;
    d->name = strdup(name);
    d->journal = sqlite3_mprintf("%s-journal", name);
    if (d->name && d->journal) rc = open_array(d, name);
    if (rc) {
        free_database(d);
        return rc;
    }
    d->lock = sqlite3_mutex_alloc(SQLITE_MUTEX_FAST);
    d->next = databases;
    databases = *made = d;
    return SQLITE_OK;
}

/* The open database of a name, or of as many bytes of it. */
static database *find(const char *name, size_t n) {
    database *d = databases;
    while (d && (strlen(d->name) != n || strncmp(d->name, name, n))) d = d->next;
    return d;
}

int database_has_journal_in_memory(const char *journal) {
    static const char end[] = "-journal";
    size_t n = strlen(journal), last = sizeof end - 1;
    if (n <= last || strcmp(journal + n - last, end)) return 0;
    const database *d = find(journal, n - last);
    return d && !d->options.journal_is_file;
}

/* ---- reading and writing ---- */

static int read_it(sqlite3_file *f, void *to, int n, sqlite3_int64 at) {
    database *d = enter(f);
    uint64_t length = d->bytes.length, there = (uint64_t)at >= length ? 0 : length - (uint64_t)at;
    d->reads++;
    if (there > (uint64_t)n) there = (uint64_t)n;
    uint32_t code = bytes_read(&d->bytes, (uint64_t)at, to, (size_t)there);
    leave(d, SQLITE_OK);
    if (code) return answer(code, SQLITE_IOERR_READ);
    if (there == (uint64_t)n) return SQLITE_OK;
    memset((char *)to + there, 0, (size_t)n - (size_t)there);
    return SQLITE_IOERR_SHORT_READ;
}

/* Makes the database so long. After its end may be what was there before it was cut. */
static uint32_t lengthen(bytes *b, uint64_t length) {
    return length > b->length ? bytes_zero(b, b->length, length - b->length) : (uint32_t)ENVY_DONE;
}

static int write_it(sqlite3_file *f, const void *from, int n, sqlite3_int64 at) {
    database *d = enter(f);
    bytes *b = &d->bytes;
    uint64_t end = (uint64_t)at + (uint64_t)n;
    d->writes++;
    if (end > b->room) return leave(d, SQLITE_FULL);
    uint32_t code = lengthen(b, (uint64_t)at);
    if (!code) code = bytes_write(b, (uint64_t)at, from, (size_t)n);
    if (!code && end > b->length) code = bytes_set_length(b, end);
    return leave(d, answer(code, SQLITE_IOERR_WRITE));
}

static int truncate_it(sqlite3_file *f, sqlite3_int64 size) {
    database *d = enter(f);
    bytes *b = &d->bytes;
    if ((uint64_t)size > b->room) return leave(d, SQLITE_FULL);
    uint32_t code = lengthen(b, (uint64_t)size);
    if (!code) code = bytes_set_length(b, (uint64_t)size);
    return leave(d, answer(code, SQLITE_IOERR_TRUNCATE));
}

/* A commit: SQLite syncs a database when a transaction is whole, or undone, and never within one. */
static int sync_it(sqlite3_file *f, int flags) {
    database *d = enter(f);
    (void)flags;
    uint32_t code = d->options.syncs_nothing ? (uint32_t)ENVY_DONE : bytes_sync(&d->bytes);
    return leave(d, answer(code, SQLITE_IOERR_FSYNC));
}

static int tell_size(sqlite3_file *f, sqlite3_int64 *size) {
    database *d = enter(f);
    *size = (sqlite3_int64)d->bytes.length;
    return leave(d, SQLITE_OK);
}

/* ---- locks: SHARED for many, RESERVED for one beside them, PENDING keeps new readers out, EXCLUSIVE alone ---- */

static int share(database *d, handle *h) {
    if (d->pending || d->exclusive) return SQLITE_BUSY;
    d->readers++;
    h->level = SQLITE_LOCK_SHARED;
    return SQLITE_OK;
}

static int reserve(database *d, handle *h) {
    if (d->reserved && d->reserved != h) return SQLITE_BUSY;
    d->reserved = h;
    h->level = SQLITE_LOCK_RESERVED;
    return SQLITE_OK;
}

/* A connection that undoes what another left goes from SHARED to EXCLUSIVE without RESERVED. */
static int exclude(database *d, handle *h, int level) {
    if ((d->reserved && d->reserved != h) || (d->pending && d->pending != h)) return SQLITE_BUSY;
    d->pending = h;
    h->level = SQLITE_LOCK_PENDING;
    if (level == SQLITE_LOCK_PENDING) return SQLITE_OK;
    if (d->readers > 1) return SQLITE_BUSY;
    d->exclusive = h;
    h->level = SQLITE_LOCK_EXCLUSIVE;
    return SQLITE_OK;
}

static int lock_it(sqlite3_file *f, int level) {
    handle *h = (handle *)f;
    if (h->level >= level) return SQLITE_OK;
    database *d = enter(f);
    switch (level) {
    case SQLITE_LOCK_SHARED: return leave(d, share(d, h));
    case SQLITE_LOCK_RESERVED: return leave(d, reserve(d, h));
    default: return leave(d, exclude(d, h, level));
    }
}

static int unlock_it(sqlite3_file *f, int level) {
    handle *h = (handle *)f;
    if (h->level <= level) return SQLITE_OK;
    database *d = enter(f);
    if (d->reserved == h) d->reserved = NULL;
    if (d->pending == h) d->pending = NULL;
    if (d->exclusive == h) d->exclusive = NULL;
    if (level == SQLITE_LOCK_NONE) d->readers--;
    h->level = level;
    return leave(d, SQLITE_OK);
}

static int check_it(sqlite3_file *f, int *reserved) {
    database *d = enter(f);
    *reserved = d->reserved || d->pending || d->exclusive;
    return leave(d, SQLITE_OK);
}

/* ---- control ---- */

static char *told(const database *d, const envy_counts *c) {
    const bytes *b = &d->bytes;
    const envy_setup *s = &b->setup;
    return sqlite3_mprintf(
        "room %llu length %llu; %u segments of %u rows, %u pages, %u shadows, %u frames; reads %llu writes %llu syncs %llu "
        "batches %llu; words given %llu stored %llu read %llu; hits %llu misses %llu flushes %llu copies %llu moves %llu "
        "erases %llu swaps %llu",
        b->room, b->length, s->segments, s->rows, s->pages, s->shadows, s->frames, d->reads, d->writes, b->counts.syncs,
        d->batches, b->counts.words_given, b->counts.words_stored, b->counts.words_read, c->hits, c->misses, c->flushes,
        c->copies, c->moves, c->erases, c->swaps);
}

/* Leaves in a durable file no more than the array takes. */
static int compact(database *d, char **text) {
    if (d->reserved) {
        *text = sqlite3_mprintf("a transaction is open");
        return SQLITE_BUSY;
    }
    uint32_t code = envy_compact(&d->bytes.memory);
    *text = sqlite3_mprintf("%s", bytes_text(code));
    return code ? SQLITE_IOERR : SQLITE_OK;
}

static int is_off(const char *value) {
    return value && (!sqlite3_stricmp(value, "off") || !sqlite3_stricmp(value, "no") || !sqlite3_stricmp(value, "false") ||
                     !strcmp(value, "0"));
}

/* Without syncs SQLite makes no batch, and no journal in a file either if its library knows batches. */
static int refuses_off(const database *d, const char *value) {
    return d->bytes.mapped && is_off(value) && sqlite3_compileoption_used("ENABLE_BATCH_ATOMIC_WRITE");
}

/* envy_stat tells counts. */
static int pragma(database *d, char **text) {
    const char *name = text[1];
    envy_counts counts;
    if (!sqlite3_stricmp(name, "envy_stat")) {
        if (envy_counters(&d->bytes.memory, &counts)) return SQLITE_ERROR;
        text[0] = told(d, &counts);
        return text[0] ? SQLITE_OK : SQLITE_NOMEM;
    }
    if (!d->bytes.mapped && !sqlite3_stricmp(name, "envy_compact")) return compact(d, text);
    if (!sqlite3_stricmp(name, "synchronous") && refuses_off(d, text[2])) {
        text[0] = sqlite3_mprintf("over a mapped file synchronous=OFF isn't safe: open it with nosync=1");
        return SQLITE_ERROR;
    }
    return SQLITE_NOTFOUND;
}

static int begin_batch(database *d) {
    d->batches++;
    return answer(bytes_begin(&d->bytes), SQLITE_IOERR_BEGIN_ATOMIC);
}

static int control_it(sqlite3_file *f, int op, void *arg) {
    database *d = enter(f);
    int rc = SQLITE_OK;
    switch (op) {
    case SQLITE_FCNTL_BEGIN_ATOMIC_WRITE: rc = begin_batch(d); break;
    case SQLITE_FCNTL_COMMIT_ATOMIC_WRITE: rc = answer(bytes_commit(&d->bytes), SQLITE_IOERR_COMMIT_ATOMIC); break;
    case SQLITE_FCNTL_ROLLBACK_ATOMIC_WRITE: rc = answer(bytes_abort(&d->bytes), SQLITE_IOERR_ROLLBACK_ATOMIC); break;
    case SQLITE_FCNTL_LOCKSTATE: *(int *)arg = ((handle *)f)->level; break;
    case SQLITE_FCNTL_HAS_MOVED: *(int *)arg = 0; break;
    case SQLITE_FCNTL_PRAGMA: rc = pragma(d, arg); break;
    default: rc = SQLITE_NOTFOUND;
    }
    return leave(d, rc);
}

static int sector_of(sqlite3_file *f) { return (void)f, 512; }

/* Bytes beside those that are written stay. That a file is longer only once what was appended is there holds for a journal in
   memory, and isn't known of one in a file. */
static int traits_of(sqlite3_file *f) {
    const database *d = ((handle *)f)->database;
    return SQLITE_IOCAP_BATCH_ATOMIC | SQLITE_IOCAP_POWERSAFE_OVERWRITE |
           (d->options.journal_is_file ? 0 : SQLITE_IOCAP_SAFE_APPEND | SQLITE_IOCAP_SEQUENTIAL);
}

/* Without calls for shared memory SQLite keeps no log (WAL) over it, which would sync each commit twice. */
static const sqlite3_io_methods methods = {
    .iVersion = 1, .xClose = close_it, .xRead = read_it, .xWrite = write_it, .xTruncate = truncate_it, .xSync = sync_it,
    .xFileSize = tell_size, .xLock = lock_it, .xUnlock = unlock_it, .xCheckReservedLock = check_it,
    .xFileControl = control_it, .xSectorSize = sector_of, .xDeviceCharacteristics = traits_of,
};

int database_open(const char *name, int flags, sqlite3_file *f) {
    int rc = SQLITE_OK;
    /* the library would make the file */
    if (!(flags & SQLITE_OPEN_CREATE) && access(name, F_OK)) return SQLITE_CANTOPEN;
    sqlite3_mutex_enter(common_lock());
    database *d = find(name, strlen(name));
    if (!d) rc = make_database(name, &d);
    if (!rc) {
        d->users++;
        *(handle *)f = (handle){{&methods}, d, SQLITE_LOCK_NONE};
    }
    sqlite3_mutex_leave(common_lock());
    return rc;
}
