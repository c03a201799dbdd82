/* A VFS of SQLite whose databases are arrays of eNVy's words, as a loadable extension; with SQLITE_CORE, as a part of the
   program (envyvfs.h).

     .load ./envyvfs
     .open 'file:accounts.envy?vfs=envy'

   docs/CLIENTS.md lists the parameters of the URI. A commit is the sync of the array and nothing else: a durable file opens as
   of its last sync, whatever was written since, so the rollback journal may be in memory. Files that aren't databases or
   their journals (temporary ones, and journals if journal=file) are the default VFS's. */
#include "envyvfs.h"
#include "parts.h"
#include <stdlib.h>
#include <string.h>
#ifndef SQLITE_CORE
SQLITE_EXTENSION_INIT1
#define EXPORTED __attribute__((visibility("default")))
#endif

static sqlite3_vfs *below;

static int open_it(sqlite3_vfs *v, const char *name, sqlite3_file *f, int flags, int *out) {
    (void)v;
    f->pMethods = NULL;
    if (out) *out = flags;
    if (name && flags & SQLITE_OPEN_MAIN_DB) return database_open(name, flags, f);
    if (name && flags & SQLITE_OPEN_MAIN_JOURNAL) {
        sqlite3_mutex_enter(common_lock());
        int is_ours = database_has_journal_in_memory(name), rc = is_ours ? journal_open(name, f) : SQLITE_OK;
        sqlite3_mutex_leave(common_lock());
        if (is_ours) return rc;
    }
    return below->xOpen(below, name, f, flags, out);
}

static int delete_it(sqlite3_vfs *v, const char *name, int sync_folder) {
    (void)v;
    sqlite3_mutex_enter(common_lock());
    int is_ours = database_has_journal_in_memory(name);
    int was_there = is_ours && journal_drop(name);
    sqlite3_mutex_leave(common_lock());
    if (is_ours) return was_there ? SQLITE_OK : SQLITE_IOERR_DELETE_NOENT;
    return below->xDelete(below, name, sync_folder);
}

static int access_it(sqlite3_vfs *v, const char *name, int flags, int *is_there) {
    (void)v;
    sqlite3_mutex_enter(common_lock());
    int is_ours = database_has_journal_in_memory(name);
    if (is_ours) *is_there = journal_is_there(name);
    sqlite3_mutex_leave(common_lock());
    return is_ours ? SQLITE_OK : below->xAccess(below, name, flags, is_there);
}

static int full_name(sqlite3_vfs *v, const char *n, int k, char *to) { return (void)v, below->xFullPathname(below, n, k, to); }
static void *open_library(sqlite3_vfs *v, const char *n) { return (void)v, below->xDlOpen(below, n); }
static void library_error(sqlite3_vfs *v, int k, char *to) { (void)v, below->xDlError(below, k, to); }
static void (*symbol_of(sqlite3_vfs *v, void *p, const char *n))(void) { return (void)v, below->xDlSym(below, p, n); }
static void close_library(sqlite3_vfs *v, void *p) { (void)v, below->xDlClose(below, p); }
static int random_bytes(sqlite3_vfs *v, int k, char *to) { return (void)v, below->xRandomness(below, k, to); }
static int sleep_us(sqlite3_vfs *v, int us) { return (void)v, below->xSleep(below, us); }
static int time_now(sqlite3_vfs *v, double *t) { return (void)v, below->xCurrentTime(below, t); }
static int last_error(sqlite3_vfs *v, int n, char *to) { return (void)v, below->xGetLastError(below, n, to); }
static int time_now64(sqlite3_vfs *v, sqlite3_int64 *t) { return (void)v, below->xCurrentTimeInt64(below, t); }

static sqlite3_vfs vfs = {
    .iVersion = 2, .zName = "envy", .xOpen = open_it, .xDelete = delete_it, .xAccess = access_it, .xFullPathname = full_name,
    .xDlOpen = open_library, .xDlError = library_error, .xDlSym = symbol_of, .xDlClose = close_library,
    .xRandomness = random_bytes, .xSleep = sleep_us, .xCurrentTime = time_now, .xGetLastError = last_error,
    .xCurrentTimeInt64 = time_now64,
};

static int larger(int a, int b) { return a > b ? a : b; }

/* The default VFS is below it, also if it is loaded a second time; with ENVYVFS_DEFAULT in the environment it becomes the
   default one itself. */
static int make_known(void) {
    if (!below) below = sqlite3_vfs_find(NULL);
    if (!below) return SQLITE_ERROR;
    vfs.mxPathname = below->mxPathname;
    vfs.szOsFile = larger(below->szOsFile, larger(database_handle_size(), journal_handle_size()));
    return sqlite3_vfs_register(&vfs, getenv("ENVYVFS_DEFAULT") != NULL);
}

#ifdef SQLITE_CORE
int envyvfs_init(const char *unused) { return (void)unused, make_known(); }
#else
/* sqlite3_uri_key came with 3.32 */
enum { LEAST_VERSION = 3032000 };

EXPORTED int sqlite3_envyvfs_init(sqlite3 *db, char **error, const sqlite3_api_routines *api) {
    (void)db;
    SQLITE_EXTENSION_INIT2(api);
    if (sqlite3_libversion_number() < LEAST_VERSION) {
        *error = sqlite3_mprintf("eNVy's VFS needs SQLite 3.32 or later");
        return SQLITE_ERROR;
    }
    int rc = make_known();
    return rc ? rc : SQLITE_OK_LOAD_PERMANENTLY;
}
#endif
