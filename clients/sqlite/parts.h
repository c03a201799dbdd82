/* What the files of the VFS share. */
#ifndef ENVYVFS_PARTS_H
#define ENVYVFS_PARTS_H

#include "bytes.h"
#include "sqlite3ext.h"
#ifndef SQLITE_CORE
extern const sqlite3_api_routines *sqlite3_api;
#endif

/* ---- options.c: the parameters of a database's URI ---- */

typedef struct options {
    bytes_options bytes;
    int journal_is_file;
    int syncs_nothing;
} options;

/* Reads them, those of the environment's ENVYVFS if the URI has none of that name. SQLITE_OK; SQLITE_MISUSE with a text at
   *why, to be freed by sqlite3_free, if a name isn't known or a value is wrong; SQLITE_NOMEM. */
int options_read(const char *uri, options *o, char **why);

/* ---- database.c: databases ---- */

/* How many bytes an open database or journal takes of SQLite's memory for a file. */
int database_handle_size(void);
int journal_handle_size(void);

/* Opens a database in the array of a file, which is shared by all connections of the process. */
int database_open(const char *name, int flags, sqlite3_file *f);

/* Whether the database that a journal of this name belongs to is open, and has its journals in memory. */
int database_has_journal_in_memory(const char *journal);

/* The lock of what all connections share: the list of databases, and the list of journals. */
sqlite3_mutex *common_lock(void);

/* ---- journal.c: journals in memory, by their names; callers hold the common lock ---- */

int journal_open(const char *name, sqlite3_file *f);
int journal_is_there(const char *name);

/* Whether it holds a transaction that was neither finished nor undone. */
int journal_is_hot(const char *name);

/* Frees it. 0: there was none. */
int journal_drop(const char *name);

#endif
