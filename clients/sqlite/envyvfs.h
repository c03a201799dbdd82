/* A VFS of SQLite whose databases are arrays of eNVy's words, as a static library. (As a loadable extension it needs no
   header: `.load ./envyvfs`.) */
#ifndef ENVYVFS_H
#define ENVYVFS_H

#ifdef __cplusplus
extern "C" {
#endif

/* Makes the VFS "envy" known to SQLite. It answers SQLITE_OK or what SQLite answers. A SQLite of one's own calls it by itself
   if it is built with SQLITE_EXTRA_INIT=envyvfs_init. */
int envyvfs_init(const char *unused);

#ifdef __cplusplus
}
#endif
#endif
