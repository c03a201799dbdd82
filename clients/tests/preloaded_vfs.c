/* LD_PRELOAD=preloaded_vfs.so makes the VFS known to a program that knows nothing of it, before main begins; with
   ENVYVFS_DEFAULT in the environment as the default one. */
#include "../sqlite/envyvfs.h"
#include <sqlite3.h>
#include <stdlib.h>

__attribute__((constructor)) static void begin(void) {
    if (envyvfs_init(NULL)) abort();
    /* so that the program may configure SQLite; after that the default VFS is SQLite's own again */
    if (!getenv("ENVYVFS_DEFAULT")) sqlite3_shutdown();
}
