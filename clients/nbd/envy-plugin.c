/* A plugin of nbdkit: a block device whose bytes are in an array of eNVy's words.

     nbdkit ./envy.so file=disk.envy size=128M

   A flush, and a write with FUA, is a sync of the array: all that was written before, by any connection, is on the disk
   then, as one. Requests come from many threads, and a lock lets one at a time use the array. */
#define NBDKIT_API_VERSION 2
#include "bytes.h"
#include "envy_text.h"
#include <errno.h>
#include <inttypes.h>
#include <nbdkit-plugin.h>
#include <pthread.h>
#include <stdio.h>
#include <stdlib.h>
#include <string.h>

#define THREAD_MODEL NBDKIT_THREAD_MODEL_PARALLEL

static const uint64_t KIND = 0x313064624e796e65; /* "enyNbd01" */
enum { SECTOR_BYTES = 512, BEST_BYTES = 4096, MOST_BYTES = 32 << 20, MIB = 1 << 20 };

static char *path;
static bytes_options options = BYTES_OPTIONS_INIT;
static int size_is_given;

static pthread_mutex_t lock = PTHREAD_MUTEX_INITIALIZER;
static bytes array;
static int is_open;
static int is_changed; /* since the last sync that was done */

/* ---- parameters ---- */

static int set_size(const char *value) {
    int64_t n = nbdkit_parse_size(value);
    if (n < 0) return -1;
    options.size = ((uint64_t)n + SECTOR_BYTES - 1) / SECTOR_BYTES * SECTOR_BYTES;
    size_is_given = 1;
    return 0;
}

static int set_flag(const char *value, int *flag) {
    int n = nbdkit_parse_bool(value);
    if (n >= 0) *flag = n;
    return n < 0 ? -1 : 0;
}

static int config(const char *key, const char *value) {
    if (!strcmp(key, "file")) {
        free(path);
        return (path = nbdkit_absolute_path(value)) ? 0 : -1;
    }
    if (!strcmp(key, "size")) return set_size(value);
    if (!strcmp(key, "frames")) return nbdkit_parse_uint32_t(key, value, &options.frames);
    if (!strcmp(key, "mapped")) return set_flag(value, &options.mapped);
    if (!strcmp(key, "bytewise")) return set_flag(value, &options.bytewise);
    nbdkit_error("no parameter is called %s", key);
    return -1;
}

static int config_complete(void) {
    uint64_t most = bytes_largest(&options);
    if (!path) {
        nbdkit_error("file=PATH says which file the device is in");
        return -1;
    }
    if (options.mapped && options.bytewise) {
        nbdkit_error("bytewise=true is for a durable file, not for a mapped one");
        return -1;
    }
    if (options.size && options.size <= most) return 0;
    nbdkit_error("size=%" PRIu64 ": an array has room for 1 to %" PRIu64 " bytes (%" PRIu64 " MiB)", options.size, most, most / MIB);
    return -1;
}

/* ---- opening and closing ---- */

static int refuse(uint32_t code) {
    nbdkit_error("%s: %s", path, code == ENVY_SYSTEM ? strerror(errno) : bytes_text(code));
    return -1;
}

/* The device's size is the array's length, which a new one is given here. */
static int take_size(void) {
    if (!array.length) {
        if (options.size > array.room) options.size = array.room / SECTOR_BYTES * SECTOR_BYTES;
        uint32_t code = bytes_set_length(&array, options.size);
        if (!code) code = bytes_sync(&array);
        return code ? refuse(code) : 0;
    }
    if (!size_is_given || options.size == array.length) return 0;
    nbdkit_error("%s: the device has %" PRIu64 " bytes, which size= doesn't change", path, array.length);
    return -1;
}

static int close_array(void) {
    if (!is_open) return 0;
    is_open = 0;
    uint32_t code = bytes_close(&array, 1);
    return code ? refuse(code) : 0;
}

static int open_array(void) {
    uint32_t code = bytes_open(&array, path, KIND, &options);
    if (code) return refuse(code);
    is_open = 1;
    if (!take_size()) return 0;
    close_array();
    return -1;
}

/* What can't be opened is told before nbdkit goes to the background; what is opened there is of the process that is left. */
static int get_ready(void) { return open_array() ? -1 : close_array(); }
static int after_fork(void) { return open_array(); }

static void unload(void) {
    close_array();
    free(path);
}

/* ---- requests ---- */

static int done(uint32_t code) {
    pthread_mutex_unlock(&lock);
    if (!code) return 0;
    nbdkit_error("%s", bytes_text(code));
    nbdkit_set_error(code == ENVY_RANGE ? ENOSPC : code == ENVY_NO_MEMORY ? ENOMEM : EIO);
    return -1;
}

/* A flush that waited while another synced finds nothing left to do. */
static uint32_t sync_changes(void) {
    if (!is_changed) return ENVY_DONE;
    uint32_t code = bytes_sync(&array);
    if (!code) is_changed = 0;
    return code;
}

static int changed(uint32_t code, uint32_t flags) {
    is_changed = 1;
    return done(!code && flags & NBDKIT_FLAG_FUA ? sync_changes() : code);
}

static int read_at(void *h, void *to, uint32_t n, uint64_t at, uint32_t flags) {
    (void)h, (void)flags;
    pthread_mutex_lock(&lock);
    return done(bytes_read(&array, at, to, n));
}

static int write_at(void *h, const void *from, uint32_t n, uint64_t at, uint32_t flags) {
    (void)h;
    pthread_mutex_lock(&lock);
    return changed(bytes_write(&array, at, from, n), flags);
}

/* For zeros and for a trim: the library has no call that lets words go. */
static int zero_at(void *h, uint32_t n, uint64_t at, uint32_t flags) {
    (void)h;
    pthread_mutex_lock(&lock);
    return changed(bytes_zero(&array, at, n), flags);
}

static int flush(void *h, uint32_t flags) {
    (void)h, (void)flags;
    pthread_mutex_lock(&lock);
    return done(sync_changes());
}

static void *open_connection(int is_readonly) { return (void)is_readonly, NBDKIT_HANDLE_NOT_NEEDED; }
static int64_t size_of(void *h) { return (void)h, (int64_t)array.length; }
static int yes(void *h) { return (void)h, 1; }
static int fua(void *h) { return (void)h, NBDKIT_FUA_NATIVE; }

static int block_size(void *h, uint32_t *least, uint32_t *best, uint32_t *most) {
    (void)h;
    *least = 1;
    *best = BEST_BYTES;
    *most = MOST_BYTES;
    return 0;
}

static void dump_plugin(void) { printf("envy_version=%s\n", envy_version()); }

static struct nbdkit_plugin plugin = {
    .name = "envy", .longname = "a block device in an array of eNVy's words", .unload = unload, .dump_plugin = dump_plugin,
    .config = config, .config_complete = config_complete, .magic_config_key = "file",
    .config_help = "file=PATH       the file of the array; it is made if it isn't there\n"
                   "size=SIZE       of a new one (default 64M)\n"
                   "frames=N        pages of SRAM of a new one (default: for the size)\n"
                   "mapped=BOOL     the file is a mapped one, whose bytes outlive the process at once, and not the machine\n"
                   "bytewise=BOOL   the file system and the disk write a file byte by byte: a flush waits once for the disk\n",
    .get_ready = get_ready, .after_fork = after_fork, .open = open_connection, .get_size = size_of,
    .block_size = block_size, .can_multi_conn = yes, .can_fua = fua, .can_trim = yes, .can_zero = yes, .pread = read_at,
    .pwrite = write_at, .flush = flush, .zero = zero_at, .trim = zero_at, .errno_is_preserved = 0,
};
NBDKIT_REGISTER_PLUGIN(plugin)
