/* Calls on files, recorded, made to fail, or stopped as a machine stops: LD_PRELOAD=shim.so.

     SHIM_CRASH=n      at the n-th call that changes a file or syncs one, the machine stops. Of each range that was written
                       or cut since the last sync of its file, the old bytes are there, the new ones, a mixture, or any.
     SHIM_BYTEWISE=1   then each place of such a range has its old byte or its new one
     SHIM_FAIL=n       the n-th call of that kind and all later ones fail with EIO
     SHIM_SEED=n       what is drawn from
     SHIM_DELAY=us     a sync waits so long and asks the disk for nothing
     SHIM_COUNTS=path  a line of counts is appended at exit

   A rename whose folder wasn't synced may be undone by a stop. Writes through a mapping aren't seen. */
#define _GNU_SOURCE
#include <dlfcn.h>
#include <errno.h>
#include <fcntl.h>
#include <pthread.h>
#include <signal.h>
#include <stdint.h>
#include <stdio.h>
#include <stdlib.h>
#include <string.h>
#include <sys/stat.h>
#include <time.h>
#include <unistd.h>

/* What isn't on the disk yet: a range that was written, or the end of a file that was cut off. */
typedef struct change {
    struct change *before;
    dev_t device;
    ino_t file;
    char path[512];
    off_t at, size_before;
    size_t n;
    unsigned char *old, *now; /* now is NULL: it was cut */
} change;

/* A rename that isn't on the disk yet. */
typedef struct renaming {
    struct renaming *before;
    char from[512], to[512], kept[560]; /* kept: a link to what had the name, or empty */
} renaming;

static pthread_mutex_t lock = PTHREAD_MUTEX_INITIALIZER;
static change *changes;
static renaming *renamings;
static long crash_at, fail_at, delay_us = -1, calls;
static int is_bytewise;
static uint64_t seed, writes, bytes_written, syncs;

#define REAL(answer, name, ...) static answer (*real_##name)(__VA_ARGS__)
REAL(ssize_t, pwrite64, int, const void *, size_t, off_t);
REAL(int, fsync, int);
REAL(int, fdatasync, int);
REAL(int, ftruncate64, int, off_t);
REAL(int, rename, const char *, const char *);
#define FIND(name) real_##name = dlsym(RTLD_NEXT, #name)

static long number_of(const char *name, long otherwise) {
    const char *text = getenv(name);
    return text ? atol(text) : otherwise;
}

__attribute__((constructor)) static void begin(void) {
    FIND(pwrite64);
    FIND(fsync);
    FIND(fdatasync);
    FIND(ftruncate64);
    FIND(rename);
    crash_at = number_of("SHIM_CRASH", 0);
    fail_at = number_of("SHIM_FAIL", 0);
    delay_us = number_of("SHIM_DELAY", -1);
    is_bytewise = (int)number_of("SHIM_BYTEWISE", 0);
    seed = (uint64_t)number_of("SHIM_SEED", 1) * 0x9E3779B97F4A7C15u + 1;
}

__attribute__((destructor)) static void end(void) {
    const char *path = getenv("SHIM_COUNTS");
    FILE *f = path ? fopen(path, "a") : NULL;
    if (!f) return;
    fprintf(f, "calls %ld writes %lu bytes %lu syncs %lu\n", calls, writes, bytes_written, syncs);
    fclose(f);
}

/* For programs that ask while they run. */
void shim_counts(uint64_t *w, uint64_t *b, uint64_t *s) {
    *w = writes;
    *b = bytes_written;
    *s = syncs;
}

static uint64_t drawn(void) {
    seed ^= seed << 13;
    seed ^= seed >> 7;
    seed ^= seed << 17;
    return seed * 0x2545F4914F6CDD1Du >> 11;
}

/* ---- the machine stops ---- */

enum fate { ALL_OLD, ALL_NEW, MIXED_BYTES, MIXED_PIECES, FATES };

static void mix(const change *c, enum fate fate, unsigned char *out) {
    size_t piece = fate == MIXED_BYTES ? 1 : fate == MIXED_PIECES ? 1 + drawn() % 600 : c->n;
    for (size_t i = 0; i < c->n; i += piece) {
        uint64_t which = fate == ALL_OLD ? 0 : drawn() % (is_bytewise ? 2 : 3);
        for (size_t j = i; j < c->n && j < i + piece; j++)
            out[j] = which == 0 ? c->old[j] : which == 1 ? c->now[j] : (unsigned char)drawn();
    }
}

static void undo_write(int d, const change *c, enum fate fate, off_t size) {
    unsigned char *out = malloc(c->n + 1);
    mix(c, fate, out);
    real_pwrite64(d, out, c->n, c->at);
    free(out);
    off_t end = c->at + (off_t)c->n;
    if (fate == ALL_OLD && end == size && c->size_before < end) real_ftruncate64(d, c->size_before > c->at ? c->size_before : c->at);
}

static void undo(const change *c) {
    struct stat found;
    enum fate fate = (enum fate)(drawn() % FATES);
    int d = open(c->path, O_RDWR);
    if (d < 0) return;
    if (fate != ALL_NEW && !fstat(d, &found) && found.st_ino == c->file) {
        if (c->now) undo_write(d, c, fate, found.st_size);
        else real_pwrite64(d, c->old, c->n, c->at);
    }
    close(d);
}

static void undo_renaming(const renaming *r) {
    if (drawn() % 2) {
        real_rename(r->to, r->from);
        if (*r->kept) real_rename(r->kept, r->to);
    } else if (*r->kept) {
        unlink(r->kept);
    }
}

static void stop(void) {
    for (const change *c = changes; c; c = c->before) undo(c);
    for (const renaming *r = renamings; r; r = r->before) undo_renaming(r);
    kill(getpid(), SIGKILL);
    for (;;) pause();
}

/* Counts a call, with the lock held. 1: it fails. */
static int is_failing(void) {
    calls++;
    if (calls == crash_at) stop();
    if (!fail_at || calls < fail_at) return 0;
    errno = EIO;
    return 1;
}

/* ---- recording ---- */

static int is_file(int d, struct stat *found) { return !fstat(d, found) && S_ISREG(found->st_mode); }

static void record(int d, const struct stat *found, off_t at, size_t n, const void *now) {
    char link[64];
    change *c = calloc(1, sizeof *c);
    *c = (change){changes, found->st_dev, found->st_ino, "", at, found->st_size, n, calloc(1, n + 1), NULL};
    snprintf(link, sizeof link, "/proc/self/fd/%d", d);
    ssize_t k = readlink(link, c->path, sizeof c->path - 1);
    int again = open(k > 0 ? c->path : "", O_RDONLY); /* d may be open for writing alone */
    if (again >= 0 && pread64(again, c->old, n, at) < 0) memset(c->old, 0, n);
    if (again >= 0) close(again);
    if (now) c->now = memcpy(malloc(n + 1), now, n);
    changes = c;
}

static void settle_file(const struct stat *found) {
    for (change **p = &changes; *p;) {
        change *c = *p;
        if (c->file != found->st_ino || c->device != found->st_dev) {
            p = &c->before;
            continue;
        }
        *p = c->before;
        free(c->old);
        free(c->now);
        free(c);
    }
}

static void settle_renamings(void) {
    while (renamings) {
        renaming *r = renamings;
        renamings = r->before;
        if (*r->kept) unlink(r->kept);
        free(r);
    }
}

/* ---- the calls ---- */

ssize_t pwrite64(int d, const void *bytes, size_t n, off_t at) {
    struct stat found;
    if (!is_file(d, &found)) return real_pwrite64(d, bytes, n, at);
    pthread_mutex_lock(&lock);
    writes++;
    bytes_written += n;
    if (crash_at) record(d, &found, at, n, bytes);
    int fails = is_failing();
    pthread_mutex_unlock(&lock);
    return fails ? -1 : real_pwrite64(d, bytes, n, at);
}
ssize_t pwrite(int d, const void *bytes, size_t n, off_t at) { return pwrite64(d, bytes, n, at); }

int ftruncate64(int d, off_t size) {
    struct stat found;
    if (!is_file(d, &found)) return real_ftruncate64(d, size);
    pthread_mutex_lock(&lock);
    if (crash_at && size < found.st_size) record(d, &found, size, (size_t)(found.st_size - size), NULL);
    int fails = is_failing();
    pthread_mutex_unlock(&lock);
    return fails ? -1 : real_ftruncate64(d, size);
}
int ftruncate(int d, off_t size) { return ftruncate64(d, size); }

static void wait_for_disk(void) {
    struct timespec time = {delay_us / 1000000, delay_us % 1000000 * 1000};
    if (delay_us) nanosleep(&time, NULL);
}

static int sync_it(int d, int (*real)(int)) {
    struct stat found;
    int is_known = !fstat(d, &found);
    pthread_mutex_lock(&lock);
    if (is_known && S_ISREG(found.st_mode)) syncs++;
    int fails = is_failing();
    pthread_mutex_unlock(&lock);
    if (fails) return -1;
    int answer = 0;
    if (delay_us < 0) answer = real(d);
    else wait_for_disk();
    if (answer || !crash_at || !is_known) return answer;
    pthread_mutex_lock(&lock);
    if (S_ISDIR(found.st_mode)) settle_renamings();
    else settle_file(&found);
    pthread_mutex_unlock(&lock);
    return answer;
}
int fsync(int d) { return sync_it(d, real_fsync); }
int fdatasync(int d) { return sync_it(d, real_fdatasync); }

int rename(const char *from, const char *to) {
    pthread_mutex_lock(&lock);
    int fails = is_failing();
    if (!fails && crash_at) {
        renaming *r = calloc(1, sizeof *r);
        r->before = renamings;
        snprintf(r->from, sizeof r->from, "%s", from);
        snprintf(r->to, sizeof r->to, "%s", to);
        snprintf(r->kept, sizeof r->kept, "%s.shim-%ld", to, calls);
        if (link(to, r->kept)) *r->kept = 0;
        renamings = r;
    }
    pthread_mutex_unlock(&lock);
    return fails ? -1 : real_rename(from, to);
}
