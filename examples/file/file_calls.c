/* A library to preload (LD_PRELOAD): it counts the calls by which a program makes, writes, cuts, renames and syncs a file,
   its neighbours (whose paths begin with the file's) and their folder, and makes one of these calls fail.

     FILE_CALLS_PATH    the file's path, with no link in it
     FILE_CALLS_COUNTS  a file of at least 64 bytes, into which the counts go
     FILE_CALLS_FAIL    which call fails, the first is 1; none where it isn't given
     FILE_CALLS_ERROR   the errno of the failure
     FILE_CALLS_HOW     what a call that fails does before:
         none           nothing
         half           a write writes half of its bytes
         done           all that it should
         lost           nothing; and what wasn't synced before is lost, of the neighbours alone if it is a call of one
         stale          nothing; if it is a sync of the file, what wasn't synced before isn't on the disk, and is read all the
                        same until posix_fadvise drops it: no later sync writes it. What is on the disk is in a file of
                        FILE_CALLS_PATH and ".disk" then, also for later processes that are told `stale`
         early          a read of the file answers 0, which is no failure. Only reads are counted
         short          a write writes half of its bytes, and tells so, which is no failure
         interrupted    nothing, and errno is EINTR; the next such call is made

   Where it isn't given a path it counts nothing, and each sync of a file takes so many microseconds more:

     FILE_CALLS_WAIT */
#define _GNU_SOURCE
#include <dirent.h>
#include <errno.h>
#include <fcntl.h>
#include <limits.h>
#include <stdarg.h>
#include <stdint.h>
#include <stdio.h>
#include <stdlib.h>
#include <string.h>
#include <sys/mman.h>
#include <sys/stat.h>
#include <sys/syscall.h>
#include <sys/uio.h>
#include <time.h>
#include <unistd.h>

/* What is counted, as the reader of the counts sees it. */
static struct counts {
    uint64_t calls;  /* of any kind */
    uint64_t failed; /* the call that was made to fail; 0 before */
    uint64_t writes;
    uint64_t bytes; /* that were written */
    uint64_t syncs; /* also writes that wait for the disk */
    uint64_t cuts;
    uint64_t renames;
    uint64_t beside; /* whether the call that failed was one of a neighbour, or a rename that wasn't done */
} none, *counts = &none;

static char path[PATH_MAX], folder[PATH_MAX];
static long wait_us;
static uint64_t fails_at;
static int error_number;
static enum { NONE, HALF, DONE, LOST, SHORT, INTERRUPTED, STALE, EARLY } how;
/* what is on the disk of a file of which more is read, else -1 */
static char disk_path[PATH_MAX + 8];
static int disk = -1;

static void keep(int fd);

static int plain_open(int folder_fd, const char *name, int flags, mode_t mode) {
    return (int)syscall(SYS_openat, folder_fd, name, flags, mode);
}

__attribute__((constructor)) static void start(void) {
    static const char *const names[] = {"none", "half", "done", "lost", "short", "interrupted", "stale", "early"};
    const char *file = getenv("FILE_CALLS_PATH"), *into = getenv("FILE_CALLS_COUNTS"), *said = getenv("FILE_CALLS_WAIT");
    if (said && !file) wait_us = atol(said);
    if (!file || !into || strlen(file) >= sizeof path) return;
    strcpy(path, file);
    strcpy(folder, file);
    *strrchr(folder, '/') = 0;
    int fd = plain_open(AT_FDCWD, into, O_RDWR, 0);
    void *at = mmap(NULL, sizeof *counts, PROT_READ | PROT_WRITE, MAP_SHARED, fd, 0);
    close(fd);
    if (at == MAP_FAILED) _exit(99);
    counts = at;
    if ((said = getenv("FILE_CALLS_FAIL"))) fails_at = strtoull(said, NULL, 10);
    if ((said = getenv("FILE_CALLS_ERROR"))) error_number = atoi(said);
    said = getenv("FILE_CALLS_HOW");
    for (int i = 0; said && i <= EARLY; i++)
        if (!strcmp(said, names[i])) how = i;
    if (how == INTERRUPTED) error_number = EINTR;
    /* what the file holds before the program runs is on the disk */
    if ((how == LOST || how == STALE) && (fd = plain_open(AT_FDCWD, path, O_RDONLY, 0)) >= 0) {
        keep(fd);
        close(fd);
    }
    snprintf(disk_path, sizeof disk_path, "%s.disk", path);
    if (how == STALE) disk = plain_open(AT_FDCWD, disk_path, O_RDWR, 0);
}

static int is_ours(const char *name) { return *path && !strncmp(name, path, strlen(path)); }

/* Whether a descriptor is one of the file, of a neighbour, or of the folder. */
static int is_watched(int fd, int with_folder) {
    char link[64], name[PATH_MAX];
    if (!*path) return 0;
    snprintf(link, sizeof link, "/proc/self/fd/%d", fd);
    ssize_t size = readlink(link, name, sizeof name - 1);
    if (size < 0) return 0;
    name[size] = 0;
    return is_ours(name) || (with_folder && !strcmp(name, folder));
}

/* ---- what is on the disk, for a loss: each file as its last sync left it, and the name that a rename took */

typedef struct image {
    struct image *next;
    dev_t device;
    ino_t inode;
    void *bytes;
    off_t size;
} image;
static image *images;
/* The last rename that isn't on the disk yet: the name that it took away, and a second name of the file that it replaced. */
static char renamed[PATH_MAX], replaced[PATH_MAX];

static image *image_of(int fd) {
    struct stat state;
    if (fstat(fd, &state) || !S_ISREG(state.st_mode)) return NULL;
    for (image *i = images; i; i = i->next)
        if (i->device == state.st_dev && i->inode == state.st_ino) return i;
    image *made = calloc(1, sizeof *made);
    *made = (image){images, state.st_dev, state.st_ino, NULL, 0};
    return images = made;
}

/* A sync of a file, or of the folder, was done. */
static void keep(int fd) {
    if (how != LOST && how != STALE) return;
    image *i = image_of(fd);
    if (!i) {
        if (*replaced) unlink(replaced);
        *replaced = 0;
        return;
    }
    struct stat state;
    fstat(fd, &state);
    i->size = state.st_size;
    i->bytes = realloc(i->bytes, (size_t)i->size + 1);
    if (pread(fd, i->bytes, (size_t)i->size, 0) != i->size) _exit(99);
}

static void lose(const char *name) {
    int fd = plain_open(AT_FDCWD, name, O_RDWR, 0);
    if (fd < 0) return;
    image *i = image_of(fd);
    if (syscall(SYS_ftruncate, fd, 0L) || syscall(SYS_pwrite64, fd, i->bytes, i->size, 0L) != i->size) _exit(99);
    close(fd);
}

static void lose_all(int is_beside) {
    if (*replaced && !is_beside) {
        syscall(SYS_rename, path, renamed);
        syscall(SYS_rename, replaced, path);
        *replaced = 0;
    }
    DIR *names = opendir(folder);
    for (struct dirent *one; names && (one = readdir(names));) {
        char name[PATH_MAX + sizeof one->d_name];
        snprintf(name, sizeof name, "%s/%s", folder, one->d_name);
        if (is_ours(name) && !(is_beside && !strcmp(name, path))) lose(name);
    }
    closedir(names);
}

/* ---- a file of which more is read than is on the disk */

static int is_file(int fd) {
    struct stat here, there;
    return !fstat(fd, &here) && !stat(path, &there) && here.st_dev == there.st_dev && here.st_ino == there.st_ino;
}

/* From now on what is on the disk of the file is what its last sync left there. */
static void become_stale(int fd) {
    image *i = is_file(fd) ? image_of(fd) : NULL;
    if (!i) return;
    disk = plain_open(AT_FDCWD, disk_path, O_RDWR | O_CREAT | O_TRUNC, 0600);
    if (syscall(SYS_pwrite64, disk, i->bytes, i->size, 0L) != i->size) _exit(99);
}

/* The file is what is on the disk again. */
static void drop_held(int fd) {
    struct stat state;
    if (disk < 0 || !is_file(fd)) return;
    fstat(disk, &state);
    char *bytes = malloc((size_t)state.st_size + 1);
    if (pread(disk, bytes, (size_t)state.st_size, 0) != state.st_size) _exit(99);
    if (syscall(SYS_ftruncate, fd, 0L) || syscall(SYS_pwrite64, fd, bytes, state.st_size, 0L) != state.st_size) _exit(99);
    free(bytes);
    unlink(disk_path);
    disk = -1;
}

/* Whether a call is the one that fails. It may be one of a neighbour. */
static int fails(int is_beside) {
    if (how == EARLY) return 0;
    counts->calls++;
    if (counts->calls != fails_at) return 0;
    counts->failed = fails_at;
    counts->beside = (uint64_t)is_beside;
    if (how == LOST) lose_all(is_beside);
    return 1;
}

/* Whether a descriptor that is watched is one of a neighbour. */
static int is_beside(int fd) {
    struct stat state;
    return !is_file(fd) && !fstat(fd, &state) && !S_ISDIR(state.st_mode);
}

static int fail(void) {
    errno = error_number;
    return -1;
}

/* ---- the calls */

/* A sync that took no time takes some. */
static void wait_for_disk(void) {
    if (!wait_us) return;
    struct timespec end;
    clock_gettime(CLOCK_MONOTONIC, &end);
    end.tv_nsec += 1000 * wait_us;
    end.tv_sec += end.tv_nsec / 1000000000;
    end.tv_nsec %= 1000000000;
    while (clock_nanosleep(CLOCK_MONOTONIC, TIMER_ABSTIME, &end, NULL) == EINTR) {}
}

static void wait_for_write(int fd) {
    if (wait_us && fcntl(fd, F_GETFL) & O_DSYNC) wait_for_disk();
}

static ssize_t written(ssize_t size) {
    if (size > 0) counts->bytes += (uint64_t)size;
    return size;
}

static ssize_t plain_write(int fd, const void *bytes, size_t size, off_t at, int is_at) {
    return is_at ? syscall(SYS_pwrite64, fd, bytes, size, at) : syscall(SYS_write, fd, bytes, size);
}

static ssize_t any_write(int fd, const void *bytes, size_t size, off_t at, int is_at) {
    wait_for_write(fd);
    if (!is_watched(fd, 0)) return plain_write(fd, bytes, size, at, is_at);
    counts->writes++;
    if (fcntl(fd, F_GETFL) & O_DSYNC) counts->syncs++;
    if (!fails(is_beside(fd))) {
        if (disk >= 0 && is_at && is_file(fd) && syscall(SYS_pwrite64, disk, bytes, size, at) < 0) _exit(99);
        return written(plain_write(fd, bytes, size, at, is_at));
    }
    if (how == HALF || how == SHORT) size = size / 2 + (how == SHORT && size == 1);
    ssize_t done = how == HALF || how == DONE || how == SHORT ? plain_write(fd, bytes, size, at, is_at) : 0;
    return how == SHORT ? done : fail();
}

ssize_t write(int fd, const void *bytes, size_t size) { return any_write(fd, bytes, size, 0, 0); }
ssize_t pwrite(int fd, const void *bytes, size_t size, off_t at) { return any_write(fd, bytes, size, at, 1); }
ssize_t pwrite64(int fd, const void *bytes, size_t size, off64_t at) { return any_write(fd, bytes, size, at, 1); }

/* Calls with several pieces fail whole. */
static ssize_t any_writev(int fd, const struct iovec *pieces, int n, off_t at, int is_at) {
    wait_for_write(fd);
    if (is_watched(fd, 0)) {
        counts->writes++;
        if (fcntl(fd, F_GETFL) & O_DSYNC) counts->syncs++;
        if (fails(is_beside(fd))) return fail();
        return written(is_at ? syscall(SYS_pwritev, fd, pieces, n, at, 0L) : syscall(SYS_writev, fd, pieces, n));
    }
    return is_at ? syscall(SYS_pwritev, fd, pieces, n, at, 0L) : syscall(SYS_writev, fd, pieces, n);
}

ssize_t writev(int fd, const struct iovec *pieces, int n) { return any_writev(fd, pieces, n, 0, 0); }
ssize_t pwritev(int fd, const struct iovec *pieces, int n, off_t at) { return any_writev(fd, pieces, n, at, 1); }
ssize_t pwritev64(int fd, const struct iovec *pieces, int n, off64_t at) { return any_writev(fd, pieces, n, at, 1); }

static int any_sync(int fd, long call) {
    wait_for_disk();
    if (!is_watched(fd, 1)) return (int)syscall(call, fd);
    counts->syncs++;
    int is_failure = fails(is_beside(fd));
    if (is_failure && how == STALE) become_stale(fd);
    if (is_failure && how != DONE && how != SHORT && how != HALF) return fail();
    int answer = (int)syscall(call, fd);
    if (!answer) keep(fd);
    return is_failure && how != SHORT ? fail() : answer;
}

int fsync(int fd) { return any_sync(fd, SYS_fsync); }
int fdatasync(int fd) { return any_sync(fd, SYS_fdatasync); }

int ftruncate(int fd, off_t size) {
    if (!is_watched(fd, 0)) return (int)syscall(SYS_ftruncate, fd, size);
    counts->cuts++;
    int is_failure = fails(is_beside(fd));
    if (is_failure && how != DONE && how != SHORT && how != HALF) return fail();
    int answer = (int)syscall(SYS_ftruncate, fd, size);
    if (disk >= 0 && is_file(fd) && syscall(SYS_ftruncate, disk, size)) _exit(99);
    return is_failure && how != SHORT ? fail() : answer;
}

int posix_fadvise(int fd, off_t at, off_t size, int advice) {
    if (is_watched(fd, 0) && advice == POSIX_FADV_DONTNEED && !at && !size) drop_held(fd);
    return syscall(SYS_fadvise64, fd, at, size, advice) ? errno : 0;
}

int posix_fadvise64(int fd, off64_t at, off64_t size, int advice) { return posix_fadvise(fd, at, size, advice); }

/* Whether a read is the one that answers 0 early. */
static int ends_early(int fd) {
    if (how != EARLY || !is_watched(fd, 0)) return 0;
    counts->calls++;
    if (counts->calls == fails_at) counts->failed = fails_at;
    return counts->calls == fails_at;
}

ssize_t read(int fd, void *bytes, size_t size) { return ends_early(fd) ? 0 : syscall(SYS_read, fd, bytes, size); }

ssize_t pread(int fd, void *bytes, size_t size, off_t at) {
    return ends_early(fd) ? 0 : syscall(SYS_pread64, fd, bytes, size, at);
}

ssize_t pread64(int fd, void *bytes, size_t size, off64_t at) { return pread(fd, bytes, size, at); }

/* Opening counts where it may make a file. */
static int any_open(int folder_fd, const char *name, int flags, mode_t mode) {
    if (!(flags & O_CREAT) || !is_ours(name)) return plain_open(folder_fd, name, flags, mode);
    int is_failure = fails(strcmp(name, path) != 0);
    if (is_failure && how != DONE && how != SHORT && how != HALF) return fail();
    int fd = plain_open(folder_fd, name, flags, mode);
    if (!is_failure || how == SHORT) return fd;
    close(fd);
    return fail();
}

static mode_t mode_of(int flags, va_list more) { return flags & (O_CREAT | O_TMPFILE) ? va_arg(more, mode_t) : 0; }

int openat(int folder_fd, const char *name, int flags, ...) {
    va_list more;
    va_start(more, flags);
    mode_t mode = mode_of(flags, more);
    va_end(more);
    return any_open(folder_fd, name, flags, mode);
}

int open(const char *name, int flags, ...) {
    va_list more;
    va_start(more, flags);
    mode_t mode = mode_of(flags, more);
    va_end(more);
    return any_open(AT_FDCWD, name, flags, mode);
}

int openat64(int folder_fd, const char *name, int flags, ...) __attribute__((alias("openat")));
int open64(const char *name, int flags, ...) __attribute__((alias("open")));

int ftruncate64(int fd, off64_t size) { return ftruncate(fd, size); }

int renameat2(int from, const char *old_name, int to, const char *new_name, unsigned flags) {
    if (!is_ours(new_name)) return (int)syscall(SYS_renameat2, from, old_name, to, new_name, flags);
    counts->renames++;
    int is_failure = fails(how != DONE && how != HALF);
    if (is_failure && how != DONE && how != SHORT && how != HALF) return fail();
    if (how == LOST && !*replaced) {
        snprintf(replaced, sizeof replaced, "%.4000s/.replaced", folder);
        snprintf(renamed, sizeof renamed, "%s", old_name);
        unlink(replaced);
        if (link(path, replaced)) *replaced = 0;
    }
    int answer = (int)syscall(SYS_renameat2, from, old_name, to, new_name, flags);
    if (!answer && disk >= 0) {
        unlink(disk_path);
        disk = -1;
    }
    return is_failure && how != SHORT ? fail() : answer;
}

int renameat(int from, const char *old_name, int to, const char *new_name) {
    return renameat2(from, old_name, to, new_name, 0);
}

int rename(const char *old_name, const char *new_name) { return renameat2(AT_FDCWD, old_name, AT_FDCWD, new_name, 0); }
