/* The six calls of a disk over a file of the host, and the second file beside it. */
#define _GNU_SOURCE
#include "envy_host_file.h"
#include "envy_open.h"
#include <errno.h>
#include <fcntl.h>
#include <stdio.h>
#include <stdlib.h>
#include <string.h>
#include <sys/file.h>
#include <sys/resource.h>
#include <sys/stat.h>
#include <unistd.h>

/* A second file has the name of the first with this after it, and with a number after that if something else has the
   name. */
static const char BESIDE[] = ENVY_BESIDE;
enum { NAMES = 8, NUMBER = ENVY_BESIDE_NUMBER };

/* The bits of a mode that are access rights; and one that isn't, which only a second file has: what a crash leaves of one
   is known by it. */
enum { RIGHTS = 0777, MARK = S_ISVTX };

/* Whether the process is one that was forked off from the one that opened the file. The two share its end and its lock,
   and each would write over what the other wrote. */
int envy_host_is_forked(const envy_served *f) {
    if (f->process == getpid()) return 0;
    errno = EPERM;
    return 1;
}

/* Keeps what the system said, since the calls after this one aren't made, and tell nothing. */
int envy_host_failed(envy_served *f) {
    f->why = errno ? errno : EIO;
    return 1;
}

/* Whether a write would make a file longer than the system lets this process make one. Such a write isn't refused: a signal
   ends the process. */
static int is_past_limit(uint64_t at, size_t n) {
    struct rlimit limit;
    if (getrlimit(RLIMIT_FSIZE, &limit) || limit.rlim_cur == RLIM_INFINITY || at + n <= limit.rlim_cur) return 0;
    errno = EFBIG;
    return 1;
}

/* Writes all of it: an interrupted write is made again, and a short one goes on. */
static int written(int descriptor, uint64_t at, const char *bytes, size_t n) {
    if (is_past_limit(at, n)) return 1;
    while (n) {
        ssize_t done = pwrite(descriptor, bytes, n, (off_t)at);
        if (done < 0 && errno == EINTR) continue;
        if (!done) errno = EIO;
        if (done <= 0) return 1;
        bytes += done;
        at += (uint64_t)done;
        n -= (size_t)done;
    }
    return 0;
}

/* Writes bytes to a new file with such a name, on the disk. 0 if it is there whole. */
static int copied(const char *path, const uint8_t *bytes, size_t n) {
    int copy = open(path, O_WRONLY | O_CREAT | O_EXCL | O_CLOEXEC, 0600);
    if (copy < 0) return -1;
    int fails = written(copy, 0, (const char *)bytes, n) || fsync(copy);
    return close(copy) || fails ? -1 : 0;
}

/* Copies the file under the first name beside it that nothing has, which is left in `name`. 0 if that is done. */
static int copy_aside(const envy_served *f, char *name, size_t size, const uint8_t *bytes, size_t n) {
    for (int number = 0; number < NAMES; number++) {
        if (number) snprintf(name, size, "%s.envy-cut%d", f->path, number);
        else snprintf(name, size, "%s.envy-cut", f->path);
        if (!copied(name, bytes, n)) return 0;
        if (errno != EEXIST) return -1;
    }
    return -1;
}

/* Copies the file before the first call that changes it, if what the opening cuts off may hold a sync, and says so on
   standard error. If it can't be copied that is said, and the opening goes on. A file that is refused isn't changed. */
static void copy_what_is_cut(envy_served *f) {
    const uint8_t *bytes = f->found;
    size_t n = f->found_n;
    f->found = NULL;
    unsigned long long cut = bytes ? envy_journal_cut(bytes, n) : 0;
    if (!cut) return;
    size_t size = strlen(f->path) + sizeof ".envy-cut" + NUMBER;
    char *name = malloc(size);
    if (name && !copy_aside(f, name, size, bytes, n))
        fprintf(stderr, "envy: %llu bytes behind the last sync look like a sync; the file is copied to %s\n", cut, name);
    else
        fprintf(stderr, "envy: %llu bytes behind the last sync look like a sync; the file can't be copied\n", cut);
    free(name);
}

/* Of a file that is open for reading alone nothing is written: what the opening cuts off stays there, and each later call
   fails. */
static int unwritten(envy_served *f) {
    if (f->reading == READING_BEGINS) return 0;
    errno = EROFS;
    return envy_host_failed(f);
}

static int write_file(void *context, uint64_t at, const void *bytes, size_t n) {
    envy_served *f = context;
    if (f->reading) return unwritten(f);
    copy_what_is_cut(f);
    return envy_host_is_forked(f) || written(f->descriptor, at, bytes, n) ? envy_host_failed(f) : 0;
}

static int cut_file(void *context, uint64_t size) {
    envy_served *f = context;
    if (f->reading) return unwritten(f);
    copy_what_is_cut(f);
    int why = envy_host_is_forked(f);
    if (!why) do why = ftruncate(f->descriptor, (off_t)size);
    while (why && errno == EINTR);
    return why ? envy_host_failed(f) : 0;
}

/* A sync that failed isn't made again: the system may have let go of what it couldn't write, and tells so once. */
static int sync_file(void *context) {
    envy_served *f = context;
    if (f->reading) return unwritten(f);
    return envy_host_is_forked(f) || fdatasync(f->descriptor) ? envy_host_failed(f) : 0;
}

/* Whether a path, links not followed, names the file that is open. */
int envy_host_is_named(const char *path, int descriptor) {
    struct stat here, there;
    return !fstat(descriptor, &here) && !lstat(path, &there) && here.st_dev == there.st_dev && here.st_ino == there.st_ino;
}

/* Writes the name of a second file. */
static void name_second(envy_served *f, int number) {
    size_t n = strlen(f->path);
    memcpy(f->beside, f->path, n);
    memcpy(f->beside + n, BESIDE, sizeof BESIDE);
    if (!number) return;
    f->beside[n + sizeof BESIDE - 1] = (char)('0' + number);
    f->beside[n + sizeof BESIDE] = 0;
}

/* Removes the second file, which has no use any more. What the system refused before stays in errno. */
void envy_host_remove_second(envy_served *f) {
    int why = errno;
    if (f->second >= 0) {
        if (envy_host_is_named(f->beside, f->second)) unlink(f->beside);
        close(f->second);
        f->second = -1;
    }
    errno = why;
}

/* Gives a second file its rights. A file system that keeps access rights alone takes no mark: what a crash leaves there keeps
   its name. */
static int has_rights(int descriptor, mode_t rights) { return !fchmod(descriptor, rights | MARK) || !fchmod(descriptor, rights); }

/* Makes the second file, locked, with no bytes in it, under the first of its names that nothing has: no link is followed,
   and no file is opened that is there. It has the rights of the first file before a byte is in it. */
int envy_host_make_second(envy_served *f) {
    struct stat first;
    f->second_at = 0;
    for (int number = 0; number < NAMES; number++) {
        name_second(f, number);
        f->second = open(f->beside, O_RDWR | O_CREAT | O_EXCL | O_CLOEXEC, 0600 | MARK);
        if (f->second >= 0 || errno != EEXIST) break;
    }
    if ((f->second = above_standard_streams(f->second)) < 0) return 1;
    if (!flock(f->second, LOCK_EX | LOCK_NB) && !fstat(f->descriptor, &first) && has_rights(f->second, first.st_mode & RIGHTS)) return 0;
    envy_host_remove_second(f);
    return 1;
}

static int begin_second(void *context) {
    envy_served *f = context;
    if (f->reading) return unwritten(f);
    if (envy_host_is_forked(f)) return 1;
    envy_host_remove_second(f);
    return envy_host_make_second(f);
}

/* Of a second file that couldn't be written it isn't known what it holds, so it is given up. */
static int append_second(void *context, const void *bytes, size_t n) {
    envy_served *f = context;
    if (envy_host_is_forked(f) || f->second < 0) return 1;
    if (written(f->second, f->second_at, bytes, n)) {
        envy_host_remove_second(f);
        return 1;
    }
    f->second_at += n;
    return 0;
}

/* Removes the second files that a process left when it ended: those with the mark that nobody has locked. */
void envy_host_remove_left(envy_served *f) {
    struct stat found;
    for (int number = 0; number < NAMES; number++) {
        name_second(f, number);
        if (lstat(f->beside, &found) || !S_ISREG(found.st_mode) || !(found.st_mode & MARK)) continue;
        int left = open(f->beside, O_RDONLY | O_CLOEXEC | O_NOFOLLOW);
        if (left < 0) continue;
        if (!flock(left, LOCK_EX | LOCK_NB) && envy_host_is_named(f->beside, left)) unlink(f->beside);
        close(left);
    }
}

/* Brings the names in the folder of the file to the disk. */
int envy_host_sync_folder(const envy_served *f) {
    char *last = strrchr(f->path, '/');
    size_t n = last == f->path ? 1 : (size_t)(last - f->path);
    char *folder = strndup(f->path, n);
    if (!folder) return 1;
    int descriptor = above_standard_streams(open(folder, O_RDONLY | O_DIRECTORY | O_CLOEXEC));
    free(folder);
    if (descriptor < 0) return 1;
    int why = fsync(descriptor);
    int error = errno;
    close(descriptor);
    errno = error;
    return why;
}

/* Gives the second file the name of the first. If that name is another file's now, the first was moved while it was
   open: that other one is left as it is. The mark goes once the name is given; if that fails, the file only looks like a
   second one. */
static int renamed(envy_served *f) {
    struct stat second;
    if (fsync(f->second)) return ENVY_NOT_REPLACED;
    if (!envy_host_is_named(f->path, f->descriptor) || !envy_host_is_named(f->beside, f->second)) {
        errno = ENOENT;
        return ENVY_NOT_REPLACED;
    }
    if (rename(f->beside, f->path)) {
        int error = errno;
        int stays = envy_host_is_named(f->path, f->descriptor);
        errno = error;
        return stays ? ENVY_NOT_REPLACED : envy_host_failed(f);
    }
    if (!fstat(f->second, &second)) (void)!fchmod(f->second, second.st_mode & RIGHTS);
    return 0;
}

static int replace_file(void *context) {
    envy_served *f = context;
    if (envy_host_is_forked(f)) return envy_host_failed(f);
    if (f->second < 0) return ENVY_NOT_REPLACED;
    copy_what_is_cut(f);
    int why = renamed(f);
    if (why) {
        envy_host_remove_second(f);
        return why;
    }
    close(f->descriptor);
    f->descriptor = f->second;
    f->second = -1;
    return envy_host_sync_folder(f) ? envy_host_failed(f) : 0;
}

envy_disk envy_host_disk(envy_served *f) {
    return (envy_disk){f, write_file, cut_file, sync_file, begin_second, append_second, replace_file};
}
