/* Files that memories of envy.h are kept in: opened by their paths, locked while they are open, read whole, and served. */
#define _GNU_SOURCE
#include "envy_head.h"
#include "envy_host_file.h"
#include "envy_open.h"
#include <errno.h>
#include <fcntl.h>
#include <stdlib.h>
#include <string.h>
#include <sys/file.h>
#include <sys/stat.h>
#include <unistd.h>

/* Makes the paths of the file and of the second one. A link is followed once, here. */
static int named(envy_served *f, const char *path) {
    f->path = realpath(path, NULL);
    if (!f->path) return 0;
    f->beside = malloc(strlen(f->path) + sizeof ENVY_BESIDE + ENVY_BESIDE_NUMBER);
    return f->beside != NULL;
}

/* Opens the file, or makes an empty one if that is asked for, unless it is opened for reading alone. */
static int open_or_make(envy_served *f, const char *path, uint32_t flags, int *is_made) {
    /* (so that a pipe isn't waited for) */
    int mode = f->reading ? O_RDONLY | O_NONBLOCK : O_RDWR;
    f->descriptor = above_standard_streams(open(path, mode | O_CLOEXEC));
    if (f->descriptor < 0 && errno == ENOENT && !f->reading && flags & ENVY_CREATE) {
        f->descriptor = above_standard_streams(open(path, O_RDWR | O_CREAT | O_CLOEXEC, 0666));
        *is_made = f->descriptor >= 0;
    }
    return f->descriptor < 0;
}

/* Opens the file and locks it. A file that was locked and that the path doesn't name any more was replaced by the process
   that had it open. */
static uint32_t locked(envy_served *f, const char *path, uint32_t flags, int *is_made) {
    struct stat found;
    if (open_or_make(f, path, flags, is_made) || fstat(f->descriptor, &found)) return ENVY_SYSTEM;
    if (!S_ISREG(found.st_mode)) {
        errno = EINVAL;
        return ENVY_SYSTEM;
    }
    if (flock(f->descriptor, (f->reading ? LOCK_SH : LOCK_EX) | LOCK_NB))
        return errno == EWOULDBLOCK ? ENVY_LOCKED : ENVY_SYSTEM;
    if (f->reading && !found.st_size) return ENVY_NO_JOURNAL;
    if (!named(f, path)) return errno == ENOMEM ? ENVY_NO_MEMORY : ENVY_SYSTEM;
    return envy_host_is_named(f->path, f->descriptor) ? ENVY_DONE : ENVY_LOCKED;
}

/* Makes a second file and removes it, so that a folder in which none can be made, and a name that is too long, are told
   before the file is used. An empty file that was made is removed then. */
static uint32_t placed(envy_served *f, int is_made) {
    envy_host_remove_left(f);
    if (!envy_host_make_second(f)) {
        envy_host_remove_second(f);
        return ENVY_DONE;
    }
    int why = errno;
    if (is_made && envy_host_is_named(f->path, f->descriptor)) unlink(f->path);
    errno = why;
    return ENVY_SYSTEM;
}

/* Reads so many bytes at the front of a file. 0 if they are all there. */
static int read_front(int descriptor, uint8_t *bytes, size_t n) {
    for (size_t at = 0; at < n;) {
        ssize_t done = pread(descriptor, bytes + at, n - at, (off_t)at);
        if (done < 0 && errno == EINTR) continue;
        if (!done) errno = EIO;
        if (done <= 0) return -1;
        at += (size_t)done;
    }
    return 0;
}

/* The bytes of the file, in memory of their own: a mapping would show what the memory writes while it is opened. The head
   is read first: of a file that doesn't begin as a journal does no more is read. */
static uint8_t *read_whole(int descriptor, size_t *n) {
    struct stat found;
    if (fstat(descriptor, &found)) return NULL;
    *n = (size_t)found.st_size;
    uint8_t head[HEAD];
    if (*n >= HEAD) {
        if (read_front(descriptor, head, HEAD)) return NULL;
        if (memcmp(head, JOURNAL_MARK, MARK_BYTES)) *n = HEAD;
    }
    uint8_t *bytes = malloc(*n + 1);
    if (bytes && read_front(descriptor, bytes, *n)) {
        int why = errno;
        free(bytes);
        errno = why;
        bytes = NULL;
    }
    return bytes;
}

/* Has the system drop what it holds of the file, so that what is read comes from the disk. After a write that failed the
   system keeps the bytes, and takes them for written: a read would give what the disk hasn't, and no later sync would
   write it. */
static int drop_held(const envy_served *f) {
    int why = posix_fadvise(f->descriptor, 0, 0, POSIX_FADV_DONTNEED);
    if (why) errno = why;
    return why != 0;
}

/* Brings the file that was opened to the disk, reads it from there, and has the memory in it made or opened. */
static uint32_t taken(envy_served *f, const envy_setup *setup, uint32_t flags) {
    size_t n;
    if (fsync(f->descriptor) || envy_host_sync_folder(f) || drop_held(f)) return ENVY_SYSTEM;
    uint8_t *bytes = read_whole(f->descriptor, &n);
    if (!bytes) return errno == ENOMEM ? ENVY_NO_MEMORY : ENVY_SYSTEM;
    f->found = bytes;
    f->found_n = n;
    uint32_t code = envy_proved_open_port(&f->memory, setup, bytes, n, f->port, flags & ENVY_BYTEWISE);
    f->found = NULL;
    /* (of a file that is made the second file's failure is told as that of the file) */
    if (code == ENVY_OFF && !f->why) envy_host_failed(f);
    free(bytes);
    return code;
}

/* Gives the file up, and its lock, which a process that was forked off would keep. If this is such a process, the file
   and its lock are the other one's. What the system refused before stays in errno. */
static void let_go(envy_served *f) {
    int why = errno;
    int is_ours = f->process == getpid();
    if (f->memory.at) envy_proved_close(&f->memory);
    if (f->port >= 0) envy_disk_close(f->port);
    if (is_ours) envy_host_remove_second(f);
    if (f->second >= 0) close(f->second);
    if (f->descriptor >= 0 && is_ours) flock(f->descriptor, LOCK_UN);
    if (f->descriptor >= 0) close(f->descriptor);
    free(f->path);
    free(f->beside);
    f->path = f->beside = NULL;
    f->port = f->descriptor = f->second = -1;
    errno = why;
}

uint32_t envy_served_open(envy_served *f, const char *path, const envy_setup *setup, uint32_t flags) {
    if (f->descriptor >= 0) return ENVY_OPEN;
    int is_made = 0;
    uint32_t code = ENVY_DONE;
    if (!f->memory.at && (code = envy_new(&f->memory)) != ENVY_DONE) return code;
    hold_standard_streams();
    f->process = getpid();
    f->why = 0;
    f->reading = flags & ENVY_READING ? READING_BEGINS : NOT_READING;
    f->disk = envy_host_disk(f);
    if ((f->port = envy_disk_open(&f->disk)) < 0) code = ENVY_TOO_MANY;
    if (code == ENVY_DONE) code = locked(f, path, flags, &is_made);
    if (code == ENVY_DONE && !f->reading) code = placed(f, is_made);
    if (code == ENVY_DONE) code = taken(f, setup, flags);
    if (f->reading) f->reading = READING;
    if (code == ENVY_OFF) errno = f->why;
    if (code != ENVY_DONE) let_go(f);
    return code;
}

uint32_t envy_served_leave(envy_served *f) {
    if (f->descriptor >= 0) let_go(f);
    return ENVY_DONE;
}

uint32_t envy_served_close(envy_served *f) {
    if (f->descriptor < 0 || f->reading) return envy_served_leave(f);
    uint32_t code = envy_host_is_forked(f) && envy_host_failed(f) ? ENVY_OFF : envy_proved_sync(&f->memory);
    let_go(f);
    if (code == ENVY_OFF) errno = f->why;
    return code;
}

int envy_served_error(const envy_served *f) { return f->why; }
