/* Kept files of the host: locked, compacted under a link, with a second file that a process left or that is in use, with
   writes that the system refuses, open for reading alone, and closed without a sync.

     kept_files FOLDER */
#include "../../c/envy.h"
#include "../../c/envy_text.h"
#include <errno.h>
#include <fcntl.h>
#include <stdio.h>
#include <stdlib.h>
#include <string.h>
#include <sys/resource.h>
#include <sys/stat.h>
#include <unistd.h>

static const envy_setup setup = {
    .segments = 8, .rows = 16, .pages = 64, .shadows = 16, .frames = 8, .entries = 4,
    .policy = ENVY_GREEDY, .limit = 100, .mark = 8,
};

static void want(int line, uint64_t found, uint64_t wanted) {
    if (found == wanted) return;
    fprintf(stderr, "kept_files.c:%d: %llu, not %llu, errno %d\n", line, (unsigned long long)found,
            (unsigned long long)wanted, errno);
    exit(1);
}
#define WANT(found, wanted) want(__LINE__, found, wanted)

static uint64_t word_at(envy *f, uint32_t address) {
    uint64_t word;
    WANT(envy_load(f, address, &word), ENVY_DONE);
    return word;
}

static void store(envy *f, uint32_t address, uint64_t word) {
    uint32_t holder;
    WANT(envy_store(f, address, word, &holder), ENVY_DONE);
}

static void locked_and_compacted(void) {
    envy f = ENVY_INIT, g = ENVY_INIT;
    struct stat before, after, link;
    WANT(envy_close(&f), ENVY_DONE);
    WANT(envy_open_file(&f, "memory", &setup, ENVY_CREATE), ENVY_DONE);
    WANT(envy_open_file(&f, "memory", &setup, ENVY_CREATE), ENVY_OPEN);
    WANT(envy_open_file(&g, "memory", &setup, ENVY_CREATE), ENVY_LOCKED);
    WANT(chmod("memory", 0640), 0);
    store(&f, 5, 7);
    WANT(envy_close(&f), ENVY_DONE);
    /* by a link, beside what a process that was killed left */
    WANT(symlink("memory", "link"), 0);
    FILE *left = fopen("memory.envy-new", "w");
    WANT(left && fputs("left by a process", left) >= 0 && !fclose(left), 1);
    WANT(chmod("memory.envy-new", S_ISVTX | 0600), 0);
    WANT(stat("memory", &before), 0);
    WANT(envy_open_file(&f, "link", &setup, ENVY_CREATE), ENVY_DONE);
    WANT(envy_compact(&f), ENVY_DONE);
    WANT(stat("memory", &after), 0);
    WANT(lstat("link", &link), 0);
    WANT(S_ISLNK(link.st_mode), 1);
    WANT(before.st_ino != after.st_ino && after.st_mode == before.st_mode, 1);
    WANT(access("memory.envy-new", F_OK), (uint64_t)-1);
    /* the file that has the name is the one that is locked */
    WANT(envy_open_file(&g, "memory", &setup, ENVY_CREATE), ENVY_LOCKED);
    store(&f, 6, 8);
    WANT(envy_close(&f), ENVY_DONE);
    WANT(envy_open_file(&g, "memory", &setup, ENVY_CREATE), ENVY_DONE);
    WANT(word_at(&g, 5), 7);
    WANT(word_at(&g, 6), 8);
    /* a file of this name that is in use stays as it is, and another name is taken */
    WANT(envy_open_file(&f, "memory.envy-new", &setup, ENVY_CREATE), ENVY_DONE);
    store(&f, 1, 2);
    WANT(envy_sync(&f), ENVY_DONE);
    WANT(envy_compact(&g), ENVY_DONE);
    WANT(access("memory.envy-new1", F_OK), (uint64_t)-1);
    WANT(envy_close(&g), ENVY_DONE);
    WANT(envy_close(&f), ENVY_DONE);
    WANT(envy_open_file(&f, "memory.envy-new", &setup, ENVY_CREATE), ENVY_DONE);
    WANT(word_at(&f, 1), 2);
    WANT(envy_close(&f), ENVY_DONE);
}

/* No file may grow longer than so many bytes. */
static void limited(rlim_t bytes) {
    struct rlimit limit = {bytes, RLIM_INFINITY};
    WANT(setrlimit(RLIMIT_FSIZE, &limit), 0);
}

/* The writes of a file that may not grow fail, and no signal comes: it has the words of the last sync, or of the one that
   failed. */
static void full(void) {
    envy f = ENVY_INIT;
    struct stat about;
    uint64_t synced = 0;
    uint32_t code = ENVY_DONE, holder;
    WANT(envy_open_file(&f, "full", &setup, ENVY_CREATE), ENVY_DONE);
    WANT(stat("full", &about), 0);
    limited((rlim_t)about.st_size + 10000);
    for (uint64_t n = 1; code == ENVY_DONE && n < 1000000; n++) {
        code = envy_store(&f, 5, n, &holder);
        if (code == ENVY_DONE && n % 100 == 0 && (code = envy_sync(&f)) == ENVY_DONE) synced = n;
    }
    WANT(code, ENVY_OFF);
    WANT(errno, EFBIG);
    limited(RLIM_INFINITY);
    WANT(envy_sync(&f), ENVY_OFF);
    WANT(envy_file_error(&f), EFBIG);
    WANT(envy_close(&f), ENVY_OFF);
    WANT(errno, EFBIG);
    WANT(envy_file_error(&f), 0);
    WANT(envy_open_file(&f, "full", &setup, ENVY_CREATE), ENVY_DONE);
    WANT(word_at(&f, 5) == synced || word_at(&f, 5) == synced + 100, 1);
    WANT(envy_file_error(&f), 0);
    WANT(envy_close(&f), ENVY_DONE);
    /* a new file that may not be written */
    limited(10);
    WANT(envy_open_file(&f, "new", &setup, ENVY_CREATE), ENVY_OFF);
    WANT(errno, EFBIG);
    limited(RLIM_INFINITY);
    WANT(envy_open_file(&f, "new", &setup, ENVY_CREATE), ENVY_DONE);
    WANT(word_at(&f, 5), 0);
    WANT(envy_close(&f), ENVY_DONE);
}

static void other_paths(void) {
    envy f = ENVY_INIT;
    WANT(mkdir("folder", 0777), 0);
    WANT(envy_open_file(&f, "folder", &setup, ENVY_CREATE), ENVY_SYSTEM);
    WANT(envy_open_file(&f, "none/memory", &setup, ENVY_CREATE), ENVY_SYSTEM);
    WANT(errno, ENOENT);
    WANT(envy_open_file(&f, "/dev/null", &setup, ENVY_CREATE), ENVY_SYSTEM);
    WANT(mkfifo("pipe", 0666), 0);
    WANT(envy_open_file(&f, "pipe", &setup, ENVY_CREATE), ENVY_SYSTEM);
}

/* A copy of a file's bytes, and how many they are. */
static char *bytes_of(const char *path, size_t *n) {
    struct stat about;
    FILE *it = fopen(path, "rb");
    WANT(it && !fstat(fileno(it), &about), 1);
    char *bytes = malloc((size_t)about.st_size + 1);
    *n = (size_t)about.st_size;
    WANT(fread(bytes, 1, *n, it), *n);
    fclose(it);
    return bytes;
}

/* Whether a file has these bytes, and nothing came to be beside it. */
static int is_as_before(const char *path, const char *bytes, size_t n) {
    char beside[64];
    size_t found_n;
    char *found = bytes_of(path, &found_n);
    int is_same = found_n == n && !memcmp(bytes, found, n);
    free(found);
    snprintf(beside, sizeof beside, "%s.envy-new", path);
    if (!access(beside, F_OK)) return 0;
    snprintf(beside, sizeof beside, "%s.envy-cut", path);
    return is_same && access(beside, F_OK);
}

/* Files that aren't read: one that isn't there, and one that is empty. */
static void not_read(void) {
    envy f = ENVY_INIT;
    size_t n;
    WANT(envy_open_file(&f, "read", &setup, ENVY_READING), ENVY_SYSTEM);
    WANT(errno, ENOENT);
    WANT(access("read", F_OK), (uint64_t)-1);
    fclose(fopen("read", "wb"));
    WANT(envy_open_file(&f, "read", &setup, ENVY_READING), ENVY_NO_JOURNAL);
    free(bytes_of("read", &n));
    WANT(n, 0);
    WANT(envy_open_file(&f, "read", &setup, ENVY_CREATE), ENVY_DONE);
    store(&f, 5, 7);
    WANT(envy_open_file(&f, "read", &setup, ENVY_READING), ENVY_OPEN);
    envy g = ENVY_INIT;
    WANT(envy_open_file(&g, "read", &setup, ENVY_READING), ENVY_LOCKED);
    WANT(envy_close(&f), ENVY_DONE);
}

/* Several have the file open for reading. The first call that would write is refused, that memory ends, and the file and the
   others are as before. */
static void read_alone(void) {
    envy f = ENVY_INIT, g = ENVY_INIT, h = ENVY_INIT;
    size_t n;
    uint32_t holder, code = ENVY_DONE;
    uint64_t word, stored = 0;
    char *before = bytes_of("read", &n);
    WANT(chmod("read", 0400), 0);
    WANT(envy_open_file(&f, "read", &setup, ENVY_READING), ENVY_DONE);
    WANT(envy_open_file(&g, "read", &setup, ENVY_READING), ENVY_DONE);
    WANT(envy_open_file(&h, "read", &setup, ENVY_CREATE), ENVY_LOCKED);
    WANT(envy_open_file(&h, "read", &setup, ENVY_READING), ENVY_DONE);
    for (uint32_t i = 0; i < 200000; i++) WANT(word_at(&h, 5), 7);
    while (code == ENVY_DONE && stored < 1000000) {
        code = envy_store(&f, (uint32_t)(stored * 33 % 2048), stored + 100, &holder);
        stored += code == ENVY_DONE;
    }
    WANT(code, ENVY_OFF);
    WANT(stored > 10, 1);
    WANT(envy_file_error(&f), EROFS);
    WANT(envy_load(&f, 5, &word), ENVY_OFF);
    WANT(envy_close(&f), ENVY_DONE);
    store(&g, 6, 8);
    WANT(word_at(&g, 6), 8);
    WANT(envy_sync(&g), ENVY_OFF);
    WANT(envy_file_error(&g), EROFS);
    WANT(envy_powered(&g), ENVY_OFF);
    WANT(envy_close(&g), ENVY_DONE);
    WANT(word_at(&h, 5), 7);
    WANT(envy_compact(&h), ENVY_OFF);
    WANT(envy_file_error(&h), EROFS);
    WANT(envy_close(&h), ENVY_DONE);
    WANT(is_as_before("read", before, n), 1);
    WANT(chmod("read", 0600), 0);
    free(before);
}

/* Writes a file's bytes anew. */
static void write_bytes(const char *path, const char *bytes, size_t n) {
    FILE *it = fopen(path, "wb");
    WANT(it && fwrite(bytes, 1, n, it) == n && !fclose(it), 1);
}

/* A file closed without a sync has none of what was done since the last one. */
static void left(void) {
    envy f = ENVY_INIT;
    WANT(envy_open_file(&f, "read", &setup, ENVY_CREATE), ENVY_DONE);
    store(&f, 5, 8);
    WANT(envy_leave(&f), ENVY_DONE);
    WANT(envy_leave(&f), ENVY_DONE);
    WANT(envy_open_file(&f, "read", &setup, ENVY_CREATE), ENVY_DONE);
    WANT(word_at(&f, 5), 7);
    WANT(envy_close(&f), ENVY_DONE);
}

/* What a stop left of a sync is read over, and stays in the file: of the bytes that the sync wrote, those from some place on.
   (Those before are written last, behind a sync of the file.) */
static void torn(void) {
    envy f = ENVY_INIT;
    size_t n, last_n, opened = 0;
    char *first = bytes_of("read", &n);
    WANT(envy_open_file(&f, "read", &setup, ENVY_CREATE), ENVY_DONE);
    for (uint32_t i = 0; i < 20; i++) store(&f, 5 + 3 * i, 8);
    WANT(envy_close(&f), ENVY_DONE);
    char *last = bytes_of("read", &last_n);
    WANT(last_n, n);
    for (size_t cut = n; cut <= n; cut--) {
        if (cut < n && cut > 0 && last[cut] == first[cut]) continue;
        memcpy(first + cut, last + cut, n - cut);
        write_bytes("read", first, n);
        WANT(envy_open_file(&f, "read", &setup, ENVY_READING), ENVY_DONE);
        uint64_t word = word_at(&f, 5);
        WANT(word, memcmp(first, last, n) ? 7 : 8);
        WANT(envy_close(&f), ENVY_DONE);
        WANT(is_as_before("read", first, n), 1);
        opened++;
    }
    WANT(opened > 10, 1);
    free(first);
    free(last);
}

int main(int words, char **word) {
    if (words != 2 || chdir(word[1])) return 2;
    locked_and_compacted();
    full();
    other_paths();
    not_read();
    read_alone();
    left();
    torn();
    puts("kept files: locked, compacted under a link, refused writes leave the last sync, and a reader changes nothing");
    return 0;
}
