/* Kept files at the edge of the process: a handle that was never made, standard streams that are closed, processes that
   are forked off, a file that is moved while it is open, names that others have, folders in which nothing may be made, more
   files than can be open, and a limit of length.

     kept_edges FOLDER */
#include "../../c/envy.h"
#include <errno.h>
#include <fcntl.h>
#include <signal.h>
#include <stdio.h>
#include <stdlib.h>
#include <string.h>
#include <sys/resource.h>
#include <sys/stat.h>
#include <sys/wait.h>
#include <unistd.h>

static const envy_setup setup = {
    .segments = 4, .rows = 8, .pages = 12, .shadows = 4, .frames = 3, .entries = 2,
    .policy = ENVY_GREEDY, .limit = 100, .mark = 2,
};

static void want(int line, uint64_t found, uint64_t wanted) {
    if (found == wanted) return;
    int why = errno;
    dprintf(STDERR_FILENO, "kept_edges.c:%d: %llu, not %llu, errno %d\n", line, (unsigned long long)found,
            (unsigned long long)wanted, why);
    _exit(1);
}
#define WANT(found, wanted) want(__LINE__, (uint64_t)(found), (uint64_t)(wanted))

static void store(envy *f, uint32_t address, uint64_t word) {
    uint32_t holder;
    WANT(envy_store(f, address, word, &holder), ENVY_DONE);
}

static uint64_t word_at(envy *f, uint32_t address) {
    uint64_t word;
    WANT(envy_load(f, address, &word), ENVY_DONE);
    return word;
}

/* What a file holds at address 5 when it is opened again. */
static uint64_t kept_in(const char *path) {
    envy f = ENVY_INIT;
    WANT(envy_open_file(&f, path, &setup, ENVY_CREATE), ENVY_DONE);
    uint64_t word = word_at(&f, 5);
    WANT(envy_close(&f), ENVY_DONE);
    return word;
}

static void make(const char *path, const char *text, mode_t mode) {
    FILE *file = fopen(path, "w");
    WANT(file && fputs(text, file) >= 0 && !fclose(file), 1);
    WANT(chmod(path, mode), 0);
}

static int is_text(const char *path, const char *text) {
    char found[100] = {0};
    FILE *file = fopen(path, "r");
    if (!file) return 0;
    size_t n = fread(found, 1, sizeof found - 1, file);
    fclose(file);
    return n == strlen(text) && !memcmp(found, text, n);
}

static void never_made(void) {
    envy m = ENVY_INIT;
    uint64_t word = 7;
    uint32_t number;
    size_t done = 7;
    envy_counts counts;
    envy_pair pair;
    WANT(envy_load(&m, 0, &word), ENVY_EMPTY);
    WANT(envy_look(&m, 0, &word), ENVY_EMPTY);
    WANT(envy_view(&m, 0, 0, &word), ENVY_EMPTY);
    WANT(envy_read(&m, 0, &word, 1), ENVY_EMPTY);
    WANT(envy_store(&m, 0, 1, &number), ENVY_EMPTY);
    WANT(envy_begin(&m, &number), ENVY_EMPTY);
    WANT(envy_put(&m, 0, 0, 1, &number), ENVY_EMPTY);
    WANT(envy_write(&m, 0, 0, &word, 1, &done, &number), ENVY_EMPTY);
    WANT(done, 0);
    done = 7;
    WANT(envy_store_run(&m, 0, &word, 1, &done, &number), ENVY_EMPTY);
    WANT(envy_commit(&m, 0), ENVY_EMPTY);
    WANT(envy_abort(&m, 0), ENVY_EMPTY);
    WANT(envy_tick(&m, &number), ENVY_EMPTY);
    WANT(envy_counters(&m, &counts), ENVY_EMPTY);
    WANT(envy_sync(&m), ENVY_EMPTY);
    WANT(envy_compact(&m), ENVY_EMPTY);
    WANT(envy_powered(&m), ENVY_EMPTY);
    WANT(envy_index_count(&m, &word), ENVY_EMPTY);
    WANT(envy_index_next(&m, 0, &pair), ENVY_EMPTY);
    WANT(envy_open_port(&m, &setup, (const uint8_t *)"", 0, 0, 0), ENVY_OFF); /* no disk has this port */
    envy_close(&m);
    WANT(word, 7);
    WANT(done, 0);
}

/* Ends with the status of a process that was forked off. */
static void passed(int line, pid_t child) {
    int status;
    want(line, (uint64_t)waitpid(child, &status, 0), (uint64_t)child);
    want(line, (uint64_t)status, 0);
}
#define PASSED(child) passed(__LINE__, child)

/* The lowest descriptor of the file at a path, or -1. */
static int descriptor_of(const char *path) {
    struct stat wanted, found;
    if (stat(path, &wanted)) return -1;
    for (int descriptor = 0; descriptor < 64; descriptor++)
        if (!fstat(descriptor, &found) && found.st_dev == wanted.st_dev && found.st_ino == wanted.st_ino) return descriptor;
    return -1;
}

/* A program whose standard streams are closed, in any combination, and which prints all the same. */
static void prints(unsigned closed) {
    envy f = ENVY_INIT;
    for (int stream = 0; stream < 3; stream++)
        if (closed >> stream & 1) close(stream);
    WANT(envy_open_file(&f, "streams", &setup, ENVY_CREATE), ENVY_DONE);
    WANT(descriptor_of("streams") > 2, 1);
    store(&f, 5, closed);
    WANT(envy_sync(&f), ENVY_DONE);
    for (int i = 0; i < 100; i++) {
        printf("a text for standard output\n");
        fprintf(stderr, "%s", closed & 4 ? "a text for standard error\n" : "");
    }
    fflush(stdout);
    WANT(envy_compact(&f), ENVY_DONE);
    WANT(descriptor_of("streams") > 2, 1);
    printf("a text for standard output\n");
    fflush(stdout);
    WANT(envy_close(&f), ENVY_DONE);
    _exit(0);
}

static void closed_streams(void) {
    int null = open("/dev/null", O_WRONLY), out = dup(1);
    fflush(stdout);
    dup2(null, 1);
    for (unsigned closed = 0; closed < 8; closed++) {
        pid_t child = fork();
        if (!child) prints(closed);
        PASSED(child);
        WANT(kept_in("streams"), closed);
    }
    dup2(out, 1);
    close(out);
    close(null);
}

/* A process that was forked off works on its copy of the memory, and closes it. */
static void works_on_a_copy(envy *f) {
    uint32_t holder;
    for (uint64_t n = 0; n < 20000; n++) {
        uint32_t code = envy_store(f, 5, 1000 + n, &holder);
        if (code == ENVY_OFF) break;
        WANT(code, ENVY_DONE);
    }
    WANT(envy_sync(f), ENVY_OFF);
    WANT(envy_compact(f), ENVY_OFF);
    WANT(envy_file_error(f), EPERM);
    WANT(envy_close(f), ENVY_OFF);
    WANT(errno, EPERM);
    _exit(0);
}

static void forked(void) {
    envy f = ENVY_INIT, g = ENVY_INIT;
    WANT(envy_open_file(&f, "forked", &setup, ENVY_CREATE), ENVY_DONE);
    for (uint64_t n = 1; n <= 40; n++) {
        store(&f, 5, n);
        pid_t child = fork();
        if (!child && n % 2) works_on_a_copy(&f);
        if (!child) {
            /* as a destructor does, and nothing else */
            WANT(envy_close(&f), ENVY_OFF);
            _exit(0);
        }
        store(&f, 5, 100 + n);
        WANT(n % 5 ? envy_sync(&f) : envy_compact(&f), ENVY_DONE);
        PASSED(child);
        store(&f, 6, n);
        WANT(envy_sync(&f), ENVY_DONE);
        WANT(envy_open_file(&g, "forked", &setup, ENVY_CREATE), ENVY_LOCKED);
    }
    WANT(envy_close(&f), ENVY_DONE);
    WANT(kept_in("forked"), 140);
    /* a file that was closed isn't locked while such a process lives */
    WANT(envy_open_file(&f, "forked", &setup, ENVY_CREATE), ENVY_DONE);
    pid_t child = fork();
    if (!child) {
        pause();
        _exit(0);
    }
    WANT(envy_close(&f), ENVY_DONE);
    WANT(kept_in("forked"), 140);
    kill(child, SIGKILL);
    waitpid(child, NULL, 0);
}

/* A file that is moved while it is open goes on where it is, and another one at its old path stays as it is. */
static void moved(void) {
    envy f = ENVY_INIT;
    WANT(envy_open_file(&f, "moved", &setup, ENVY_CREATE), ENVY_DONE);
    store(&f, 5, 1);
    WANT(envy_sync(&f), ENVY_DONE);
    WANT(rename("moved", "away"), 0);
    make("moved", "another file", 0600);
    store(&f, 5, 2);
    WANT(envy_compact(&f), ENVY_APPENDED);
    WANT(errno, ENOENT);
    store(&f, 5, 3);
    WANT(envy_close(&f), ENVY_DONE);
    WANT(is_text("moved", "another file"), 1);
    WANT(access("moved.envy-new", F_OK), -1);
    WANT(kept_in("away"), 3);
}

/* A name that somebody else has is left: a file, a link to nothing, a folder. What a process that was killed left is
   removed. */
static void names(void) {
    envy f = ENVY_INIT;
    struct stat link;
    make("names.envy-new", "somebody's file", 0600);
    WANT(symlink("nowhere", "names.envy-new1"), 0);
    WANT(mkdir("names.envy-new2", 0700), 0);
    make("names.envy-new3", "left by a process that was killed", S_ISVTX | 0600);
    WANT(envy_open_file(&f, "names", &setup, ENVY_CREATE), ENVY_DONE);
    WANT(access("names.envy-new3", F_OK), -1);
    store(&f, 5, 7);
    WANT(envy_compact(&f), ENVY_DONE);
    WANT(envy_close(&f), ENVY_DONE);
    WANT(is_text("names.envy-new", "somebody's file"), 1);
    WANT(lstat("names.envy-new1", &link), 0);
    WANT(S_ISLNK(link.st_mode), 1);
    WANT(access("nowhere", F_OK), -1);
    WANT(access("names.envy-new3", F_OK), -1);
    WANT(stat("names", &link), 0);
    WANT(link.st_mode & S_ISVTX, 0);
    WANT(kept_in("names"), 7);
}

/* A folder in which nothing may be made, and a name to which nothing can be added, are told at once. */
static void no_second(void) {
    envy f = ENVY_INIT;
    char name[256];
    memset(name, 'n', 250);
    name[250] = 0;
    WANT(envy_open_file(&f, name, &setup, ENVY_CREATE), ENVY_SYSTEM);
    WANT(errno, ENAMETOOLONG);
    WANT(access(name, F_OK), -1);
    WANT(mkdir("bare", 0777), 0);
    make("bare/file", "", 0666);
    WANT(chmod("bare", 0555) | chmod(".", 0755), 0);
    pid_t child = fork();
    if (!child) {
        if (!getuid() && setuid(65534)) _exit(1);
        /* (if the folder above can't be entered either, the error is the same) */
        WANT(envy_open_file(&f, "bare/file", &setup, ENVY_CREATE), ENVY_SYSTEM);
        WANT(errno, EACCES);
        _exit(0);
    }
    PASSED(child);
}

/* More files than can be open at a time are told as that. */
static void too_many(void) {
    static envy files[ENVY_DISKS + 1];
    char name[32];
    for (int i = 0; i <= ENVY_DISKS; i++) {
        files[i] = (envy)ENVY_INIT;
        snprintf(name, sizeof name, "many%d", i);
        WANT(envy_open_file(&files[i], name, &setup, ENVY_CREATE), i < ENVY_DISKS ? ENVY_DONE : ENVY_TOO_MANY);
    }
    for (int i = 0; i < ENVY_DISKS; i++) WANT(envy_close(&files[i]), ENVY_DONE);
    WANT(envy_open_file(&files[ENVY_DISKS], name, &setup, ENVY_CREATE), ENVY_DONE);
    WANT(envy_close(&files[ENVY_DISKS]), ENVY_DONE);
}

/* Stores without a sync: what isn't synced is written anew, so that the file stays short. */
static void never_synced(void) {
    envy f = ENVY_INIT;
    WANT(envy_open_file(&f, "unsynced", &setup, ENVY_CREATE), ENVY_DONE);
    struct stat found;
    off_t longest = 0;
    for (uint32_t i = 0; i < 200000; i++) {
        store(&f, i * 7919u % 384, i);
        if (i % 1000) continue;
        WANT(stat("unsynced", &found), 0);
        if (found.st_size > longest) longest = found.st_size;
    }
    WANT(longest < 4 << 20, 1);
    WANT(envy_close(&f), ENVY_DONE);
    WANT(envy_open_file(&f, "unsynced", &setup, ENVY_CREATE), ENVY_DONE);
    WANT(word_at(&f, 199999u * 7919u % 384), 199999);
    WANT(envy_close(&f), ENVY_DONE);
}

/* Of a long file of another kind the head is read, and nothing is made beside it. */
static void another_kind(void) {
    envy f = ENVY_INIT;
    make("foreign", "a text of another kind", 0644);
    WANT(truncate("foreign", (off_t)1 << 40), 0);
    WANT(envy_open_file(&f, "foreign", &setup, ENVY_CREATE), ENVY_NO_JOURNAL);
    WANT(access("foreign.envy-cut", F_OK), (uint64_t)-1);
    WANT(unlink("foreign"), 0);
}

/* Turns the first gate of a journal: what follows looks like a sync that is cut off. A file that is refused isn't copied. */
static void refused(void) {
    envy f = ENVY_INIT;
    envy_setup other = setup;
    other.rows = 9;
    WANT(envy_open_file(&f, "turned", &setup, ENVY_CREATE), ENVY_DONE);
    store(&f, 5, 7);
    WANT(envy_close(&f), ENVY_DONE);
    int descriptor = open("turned", O_WRONLY);
    WANT(pwrite(descriptor, "", 1, 33), 1);
    WANT(close(descriptor), 0);
    WANT(envy_open_file(&f, "turned", &other, ENVY_CREATE) != ENVY_DONE, 1);
    WANT(access("turned.envy-cut", F_OK), (uint64_t)-1);
    WANT(envy_open_file(&f, "turned", &setup, ENVY_CREATE), ENVY_DONE);
    WANT(access("turned.envy-cut", F_OK), 0);
    WANT(envy_close(&f), ENVY_DONE);
}

/* The setup that a file was made with, before it is opened. What is no such file is told by its code. */
static void shapes(void) {
    envy f = ENVY_INIT;
    envy_setup found = {.segments = 1};
    WANT(envy_file_shape("shaped", &found), ENVY_SYSTEM);
    WANT(errno, ENOENT);
    WANT(envy_file_shape(".", &found), ENVY_SYSTEM);
    make("shaped", "", 0644);
    WANT(envy_file_shape("shaped", &found), ENVY_NO_JOURNAL);
    WANT(unlink("shaped"), 0);
    WANT(envy_open_file(&f, "shaped", &setup, ENVY_CREATE), ENVY_DONE);
    WANT(found.segments, 1);
    WANT(envy_file_shape("shaped", &found), ENVY_DONE);
    WANT(found.segments, setup.segments);
    WANT(found.rows, setup.rows);
    WANT(found.pages, setup.pages);
    WANT(found.shadows, setup.shadows);
    WANT(found.frames, setup.frames);
    WANT(found.entries, setup.entries);
    WANT(found.policy, ENVY_GREEDY);
    WANT(found.limit, 100);
    WANT(found.mark, setup.frames);
    WANT(envy_close(&f), ENVY_DONE);
    WANT(envy_open_file(&f, "shaped", &found, ENVY_CREATE), ENVY_DONE);
    WANT(envy_close(&f), ENVY_DONE);
    int descriptor = open("shaped", O_WRONLY);
    WANT(pwrite(descriptor, "\t", 1, 8), 1);
    WANT(envy_file_shape("shaped", &found), ENVY_OTHER_JOURNAL);
    WANT(pwrite(descriptor, "\2\0", 2, 8), 2);
    WANT(envy_file_shape("shaped", &found), ENVY_NO_JOURNAL);
    WANT(ftruncate(descriptor, 32), 0);
    WANT(envy_file_shape("shaped", &found), ENVY_NO_JOURNAL);
    WANT(close(descriptor), 0);
    make("shaped", "a text of another kind that is longer than a head", 0644);
    WANT(envy_file_shape("shaped", &found), ENVY_NO_JOURNAL);
}

/* What isn't asked for needs no place. */
static void not_asked(void) {
    static const envy_setup for_a_map = {
        .segments = 8, .rows = 16, .pages = 40, .shadows = 32, .frames = 8, .entries = 4,
        .policy = ENVY_GREEDY, .part = 2, .limit = 100, .mark = 6,
    };
    envy f = ENVY_INIT;
    envy *m = &f;
    uint64_t words[] = {1, 2, 3}, word;
    uint32_t slot, other;
    WANT(envy_open_file(&f, "unasked", &for_a_map, ENVY_CREATE), ENVY_DONE);
    WANT(envy_begin(m, &slot), ENVY_DONE);
    WANT(envy_begin(m, &other), ENVY_DONE);
    WANT(envy_put(m, slot, 5, 7, NULL), ENVY_DONE);
    WANT(envy_put(m, other, 6, 7, NULL), ENVY_HELD);
    WANT(envy_store(m, 6, 7, NULL), ENVY_HELD);
    WANT(envy_store(m, 40, 7, NULL), ENVY_DONE);
    WANT(envy_store_run(m, 62, words, 3, NULL, NULL), ENVY_DONE);
    WANT(word_at(&f, 64), 3);
    WANT(envy_store_run(m, 6, words, 3, NULL, NULL), ENVY_HELD);
    WANT(envy_write(m, slot, 6, words, 3, NULL, NULL), ENVY_DONE);
    WANT(envy_write(m, other, 6, words, 3, NULL, NULL), ENVY_HELD);
    WANT(word_at(&f, 8), 3);
    WANT(envy_abort(m, slot), ENVY_DONE);
    WANT(envy_abort(m, other), ENVY_DONE);
    WANT(envy_index_create(m), ENVY_DONE);
    WANT(envy_index_insert(m, 9, 90, NULL), ENVY_DONE);
    WANT(envy_index_insert(m, 9, 91, NULL), ENVY_DONE);
    WANT(envy_index_get(m, 9, &word), ENVY_DONE);
    WANT(word, 91);
    WANT(envy_close(&f), ENVY_DONE);
}

/* A new file has the access rights that the umask leaves, and keeps them as it is compacted. */
static void rights(void) {
    envy f = ENVY_INIT;
    struct stat found;
    mode_t before = umask(027);
    WANT(envy_open_file(&f, "rights", &setup, ENVY_CREATE), ENVY_DONE);
    store(&f, 5, 7);
    for (int i = 0; i < 2; i++) {
        WANT(stat("rights", &found), 0);
        WANT(found.st_mode & 07777, 0640);
        WANT(envy_compact(&f), ENVY_DONE);
    }
    WANT(envy_close(&f), ENVY_DONE);
    umask(before);
}

/* A file that may not grow so long fails with an error, and no signal ends the process. */
static void limited(void) {
    envy f = ENVY_INIT;
    WANT(envy_open_file(&f, "limited", &setup, ENVY_CREATE), ENVY_DONE);
    store(&f, 5, 7);
    WANT(envy_close(&f), ENVY_DONE);
    pid_t child = fork();
    if (!child) {
        const struct rlimit limit = {1 << 16, 1 << 16};
        WANT(setrlimit(RLIMIT_FSIZE, &limit), 0);
        WANT(envy_open_file(&f, "limited", &setup, ENVY_CREATE), ENVY_DONE);
        uint32_t code = ENVY_DONE;
        for (uint64_t n = 8; n < 100000 && code == ENVY_DONE; n++) {
            store(&f, 5, n);
            code = envy_sync(&f);
        }
        WANT(code, ENVY_OFF);
        WANT(errno, EFBIG);
        WANT(envy_file_error(&f), EFBIG);
        WANT(envy_close(&f), ENVY_OFF);
        _exit(0);
    }
    PASSED(child);
    WANT(kept_in("limited") > 7, 1);
}

int main(int words, char **word) {
    if (words != 2 || chdir(word[1])) return 2;
    alarm(300);
    never_made();
    closed_streams();
    forked();
    moved();
    names();
    no_second();
    too_many();
    never_synced();
    another_kind();
    refused();
    shapes();
    not_asked();
    rights();
    limited();
    puts("kept files: closed streams, forked processes, a moved file, names that others have, too many files, stores without a sync, "
         "files of another kind and a limit of length do no harm; shapes, rights and what isn't asked for");
    return 0;
}
