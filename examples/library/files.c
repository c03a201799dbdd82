/* What envy answers of files that are there or not, locked, cut short, too long, of another shape or foreign, that
   nothing of a refused file is changed, and that no program which is started has an open one. Each answer is shown by its
   text.

     files FILE */
#include "../../c/envy.h"
#include "../../c/envy_text.h"
#include <fcntl.h>
#include <signal.h>
#include <stdio.h>
#include <stdlib.h>
#include <string.h>
#include <sys/stat.h>
#include <sys/wait.h>
#include <unistd.h>

static const envy_setup setup = {
    .segments = 8, .rows = 16, .pages = 64, .shadows = 16, .frames = 8, .entries = 4,
    .policy = ENVY_GREEDY, .part = 2, .limit = 3, .mark = 6,
};

static void must(int holds, const char *what) {
    if (holds) return;
    fprintf(stderr, "files: %s\n", what);
    exit(1);
}

/* The bytes of a file, and how many. */
static char *bytes_of(const char *path, size_t *length) {
    FILE *file = fopen(path, "rb");
    must(file != NULL, "a file that was refused is gone");
    fseek(file, 0, SEEK_END);
    *length = (size_t)ftell(file);
    rewind(file);
    char *bytes = malloc(*length + 1);
    must(fread(bytes, 1, *length, file) == *length, "a file can't be read");
    fclose(file);
    return bytes;
}

/* A call on the file answers this code, and leaves each byte. */
static void refused(const char *path, const envy_setup *by, uint32_t wanted, const char *what) {
    envy f = ENVY_INIT;
    size_t length, length_then;
    char *before = bytes_of(path, &length);
    uint32_t code = envy_open_mapped(&f, path, by, ENVY_CREATE);
    printf("%s: %s\n", what, envy_error_text(code));
    must(code == wanted, "another code was wanted");
    char *after = bytes_of(path, &length_then);
    must(length == length_then && !memcmp(before, after, length), "a refused file was changed");
    free(before);
    free(after);
}

/* The file with another length is refused, and then gets its bytes again. */
static void resized(const char *path, off_t length, uint32_t wanted, const char *what) {
    size_t full;
    char *bytes = bytes_of(path, &full);
    must(!truncate(path, length), "truncate");
    refused(path, &setup, wanted, what);
    FILE *file = fopen(path, "wb");
    must(file && fwrite(bytes, 1, full, file) == full && !fclose(file), "a file can't be written");
    free(bytes);
}

static void word_is(const char *path, uint64_t wanted) {
    envy f = ENVY_INIT;
    uint64_t word;
    must(envy_open_mapped(&f, path, &setup, ENVY_CREATE) == ENVY_DONE, "the file doesn't open");
    must(envy_load(&f, 9, &word) == ENVY_DONE && word == wanted, "the file lost a word");
    must(envy_close(&f) == ENVY_DONE, "close");
}

/* The lowest descriptor of the file at a path, or -1. */
static int descriptor_of(const char *path) {
    struct stat wanted, found;
    if (stat(path, &wanted)) return -1;
    for (int descriptor = 0; descriptor < 64; descriptor++)
        if (!fstat(descriptor, &found) && found.st_dev == wanted.st_dev && found.st_ino == wanted.st_ino) return descriptor;
    return -1;
}

static void ends_well(pid_t child) {
    int status;
    must(waitpid(child, &status, 0) == child && WIFEXITED(status) && !WEXITSTATUS(status), "the other process");
}

/* A new file has the rights that the umask leaves. No text that is printed comes into a file, if the standard streams are
   closed. */
static void made_without_streams(const char *path) {
    envy f = ENVY_INIT;
    struct stat about;
    uint32_t holder;
    umask(027);
    pid_t child = fork();
    if (child == 0) {
        for (int stream = 0; stream < 3; stream++) close(stream);
        if (envy_open_mapped(&f, path, &setup, ENVY_CREATE) != ENVY_DONE || descriptor_of(path) < 3) _exit(1);
        if (envy_store(&f, 9, 11, &holder) != ENVY_DONE) _exit(2);
        printf("a text for standard output\n");
        fflush(stdout);
        _exit(envy_close(&f) == ENVY_DONE ? 0 : 3);
    }
    ends_well(child);
    must(!stat(path, &about) && (about.st_mode & 0777) == 0640, "a new file has other rights");
    word_is(path, 11);
}

/* A process that was forked off gives up no lock, and a file that was closed isn't locked while such a process lives. */
static void closed_while_forked(const char *path) {
    envy f = ENVY_INIT;
    must(envy_open_mapped(&f, path, &setup, ENVY_CREATE) == ENVY_DONE, "the file doesn't open");
    pid_t child = fork();
    if (child == 0) _exit(envy_close(&f) == ENVY_DONE ? 0 : 1);
    ends_well(child);
    refused(path, &setup, ENVY_LOCKED, "closed by a process that was forked off");
    fflush(stdout);
    if ((child = fork()) == 0) {
        pause();
        _exit(0);
    }
    must(envy_close(&f) == ENVY_DONE, "close");
    word_is(path, 11);
    kill(child, SIGKILL);
    waitpid(child, NULL, 0);
}

/* Whether a program that is started now has this file open. */
static int is_handed_on(const char *path) {
    static const char looks[] = "for at in /proc/$$/fd/*; do [ ! \"$at\" -ef \"$0\" ] || exit 1; done";
    int status;
    fflush(stdout);
    pid_t child = fork();
    if (child == 0) {
        execl("/bin/sh", "sh", "-c", looks, path, (char *)NULL);
        _exit(2);
    }
    must(waitpid(child, &status, 0) == child && WIFEXITED(status) && WEXITSTATUS(status) < 2, "no program is started");
    return WEXITSTATUS(status);
}

/* A program that is started while a file is open, one that was made or one that was there, doesn't have it. */
static void not_handed_on(const char *path) {
    for (int there = 0; there < 2; there++) {
        envy f = ENVY_INIT;
        must(envy_open_mapped(&f, path, &setup, ENVY_CREATE) == ENVY_DONE, "the file doesn't open");
        must(!is_handed_on(path), "a program that was started has the file");
        must(!fcntl(descriptor_of(path), F_SETFD, 0) && is_handed_on(path), "a file that is handed on isn't found");
        must(envy_close(&f) == ENVY_DONE, "close");
    }
    must(!unlink(path), "unlink");
}

int main(int words, char **word) {
    if (words != 2) return 2;
    const char *path = word[1];
    envy f = ENVY_INIT;
    uint32_t holder;
    must(envy_close(&f) == ENVY_DONE, "a place without a file doesn't close");
    must(envy_open_mapped(&f, path, &setup, ENVY_CREATE) == ENVY_DONE, "no file is made");
    must(envy_store(&f, 9, 11, &holder) == ENVY_DONE, "store");
    must(envy_sync(&f) == ENVY_DONE, "sync");
    refused(path, &setup, ENVY_LOCKED, "open in this process");
    fflush(stdout);
    pid_t child = fork();
    if (child == 0) {
        refused(path, &setup, ENVY_LOCKED, "open in another process");
        fflush(stdout);
        _exit(0);
    }
    ends_well(child);
    must(envy_close(&f) == ENVY_DONE, "close");
    word_is(path, 11);
    must(!unlink(path), "unlink");
    not_handed_on(path);
    made_without_streams(path);
    closed_while_forked(path);

    size_t full;
    free(bytes_of(path, &full));
    off_t erases = (off_t)(full - 8 * 8), rows = 8 * 16 * 256;
    resized(path, 0, ENVY_FLASH_SIZE, "empty");
    resized(path, rows - 8, ENVY_FLASH_SIZE, "cut within the flash");
    resized(path, erases - 8, ENVY_SRAM_SIZE, "cut within the SRAM");
    resized(path, (off_t)full - 8, ENVY_ERASES_SIZE, "cut within the counts");
    resized(path, (off_t)full + 8, ENVY_ERASES_SIZE, "longer by a word");
    resized(path, (off_t)full + 1, ENVY_ERASES_SIZE, "longer by a byte");
    envy_setup other = setup;
    other.entries = 5;
    refused(path, &other, ENVY_OTHER_SHAPE, "another shape");
    other.mark = 9;
    refused(path, &other, ENVY_SETUP_MARK, "a setup that breaks a rule");
    word_is(path, 11);
    must(!truncate(path, 0) && !truncate(path, (off_t)full), "truncate");
    refused(path, &setup, ENVY_UNFORMATTED, "zeros");

    must(envy_open_mapped(&f, "/nowhere/at/all", &setup, ENVY_CREATE) == ENVY_SYSTEM, "a file is made nowhere");
    printf("no such folder: %s\n", envy_error_text(ENVY_SYSTEM));
    for (uint32_t a = 0; a <= ENVY_MAP_SETUP; a++)
        for (uint32_t b = 0; b < a; b++) must(strcmp(envy_error_text(a), envy_error_text(b)), "two codes share a text");
    for (uint32_t a = 0; a <= ENVY_MAP_SETUP; a++)
        must(strcmp(envy_error_text(a), envy_error_text(ENVY_BROKEN_MAP)), "two codes share a text");
    printf("version %s\n", envy_version());
    return 0;
}
