/* Copies of a memory that is in use, over each board, and files that grow: what is committed is in the copy, and nothing else.

     copies FOLDER */
#include "../../c/envy.h"
#include "../../c/envy_text.h"
#include <errno.h>
#include <stdio.h>
#include <stdlib.h>
#include <sys/stat.h>
#include <unistd.h>

enum { WORDS = 32 * 64, MORE = 32 * 200 };

static const envy_setup setup = {
    .segments = 8, .rows = 16, .pages = 64, .shadows = 16, .frames = 8, .entries = 4,
    .policy = ENVY_GREEDY, .part = 2, .limit = 100, .mark = 8,
};
static const envy_setup larger = {
    .segments = 16, .rows = 32, .pages = 200, .shadows = 40, .frames = 8, .entries = 4,
    .policy = ENVY_FIFO, .part = 2, .limit = 100, .mark = 8,
};

static void want(int line, uint64_t found, uint64_t wanted) {
    if (found == wanted) return;
    fprintf(stderr, "copies.c:%d: %llu, not %llu, errno %d\n", line, (unsigned long long)found, (unsigned long long)wanted, errno);
    exit(1);
}
#define WANT(found, wanted) want(__LINE__, found, wanted)

/* Words on every third page, the last one too, and a transaction that is open. */
static void work(envy *m) {
    uint32_t slot;
    for (uint32_t a = 5; a < WORDS; a += 96) WANT(envy_store(m, a, a * 3, NULL), ENVY_DONE);
    WANT(envy_store(m, WORDS - 1, 7, NULL), ENVY_DONE);
    WANT(envy_begin(m, &slot), ENVY_DONE);
    WANT(envy_put(m, slot, 5, 99, NULL), ENVY_DONE);
    WANT(envy_put(m, slot, 40, 99, NULL), ENVY_DONE);
}

static void holds(int line, envy *m, uint32_t words) {
    uint64_t word;
    for (uint32_t a = 0; a < words; a++) {
        uint64_t wanted = a >= WORDS ? 0 : a == WORDS - 1 ? 7 : a % 96 == 5 ? a * 3 : 0;
        want(line, envy_load(m, a, &word), ENVY_DONE);
        want(line, word, wanted);
    }
    want(line, envy_load(m, words, &word), ENVY_RANGE);
}

static void holds_in(int line, const char *path, int is_mapped, uint32_t words) {
    envy m = ENVY_INIT;
    want(line, (is_mapped ? envy_open_mapped : envy_open_file)(&m, path, NULL, 0), ENVY_DONE);
    holds(line, &m, words);
    want(line, envy_close(&m), ENVY_DONE);
    want(line, (uint64_t)unlink(path), 0);
    want(line, access(path, F_OK) ? 0 : 1, 0);
}
#define HOLDS_IN(path, is_mapped, words) holds_in(__LINE__, path, is_mapped, words)

/* A memory in a file is copied, grows and is copied again; a file that is there isn't written over. */
static void files(int is_mapped) {
    envy m = ENVY_INIT;
    envy_setup smaller = setup;
    smaller.pages = 63;
    WANT((is_mapped ? envy_open_mapped : envy_open_file)(&m, "file", &setup, ENVY_CREATE), ENVY_DONE);
    work(&m);
    WANT(envy_copy(&m, "copy", NULL), ENVY_DONE);
    WANT(envy_copy(&m, "copy", NULL), ENVY_SYSTEM);
    WANT(errno, EEXIST);
    WANT(envy_copy(&m, "nowhere/copy", NULL), ENVY_SYSTEM);
    WANT(envy_copy(&m, "small", &smaller), ENVY_RANGE);
    WANT(envy_copy(&m, "large", &larger), ENVY_DONE);
    WANT(envy_grow(&m, &larger), ENVY_SLOT_OPEN);
    WANT(envy_abort(&m, 0), ENVY_DONE);
    WANT(envy_grow(&m, &smaller), ENVY_RANGE);
    holds(__LINE__, &m, WORDS);
    WANT(envy_grow(&m, &larger), ENVY_DONE);
    holds(__LINE__, &m, MORE);
    WANT(envy_store(&m, MORE - 1, 0, NULL), ENVY_DONE);
    WANT(envy_close(&m), ENVY_DONE);
    WANT(access("copy.envy-copy", F_OK) && access("large.envy-copy", F_OK) && access("file.envy-copy", F_OK), 1);
    HOLDS_IN("copy", is_mapped, WORDS);
    HOLDS_IN("large", is_mapped, MORE);
    HOLDS_IN("file", is_mapped, MORE);
}

/* Of another board a copy is a file that is kept, of a setup that is said. */
static void simulation(void) {
    envy m = ENVY_INIT;
    WANT(envy_copy(&m, "copy", &setup), ENVY_EMPTY);
    WANT(envy_new(&m), ENVY_DONE);
    WANT(envy_grow(&m, &setup), ENVY_OTHER_BOARD);
    WANT(envy_copy(&m, "copy", &setup), ENVY_EMPTY);
    WANT(envy_open_sim(&m, &setup, 1), ENVY_DONE);
    work(&m);
    WANT(envy_copy(&m, "copy", NULL), ENVY_OTHER_BOARD);
    WANT(envy_copy(&m, "copy", &setup), ENVY_DONE);
    WANT(envy_cut_now(&m), ENVY_DONE);
    WANT(envy_copy(&m, "dark", &setup), ENVY_OFF);
    WANT(access("dark", F_OK) ? 1 : 0, 1);
    WANT(envy_close(&m), ENVY_DONE);
    HOLDS_IN("copy", 0, WORDS);
}

/* A file that is opened for reading is copied, and doesn't grow. */
static void reader(void) {
    envy m = ENVY_INIT;
    WANT(envy_open_file(&m, "read", &setup, ENVY_CREATE), ENVY_DONE);
    work(&m);
    WANT(envy_abort(&m, 0), ENVY_DONE);
    WANT(envy_close(&m), ENVY_DONE);
    WANT(envy_open_file(&m, "read", NULL, ENVY_READING), ENVY_DONE);
    WANT(envy_grow(&m, &larger), ENVY_OTHER_BOARD);
    WANT(envy_copy(&m, "copy", NULL), ENVY_DONE);
    WANT(envy_close(&m), ENVY_DONE);
    HOLDS_IN("copy", 0, WORDS);
    HOLDS_IN("read", 0, WORDS);
}

int main(int words, char **word) {
    if (words != 2 || chdir(word[1])) return 2;
    files(0);
    files(1);
    simulation();
    reader();
    puts("copies: what is committed is copied, over each board, and a file grows");
    return 0;
}
