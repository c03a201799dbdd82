/* Every answer over a mapped file but ENVY_NO_MEMORY: what is opened that is truncated, foreign, older, of another shape
   or damaged is refused by its own number, and not a byte of it changes.

     refused FILE */
#include "../../c/envy.h"
#include "../../c/envy_text.h"
#include <stdio.h>
#include <stdlib.h>
#include <string.h>
#include <sys/stat.h>

/* Of this shape the map of SRAM has the fields at these words. */
enum { SEGMENTS = 8, ROWS = 16, PAGES = 64, SHADOWS = 16 };
enum { VERSION = 1, JOB = 5, SLOTS = 8, FILLS = 80, POSITIONS = 88, PLACES = 95, UNDOS = 127, BACKS = 159 };

static const envy_setup setup = {
    .segments = SEGMENTS, .rows = ROWS, .pages = PAGES, .shadows = SHADOWS, .frames = 8, .entries = 4,
    .policy = ENVY_GREEDY, .part = 2, .limit = 100, .mark = 8,
};

static envy map = ENVY_INIT;
static char *whole, *changed;
static size_t bytes;
static const char *path;

static void want(int line, uint64_t found, uint64_t wanted) {
    if (found == wanted) return;
    fprintf(stderr, "refused.c:%d: %llu, not %llu\n", line, (unsigned long long)found, (unsigned long long)wanted);
    exit(1);
}
#define WANT(found, wanted) want(__LINE__, found, wanted)

static void write_file(const char *from, size_t n) {
    FILE *file = fopen(path, "wb");
    if (!file || fwrite(from, 1, n, file) != n || fclose(file)) exit(1);
}

static void read_file(char *into, size_t n) {
    FILE *file = fopen(path, "rb");
    if (!file || fread(into, 1, n, file) != n || fgetc(file) != EOF || fclose(file)) exit(1);
}

/* Opening the first n of the changed bytes gives this code, and leaves them. */
static void refuses(int line, const envy_setup *given, size_t n, uint32_t code) {
    char *found = malloc(n + 1);
    uint64_t word = 77;
    write_file(changed, n);
    want(line, envy_open_mapped(&map, path, given, ENVY_CREATE), code);
    read_file(found, n);
    want(line, memcmp(found, changed, n) == 0, 1);
    want(line, envy_load(&map, 0, &word), ENVY_EMPTY);
    want(line, word, 77);
    free(found);
    memcpy(changed, whole, bytes);
}
#define REFUSES(code) refuses(__LINE__, &setup, bytes, code)

static uint64_t *flash_word(size_t row) { return (uint64_t *)changed + 32 * row; }
static uint64_t *word_at(size_t w) { return (uint64_t *)changed + 32 * SEGMENTS * ROWS + w; }
static uint32_t *half_at(size_t w, size_t entry) { return (uint32_t *)word_at(w) + entry; }

/* A page that stands in a row (1) or in a frame (2), other than one. */
static size_t page_in(uint32_t kind, size_t other) {
    for (size_t p = 0; p < PAGES; p++)
        if (p != other && *half_at(PLACES, p) % 4 == kind) return p;
    exit(1);
}

static size_t spare(void) {
    size_t left = SEGMENTS * (SEGMENTS - 1) / 2;
    for (size_t k = 0; k < SEGMENTS - 1; k++) left -= *word_at(POSITIONS + k);
    return left;
}

static void damaged(void) {
    size_t p = page_in(1, PAGES), q = page_in(1, p), f = page_in(2, PAGES);
    *word_at(JOB) = 7;
    REFUSES(ENVY_BROKEN_FIELDS);
    *half_at(PLACES, 3) = 3;
    REFUSES(ENVY_BROKEN_FIELDS);
    *half_at(PLACES, 3) = 1 + 4 * SEGMENTS * ROWS;
    REFUSES(ENVY_BROKEN_FIELDS);
    *word_at(SLOTS + 9) = 3;
    REFUSES(ENVY_BROKEN_FIELDS);
    *word_at(POSITIONS) = *word_at(POSITIONS + 1);
    REFUSES(ENVY_BROKEN_POSITIONS);
    *half_at(PLACES, p) = *half_at(PLACES, f);
    REFUSES(ENVY_BROKEN_FRAMES);
    *half_at(PLACES, p) = *half_at(PLACES, q);
    REFUSES(ENVY_BROKEN_ROWS);
    *word_at(BACKS + *half_at(PLACES, p) / 4) = q;
    REFUSES(ENVY_BROKEN_CLAIMS);
    for (size_t k = 0; k < SEGMENTS; k++)
        if (*word_at(FILLS + k) < ROWS) *flash_word(k * ROWS + ROWS - 1) = 0;
    REFUSES(ENVY_BROKEN_FREE);
    *word_at(FILLS + spare()) = 1;
    REFUSES(ENVY_BROKEN_SPARE);
    *word_at(JOB) = 1 + 4 * *word_at(POSITIONS);
    *word_at(FILLS + spare()) = 1;
    *word_at(BACKS + spare() * ROWS) = p;
    *half_at(PLACES, p) = 1 + 4 * spare() * ROWS;
    REFUSES(ENVY_BROKEN_PLACES);
    *word_at(JOB) = 1 + 4 * spare();
    REFUSES(ENVY_BROKEN_JOB);
    *word_at(SLOTS) = 1;
    for (size_t i = 0; i <= SHADOWS; i++) *half_at(UNDOS, i) = 1;
    REFUSES(ENVY_BROKEN_OWNED);
    *half_at(UNDOS, 3) = 1 + 4 * 5;
    REFUSES(ENVY_BROKEN_UNDOS);
}

/* The kept rows of the segment at the first position are copied to the spare, and one of them is named in both. */
static void copied_twice(void) {
    size_t v = *word_at(POSITIONS), e = spare(), kept = 0, origins = BACKS + SEGMENTS * ROWS;
    size_t page = PAGES;
    for (size_t p = 0; p < PAGES; p++) {
        uint32_t place = *half_at(PLACES, p);
        if (place % 4 != 1 || place / 4 / ROWS != v) continue;
        memcpy(flash_word(e * ROWS + kept), flash_word(place / 4), 256);
        *word_at(BACKS + e * ROWS + kept) = p;
        *word_at(origins + kept++) = place / 4;
        page = p;
    }
    if (page == PAGES) exit(1);
    *word_at(FILLS + e) = kept;
    *word_at(JOB) = 2 + 4 * v;
    /* slot 0 is open, and the page stands in the copy with the row itself as its shadow */
    *word_at(SLOTS) = 1;
    *half_at(UNDOS, page) = 2 + 256 * (*half_at(PLACES, page) / 4);
    *half_at(PLACES, page) = 1 + 4 * (e * ROWS + kept - 1);
    REFUSES(ENVY_BROKEN_COPIES);
}

static void truncated_and_foreign(void) {
    refuses(__LINE__, &setup, bytes - 1, ENVY_ERASES_SIZE);
    refuses(__LINE__, &setup, bytes - 8 * SEGMENTS - 8, ENVY_SRAM_SIZE);
    refuses(__LINE__, &setup, SEGMENTS * ROWS * 256 - 1, ENVY_FLASH_SIZE);
    refuses(__LINE__, &setup, 4096, ENVY_FLASH_SIZE);
    refuses(__LINE__, &setup, 0, ENVY_FLASH_SIZE);
    memset(changed, 'x', bytes);
    REFUSES(ENVY_UNFORMATTED);
    memset(changed, 0, bytes);
    REFUSES(ENVY_UNFORMATTED);
    *word_at(VERSION) = 3;
    REFUSES(ENVY_UNFORMATTED);
    *word_at(VERSION) = 1;
    REFUSES(ENVY_OLDER);
    envy_setup other = setup;
    other.entries = 5;
    refuses(__LINE__, &other, bytes, ENVY_OTHER_SHAPE);
    other = setup;
    other.shadows = 15;
    refuses(__LINE__, &other, bytes, ENVY_OTHER_SHAPE);
}

static void setups(void) {
    envy_setup bad[14];
    uint32_t code[14] = {ENVY_SETUP_SEGMENTS, ENVY_SETUP_SEGMENTS, ENVY_SETUP_ROWS, ENVY_SETUP_PAGES, ENVY_SETUP_FRAMES,
                         ENVY_SETUP_ENTRIES, ENVY_SETUP_SHARE, ENVY_SETUP_TOTAL, ENVY_SETUP_PART, ENVY_SETUP_PART,
                         ENVY_SETUP_LIMIT, ENVY_SETUP_MARK, ENVY_SETUP_MARK, ENVY_POLICY};
    for (int i = 0; i < 14; i++) bad[i] = setup;
    bad[0].segments = 3;
    bad[1].segments = 4097;
    bad[2].rows = 1;
    bad[3].pages = 0;
    bad[4].frames = 1;
    bad[5].entries = 0;
    bad[6].pages = 81;
    bad[7].segments = 257, bad[7].rows = 65536;
    bad[8].policy = bad[9].policy = ENVY_HYBRID;
    bad[8].part = 0, bad[9].part = SEGMENTS;
    bad[10].limit = 0;
    bad[11].mark = 0;
    bad[12].mark = 9;
    bad[13].policy = 5;
    for (int i = 0; i < 14; i++) {
        envy_sizes sizes = {1, 2, 3};
        WANT(envy_region_sizes(&bad[i], &sizes), code[i]);
        WANT(sizes.rows == 1 && sizes.words == 2 && sizes.erases == 3, 1);
        /* envy_open_mapped asks for the sizes first, so the regions are given here */
        envy_rows flash = {(uint64_t (*)[32])changed, SEGMENTS * ROWS};
        envy_words sram = {word_at(0), 559}, erases = {word_at(559), SEGMENTS};
        WANT(envy_open_regions(&map, &bad[i], flash, sram, erases), code[i]);
        WANT(envy_format_regions(&map, &bad[i], flash, sram, erases), code[i]);
        WANT(memcmp(changed, whole, bytes), 0);
    }
}

/* Each answer of a call of an open memory. */
static void calls(void) {
    envy *m = &map;
    uint64_t word = 5;
    uint32_t slot = 99, holder = 99, other = 99;
    envy_counts counts;
    WANT(envy_load(m, 32 * PAGES, &word), ENVY_RANGE);
    WANT(envy_look(m, UINT32_MAX, &word), ENVY_RANGE);
    WANT(envy_store(m, 32 * PAGES, 1, &holder), ENVY_RANGE);
    WANT(word == 5 && holder == 99, 1);
    WANT(envy_store(m, 7, 70, &holder), ENVY_DONE);
    WANT(envy_begin(m, &slot), ENVY_DONE);
    WANT(slot, 0);
    WANT(envy_begin(m, &other), ENVY_DONE);
    WANT(other, 1);
    WANT(envy_put(m, slot, 7, 71, &holder), ENVY_DONE);
    WANT(holder, 99);
    WANT(envy_put(m, other, 8, 1, &holder), ENVY_HELD);
    WANT(holder, 0);
    holder = 99;
    WANT(envy_store(m, 9, 1, &holder), ENVY_HELD);
    WANT(holder, 0);
    WANT(envy_load(m, 7, &word), ENVY_DONE);
    WANT(word, 71);
    WANT(envy_look(m, 7, &word), ENVY_DONE);
    WANT(word, 70);
    WANT(envy_put(m, 256, 7, 72, &holder), ENVY_CLOSED);
    WANT(envy_put(m, 64, 7, 72, &holder), ENVY_CLOSED);
    WANT(envy_put(m, 64, 32 * PAGES, 72, &holder), ENVY_RANGE);
    WANT(envy_commit(m, 256), ENVY_CLOSED);
    WANT(envy_abort(m, UINT32_MAX), ENVY_CLOSED);
    WANT(envy_abort(m, slot), ENVY_DONE);
    WANT(envy_abort(m, slot), ENVY_CLOSED);
    WANT(envy_load(m, 7, &word), ENVY_DONE);
    WANT(word, 70);
    for (uint32_t p = 0; p < SHADOWS; p++) WANT(envy_put(m, other, 32 * p, p, &holder), ENVY_DONE);
    WANT(envy_put(m, other, 32 * SHADOWS, 1, &holder), ENVY_FULL);
    WANT(envy_commit(m, other), ENVY_DONE);
    for (uint32_t t = 0; t < 64; t++) WANT(envy_begin(m, &slot), ENVY_DONE);
    slot = 99;
    WANT(envy_begin(m, &slot), ENVY_BUSY);
    WANT(slot, 99);
    WANT(envy_counters(m, &counts), ENVY_DONE);
    WANT(counts.hits + counts.misses > 0 && counts.flushes > 0, 1);
    WANT(envy_tick(m, &holder), ENVY_DONE);
}

/* The words of a run outside transactions: over three pages, and up to one that a transaction owns, or past the last. */
static void stored_in_a_row(void) {
    enum { LAST = 32 * PAGES - 1 };
    envy *m = &map;
    uint64_t words[80], found[80], word;
    uint32_t slot, holder = 99;
    size_t done = 99;
    envy_counts before, after;
    for (int i = 0; i < 80; i++) words[i] = 3000 + i;
    WANT(envy_counters(m, &before), ENVY_DONE);
    WANT(envy_store_run(m, 180, words, 80, &done, &holder), ENVY_DONE);
    WANT(done == 80 && holder == 99, 1);
    WANT(envy_counters(m, &after), ENVY_DONE);
    WANT(after.hits + after.misses, before.hits + before.misses + 4);
    WANT(envy_read(m, 180, found, 80), ENVY_DONE);
    WANT(memcmp(words, found, sizeof words), 0);
    WANT(envy_look(m, 259, &word), ENVY_DONE);
    WANT(word, 3079);
    for (int i = 0; i < 80; i++) words[i] = 180 + i;
    WANT(envy_begin(m, &slot), ENVY_DONE);
    WANT(envy_put(m, slot, 224, 5, &holder), ENVY_DONE);
    WANT(envy_store_run(m, 180, words, 80, &done, &holder), ENVY_HELD);
    WANT(done == 44 && holder == slot, 1);
    WANT(envy_look(m, 223, &word), ENVY_DONE);
    WANT(word, 223);
    WANT(envy_look(m, 224, &word), ENVY_DONE);
    WANT(word, 3044);
    WANT(envy_store_run(m, 225, words, 1, &done, &holder), ENVY_HELD);
    WANT(done, 0);
    WANT(envy_abort(m, slot), ENVY_DONE);
    WANT(envy_store_run(m, 180, words, 80, &done, &holder), ENVY_DONE);
    words[0] = LAST;
    WANT(envy_store_run(m, LAST, words, 3, &done, &holder), ENVY_RANGE);
    WANT(done, 1);
    WANT(envy_store_run(m, UINT32_MAX, words, 3, &done, &holder), ENVY_RANGE);
    WANT(done, 0);
    WANT(envy_store_run(m, UINT32_MAX, words, 0, &done, &holder), ENVY_DONE);
}

/* A run that meets more pages without an owner than may yet be owned is refused before its first word. */
static void no_room(void) {
    envy *m = &map;
    uint64_t words[32 * SHADOWS], word;
    uint32_t slot, other, holder = 99;
    size_t done = 99;
    for (int i = 0; i < 32 * SHADOWS; i++) words[i] = 9000 + i;
    WANT(envy_begin(m, &slot), ENVY_DONE);
    WANT(envy_begin(m, &other), ENVY_DONE);
    WANT(envy_write(m, slot, 1, words, 32 * SHADOWS, &done, &holder), ENVY_FULL);
    WANT(done == 0 && holder == 99, 1);
    WANT(envy_load(m, 1, &word), ENVY_DONE);
    WANT(word, 1);
    WANT(envy_store(m, 1, 1, &holder), ENVY_DONE); /* no page came to be owned */
    /* pages that a transaction owns count no more, and neither do those past the last */
    WANT(envy_put(m, other, 32 * 2, 5, &holder), ENVY_DONE);
    WANT(envy_write(m, slot, 1, words, 32 * (SHADOWS - 1), &done, &holder), ENVY_HELD);
    WANT(done == 63 && holder == other, 1);
    WANT(envy_abort(m, slot), ENVY_DONE);
    WANT(envy_begin(m, &slot), ENVY_DONE);
    WANT(envy_write(m, slot, 32 * (PAGES - SHADOWS + 1), words, 32 * SHADOWS, &done, &holder), ENVY_RANGE);
    WANT(done, 32 * (SHADOWS - 1));
    WANT(envy_write(m, slot, 1, words, 31, &done, &holder), ENVY_FULL);
    WANT(done, 0);
    WANT(envy_write(m, 64, 1, words, 31, &done, &holder), ENVY_CLOSED);
    WANT(envy_abort(m, other), ENVY_DONE);
    WANT(envy_write(m, slot, 1, words, 31, &done, &holder), ENVY_DONE);
    WANT(envy_abort(m, slot), ENVY_DONE);
}

/* Several words in one call, and what each transaction sees. */
static void several(void) {
    enum { LAST = 32 * PAGES - 1 };
    envy *m = &map;
    uint64_t words[80], found[80], word = 5;
    uint32_t slot, other, holder = 99;
    size_t done = 99;
    for (int i = 0; i < 80; i++) words[i] = 1000 + i;
    for (int i = 0; i < 80; i++) found[i] = 7;
    WANT(envy_begin(m, &slot), ENVY_DONE);
    WANT(envy_begin(m, &other), ENVY_DONE);
    /* from within a page over the next into a third */
    WANT(envy_write(m, slot, 20, words, 80, &done, &holder), ENVY_DONE);
    WANT(done == 80 && holder == 99, 1);
    WANT(envy_read(m, 20, found, 80), ENVY_DONE);
    WANT(memcmp(words, found, sizeof words), 0);
    WANT(envy_view(m, slot, 21, &word), ENVY_DONE);
    WANT(word, 1001);
    WANT(envy_view(m, other, 21, &word), ENVY_DONE);
    WANT(word, 21);
    WANT(envy_view(m, 64, 21, &word), ENVY_DONE);
    WANT(word, 21);
    WANT(envy_view(m, slot, LAST + 1, &word), ENVY_RANGE);
    WANT(word, 21);
    /* two words are put before the first of a page that another slot owns */
    WANT(envy_write(m, other, 32 * 4, words, 1, &done, &holder), ENVY_DONE);
    WANT(envy_abort(m, slot), ENVY_DONE);
    WANT(envy_begin(m, &slot), ENVY_DONE);
    WANT(envy_put(m, slot, 96, 5, &holder), ENVY_DONE);
    WANT(envy_write(m, other, 94, words, 80, &done, &holder), ENVY_HELD);
    WANT(done == 2 && holder == slot, 1);
    WANT(envy_load(m, 94, &word), ENVY_DONE);
    WANT(word, 1000);
    WANT(envy_load(m, 95, &word), ENVY_DONE);
    WANT(word, 1001);
    WANT(envy_load(m, 97, &word), ENVY_DONE);
    WANT(word, 97);
    holder = 99;
    WANT(envy_write(m, other, LAST, words, 3, &done, &holder), ENVY_RANGE);
    WANT(done == 1 && holder == 99, 1);
    WANT(envy_write(m, other, UINT32_MAX, words, 3, &done, &holder), ENVY_RANGE);
    WANT(done, 0);
    WANT(envy_write(m, 64, 0, words, 3, &done, &holder), ENVY_CLOSED);
    WANT(done, 0);
    WANT(envy_write(m, 64, UINT32_MAX, words, 0, &done, &holder), ENVY_DONE);
    WANT(envy_abort(m, other), ENVY_DONE);
    WANT(envy_abort(m, slot), ENVY_DONE);
    stored_in_a_row();
    no_room();
    /* a read is whole or not at all */
    memset(found, 0, sizeof found);
    WANT(envy_read(m, LAST - 78, found, 80), ENVY_RANGE);
    WANT(envy_read(m, UINT32_MAX, found, 80), ENVY_RANGE);
    for (int i = 0; i < 80; i++) WANT(found[i], 0);
    WANT(envy_read(m, LAST - 79, found, 80), ENVY_DONE);
    for (int i = 0; i < 80; i++) WANT(found[i], LAST - 79 + i);
    WANT(envy_read(m, UINT32_MAX, found, 0), ENVY_DONE);
}

/* The shape of a file, by its first words of SRAM and by the file. */
static void shapes(void) {
    envy_setup found = {0}, none = {0};
    WANT(envy_sram_shape(word_at(0), 5, &found), ENVY_DONE);
    WANT(found.segments == SEGMENTS && found.rows == ROWS && found.pages == PAGES && found.shadows == SHADOWS, 1);
    WANT(found.frames == 8 && found.entries == 4 && found.policy == ENVY_GREEDY && found.limit == 100, 1);
    WANT(found.part == 2 && found.mark == 8, 1);
    write_file(changed, bytes);
    found = none;
    WANT(envy_file_shape(path, &found), ENVY_DONE);
    WANT(found.segments == SEGMENTS && found.entries == 4, 1);
    found = none;
    WANT(envy_sram_shape(word_at(0), 4, &found), ENVY_UNFORMATTED);
    WANT(envy_sram_shape(word_at(1), 5, &found), ENVY_UNFORMATTED);
    *word_at(4) += 1ull << 48;
    WANT(envy_sram_shape(word_at(0), 5, &found), ENVY_SETUP_FRAMES);
    *word_at(VERSION) = 1;
    WANT(envy_sram_shape(word_at(0), 5, &found), ENVY_OLDER);
    write_file(changed, bytes);
    WANT(envy_file_shape(path, &found), ENVY_OLDER);
    *word_at(VERSION) = 3;
    WANT(envy_sram_shape(word_at(0), 5, &found), ENVY_UNFORMATTED);
    memcpy(changed, whole, bytes);
    write_file(changed, bytes - 8);
    WANT(envy_file_shape(path, &found), ENVY_NO_JOURNAL);
    write_file(changed, 0);
    WANT(envy_file_shape(path, &found), ENVY_NO_JOURNAL);
    WANT(envy_file_shape("/nowhere/at/all", &found), ENVY_SYSTEM);
    WANT(memcmp(&found, &none, sizeof found), 0);
}

static void open_and_empty(void) {
    envy *m = &map;
    uint64_t word = 5;
    uint32_t number = 99;
    envy_counts counts;
    envy_rows flash = {(uint64_t (*)[32])changed, SEGMENTS * ROWS};
    envy_words sram = {word_at(0), 559}, erases = {word_at(559), SEGMENTS};
    WANT(envy_open_regions(m, &setup, flash, sram, erases), ENVY_OPEN);
    WANT(envy_format_regions(m, &setup, flash, sram, erases), ENVY_OPEN);
    WANT(memcmp(changed, whole, bytes), 0);
    envy_close(&map);
    envy_close(m);
    WANT(envy_load(m, 0, &word), ENVY_EMPTY);
    WANT(envy_look(m, 0, &word), ENVY_EMPTY);
    WANT(envy_store(m, 0, 1, &number), ENVY_EMPTY);
    WANT(envy_begin(m, &number), ENVY_EMPTY);
    WANT(envy_put(m, 0, 0, 1, &number), ENVY_EMPTY);
    WANT(envy_commit(m, 0), ENVY_EMPTY);
    WANT(envy_abort(m, 0), ENVY_EMPTY);
    WANT(envy_tick(m, &number), ENVY_EMPTY);
    WANT(envy_counters(m, &counts), ENVY_EMPTY);
    WANT(envy_read(m, 0, &word, 1), ENVY_EMPTY);
    WANT(envy_view(m, 0, 0, &word), ENVY_EMPTY);
    size_t done = 99;
    WANT(envy_write(m, 0, 0, &word, 1, &done, &number), ENVY_EMPTY);
    WANT(envy_store_run(m, 0, &word, 1, &done, &number), ENVY_EMPTY);
    WANT(done, 0);
    WANT(word == 5 && number == 99, 1);
}

int main(int words, char **word) {
    uint32_t holder;
    if (words != 2) return 2;
    path = word[1];
    WANT(envy_open_mapped(&map, path, &setup, ENVY_CREATE), ENVY_DONE);
    for (uint32_t a = 0; a < 32 * PAGES; a++) WANT(envy_store(&map, a, a, &holder), ENVY_DONE);
    struct stat found;
    WANT(stat(path, &found), 0);
    bytes = (size_t)found.st_size;
    envy_close(&map);
    whole = malloc(bytes);
    changed = malloc(bytes);
    read_file(whole, bytes);
    memcpy(changed, whole, bytes);
    damaged();
    copied_twice();
    truncated_and_foreign();
    setups();
    shapes();
    write_file(whole, bytes);
    WANT(envy_open_mapped(&map, path, &setup, ENVY_CREATE), ENVY_DONE);
    several();
    calls();
    open_and_empty();
    free(whole);
    free(changed);
    puts("every answer has its number");
    return 0;
}
