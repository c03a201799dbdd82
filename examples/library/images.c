/* Images of boards in memory: each answer of the calls that read and write them, and the words of an image that `envy
   save` wrote, one to a line. Its own image of the same memory goes into TO.

     images FROM TO */
#include "../../c/envy.h"
#include <stdio.h>
#include <stdlib.h>
#include <string.h>

enum { SEGMENTS = 8, ROWS = 16, PAGES = 64, WORDS = 32 * PAGES };
/* of this shape the image has so many bytes, SRAM begins behind so many, and its map has the fields at these words */
enum { SIZE = 37272, SRAM = 32800 };
enum { VERSION = 1, SIZES = 4, JOB = 5, SLOTS = 8, FILLS = 80, POSITIONS = 88, PLACES = 95 };

static const envy_setup setup = {
    .segments = SEGMENTS, .rows = ROWS, .pages = PAGES, .shadows = 16, .frames = 8, .entries = 4,
    .policy = ENVY_GREEDY, .part = 2, .limit = 100, .mark = 8,
};

static envy memory = ENVY_INIT, other = ENVY_INIT;
static uint8_t whole[SIZE + 8], changed[SIZE + 8], kept[SIZE + 8];
static uint64_t stored[WORDS];

static void want(int line, uint64_t found, uint64_t wanted) {
    if (found == wanted) return;
    fprintf(stderr, "images.c:%d: %llu, not %llu\n", line, (unsigned long long)found, (unsigned long long)wanted);
    exit(1);
}
#define WANT(found, wanted) want(__LINE__, found, wanted)

/* Each word is as it was committed, and no transaction is open. */
static void holds(int line, envy *m) {
    uint64_t loaded, looked;
    for (uint32_t a = 0; a < WORDS; a++) {
        want(line, envy_load(m, a, &loaded), ENVY_DONE);
        want(line, envy_look(m, a, &looked), ENVY_DONE);
        want(line, loaded == stored[a] && looked == stored[a], 1);
    }
    uint32_t slot = 99;
    want(line, envy_begin(m, &slot), ENVY_DONE);
    want(line, slot, 0);
    want(line, envy_abort(m, slot), ENVY_DONE);
}

/* Restoring the first n of the changed bytes gives this code, and leaves them and the place. */
static void refuses(int line, const envy_setup *given, size_t n, uint32_t code) {
    /* of its own size, so that a byte behind it that is read or written is seen */
    uint8_t *bytes = malloc(n ? n : 1);
    uint64_t word = 77;
    memcpy(bytes, changed, n);
    want(line, envy_restore(&other, given, 5, bytes, n), code);
    want(line, memcmp(bytes, changed, n) == 0, 1);
    want(line, envy_load(&other, 0, &word), ENVY_EMPTY);
    want(line, word, 77);
    free(bytes);
    memcpy(changed, whole, SIZE);
}
#define REFUSES(code) refuses(__LINE__, &setup, SIZE, code)

static void set_word(size_t w, uint64_t word) { memcpy(changed + SRAM + 8 * w, &word, 8); }
static void set_head(size_t i, uint32_t number) { memcpy(changed + 8 + 4 * i, &number, 4); }

static uint64_t word_at(size_t w) {
    uint64_t word;
    memcpy(&word, whole + SRAM + 8 * w, 8);
    return word;
}

static void heads(void) {
    for (size_t n = 0; n < 32; n++) refuses(__LINE__, &setup, n, ENVY_IMAGE_SHORT);
    refuses(__LINE__, &setup, 32, ENVY_IMAGE_SHORT);
    refuses(__LINE__, &setup, SRAM, ENVY_IMAGE_SHORT);
    refuses(__LINE__, &setup, SIZE - 1, ENVY_IMAGE_SHORT);
    for (size_t i = 0; i < 8; i++) {
        changed[i] ^= 32;
        REFUSES(ENVY_IMAGE_MARK);
        changed[i] ^= 32;
        refuses(__LINE__, &setup, 8, ENVY_IMAGE_MARK);
    }
    uint32_t bad[11][3] = {
        {0, 3, ENVY_IMAGE_SEGMENTS}, {0, 4097, ENVY_IMAGE_SEGMENTS}, {1, 1, ENVY_IMAGE_ROWS},
        {1, 65537, ENVY_IMAGE_ROWS}, {2, 0, ENVY_IMAGE_PAGES}, {4, 1, ENVY_IMAGE_FRAMES},
        {4, 65537, ENVY_IMAGE_FRAMES}, {5, 0, ENVY_IMAGE_ENTRIES}, {5, 65537, ENVY_IMAGE_ENTRIES},
        {2, 81, ENVY_IMAGE_SHARE}, {3, UINT32_MAX, ENVY_IMAGE_SHARE},
    };
    for (int i = 0; i < 11; i++) {
        envy_setup read = setup;
        set_head(bad[i][0], bad[i][1]);
        WANT(envy_image_shape(changed, 32, &read), bad[i][2]);
        WANT(memcmp(&read, &setup, sizeof setup), 0);
        REFUSES(bad[i][2]);
    }
    set_head(0, 257), set_head(1, 65536);
    REFUSES(ENVY_IMAGE_TOTAL);
    set_head(3, 15);
    REFUSES(ENVY_IMAGE_OTHER);
    set_head(0, 9);
    refuses(__LINE__, &setup, 32, ENVY_IMAGE_OTHER);
    envy_setup broken = setup, given = setup;
    broken.mark = 0;
    refuses(__LINE__, &broken, SIZE, ENVY_SETUP_MARK);
    broken.policy = 5;
    refuses(__LINE__, &broken, SIZE, ENVY_POLICY);
    given.shadows = 15;
    refuses(__LINE__, &given, SIZE, ENVY_IMAGE_OTHER);
}

static void boards(void) {
    set_word(0, 0);
    REFUSES(ENVY_UNFORMATTED);
    set_word(VERSION, 3);
    REFUSES(ENVY_UNFORMATTED);
    set_word(VERSION, 1);
    REFUSES(ENVY_OLDER);
    set_word(SIZES, word_at(SIZES) + 1);
    REFUSES(ENVY_OTHER_SHAPE);
    set_word(SLOTS, 3);
    REFUSES(ENVY_BROKEN_FIELDS);
    set_word(JOB, 7);
    REFUSES(ENVY_BROKEN_FIELDS);
    set_word(POSITIONS, word_at(POSITIONS + 1));
    REFUSES(ENVY_BROKEN_POSITIONS);
    /* two pages in one frame, and two in one row */
    set_word(PLACES, 0x200000002);
    REFUSES(ENVY_BROKEN_FRAMES);
    set_word(PLACES, 0x100000001);
    REFUSES(ENVY_BROKEN_ROWS);
    /* a row that wasn't claimed isn't all ones */
    for (int k = 0; k < SEGMENTS; k++)
        if (word_at(FILLS + k) < ROWS) changed[32 + 256 * (k * ROWS + ROWS - 1)] ^= 1;
    REFUSES(ENVY_BROKEN_FREE);
}

static void shapes(void) {
    envy_setup read = {.policy = 2, .part = 3, .limit = 4, .mark = 5};
    WANT(envy_image_shape(whole, SIZE, &read), ENVY_DONE);
    WANT(memcmp(&read, &setup, 6 * sizeof(uint32_t)), 0);
    WANT(read.policy == 2 && read.part == 3 && read.limit == 4 && read.mark == 5, 1);
    uint64_t size = 0;
    WANT(envy_image_size(&setup, &size), ENVY_DONE);
    WANT(size, SIZE);
    read.policy = 5;
    WANT(envy_image_size(&read, &size), ENVY_POLICY);
    read = setup;
    read.rows = 1;
    WANT(envy_image_size(&read, &size), ENVY_SETUP_ROWS);
    WANT(size, SIZE);
}

/* A memory that moved pages about, with a transaction open. */
static void work(void) {
    uint32_t holder, slot;
    for (uint32_t i = 0; i < 6000; i++) {
        uint32_t a = i * 797 % WORDS;
        stored[a] = i;
        WANT(envy_store(&memory, a, i, &holder), ENVY_DONE);
    }
    WANT(envy_begin(&memory, &slot), ENVY_DONE);
    for (uint32_t p = 0; p < 10; p++) WANT(envy_put(&memory, slot, 32 * p, 12345, &holder), ENVY_DONE);
}

static void saved(void) {
    memset(whole, 0xA5, sizeof whole);
    memset(kept, 0xA5, sizeof kept);
    WANT(envy_save(&memory, whole, SIZE - 1), ENVY_SMALL);
    WANT(memcmp(whole, kept, sizeof whole), 0);
    WANT(envy_cut_now(&memory), ENVY_DONE);
    WANT(envy_save(&memory, whole, SIZE + 8), ENVY_OFF);
    WANT(memcmp(whole, kept, sizeof whole), 0);
    WANT(envy_save(&other, whole, SIZE + 8), ENVY_EMPTY);
    WANT(memcmp(whole, kept, sizeof whole), 0);
    WANT(envy_revive(&memory), ENVY_DONE);
    work();
    WANT(envy_save(&memory, whole, SIZE + 8), ENVY_DONE);
    WANT(memcmp(whole, "eNVyIMG1\x08\0\0\0\x10\0\0\0\x40\0\0\0\x10\0\0\0\x08\0\0\0\x04\0\0", 32), 0);
    /* nothing behind it was written */
    WANT(memcmp(whole + SIZE, kept + SIZE, 8), 0);
    memcpy(changed, whole, sizeof whole);
}

static void restored(void) {
    uint32_t lives = 0;
    memcpy(kept, whole, sizeof whole);
    WANT(envy_restore(&memory, &setup, 5, whole, SIZE + 8), ENVY_OPEN);
    WANT(envy_restore(&other, &setup, 5, whole, SIZE + 8), ENVY_DONE);
    WANT(memcmp(kept, whole, sizeof whole), 0);
    WANT(envy_lives(&other, &lives), ENVY_DONE);
    WANT(lives, 5);
    holds(__LINE__, &other);
    /* the first memory goes on with its own board, and its transaction is open still */
    WANT(envy_commit(&memory, 0), ENVY_DONE);
    holds(__LINE__, &other);
    envy_close(&other);
    envy_setup hybrid = setup;
    hybrid.policy = ENVY_HYBRID;
    WANT(envy_restore(&other, &hybrid, 0, whole, SIZE), ENVY_DONE);
    holds(__LINE__, &other);
    WANT(envy_cut_now(&other), ENVY_DONE);
    WANT(envy_revive(&other), ENVY_DEAD);
    envy_close(&other);
}

int main(int words, char **word) {
    if (words != 3) return 2;
    WANT(envy_new(&memory), ENVY_DONE);
    WANT(envy_new(&other), ENVY_DONE);
    WANT(envy_open_sim(&memory, &setup, 1), ENVY_DONE);
    saved();
    restored();
    shapes();
    heads();
    boards();
    envy_close(&memory);

    FILE *from = fopen(word[1], "rb"), *to = fopen(word[2], "wb");
    if (!from || !to || fread(whole, 1, SIZE, from) != SIZE || fgetc(from) != EOF) return 1;
    WANT(envy_restore(&memory, &setup, 0, whole, SIZE), ENVY_DONE);
    for (uint32_t a = 0; a < WORDS; a++) {
        uint64_t found;
        WANT(envy_load(&memory, a, &found), ENVY_DONE);
        printf("%llu\n", (unsigned long long)found);
    }
    WANT(envy_save(&memory, whole, SIZE), ENVY_DONE);
    if (fwrite(whole, 1, SIZE, to) != SIZE || fclose(to) || fclose(from)) return 1;
    envy_close(&memory);
    return 0;
}
