/* Maps that are loaded whole, of every number of pairs about the sizes of leaves and of some drawn ones: a scan and a check of
   each, changes of it afterwards, and loads that are refused.

     loads SEED */
#include "../../c/envy.h"
#include <stdio.h>
#include <stdlib.h>

enum { PAGES = 1400, FIRST = 32, WORDS = 32 * 1300, MOST = 14 * ((WORDS - 64) / 64 - 8), DRAWN = 40 };

static const envy_map map = {FIRST, WORDS};

static envy_setup setup = {
    .segments = 32, .rows = 128, .pages = PAGES, .shadows = 64, .frames = 64, .entries = 64,
    .policy = ENVY_GREEDY, .part = 2, .limit = 100, .mark = 40,
};

static envy memory = ENVY_INIT;
static envy_pair list[MOST + 1], found[MOST + 1];

static void must(int holds, const char *what, size_t n) {
    if (holds) return;
    fprintf(stderr, "loads: %s, of %zu pairs\n", what, n);
    exit(1);
}

static uint64_t draw(uint64_t *seed) {
    *seed += 0x9E3779B97F4A7C15;
    uint64_t z = *seed;
    z = (z ^ (z >> 30)) * 0xBF58476D1CE4E5B9;
    z = (z ^ (z >> 27)) * 0x94D049BB133111EB;
    return z ^ (z >> 31);
}

/* Rising keys, some of which are next to each other. */
static void fill(size_t n, uint64_t *seed) {
    uint64_t key = draw(seed) % 3;
    for (size_t i = 0; i < n; i++) {
        list[i] = (envy_pair){key, draw(seed)};
        key += 1 + draw(seed) % 5;
    }
}

/* The map has the first n pairs of the list. */
static void has(size_t n) {
    size_t count = 0;
    uint64_t pairs = 0;
    uint32_t rule = 0;
    must(envy_map_check(&memory, &map, &rule) == ENVY_DONE, "a check", n);
    must(envy_map_count(&memory, &map, &pairs) == ENVY_DONE && pairs == n, "a count", n);
    must(envy_map_scan(&memory, &map, 0, found, MOST + 1, &count) == ENVY_DONE && count == n, "a scan", n);
    for (size_t i = 0; i < n; i++) must(found[i].key == list[i].key && found[i].value == list[i].value, "a pair", n);
}

/* A pair more after the last, and the first one taken out. */
static void change(size_t n) {
    uint32_t slot;
    uint64_t value = 0;
    envy_old before;
    if (n == MOST) return;
    must(envy_map_begin(&memory, &slot) == ENVY_DONE, "begin", n);
    list[n] = (envy_pair){n ? list[n - 1].key + 1 : 7, 77};
    must(envy_map_insert(&memory, slot, &map, list[n].key, 77, &before) == ENVY_DONE && !before.had, "insert", n);
    must(envy_map_remove(&memory, slot, &map, list[0].key, &value) == ENVY_DONE && value == list[0].value, "remove", n);
    must(envy_map_commit(&memory, slot) == ENVY_DONE, "commit", n);
    for (size_t i = 0; i < n; i++) list[i] = list[i + 1];
    has(n);
}

static void load(size_t n, uint64_t *seed) {
    fill(n, seed);
    must(envy_map_load(&memory, &map, list, n) == ENVY_DONE, "load", n);
    has(n);
    change(n);
}

static void refusals(uint64_t *seed) {
    static const envy_map past = {0, 608};
    uint32_t slot;
    envy small = ENVY_INIT;
    envy_setup few = setup;
    load(100, seed);
    fill(100, seed);
    must(envy_map_load(&small, &map, list, 100) == ENVY_EMPTY, "no memory", 100);
    must(envy_map_load(&memory, &past, list, 100) == ENVY_RANGE, "no range", 100);
    must(envy_map_begin(&memory, &slot) == ENVY_DONE, "begin", 100);
    must(envy_map_load(&memory, &map, list, 100) == ENVY_SLOT_OPEN, "a slot is open", 100);
    must(envy_map_abort(&memory, slot) == ENVY_DONE, "abort", 100);
    must(envy_map_scan(&memory, &map, 0, found, MOST + 1, &(size_t){0}) == ENVY_DONE, "scan", 100);
    for (size_t i = 0; i < 100; i++) list[i] = found[i];
    list[50].key = list[49].key;
    must(envy_map_load(&memory, &map, list, 100) == ENVY_RANGE, "a key twice", 100);
    list[50].key = found[50].key;
    has(100);
    fill(MOST + 1, seed);
    must(envy_map_load(&memory, &map, list, MOST + 1) == ENVY_MAP_FULL, "too many pairs", MOST + 1);
    for (size_t i = 0; i < 100; i++) list[i] = found[i];
    has(100);
    few.shadows = 31;
    must(envy_open_sim(&small, &few, 0) == ENVY_DONE, "open", 0);
    must(envy_map_load(&small, &map, list, 100) == ENVY_MAP_SETUP, "few shadows", 100);
    envy_close(&small);
}

int main(int argc, char **argv) {
    uint64_t seed = argc > 1 ? strtoull(argv[1], NULL, 10) : 1;
    must(envy_open_sim(&memory, &setup, 0) == ENVY_DONE, "open", 0);
    for (size_t n = 0; n <= 200; n++) load(n, &seed);
    for (size_t n = 31 * 32; n <= 31 * 33 + 1; n++) load(n, &seed);
    for (int i = 0; i < DRAWN; i++) load(draw(&seed) % 5001, &seed);
    load(MOST, &seed);
    refusals(&seed);
    envy_close(&memory);
    printf("loads: %d maps are as they were loaded\n", 201 + 33 + DRAWN + 1);
    return 0;
}
