/* Loads, stores and a bank's transfers over a board of the library, whose instructions library_cost.sh counts.

     cost file|mapped|regions|simulation PATH */
#include "../../c/envy.h"
#include <stdint.h>
#include <stdio.h>
#include <stdlib.h>
#include <string.h>

enum { CALLS = 100000, TRANSFERS = 20000, ACCOUNTS = 200 };

static const envy_setup setup = {
    .segments = 16, .rows = 64, .pages = 512, .shadows = 64, .frames = 256, .entries = 512,
    .policy = ENVY_GREEDY, .part = 2, .limit = 100, .mark = 200,
};
static envy m = ENVY_INIT;

static void must(uint32_t code) {
    if (code == ENVY_DONE) return;
    fprintf(stderr, "cost: %u\n", code);
    exit(1);
}

static uint32_t over_regions(void) {
    envy_sizes sizes;
    must(envy_region_sizes(&setup, &sizes));
    envy_rows flash = {calloc(sizes.rows, sizeof *flash.at), sizes.rows};
    envy_words sram = {calloc(sizes.words, 8), sizes.words}, erases = {calloc(sizes.erases, 8), sizes.erases};
    return envy_format_regions(&m, &setup, flash, sram, erases);
}

static uint32_t opened(const char *board, const char *path) {
    remove(path);
    if (!strcmp(board, "file")) return envy_open_file(&m, path, &setup, ENVY_CREATE);
    if (!strcmp(board, "mapped")) return envy_open_mapped(&m, path, &setup, ENVY_CREATE);
    return strcmp(board, "regions") ? envy_open_sim(&m, &setup, 0) : over_regions();
}

/* (it has a name of its own, by which its instructions are counted) */
__attribute__((noinline)) void transfer(uint32_t from, uint32_t to) {
    uint32_t slot, holder;
    uint64_t word;
    must(envy_begin(&m, &slot));
    must(envy_load(&m, 32 * from, &word));
    must(envy_put(&m, slot, 32 * from, word - 1, &holder));
    must(envy_load(&m, 32 * to, &word));
    must(envy_put(&m, slot, 32 * to, word + 1, &holder));
    must(envy_commit(&m, slot));
}

int main(int words, char **word) {
    uint32_t holder;
    uint64_t found;
    if (words != 3) return 2;
    must(opened(word[1], word[2]));
    for (uint32_t i = 0; i < ACCOUNTS; i++) must(envy_store(&m, 32 * i, 1000, &holder));
    for (uint32_t i = 0; i < CALLS; i++) must(envy_store(&m, i * 37 % 6400, i, &holder));
    for (uint32_t i = 0; i < CALLS; i++) must(envy_load(&m, i * 37 % 6400, &found));
    for (uint32_t i = 0; i < TRANSFERS; i++) transfer(i % 100, 100 + i * 7 % 99);
    must(envy_close(&m));
    remove(word[2]);
    return 0;
}
