/* On the host: takes up, by the library for x86-64, the memory that the machine left in its flash and in the file behind
   its RAM, which audits it, and writes every word. Its part is a copy in memory, of which nothing is ordered. */
#include "machine.h"
#include <stdio.h>
#include <stdlib.h>

static int orders;
static void program(void *context, volatile uint8_t *row, const uint8_t page[ENVY_ROW_BYTES]) {
    (void)context;
    orders++;
    for (int i = 0; i < ENVY_ROW_BYTES; i++) row[i] &= page[i];
}
static void erase(void *context, volatile uint8_t *at, size_t bytes) {
    (void)context;
    orders++;
    for (size_t i = 0; i < bytes; i++) at[i] = 0xff;
}

static int failed(const char *what, uint32_t code) {
    fprintf(stderr, "carried: %s: %u\n", what, code);
    return 1;
}
/* so many bytes of a file, from an offset on */
static void *read_file(const char *path, long offset, size_t bytes) {
    FILE *file = fopen(path, "rb");
    void *at = aligned_alloc(4096, bytes);
    if (!file || !at || fseek(file, offset, SEEK_SET) || fread(at, 1, bytes, file) != bytes) exit(failed(path, 0));
    fclose(file);
    return at;
}

int main(int count, char **words) {
    if (count != 3) return 2;
    envy_setup setup = MACHINE_SETUP;
    envy_parted memory = ENVY_PARTED_INIT;
    envy_part_sizes sizes;
    uint32_t code = envy_parted_sizes(&setup, &sizes);
    if (code) return failed("sizes", code);
    envy_part_map flash = {read_file(words[1], 0, sizes.rows * ENVY_ROW_BYTES), sizes.rows};
    envy_words sram = {read_file(words[2], SRAM_AT - RAM_AT, SRAM_BYTES), sizes.words};
    envy_part part = {NULL, program, erase};
    int32_t port = envy_part_open(&part);
    if ((code = envy_parted_new(&memory))) return failed("new", code);
    if ((code = envy_parted_attach(&memory, &setup, flash, sram, port))) return failed("attach", code);
    if (orders) return failed("orders", (uint32_t)orders);
    for (uint32_t a = 0; a < WORDS; a++) {
        uint64_t word;
        if ((code = envy_parted_load(&memory, a, &word))) return failed("load", code);
        printf("%lu\n", word);
    }
    envy_parted_close(&memory);
    return 0;
}
