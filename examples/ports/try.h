/* What the tries of both drivers share: orders as the library gives them, and a look at what became of them. */
#ifndef TRY_H
#define TRY_H
#include "../../c/ports/cfi.h"

intptr_t envy_part_order(int port, const void *bytes, size_t count);
intptr_t envy_part_work(int port, void *at, size_t count);
void say(const char *text, uint64_t number);

/* Row `row` of the map, as the part reads. */
bool row_is(const cfi_part *part, uint32_t row, const uint8_t page[ENVY_ROW_BYTES]);

static inline void page_of(uint32_t seed, uint8_t page[ENVY_ROW_BYTES]) {
    for (uint32_t i = 0; i < ENVY_ROW_BYTES; i++) page[i] = (uint8_t)((seed + 1) * 2654435761u >> (i % 24)) ^ (uint8_t)i;
}
static inline bool program_row(cfi_part *part, int port, uint32_t row, const uint8_t page[ENVY_ROW_BYTES]) {
    envy_part_order(port, page, ENVY_ROW_BYTES);
    envy_part_work(port, (void *)(part->base + (uint64_t)row * ENVY_ROW_BYTES), ENVY_ROW_BYTES);
    return row_is(part, row, page);
}
static inline bool erase_block(cfi_part *part, int port, uint32_t block) {
    static const uint8_t order = 0xff;
    uint8_t ones[ENVY_ROW_BYTES];
    uint32_t rows = part->block_bytes / ENVY_ROW_BYTES;
    for (uint32_t i = 0; i < ENVY_ROW_BYTES; i++) ones[i] = 0xff;
    envy_part_order(port, &order, 1);
    envy_part_work(port, (void *)(part->base + (uint64_t)block * part->block_bytes), part->block_bytes);
    for (uint32_t q = 0; q < rows; q++)
        if (!row_is(part, block * rows + q, ones)) return false;
    return true;
}

/* Erases blocks 1 and 2, fills `count` rows from the end of block 1 on into block 2, erases block 1 again, and looks that
   block 2 stayed. Answers how many things went wrong. */
static inline uint64_t try_part(cfi_part *part, int port, uint32_t count) {
    uint8_t page[ENVY_ROW_BYTES];
    uint64_t wrong = 0;
    uint32_t rows = part->block_bytes / ENVY_ROW_BYTES, first = 2 * rows - count / 2;
    wrong += !erase_block(part, port, 1);
    wrong += !erase_block(part, port, 2);
    for (uint32_t q = first; q < first + count; q++) {
        page_of(q, page);
        wrong += !program_row(part, port, q, page);
    }
    say("rows programmed:", count);
    for (uint32_t q = first; q < first + count; q++) {
        page_of(q, page);
        wrong += !row_is(part, q, page);
    }
    wrong += !erase_block(part, port, 1);
    for (uint32_t q = 2 * rows; q < first + count; q++) {
        page_of(q, page);
        wrong += !row_is(part, q, page);
    }
    return wrong;
}
#endif
