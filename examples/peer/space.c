#include "space.h"

#include <stdlib.h>

bool space_make(struct space *space, const struct shape *shape) {
    space->rows = shape->rows;
    space->positions = shape->segments - 1;
    space->spare = shape->segments - 1;
    space->fill = calloc(shape->segments, sizeof *space->fill);
    space->kept = calloc(shape->segments, sizeof *space->kept);
    space->segment_at = calloc(shape->segments, sizeof *space->segment_at);
    space->position_of = calloc(shape->segments, sizeof *space->position_of);
    for (space->leaves = 2; space->leaves < space->positions;)
        space->leaves *= 2;
    space->winners = calloc(2 * (size_t)space->leaves, sizeof *space->winners);
    if (!space->fill || !space->kept || !space->segment_at || !space->position_of || !space->winners)
        return false;
    for (uint32_t position = 0; position < space->positions; position++) {
        space->segment_at[position] = position;
        space->position_of[position] = position;
        space_set_free(space, position, true);
        space_rescore(space, position);
    }
    return true;
}

void space_set_free(struct space *space, uint32_t position, bool has_free) {
    uint32_t word = position / WORD_BITS;
    uint64_t bit = UINT64_C(1) << position % WORD_BITS;
    space->free[word] = has_free ? space->free[word] | bit : space->free[word] & ~bit;
    bit = UINT64_C(1) << word;
    space->free_top = space->free[word] ? space->free_top | bit : space->free_top & ~bit;
}

/* The lowest position from one on that has a free row, or NONE. */
uint32_t space_lowest_free(const struct space *space, uint32_t from) {
    uint32_t word = from / WORD_BITS;
    uint64_t bits = word < FREE_WORDS ? space->free[word] & UINT64_MAX << from % WORD_BITS : 0;
    if (!bits) {
        uint64_t words = word + 1 < FREE_WORDS ? space->free_top & UINT64_MAX << (word + 1) : 0;
        if (!words) return NONE;
        word = (uint32_t)__builtin_ctzll(words);
        bits = space->free[word];
    }
    return WORD_BITS * word + (uint32_t)__builtin_ctzll(bits);
}

/* The next position behind a turn that has a dead row, of which there is one. */
uint32_t space_next_dead(const struct space *space, uint32_t turn) {
    uint32_t position = turn;
    do
        position = position + 1 == space->positions ? 0 : position + 1;
    while (!space_dead(space, space->segment_at[position]));
    return position;
}

/* The spare comes to stand at a position, and the segment that stood there is the spare. */
void space_exchange(struct space *space, uint32_t position) {
    uint32_t spare = space->spare;
    space->spare = space->segment_at[position];
    space->segment_at[position] = spare;
    space->position_of[spare] = position;
    space_set_free(space, position, space->fill[spare] < space->rows);
    space_rescore(space, position);
}
