/* The pool of erased rows, beside the map: the rows of each segment that are claimed and that pages name, which segment
 * stands at which position, which positions have free rows, and the position with most dead rows. The segment that stands
 * at no position is the spare. */
#ifndef PEER_SPACE_H
#define PEER_SPACE_H

#include "board.h"

enum { MOST_SEGMENTS = 4096, WORD_BITS = 64, FREE_WORDS = MOST_SEGMENTS / WORD_BITS };

struct space {
    uint32_t rows, positions, spare;
    uint32_t *fill, *kept;    /* of each segment */
    uint32_t *segment_at;     /* of each position */
    uint32_t *position_of;    /* of each segment */
    uint64_t free[FREE_WORDS]; /* a bit for each position with free rows */
    uint64_t free_top;        /* a bit for each word that has one */
    uint32_t *winners;        /* a tree over the positions' scores; node 1 is its root */
    uint32_t leaves;
};

bool space_make(struct space *space, const struct shape *shape);
uint32_t space_lowest_free(const struct space *space, uint32_t from);
uint32_t space_next_dead(const struct space *space, uint32_t turn);
void space_set_free(struct space *space, uint32_t position, bool has_free);
void space_exchange(struct space *space, uint32_t position);

static inline uint32_t space_dead(const struct space *space, uint32_t segment) {
    return space->fill[segment] - space->kept[segment];
}

/* A score is the number of dead rows, and of those that have as many the lowest position wins. */
static inline uint32_t score(uint32_t dead, uint32_t position) {
    return dead * MOST_SEGMENTS + (MOST_SEGMENTS - 1 - position);
}

/* Writes the score of a position, and those above it that it changes. */
static inline void space_rescore(struct space *space, uint32_t position) {
    uint32_t *winners = space->winners;
    uint32_t node = space->leaves + position;
    uint32_t best = score(space_dead(space, space->segment_at[position]), position);
    while (winners[node] != best) {
        winners[node] = best;
        if (node == 1) return;
        if (winners[node ^ 1] > best) best = winners[node ^ 1];
        node /= 2;
    }
}

/* The position with most dead rows, of which there is one with some. */
static inline uint32_t space_most_dead(const struct space *space) {
    return MOST_SEGMENTS - 1 - space->winners[1] % MOST_SEGMENTS;
}

/* A row of a segment was claimed. */
static inline void space_claimed(struct space *space, uint32_t segment) {
    if (++space->fill[segment] == space->rows && segment != space->spare)
        space_set_free(space, space->position_of[segment], false);
}

/* A row that a page named is dead. The spare has no score until it stands at a position. */
static inline void space_dropped(struct space *space, uint32_t row) {
    uint32_t segment = row / space->rows;
    space->kept[segment]--;
    if (segment != space->spare)
        space_rescore(space, space->position_of[segment]);
}

#endif
