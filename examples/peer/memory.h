/* A memory of words over a board, with transactions: what stands beside the map, and the calls. */
#ifndef PEER_MEMORY_H
#define PEER_MEMORY_H

#include "board.h"
#include "space.h"

enum policy { POLICY_GREEDY, POLICY_FIFO };

struct setup {
    struct shape shape;
    enum policy policy;
    uint64_t limit; /* segments change places where their wear differs by more, and so many erases have begun since */
    uint32_t mark;  /* a background step flushes from so many held frames on */
};

struct counts {
    uint64_t hits, misses, flushes, copies, erases, swaps;
};

enum outcome {
    OUTCOME_WORD, OUTCOME_DONE, OUTCOME_STARTED, OUTCOME_RANGE, OUTCOME_HELD, OUTCOME_CLOSED, OUTCOME_FULL, OUTCOME_BUSY
};

struct answer {
    enum outcome outcome;
    uint32_t slot; /* that was started, or that owns the page */
    uint64_t word;
};

struct cached {
    uint32_t page, place;
};

/* A frame in the ring of held ones, from the oldest to the newest; behind the last frame stands the ring's head. */
struct held {
    uint32_t page, newer, older;
};

/* The pages of a slot's transaction, in the order in which it came to own them. */
struct chain {
    uint32_t first, last;
};

struct memory {
    struct board board;
    struct space space;
    struct counts counts;
    enum policy policy;
    uint32_t mark;
    uint64_t limit;
    struct cached *cache;
    struct held *held;
    uint32_t *free_frames;
    uint32_t free_count;
    uint64_t open;        /* a bit for each slot that is open */
    uint8_t *owner;       /* of each page one past the slot that owns it, or 0 */
    uint32_t *next_owned; /* of each page that is owned */
    struct chain chains[SLOTS];
    uint32_t owned;
    /* the relocation that runs: of this segment at this position, looked at up to this row */
    enum job job;
    uint32_t moving, position, next_row;
    uint32_t turn; /* the position that was cleaned last */
    /* the relocations of a swap that are left, and what is known of wear */
    uint32_t worn, young, stages;
    uint64_t since;       /* erases begun since the last swap */
    uint64_t quiet_until; /* no swap is due before so many */
};

/* Makes a memory of zeros over a new board, or answers false for want of room. */
bool memory_make(struct memory *memory, const struct setup *setup);

struct answer memory_load(struct memory *memory, uint32_t address);
struct answer memory_look(const struct memory *memory, uint32_t address);
struct answer memory_store(struct memory *memory, uint32_t address, uint64_t word);
struct answer memory_begin(struct memory *memory);
struct answer memory_put(struct memory *memory, uint32_t slot, uint32_t address, uint64_t word);
struct answer memory_commit(struct memory *memory, uint32_t slot);
struct answer memory_abort(struct memory *memory, uint32_t slot);
struct answer memory_tick(struct memory *memory);

/* What follows is between memory.c and cleaning.c. */

/* A page's place is put, and the cache follows. */
static inline void move_page(struct memory *memory, uint32_t page, uint32_t place) {
    struct cached *cached = &memory->cache[page % memory->board.shape.entries];
    put_half(&memory->board, memory->board.at_table, page, place);
    if (cached->page == page)
        cached->place = place;
}

uint32_t claim(struct memory *memory, uint32_t segment, uint32_t page);

uint32_t choose_victim(const struct memory *memory);
void begin_cleaning(struct memory *memory, uint32_t position);
void begin_stage(struct memory *memory);
void step_relocation(struct memory *memory);
void begin_due_swap(struct memory *memory);

#endif
