#include "tpca.h"

enum { TELLERS = 10, HISTORY_WORDS = 4, TICKS = 4 };

#define DELTAS 1999999
#define MOST_DELTA 999999

__extension__ typedef unsigned __int128 uint128;

/* PCG64 (XSL RR 128/64), whose seed is expanded from a number by PCG32. */
struct generator {
    uint128 state, increment;
};

#define MULTIPLIER ((uint128)0x2360ED051FC65DA4u << 64 | 0x4385DF649FCCF645u)

static void step(struct generator *generator) {
    generator->state = generator->state * MULTIPLIER + generator->increment;
}

static uint32_t seed_word(uint64_t *state) {
    *state = *state * 0x5851F42D4C957F2Du + 0xA17654E46FBE17F3u;
    uint32_t word = (uint32_t)((*state >> 18 ^ *state) >> 27);
    unsigned turn = (unsigned)(*state >> 59);
    return word >> turn | word << (-turn & 31);
}

/* Four words, the lowest first. */
static uint128 seed_half(uint64_t *state) {
    uint128 half = 0;
    for (int i = 0; i < 4; i++)
        half |= (uint128)seed_word(state) << 32 * i;
    return half;
}

static struct generator generator_of(uint64_t start) {
    uint128 state = seed_half(&start);
    uint128 increment = seed_half(&start) | 1;
    struct generator generator = {state + increment, increment};
    step(&generator);
    return generator;
}

static uint64_t draw(struct generator *generator) {
    step(generator);
    uint64_t word = (uint64_t)(generator->state >> 64) ^ (uint64_t)generator->state;
    unsigned turn = (unsigned)(generator->state >> 122);
    return word >> turn | word << (-turn & 63);
}

/* Where the records stand: the number of transfers done, branches, tellers, accounts and the history. */
struct places {
    uint32_t branches, tellers, accounts, history;
};

static struct places places_of(const struct area *area) {
    uint32_t tellers = 1 + area->branches, accounts = tellers + TELLERS * area->branches;
    uint32_t end = accounts + area->branches * area->accounts;
    return (struct places){1, tellers, accounts, (end + HISTORY_WORDS - 1) / HISTORY_WORDS * HISTORY_WORDS};
}

bool area_fits(const struct area *area, uint32_t pages) {
    uint128 end = 1 + (uint128)area->branches * (1 + TELLERS + (uint128)area->accounts);
    uint128 history = (end + HISTORY_WORDS - 1) / HISTORY_WORDS * HISTORY_WORDS;
    uint128 words = history + HISTORY_WORDS * (uint128)area->transfers;
    return area->branches && area->accounts && words <= (uint128)PAGE_WORDS * pages;
}

static void add(struct memory *memory, uint32_t slot, uint32_t address, int64_t delta) {
    memory_put(memory, slot, address, memory_load(memory, address).word + (uint64_t)delta);
}

struct transfer {
    uint32_t account, teller, branch;
    int64_t delta;
};

static struct transfer draw_transfer(struct generator *generator, const struct area *area) {
    uint32_t teller = (uint32_t)(draw(generator) % (TELLERS * (uint64_t)area->branches));
    uint32_t account = (uint32_t)(draw(generator) % ((uint64_t)area->branches * area->accounts));
    int64_t delta = (int64_t)(draw(generator) % DELTAS) - MOST_DELTA;
    return (struct transfer){account, teller, teller / TELLERS, delta};
}

/* Does transfer i as one transaction, and the background steps behind it. */
static void do_transfer(struct memory *memory, struct places at, uint32_t i, struct transfer transfer) {
    uint32_t slot = memory_begin(memory).slot, history = at.history + HISTORY_WORDS * i;
    add(memory, slot, at.accounts + transfer.account, transfer.delta);
    add(memory, slot, at.tellers + transfer.teller, transfer.delta);
    add(memory, slot, at.branches + transfer.branch, transfer.delta);
    memory_put(memory, slot, history, transfer.account);
    memory_put(memory, slot, history + 1, transfer.teller);
    memory_put(memory, slot, history + 2, transfer.branch);
    memory_put(memory, slot, history + 3, (uint64_t)transfer.delta);
    memory_put(memory, slot, 0, i + 1);
    memory_commit(memory, slot);
    for (int tick = 0; tick < TICKS; tick++)
        memory_tick(memory);
}

/* The sum of the words from an address on, each so far from the last. */
static int64_t sum(struct memory *memory, uint32_t address, uint32_t count, uint32_t stride) {
    uint64_t total = 0;
    for (uint32_t k = 0; k < count; k++)
        total += memory_load(memory, address + stride * k).word;
    return (int64_t)total;
}

struct sums tpca_drive(struct memory *memory, const struct area *area, uint64_t start) {
    struct generator generator = generator_of(start);
    struct places at = places_of(area);
    struct sums sums = {0};
    for (uint32_t i = 0; i < area->transfers; i++) {
        struct transfer transfer = draw_transfer(&generator, area);
        do_transfer(memory, at, i, transfer);
        sums.deltas += transfer.delta;
    }
    sums.counts = memory->counts;
    sums.branches = sum(memory, at.branches, area->branches, 1);
    sums.tellers = sum(memory, at.tellers, TELLERS * area->branches, 1);
    sums.accounts = sum(memory, at.accounts, area->branches * area->accounts, 1);
    sums.history = sum(memory, at.history + HISTORY_WORDS - 1, area->transfers, HISTORY_WORDS);
    return sums;
}
