/* Ranges whose words are maps, maps with flipped bits or other words, or no map at all: the check of a map answers as a check
   written here over the same words, no look-up ends the process or changes a word, and where the check finds a map the
   look-ups answer by its pairs.

     broken_maps FILE ROUNDS SEED */
#include "../../c/envy.h"
#include <stdio.h>
#include <stdlib.h>
#include <string.h>

enum { FIRST = 32 * 3, PAGES = 60, WORDS = 32 * PAGES, ALL = 32 * 80, HEAD = 64, PIECE = 64, KEYS = 31, MOST = 512, FEWEST = 15 };

static const envy_map range = {FIRST, WORDS};

static envy_setup setup = {
    .segments = 16, .rows = 32, .pages = 80, .shadows = 80, .frames = 80, .entries = 16,
    .policy = ENVY_GREEDY, .part = 2, .limit = 100, .mark = 40,
};

static envy file = ENVY_INIT;
static uint64_t words[ALL], after[ALL];

static void must(int holds, const char *what) {
    if (holds) return;
    fprintf(stderr, "broken_maps: %s\n", what);
    exit(1);
}

static uint64_t draw(uint64_t *seed) {
    *seed += 0x9E3779B97F4A7C15;
    uint64_t z = *seed;
    z = (z ^ (z >> 30)) * 0xBF58476D1CE4E5B9;
    z = (z ^ (z >> 27)) * 0x94D049BB133111EB;
    return z ^ (z >> 31);
}

/* ---- a check of the words by the rules of a map, which marks each node as it is met */

typedef struct tree {
    const uint64_t *words;
    uint64_t pieces, used;
    int marked[WORDS / PIECE];
    int leaf_depth;
    envy_pair pair[MOST];
    size_t pairs;
} tree;

/* Whether a node, so deep, and all under it are as they must be, with keys from `low` to `high`. */
static int is_node(tree *t, uint64_t piece, int depth, uint64_t low, uint64_t high) {
    if (piece >= t->used || t->marked[piece]) return 0;
    t->marked[piece] = 1;
    const uint64_t *node = t->words + HEAD + PIECE * piece;
    uint64_t count = node[0] / 2;
    int inner = node[0] & 1;
    if (node[0] > 2 * KEYS + 1) return 0;
    if (depth ? count < FEWEST : inner && count < 1) return 0;
    for (uint64_t i = 0; i < count; i++)
        if (node[1 + i] < low || node[1 + i] > high || (i && node[1 + i] <= node[i])) return 0;
    if (inner) {
        for (uint64_t i = 0; i <= count; i++) {
            if (i < count && node[1 + i] == low && !i) return 0; /* no key would be below it */
            uint64_t from = i ? node[i] : low, to = i < count ? node[1 + i] - 1 : high;
            if (from > to || !is_node(t, node[32 + i], depth + 1, from, to)) return 0;
        }
        return 1;
    }
    if (t->leaf_depth >= 0 && t->leaf_depth != depth) return 0;
    t->leaf_depth = depth;
    for (uint64_t i = 0; i < count; i++) {
        if (t->pairs == MOST) return 0;
        t->pair[t->pairs++] = (envy_pair){node[1 + i], node[32 + i]};
    }
    return 1;
}

static int is_map(tree *t, const uint64_t *of) {
    memset(t, 0, sizeof *t);
    t->words = of;
    t->pieces = (WORDS - HEAD) / PIECE;
    t->used = of[2];
    t->leaf_depth = -1;
    if (t->used > t->pieces || of[3] > 14 * (t->pieces - 8)) return 0;
    for (uint64_t next = of[1]; next; next = of[HEAD + PIECE * (next - 1)]) {
        if (next > t->used || t->marked[next - 1]) return 0;
        t->marked[next - 1] = 1;
    }
    if (of[0] && !is_node(t, of[0] - 1, 0, 0, UINT64_MAX)) return 0;
    for (uint64_t i = 0; i < t->used; i++)
        if (!t->marked[i]) return 0;
    return of[3] == t->pairs;
}

/* ---- maps, and what is done to their words */

static void put_words(const uint64_t *from, uint32_t address, size_t n) {
    size_t done;
    uint32_t holder;
    must(envy_store_run(&file, address, from, n, &done, &holder) == ENVY_DONE, "words are stored");
}

/* A map of drawn pairs, some of them taken out again. */
static void make_map(uint64_t *seed) {
    uint32_t slot;
    envy_old before;
    uint64_t value;
    int changes = (int)(draw(seed) % 500);
    must(envy_map_begin(&file, &slot) == ENVY_DONE, "begin");
    must(envy_map_create(&file, slot, &range) == ENVY_DONE, "create");
    for (int i = 0; i < changes; i++) {
        uint64_t key = draw(seed) % 300 * 0x00DA740DA740DA74;
        uint32_t code = draw(seed) % 3 ? envy_map_insert(&file, slot, &range, key, draw(seed), &before)
                                       : envy_map_remove(&file, slot, &range, key, &value);
        must(code == ENVY_DONE || code == ENVY_ABSENT || code == ENVY_MAP_FULL, "a change");
    }
    must(envy_map_commit(&file, slot) == ENVY_DONE, "commit");
}

/* A word that nodes and heads have, so that not every change is seen at the first look. */
static uint64_t likely(uint64_t *seed, const uint64_t *of) {
    switch (draw(seed) % 4) {
    case 0: return draw(seed) % 66;
    case 1: return of[draw(seed) % WORDS];
    case 2: return of[draw(seed) % WORDS] + 1 - draw(seed) % 3;
    default: return draw(seed);
    }
}

/* Which words of the range are used, by the head and by nodes, so that changes meet them. */
static uint32_t place_in(uint64_t *seed, const uint64_t *of) {
    uint64_t used = of[2] > (WORDS - HEAD) / PIECE ? (WORDS - HEAD) / PIECE : of[2];
    if (!used || draw(seed) % 8 == 0) return (uint32_t)(draw(seed) % 4);
    uint64_t node = HEAD + PIECE * (draw(seed) % used);
    switch (draw(seed) % 3) {
    case 0: return (uint32_t)node;
    case 1: return (uint32_t)(node + draw(seed) % 8);
    default: return (uint32_t)(node + draw(seed) % PIECE);
    }
}

static void spoil(uint64_t *seed, uint64_t *of) {
    uint64_t how = draw(seed) % 8;
    if (how == 0) return;
    if (how == 1) {
        for (int i = 0; i < WORDS; i++) of[i] = draw(seed) % 3 ? draw(seed) % 64 : draw(seed);
        of[2] %= 29;
        return;
    }
    for (uint64_t n = 1 + draw(seed) % 3; n; n--) {
        uint32_t i = place_in(seed, of);
        if (how < 5) of[i] ^= 1ull << (draw(seed) % (draw(seed) % 2 ? 7 : 64));
        else of[i] = likely(seed, of);
    }
}

/* ---- what the calls answer */

static void looks(uint64_t *seed, const tree *t, int map) {
    static envy_pair pair[MOST];
    size_t count;
    uint64_t number, value, key = draw(seed) % 300 * 0x00DA740DA740DA74;
    uint32_t code = envy_map_count(&file, &range, &number);
    if (map) must(code == ENVY_DONE && number == t->pairs, "count");
    else must(code == ENVY_DONE || code == ENVY_BROKEN_MAP, "count of words that are no map");
    code = envy_map_get(&file, &range, key, &value);
    if (map) {
        size_t i = 0;
        while (i < t->pairs && t->pair[i].key != key) i++;
        must(code == (i < t->pairs ? ENVY_DONE : ENVY_ABSENT) && (code != ENVY_DONE || value == t->pair[i].value), "get");
    } else must(code == ENVY_DONE || code == ENVY_ABSENT || code == ENVY_BROKEN_MAP, "get of words that are no map");
    code = envy_map_scan(&file, &range, 0, pair, MOST, &count);
    if (map) must(code == ENVY_DONE && count == t->pairs && !memcmp(pair, t->pair, count * sizeof *pair), "scan");
    else must(code == ENVY_DONE || code == ENVY_BROKEN_MAP, "scan of words that are no map");
    code = envy_map_scan_down(&file, &range, key, pair, 1 + draw(seed) % MOST, &count);
    must(code == ENVY_DONE || (!map && code == ENVY_BROKEN_MAP), "scan_down");
}

int main(int n, char **word) {
    static tree t;
    if (n != 4) return 2;
    uint64_t rounds = strtoull(word[2], NULL, 10), seed = strtoull(word[3], NULL, 10), maps = 0, rules[14] = {0};
    must(envy_open_mapped(&file, word[1], &setup, ENVY_CREATE) == ENVY_DONE, "open");
    for (uint64_t round = 0; round < rounds; round++) {
        if (round % 16 == 0) make_map(&seed);
        must(envy_read(&file, 0, words, ALL) == ENVY_DONE, "read");
        static uint64_t spoiled[WORDS];
        memcpy(spoiled, words + FIRST, sizeof spoiled);
        spoil(&seed, spoiled);
        put_words(spoiled, FIRST, WORDS);
        uint32_t rule = 0, code = envy_map_check(&file, &range, &rule);
        int map = is_map(&t, spoiled);
        must(code == (map ? ENVY_DONE : ENVY_BROKEN_MAP), map ? "a map is refused" : "no map is found to be one");
        must(map ? rule == 0 : rule >= 1 && rule <= 13, "the number of a rule");
        if (map) maps++;
        else rules[rule]++;
        looks(&seed, &t, map);
        must(envy_read(&file, 0, after, ALL) == ENVY_DONE, "read");
        must(!memcmp(after, words, FIRST * sizeof *words) && !memcmp(after + FIRST, spoiled, sizeof spoiled) &&
                 !memcmp(after + FIRST + WORDS, words + FIRST + WORDS, (ALL - FIRST - WORDS) * sizeof *words),
             "a look changes a word");
        put_words(words + FIRST, FIRST, WORDS);
    }
    printf("%llu ranges, of which %llu are maps; the rules that the others break:", (unsigned long long)rounds, (unsigned long long)maps);
    for (int i = 1; i <= 13; i++) printf(" %llu", (unsigned long long)rules[i]);
    printf("\n");
    return envy_close(&file);
}
