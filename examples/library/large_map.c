/* A map of so many pairs in a kept file, of keys that come in a mixed order: the file is closed and opened again, the map is
   checked, and each pair is read, by its key and by scans both ways. 10,000,000 pairs take some minutes, 1.3 GB of memory and
   as much of the disk.

     large_map FILE PAIRS */
#include "../../c/envy.h"
#include "../../c/envy_setup.h"
#include "../../c/envy_text.h"
#include <stdio.h>
#include <stdlib.h>

enum { TOGETHER = 256, CHANGES = 200, PART = 4096 };

static void must(uint32_t code, const char *what) {
    if (code == ENVY_DONE) return;
    fprintf(stderr, "large_map: %s: %s\n", what, envy_error_text(code));
    exit(1);
}

static void so(int holds, const char *what) {
    if (holds) return;
    fprintf(stderr, "large_map: %s\n", what);
    exit(1);
}

/* The i-th key that is set: each number below `pairs` times 3, once, since both factors have no divisor in common. */
static uint64_t key_of(uint64_t i, uint64_t pairs) { return i * 7368787 % pairs * 3; }

static uint64_t value_of(uint64_t key) { return key * 0x9E3779B97F4A7C15; }

static int is_pair(const envy_pair *pair, uint64_t key) { return pair->key == key && pair->value == value_of(key); }

static void fill(envy *m, const envy_map *map, uint64_t pairs) {
    uint32_t slot = 0;
    envy_old before;
    for (uint64_t i = 0; i < pairs; i++) {
        if (i % CHANGES == 0) must(envy_map_begin(m, &slot), "begin");
        uint64_t key = key_of(i, pairs);
        uint32_t code = envy_map_insert(m, slot, map, key, value_of(key), &before);
        if (code == ENVY_FULL) {
            must(envy_map_commit(m, slot), "commit");
            must(envy_map_begin(m, &slot), "begin");
            code = envy_map_insert(m, slot, map, key, value_of(key), &before);
        }
        must(code, "insert");
        so(!before.had, "a key is there before it is set");
        if (i % CHANGES == CHANGES - 1 || i == pairs - 1) must(envy_map_commit(m, slot), "commit");
        if (i % (CHANGES * 1000) == CHANGES * 1000 - 1) must(envy_sync(m), "sync");
    }
}

static void read_all(envy *m, const envy_map *map, uint64_t pairs) {
    static envy_pair pair[PART];
    uint64_t count, next = 0;
    size_t n;
    must(envy_map_count(m, map, &count), "count");
    so(count == pairs, "another number of pairs");
    for (uint64_t key = 0; key < pairs; next += n, key = next) {
        must(envy_map_scan(m, map, 3 * key, pair, PART, &n), "scan");
        so(n > 0, "a scan ends early");
        for (size_t i = 0; i < n; i++) so(is_pair(&pair[i], 3 * (next + i)), "a pair of a scan");
    }
    so(next == pairs, "a scan has more pairs");
    for (uint64_t left = pairs; left; left -= n) {
        must(envy_map_scan_down(m, map, 3 * left - 1, pair, PART, &n), "scan down");
        so(n > 0 && n <= left, "a scan down ends early");
        for (size_t i = 0; i < n; i++) so(is_pair(&pair[i], 3 * (left - 1 - i)), "a pair of a scan down");
    }
    for (uint64_t i = 0; i < pairs; i += 97) {
        uint64_t value;
        must(envy_map_get(m, map, 3 * i, &value), "get");
        so(value == value_of(3 * i), "a value");
        so(envy_map_get(m, map, 3 * i + 1, &value) == ENVY_ABSENT, "a key that wasn't set");
    }
}

int main(int words, char **word) {
    if (words != 3) return 2;
    uint64_t pairs = strtoull(word[2], NULL, 10);
    /* at worst 14 pairs to a piece of 64 words, and eight pieces more */
    uint64_t wanted = 64 + (pairs / 14 + 9) * 64;
    envy_setup setup;
    envy f = ENVY_INIT;
    must(envy_setup_for(wanted, TOGETHER * 16, &setup), "a setup");
    envy_map map = {0, 32 * setup.pages};
    must(envy_open_file(&f, word[1], &setup, ENVY_CREATE), "open");
    fill(&f, &map, pairs);
    must(envy_close(&f), "close");
    must(envy_open_file(&f, word[1], &setup, ENVY_CREATE), "open again");
    uint32_t rule = 0, code = envy_map_check(&f, &map, &rule);
    if (code == ENVY_BROKEN_MAP) fprintf(stderr, "large_map: %s\n", envy_map_rule_text(rule));
    must(code, "check");
    read_all(&f, &map, pairs);
    must(envy_leave(&f), "leave");
    printf("%llu pairs in %u pages were set, found to be a map, and read\n", (unsigned long long)pairs, setup.pages);
    return 0;
}
