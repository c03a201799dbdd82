/* A sorted array of up to SORTED pairs, to which a map's answers are compared. */
#ifndef SORTED_H
#define SORTED_H

#include "../../c/envy_pair.h"
#include <string.h>

enum { SORTED = 4096 };

typedef struct model {
    int count;
    envy_pair pair[SORTED];
} model;

/* The place of the first pair whose key is at least this one. */
static int place_of(const model *m, uint64_t key) {
    int low = 0, high = m->count;
    while (low < high) {
        int middle = (low + high) / 2;
        if (m->pair[middle].key < key) low = middle + 1;
        else high = middle;
    }
    return low;
}

static int has(const model *m, uint64_t key) {
    int i = place_of(m, key);
    return i < m->count && m->pair[i].key == key;
}

static void set(model *m, uint64_t key, uint64_t value) {
    int i = place_of(m, key);
    if (!has(m, key)) {
        memmove(m->pair + i + 1, m->pair + i, (size_t)(m->count - i) * sizeof *m->pair);
        m->count++;
    }
    m->pair[i] = (envy_pair){key, value};
}

static void take_out(model *m, uint64_t key) {
    int i = place_of(m, key);
    if (!has(m, key)) return;
    m->count--;
    memmove(m->pair + i, m->pair + i + 1, (size_t)(m->count - i) * sizeof *m->pair);
}

#endif
