/* What crosses by the calls of maps of envy.h. */
#ifndef ENVY_PAIR_H
#define ENVY_PAIR_H

#include <stdint.h>

#ifdef __cplusplus
extern "C" {
#endif

/* A pair of a map. */
typedef struct envy_pair {
    uint64_t key;
    uint64_t value;
} envy_pair;

/* The value that a key had, if it had one. */
typedef struct envy_old {
    uint64_t value; /* or 0 */
    uint32_t had;   /* 1, or 0 if the key had no value */
} envy_old;

/* A range of the array, in which a map lies: so many words from an address on. */
typedef struct envy_map {
    uint32_t first; /* a multiple of 32 */
    uint32_t words; /* a multiple of 32, from 640 to 536,870,912; the range ends within the array */
} envy_map;

/* The rules of maps, in the order in which envy_map_check asks them: words that break one stand for no map. */
enum envy_map_rule {
    ENVY_MAP_SHORT = 1,     /* there are fewer than 640 words */
    ENVY_MAP_USED = 2,      /* more nodes were ever handed out than there is room for */
    ENVY_MAP_MANY = 3,      /* the number of pairs is above the most */
    ENVY_MAP_FREE_LIST = 4, /* the list of free nodes goes round in a circle, or leads out of the map */
    ENVY_MAP_DEEP = 5,      /* the tree has more levels than there is room for */
    ENVY_MAP_NODE = 6,      /* the root or a child is no node that was ever handed out */
    ENVY_MAP_HEAD = 7,      /* the first word of a node is none that a node may have */
    ENVY_MAP_LEVEL = 8,     /* a leaf is less deep than another one */
    ENVY_MAP_FEW = 9,       /* a node has too few keys */
    ENVY_MAP_KEYS = 10,     /* a key isn't above the one before it, or not between those of the nodes above it */
    ENVY_MAP_FREED = 11,    /* a node is in the list of free nodes */
    ENVY_MAP_LOST = 12,     /* a node that was handed out is neither in the tree nor free */
    ENVY_MAP_COUNT = 13,    /* the number of pairs isn't that of the tree */
};

#ifdef __cplusplus
}
#endif
#endif
