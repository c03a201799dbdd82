/* A word of 64 bits that no cut of power halves, in memory whose stores are of one beat of 8, 16 or 32 bits: SRAM on
   such a bus, or SPI FRAM. Two places hold a word each, and a mark of one beat names the one that counts. A put writes the
   other place, and then the mark, which is done or not.

   A program defines TWO_PLACES_BITS (8, 16 or 32) if it isn't 32, and, if a plain store doesn't do, TWO_PLACES_STORE and
   TWO_PLACES_BARRIER, which returns once what was stored is durable. Memory of zeros holds 0. */
#ifndef ENVY_TWO_PLACES_H
#define ENVY_TWO_PLACES_H
#include <stdint.h>

#ifndef TWO_PLACES_BITS
#define TWO_PLACES_BITS 32
#endif
#if TWO_PLACES_BITS == 8
typedef uint8_t two_places_beat;
#elif TWO_PLACES_BITS == 16
typedef uint16_t two_places_beat;
#else
typedef uint32_t two_places_beat;
#endif
enum { TWO_PLACES_BEATS = 64 / TWO_PLACES_BITS };

#ifndef TWO_PLACES_STORE
#define TWO_PLACES_STORE(at, value) ((at) = (value))
#endif
#ifndef TWO_PLACES_BARRIER
#define TWO_PLACES_BARRIER() __sync_synchronize()
#endif

typedef struct two_places {
    volatile two_places_beat place[2][TWO_PLACES_BEATS];
    volatile two_places_beat mark; /* its lowest bit counts */
} two_places;

static inline uint64_t two_places_get(const two_places *w) {
    uint64_t value = 0;
    for (unsigned i = 0; i < TWO_PLACES_BEATS; i++) value |= (uint64_t)w->place[w->mark % 2][i] << TWO_PLACES_BITS * i;
    return value;
}

static inline void two_places_put(two_places *w, uint64_t value) {
    unsigned next = 1 - w->mark % 2;
    for (unsigned i = 0; i < TWO_PLACES_BEATS; i++)
        TWO_PLACES_STORE(w->place[next][i], (two_places_beat)(value >> TWO_PLACES_BITS * i));
    TWO_PLACES_BARRIER();
    TWO_PLACES_STORE(w->mark, (two_places_beat)next);
    TWO_PLACES_BARRIER();
}
#endif
