/* The two functions that the library's orders come through, over the callbacks of envy_part.h.

   In the library they are the `write` and the `read` of a port. The archive's names are changed, so that they don't
   meet those of a C library:

       objcopy --redefine-sym write=envy_part_order --redefine-sym read=envy_part_work LIBRARY.a */
#include "envy_part.h"
#include <string.h>

/* Between two stores to SRAM: the first is there when the second is. A program whose SRAM needs more defines it itself.
   On x86-64 stores to memory that isn't write-combining stay in their order, so the compiler alone is held. */
#ifndef ENVY_PART_BARRIER
#if defined(__aarch64__)
#define ENVY_PART_BARRIER() __asm__ volatile("dmb oshst" ::: "memory")
#elif defined(__x86_64__)
#define ENVY_PART_BARRIER() __asm__ volatile("" ::: "memory")
#else
#define ENVY_PART_BARRIER() __sync_synchronize()
#endif
#endif

/* An order that was given and isn't carried out yet. */
typedef struct port {
    const envy_part *part;
    size_t given; /* 256 for the program of a row, 1 for an erase, 0 for none */
    uint8_t page[ENVY_ROW_BYTES];
} port;

static port ports[ENVY_PARTS];

static port *port_of(int number) {
    return number >= 0 && number < ENVY_PARTS && ports[number].part ? &ports[number] : NULL;
}

int32_t envy_part_open(const envy_part *part) {
    for (int32_t i = 0; i < ENVY_PARTS; i++) {
        if (ports[i].part) continue;
        ports[i].part = part;
        ports[i].given = 0;
        return i;
    }
    return -1;
}

void envy_part_close(int32_t number) {
    port *p = port_of(number);
    if (p) p->part = NULL;
}

/* The order: the 256 bytes that a row is to become, one byte of ones for an erase, or one of zeros for the barrier after a
   store to SRAM, which is carried out here. */
intptr_t envy_part_order(int number, const void *bytes, size_t count) {
    if (count == 1 && *(const uint8_t *)bytes == 0) {
        ENVY_PART_BARRIER();
        return 1;
    }
    port *p = port_of(number);
    if (!p || (count != ENVY_ROW_BYTES && count != 1)) return -1;
    p->given = count;
    memcpy(p->page, bytes, count);
    return (intptr_t)count;
}

/* Carries the order out. `at` is the map itself: the row, or the rows of the segment. */
intptr_t envy_part_work(int number, void *at, size_t count) {
    port *p = port_of(number);
    if (!p) return -1;
    size_t given = p->given;
    p->given = 0;
    /* what was put into SRAM before is stored before the part changes, and what it reads as is loaded afterwards */
    __asm__ volatile("" ::: "memory");
    if (given == ENVY_ROW_BYTES && count == ENVY_ROW_BYTES) p->part->program(p->part->context, at, p->page);
    else if (given == 1) p->part->erase(p->part->context, at, count);
    __asm__ volatile("" ::: "memory");
    return (intptr_t)count;
}
