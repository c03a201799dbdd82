/* What the machine and the programs that look at what it left agree on. */
#ifndef MACHINE_H
#define MACHINE_H
#include "../../c/envy_parted.h"

/* Each segment is one block of both chips of qemu's `virt`: 1,024 rows, 256 KiB. 2 MiB of the 64 MiB are used. */
#define MACHINE_SETUP                                                                                                  \
    {.segments = 4, .rows = 1024, .pages = 1800, .shadows = 16, .frames = 8, .entries = 64, .policy = ENVY_GREEDY,     \
     .part = 2, .limit = 3, .mark = 6}

enum {
    PAGES = 1800, WORDS = 32 * PAGES,
    ROWS = 4 * 1024,
    SRAM_BYTES = 1 << 17, /* what stands by for SRAM: more than the map of this setup takes */
    ACCOUNTS = WORDS / 2, /* word 0 counts transfers, words 1 to ACCOUNTS - 1 are accounts, the others notes */
    FLASH_AT = 0x04000000, /* the second part: commands go out here */
    RAM_AT = 0x40000000,
    GIVEN_AT = 0x44000000, /* what qemu writes before the start: what to do, and the number that all is drawn from */
    ORDER_AT = 0x45000000, /* what the machine is about: 1 the program of a row, 2 an erase, 0 neither */
    WORDS_AT = 0x46000000, /* where the machine lays down every word that it found */
    SRAM_AT = 0x48000000,
};
/* added to an address: the same memory, read and written past the cache */
#define NOT_CACHED 0x80000000ull
#endif
