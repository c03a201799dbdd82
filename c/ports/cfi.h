/* What the drivers of CFI parts share: the bus, the query, the clock, and what becomes of an order that went wrong. */
#ifndef ENVY_CFI_H
#define ENVY_CFI_H
#include "../envy_part.h"
#include <stdbool.h>

/* A part of one or several equal chips side by side, mapped into memory. */
typedef struct cfi_part {
    volatile uint8_t *base;      /* the first byte of the map */
    unsigned bus_bytes;          /* of one access: 1, 2 or 4 */
    unsigned chip_bytes;         /* that one chip gives of it: at most bus_bytes */
    uint64_t (*microseconds)(void); /* a clock that runs on */
    /* Pulls the part's reset line and returns once the part can be read. A board that can't reset the part alone restarts
       the machine here: to the memory that is a failure of power. */
    void (*reset)(struct cfi_part *part);
    /* what the query reports, of all chips together */
    uint64_t bytes;
    uint32_t blocks, block_bytes;
    uint32_t buffer_bytes;       /* that one buffered write takes, or 0 if the chips have no buffer */
    uint64_t word_us, buffer_us, erase_us; /* the longest time of an operation by the query: what takes longer is late */
    /* what the last failure was, for a program that wants to report it */
    uint32_t status;
    bool was_late;
    uint32_t resets;             /* how often the part had to be reset */
} cfi_part;

enum cfi_code {
    CFI_DONE = 0,
    CFI_ABSENT = 1,   /* no CFI part answers here, of the command set and the width that were named */
    CFI_UNEVEN = 2,   /* blocks of several sizes, as of a part with boot blocks, or rows that cross the end of a write buffer */
    CFI_LOCKED = 3,   /* a block couldn't be unlocked */
    CFI_NO_RESET = 4, /* no reset was named: a part that stays busy would read as its status */
};

/* How an operation ended. */
enum cfi_end {
    CFI_WELL,
    CFI_FAILED, /* the part says so */
    CFI_STUCK,  /* it was still busy after CFI_PATIENCE times its longest time, and was reset */
};
enum { CFI_PATIENCE = 4 };

/* A program may bring an access of its own, as over a test's socket, by defining CFI_BUS. */
#ifdef CFI_BUS
void cfi_store(volatile uint8_t *at, unsigned bus_bytes, uint32_t value);
uint32_t cfi_load(volatile uint8_t *at, unsigned bus_bytes);
#else
static inline void cfi_store(volatile uint8_t *at, unsigned bus_bytes, uint32_t value) {
    if (bus_bytes == 4) *(volatile uint32_t *)at = value;
    else if (bus_bytes == 2) *(volatile uint16_t *)at = (uint16_t)value;
    else *at = (uint8_t)value;
}
static inline uint32_t cfi_load(volatile uint8_t *at, unsigned bus_bytes) {
    if (bus_bytes == 4) return *(volatile uint32_t *)at;
    return bus_bytes == 2 ? *(volatile uint16_t *)at : *at;
}
#endif

/* Stores to SRAM are there before a command to the part goes out, and commands before what comes after them. */
static inline void cfi_barrier(void) {
#if defined(__aarch64__)
    __asm__ volatile("dsb sy" ::: "memory");
#elif defined(__x86_64__)
    __asm__ volatile("mfence" ::: "memory");
#else
    __sync_synchronize();
#endif
}

/* The same byte to each chip. */
static inline uint32_t cfi_each(const cfi_part *p, uint32_t byte) {
    uint32_t value = 0;
    for (unsigned at = 0; at < p->bus_bytes; at += p->chip_bytes) value |= byte << 8 * at;
    return value;
}
/* A command at an offset of the map. */
static inline void cfi_command(const cfi_part *p, uint64_t offset, uint32_t byte) {
    cfi_store(p->base + offset, p->bus_bytes, cfi_each(p, byte));
}
/* The word of the bus that these bytes make. */
static inline uint32_t cfi_word(const cfi_part *p, const uint8_t *bytes) {
    uint32_t value = 0;
    for (unsigned i = 0; i < p->bus_bytes; i++) value |= (uint32_t)bytes[i] << 8 * i;
    return value;
}
/* Byte i of the query, which all chips give alike: that of the first. */
static inline uint32_t cfi_asked(const cfi_part *p, uint32_t i) {
    return cfi_load(p->base + (uint64_t)i * p->bus_bytes, p->bus_bytes) & 255;
}

/* Reads sizes and time limits while the part is in query mode. DONE, ABSENT, UNEVEN. */
static inline int cfi_query(cfi_part *p, uint32_t command_set) {
    unsigned chips = p->bus_bytes / p->chip_bytes;
    for (uint32_t i = 0; i < 3; i++)
        if (cfi_load(p->base + (0x10 + i) * p->bus_bytes, p->bus_bytes) != cfi_each(p, (uint32_t)"QRY"[i])) return CFI_ABSENT;
    if (cfi_asked(p, 0x13) + 256 * cfi_asked(p, 0x14) != command_set) return CFI_ABSENT;
    if (cfi_asked(p, 0x2c) != 1) return CFI_UNEVEN;
    p->bytes = (uint64_t)chips << cfi_asked(p, 0x27);
    p->blocks = cfi_asked(p, 0x2d) + 256 * cfi_asked(p, 0x2e) + 1;
    p->block_bytes = chips * 256 * (cfi_asked(p, 0x2f) + 256 * cfi_asked(p, 0x30));
    uint32_t buffer = cfi_asked(p, 0x2a) + 256 * cfi_asked(p, 0x2b);
    p->buffer_bytes = buffer ? chips << buffer : 0;
    if (p->block_bytes % ENVY_ROW_BYTES) return CFI_UNEVEN;
    if (p->buffer_bytes && p->buffer_bytes % ENVY_ROW_BYTES && ENVY_ROW_BYTES % p->buffer_bytes) return CFI_UNEVEN;
    /* typical times as powers of two, and by which power the longest exceeds each */
    p->word_us = 1ull << (cfi_asked(p, 0x1f) + cfi_asked(p, 0x23));
    p->buffer_us = 1ull << (cfi_asked(p, 0x20) + cfi_asked(p, 0x24));
    p->erase_us = 1000ull << (cfi_asked(p, 0x21) + cfi_asked(p, 0x25));
    return CFI_DONE;
}

/* A part that says that an operation failed may read right all the same: its own margin is tighter than a read's, and
   such cells fade. So if the row reads as the page, a bit that the page keeps is cleared, and the library's compare
   fails. `program_word` programs one word of the bus and goes back to array mode. (A page of zeros keeps no bit: the
   compare alone decides there.) */
static inline void cfi_spoil(cfi_part *p, uint64_t row, const uint8_t *page, void (*program_word)(cfi_part *p, uint64_t at, uint32_t word)) {
    for (unsigned i = 0; i < ENVY_ROW_BYTES; i += p->bus_bytes)
        if (cfi_load(p->base + row + i, p->bus_bytes) != cfi_word(p, page + i)) return;
    for (unsigned i = 0; i < ENVY_ROW_BYTES; i += p->bus_bytes) {
        uint32_t word = cfi_word(p, page + i);
        if (!word) continue;
        program_word(p, row + i, word & (word - 1));
        if (cfi_load(p->base + row + i, p->bus_bytes) != word) return;
    }
}
/* The same of a block that was to be erased. */
static inline void cfi_spoil_erased(cfi_part *p, uint64_t block, void (*program_word)(cfi_part *p, uint64_t at, uint32_t word)) {
    uint8_t ones[ENVY_ROW_BYTES];
    for (unsigned i = 0; i < ENVY_ROW_BYTES; i++) ones[i] = 0xff;
    cfi_spoil(p, block, ones, program_word);
}
/* The bytes of a row, read before a command: afterwards a part may give its status. */
static inline void cfi_read_row(const cfi_part *p, uint64_t row, uint8_t held[ENVY_ROW_BYTES]) {
    for (unsigned i = 0; i < ENVY_ROW_BYTES; i += p->bus_bytes) {
        uint32_t word = cfi_load(p->base + row + i, p->bus_bytes);
        for (unsigned b = 0; b < p->bus_bytes; b++) held[i + b] = (uint8_t)(word >> 8 * b);
    }
}
#endif
