/* A model of a CFI part for the drivers of c/ports, built with CFI_BUS: chips of one command set side by side, whose clock
   runs by one microsecond with each access. One operation can be made to go wrong: it fails although its cells read
   right, it fails half done, it takes longer than the query says, or it stays busy until the part is reset.

   The map shows what a processor would read only after chip_show: the array, or the status in each byte. */
#ifndef CHIP_H
#define CHIP_H
#include "../../c/ports/cfi.h"
#include <string.h>

enum chip_set { CHIP_INTEL = 1, CHIP_AMD = 2 };
enum chip_fault { CHIP_RIGHT, CHIP_TELLS, CHIP_HALF, CHIP_LATE, CHIP_STUCK };
enum { CHIP_BYTES = 1 << 15, CHIP_BLOCK = 1 << 12, CHIP_BLOCKS = CHIP_BYTES / CHIP_BLOCK, CHIP_MODELS = 4 };
enum { CHIP_WORD_US = 32, CHIP_BUFFER_US = 64, CHIP_ERASE_US = 2000 };

typedef struct chip {
    enum chip_set set;
    uint8_t *map;
    uint8_t cells[CHIP_BYTES];
    unsigned bus_bytes, chip_bytes, buffer_bytes, regions;
    enum chip_fault fault; /* of the next operation */
    /* what the commands so far led to */
    enum { IS_ARRAY, IS_STATUS, IS_QUERY } mode;
    enum { NO_COMMAND, WORD, COUNT, DATA, GO, ERASE, LOCK, UNLOCKED_1, UNLOCKED_2, ERASE_SET, ERASE_1, ERASE_2 } command;
    uint64_t ends_at;
    bool has_failed, toggle, is_unlocked[CHIP_BLOCKS];
    uint8_t page[ENVY_ROW_BYTES];
    uint64_t page_at;
    unsigned page_bytes, page_left;
    uint64_t resets;
} chip;

static chip *chips[CHIP_MODELS];
static uint64_t chip_now;

static inline uint64_t chip_microseconds(void) { return chip_now += 1; }

static inline void chip_make(chip *c, enum chip_set set, uint8_t *map, unsigned bus_bytes, unsigned chip_bytes, unsigned buffer_bytes) {
    memset(c, 0, sizeof *c);
    c->set = set;
    c->map = map;
    c->bus_bytes = bus_bytes;
    c->chip_bytes = chip_bytes;
    c->buffer_bytes = buffer_bytes;
    c->regions = 1;
    for (unsigned i = 0; i < CHIP_MODELS; i++)
        if (!chips[i]) {
            chips[i] = c;
            return;
        }
}
static inline void chip_unmake(chip *c) {
    for (unsigned i = 0; i < CHIP_MODELS; i++)
        if (chips[i] == c) chips[i] = NULL;
}
static inline chip *chip_of(const volatile uint8_t *at) {
    for (unsigned i = 0; i < CHIP_MODELS; i++)
        if (chips[i] && at >= chips[i]->map && at < chips[i]->map + CHIP_BYTES) return chips[i];
    return NULL;
}

static inline bool chip_is_busy(const chip *c) { return chip_now < c->ends_at; }
/* The status as each chip gives it. */
static inline uint8_t chip_status(chip *c) {
    if (c->set == CHIP_INTEL) return chip_is_busy(c) ? 0x00 : (uint8_t)(0x80 | (c->has_failed ? 0x30 : 0));
    c->toggle = !c->toggle;
    return (uint8_t)((c->toggle ? 0x40 : 0) | (c->has_failed && !chip_is_busy(c) ? 0x20 : 0));
}
/* Parts of AMD's set go back to their array by themselves. */
static inline bool chip_gives_status(const chip *c) {
    return c->mode == IS_STATUS && (c->set == CHIP_INTEL || chip_is_busy(c) || c->has_failed);
}
static inline void chip_show(chip *c) {
    if (chip_gives_status(c)) memset(c->map, chip_status(c), CHIP_BYTES);
    else memcpy(c->map, c->cells, CHIP_BYTES);
}
static inline void chip_reset(chip *c) {
    c->mode = IS_ARRAY;
    c->command = NO_COMMAND;
    c->ends_at = 0;
    c->has_failed = false;
    memset(c->is_unlocked, 0, sizeof c->is_unlocked);
    c->resets++;
}

/* Begins an operation: its cells change at once, and show once it has ended. */
static inline void chip_begin(chip *c, uint64_t at, unsigned bytes, const uint8_t *page, uint64_t longest_us) {
    enum chip_fault fault = c->fault;
    c->fault = CHIP_RIGHT;
    c->mode = IS_STATUS;
    c->command = NO_COMMAND;
    if (c->set == CHIP_INTEL && !c->is_unlocked[at / CHIP_BLOCK]) {
        c->has_failed = true;
        return;
    }
    unsigned done = fault == CHIP_HALF || fault == CHIP_STUCK ? bytes / 2 : bytes;
    for (unsigned i = 0; i < done; i++) c->cells[at + i] = page ? c->cells[at + i] & page[i] : 0xff;
    c->has_failed |= fault == CHIP_TELLS || fault == CHIP_HALF;
    c->ends_at = fault == CHIP_STUCK ? UINT64_MAX : chip_now + (fault == CHIP_LATE ? 3 * longest_us : longest_us / 8);
}
static inline void chip_erase(chip *c, uint64_t at) {
    chip_begin(c, at / CHIP_BLOCK * CHIP_BLOCK, CHIP_BLOCK, NULL, CHIP_ERASE_US);
}
static inline void chip_word(chip *c, uint64_t at, uint32_t value) {
    uint8_t bytes[4];
    for (unsigned i = 0; i < 4; i++) bytes[i] = (uint8_t)(value >> 8 * i);
    chip_begin(c, at, c->bus_bytes, bytes, CHIP_WORD_US);
}
/* One word of a buffered write. */
static inline void chip_gather(chip *c, uint64_t at, uint32_t value) {
    if (c->page_left == c->page_bytes) c->page_at = at;
    for (unsigned i = 0; i < c->bus_bytes; i++) c->page[at - c->page_at + i] = (uint8_t)(value >> 8 * i);
    c->page_left -= c->bus_bytes;
    if (!c->page_left) c->command = GO;
}
static inline void chip_count(chip *c, uint32_t byte) {
    c->page_bytes = c->page_left = (byte + 1) * c->bus_bytes;
    c->command = DATA;
}

static inline void chip_intel_store(chip *c, uint64_t at, uint32_t value) {
    uint32_t byte = value & 255;
    if (c->command == WORD) chip_word(c, at, value);
    else if (c->command == COUNT) chip_count(c, byte);
    else if (c->command == DATA) chip_gather(c, at, value);
    else if (c->command == GO && byte == 0xd0) chip_begin(c, c->page_at, c->page_bytes, c->page, CHIP_BUFFER_US);
    else if (c->command == ERASE && byte == 0xd0) chip_erase(c, at);
    else if (c->command == LOCK && byte == 0xd0) {
        c->is_unlocked[at / CHIP_BLOCK] = true;
        c->command = NO_COMMAND;
    } else {
        c->command = NO_COMMAND;
        if (chip_is_busy(c)) return; /* nothing is taken */
        c->mode = byte == 0xff ? IS_ARRAY : byte == 0x98 ? IS_QUERY : byte == 0x50 ? c->mode : IS_STATUS;
        if (byte == 0x50) c->has_failed = false;
        if (byte == 0x40) c->command = WORD;
        if (byte == 0xe8) c->command = COUNT;
        if (byte == 0x20) c->command = ERASE;
        if (byte == 0x60) c->command = LOCK;
    }
}
static inline void chip_amd_store(chip *c, uint64_t at, uint32_t value) {
    uint32_t byte = value & 255;
    uint64_t first = 0x555 * c->bus_bytes, second = 0x2aa * c->bus_bytes;
    if (c->command == WORD) chip_word(c, at, value);
    else if (c->command == COUNT) chip_count(c, byte);
    else if (c->command == DATA) chip_gather(c, at, value);
    else if (c->command == GO && byte == 0x29) chip_begin(c, c->page_at, c->page_bytes, c->page, CHIP_BUFFER_US);
    else if (chip_is_busy(c)) return;
    else if (c->has_failed && byte != 0xf0) return;
    else if (byte == 0xf0 && c->command != ERASE_2) {
        c->command = NO_COMMAND;
        c->mode = IS_ARRAY;
        c->has_failed = false;
    } else if (byte == 0x98 && at == 0x55 * c->bus_bytes) c->mode = IS_QUERY;
    else if (byte == 0xaa && at == first) c->command = c->command == ERASE_SET ? ERASE_1 : UNLOCKED_1;
    else if (byte == 0x55 && at == second && c->command == UNLOCKED_1) c->command = UNLOCKED_2;
    else if (byte == 0x55 && at == second && c->command == ERASE_1) c->command = ERASE_2;
    else if (byte == 0xa0 && at == first && c->command == UNLOCKED_2) c->command = WORD;
    else if (byte == 0x25 && c->command == UNLOCKED_2) c->command = COUNT;
    else if (byte == 0x80 && at == first && c->command == UNLOCKED_2) c->command = ERASE_SET;
    else if (byte == 0x30 && c->command == ERASE_2) chip_erase(c, at);
    else c->command = NO_COMMAND;
}

static inline uint32_t chip_lanes(const chip *c, uint32_t byte) {
    uint32_t value = 0;
    for (unsigned at = 0; at < c->bus_bytes; at += c->chip_bytes) value |= byte << 8 * at;
    return value;
}
static inline uint32_t chip_log(uint32_t n) {
    uint32_t log = 0;
    while (1u << log < n) log++;
    return log;
}
/* Byte i of the query, of one chip. The longest time is twice the usual one. */
static inline uint32_t chip_query(const chip *c, uint64_t i) {
    unsigned count = c->bus_bytes / c->chip_bytes;
    uint32_t blocks = CHIP_BLOCKS - 1, block = CHIP_BLOCK / count / 256;
    switch (i) {
    case 0x10: return 'Q';
    case 0x11: return 'R';
    case 0x12: return 'Y';
    case 0x13: return c->set;
    case 0x1f: return chip_log(CHIP_WORD_US) - 1;
    case 0x20: return chip_log(CHIP_BUFFER_US) - 1;
    case 0x21: return chip_log(CHIP_ERASE_US / 1000) - 1;
    case 0x23: case 0x24: case 0x25: return 1;
    case 0x27: return chip_log(CHIP_BYTES / count);
    case 0x2a: return c->buffer_bytes ? chip_log(c->buffer_bytes / count) : 0;
    case 0x2c: return c->regions;
    case 0x2d: return blocks & 255;
    case 0x2e: return blocks >> 8;
    case 0x2f: return block & 255;
    case 0x30: return block >> 8;
    default: return 0;
    }
}

void cfi_store(volatile uint8_t *at, unsigned bus_bytes, uint32_t value) {
    chip *c = chip_of(at);
    chip_now++;
    if (!c || bus_bytes != c->bus_bytes) return;
    if (c->set == CHIP_INTEL) chip_intel_store(c, (uint64_t)(at - c->map), value);
    else chip_amd_store(c, (uint64_t)(at - c->map), value);
}
uint32_t cfi_load(volatile uint8_t *at, unsigned bus_bytes) {
    chip *c = chip_of(at);
    chip_now++;
    if (!c || bus_bytes != c->bus_bytes) return 0;
    uint64_t offset = (uint64_t)(at - c->map);
    if (c->mode == IS_QUERY) return chip_lanes(c, chip_query(c, offset / bus_bytes));
    if (chip_gives_status(c)) return chip_lanes(c, chip_status(c));
    uint32_t value = 0;
    for (unsigned i = 0; i < bus_bytes; i++) value |= (uint32_t)c->cells[offset + i] << 8 * i;
    return value;
}
#endif
