/* A driver for parts of Intel's command set. Whatever happened, it goes back to array mode, and an operation of which the
   part says that it failed, or that had to be ended by a reset, leaves something that differs from what was ordered. */
#include "cfi_intel.h"

enum {
    READ_ARRAY = 0xff, READ_QUERY = 0x98, CLEAR_STATUS = 0x50,
    WORD_PROGRAM = 0x40, BUFFER_PROGRAM = 0xe8, BLOCK_ERASE = 0x20, CONFIRM = 0xd0, LOCK_SETUP = 0x60,
    READY = 0x80, ERASE_BAD = 0x20, PROGRAM_BAD = 0x10, VOLTAGE_LOW = 0x08, IS_LOCKED = 0x02,
    FAILED = ERASE_BAD | PROGRAM_BAD | VOLTAGE_LOW | IS_LOCKED,
    UNLOCK_US = 1000,
};

/* Waits until each chip is ready. One that is late is waited for. */
static enum cfi_end wait_for(cfi_part *p, uint64_t offset, uint64_t most_us) {
    uint64_t start = p->microseconds();
    uint32_t ready = cfi_each(p, READY);
    for (;;) {
        uint64_t waited = p->microseconds() - start;
        uint32_t status = cfi_load(p->base + offset, p->bus_bytes);
        bool is_ready = (status & ready) == ready;
        if (waited > most_us + 1) p->was_late = true;
        if (is_ready && !(status & cfi_each(p, FAILED))) return CFI_WELL;
        if (!is_ready && waited <= CFI_PATIENCE * most_us) continue;
        p->status = status;
        return is_ready ? CFI_FAILED : CFI_STUCK;
    }
}

/* Takes away what was told of failures, and goes back to array mode. The last cycle is the one to the array, since some
   parts leave status mode when the status is cleared and some don't. */
static void settle(cfi_part *p, uint64_t offset) {
    cfi_command(p, offset, CLEAR_STATUS);
    cfi_command(p, offset, READ_ARRAY);
    cfi_barrier();
}

/* Blocks are locked after each start, and after a reset. */
static enum cfi_end unlock_all(cfi_part *p) {
    enum cfi_end end = CFI_WELL;
    for (uint32_t i = 0; i < p->blocks && end != CFI_STUCK; i++) {
        uint64_t at = (uint64_t)i * p->block_bytes;
        cfi_command(p, at, LOCK_SETUP);
        cfi_command(p, at, CONFIRM);
        enum cfi_end one = wait_for(p, at, UNLOCK_US);
        if (one != CFI_WELL) end = one;
    }
    settle(p, 0);
    return end;
}

/* Waits, and resets a part that stays busy. */
static enum cfi_end ends(cfi_part *p, uint64_t offset, uint64_t most_us) {
    enum cfi_end end = wait_for(p, offset, most_us);
    if (end == CFI_STUCK) {
        p->resets++;
        p->reset(p);
        if (unlock_all(p) == CFI_STUCK) p->reset(p);
    }
    return end;
}

int cfi_intel_open(cfi_part *p) {
    if (!p->reset) return CFI_NO_RESET;
    cfi_command(p, 0, READ_ARRAY);
    cfi_command(p, 0x55 * p->bus_bytes, READ_QUERY);
    int code = cfi_query(p, 1);
    if (code == CFI_ABSENT) code = cfi_query(p, 3);
    settle(p, 0);
    if (code) return code;
    return unlock_all(p) == CFI_WELL ? CFI_DONE : CFI_LOCKED;
}

static enum cfi_end order_word(cfi_part *p, uint64_t at, uint32_t word) {
    cfi_command(p, at, WORD_PROGRAM);
    cfi_store(p->base + at, p->bus_bytes, word);
    return ends(p, at, p->word_us);
}
static void program_word(cfi_part *p, uint64_t at, uint32_t word) {
    order_word(p, at, word);
    settle(p, at);
}

static enum cfi_end program_words(cfi_part *p, uint64_t row, const uint8_t *page) {
    uint8_t held[ENVY_ROW_BYTES];
    cfi_read_row(p, row, held);
    for (unsigned i = 0; i < ENVY_ROW_BYTES; i += p->bus_bytes) {
        uint32_t word = cfi_word(p, page + i);
        if (word == cfi_word(p, held + i)) continue;
        enum cfi_end end = order_word(p, row + i, word);
        if (end != CFI_WELL) return end;
    }
    return CFI_WELL;
}

static enum cfi_end program_buffers(cfi_part *p, uint64_t row, const uint8_t *page) {
    unsigned piece = p->buffer_bytes < ENVY_ROW_BYTES ? p->buffer_bytes : ENVY_ROW_BYTES;
    for (unsigned from = 0; from < ENVY_ROW_BYTES; from += piece) {
        uint64_t at = row + from;
        cfi_command(p, at, BUFFER_PROGRAM);
        enum cfi_end end = ends(p, at, p->buffer_us); /* until the buffer is free */
        if (end != CFI_WELL) return end;
        cfi_command(p, at, piece / p->bus_bytes - 1); /* words of each chip, less one */
        for (unsigned i = 0; i < piece; i += p->bus_bytes) cfi_store(p->base + at + i, p->bus_bytes, cfi_word(p, page + from + i));
        cfi_command(p, at, CONFIRM);
        end = ends(p, at, p->buffer_us);
        if (end != CFI_WELL) return end;
    }
    return CFI_WELL;
}

static void program(void *context, volatile uint8_t *row, const uint8_t page[ENVY_ROW_BYTES]) {
    cfi_part *p = context;
    uint64_t offset = (uint64_t)(row - p->base);
    cfi_barrier();
    enum cfi_end end = p->buffer_bytes >= p->bus_bytes ? program_buffers(p, offset, page) : program_words(p, offset, page);
    settle(p, offset);
    if (end != CFI_WELL) cfi_spoil(p, offset, page, program_word);
}

static void erase(void *context, volatile uint8_t *at, size_t bytes) {
    cfi_part *p = context;
    uint64_t first = (uint64_t)(at - p->base);
    cfi_barrier();
    for (uint64_t offset = first; offset < first + bytes; offset += p->block_bytes) {
        cfi_command(p, offset, BLOCK_ERASE);
        cfi_command(p, offset, CONFIRM);
        enum cfi_end end = ends(p, offset, p->erase_us);
        settle(p, offset);
        if (end == CFI_WELL) continue;
        cfi_spoil_erased(p, offset, program_word);
        return;
    }
}

envy_part cfi_intel(cfi_part *p) { return (envy_part){p, program, erase}; }
