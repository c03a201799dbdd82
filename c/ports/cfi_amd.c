/* A driver for parts of AMD's command set. Whatever happened, it goes back to array mode, and an operation of which the
   part says that it failed, or that had to be ended by a reset, leaves something that differs from what was ordered. */
#include "cfi_amd.h"

enum {
    RESET = 0xf0, READ_QUERY = 0x98, UNLOCK_1 = 0xaa, UNLOCK_2 = 0x55,
    WORD_PROGRAM = 0xa0, BUFFER_LOAD = 0x25, BUFFER_CONFIRM = 0x29, ERASE_SETUP = 0x80, BLOCK_ERASE = 0x30,
    TOGGLE = 0x40, TIME_OUT = 0x20, ABORTED = 0x02, /* bits 6, 5 and 1 of the status */
};

static void command(cfi_part *p, uint32_t byte) { cfi_command(p, 0x555 * p->bus_bytes, byte); }
static void unlock(cfi_part *p) {
    command(p, UNLOCK_1);
    cfi_command(p, 0x2aa * p->bus_bytes, UNLOCK_2);
}

/* Reads the status twice, and returns bit 6 of the chips that toggle: they are busy, or failed. */
static uint32_t toggles(cfi_part *p, uint64_t offset, uint32_t *status) {
    uint32_t first = cfi_load(p->base + offset, p->bus_bytes);
    *status = cfi_load(p->base + offset, p->bus_bytes);
    return (first ^ *status) & cfi_each(p, TOGGLE);
}
/* Whether each chip that toggles says that it failed: by bit 5, or of a buffered write by bit 1. */
static bool tell_failure(uint32_t toggling, uint32_t status, bool is_buffered) {
    uint32_t told = status << 1 | (is_buffered ? status << 5 : 0); /* TIME_OUT and ABORTED, at the place of TOGGLE */
    return (told & toggling) == toggling;
}

/* Waits until no chip toggles any more. One that is late is waited for, and what stays busy is reset. Where the chips
   say that they failed, they are looked at once more, since one may have ended between the two reads. */
static enum cfi_end ends(cfi_part *p, uint64_t offset, uint64_t most_us, bool is_buffered) {
    uint64_t start = p->microseconds();
    for (;;) {
        uint64_t waited = p->microseconds() - start;
        uint32_t status, toggling = toggles(p, offset, &status);
        if (waited > most_us + 1) p->was_late = true;
        if (!toggling) return CFI_WELL;
        if (tell_failure(toggling, status, is_buffered)) {
            toggling = toggles(p, offset, &status);
            if (!toggling) return CFI_WELL;
            if (!tell_failure(toggling, status, is_buffered)) continue;
            p->status = status;
            return CFI_FAILED;
        }
        if (waited <= CFI_PATIENCE * most_us) continue;
        p->status = status;
        p->resets++;
        p->reset(p);
        return CFI_STUCK;
    }
}

static void settle(cfi_part *p, uint64_t offset) {
    cfi_command(p, offset, RESET);
    cfi_barrier();
}

int cfi_amd_open(cfi_part *p) {
    if (!p->reset) return CFI_NO_RESET;
    settle(p, 0);
    cfi_command(p, 0x55 * p->bus_bytes, READ_QUERY);
    int code = cfi_query(p, 2);
    settle(p, 0);
    return code;
}

static enum cfi_end order_word(cfi_part *p, uint64_t at, uint32_t word) {
    unlock(p);
    command(p, WORD_PROGRAM);
    cfi_store(p->base + at, p->bus_bytes, word);
    return ends(p, at, p->word_us, false);
}
static void program_word(cfi_part *p, uint64_t at, uint32_t word) {
    order_word(p, at, word);
    settle(p, at);
}

static enum cfi_end program_words(cfi_part *p, uint64_t row, const uint8_t *page) {
    uint8_t held[ENVY_ROW_BYTES];
    cfi_read_row(p, row, held);
    for (unsigned i = 0; i < ENVY_ROW_BYTES; i += p->bus_bytes) {
        uint32_t word = cfi_word(p, page + i);
        if (word == cfi_word(p, held + i)) continue;
        enum cfi_end end = order_word(p, row + i, word);
        if (end != CFI_WELL) return end;
    }
    return CFI_WELL;
}

static enum cfi_end program_buffers(cfi_part *p, uint64_t row, const uint8_t *page) {
    unsigned piece = p->buffer_bytes < ENVY_ROW_BYTES ? p->buffer_bytes : ENVY_ROW_BYTES;
    for (unsigned from = 0; from < ENVY_ROW_BYTES; from += piece) {
        uint64_t at = row + from;
        unlock(p);
        cfi_command(p, at, BUFFER_LOAD);
        cfi_command(p, at, piece / p->bus_bytes - 1); /* words of each chip, less one */
        for (unsigned i = 0; i < piece; i += p->bus_bytes) cfi_store(p->base + at + i, p->bus_bytes, cfi_word(p, page + from + i));
        cfi_command(p, at, BUFFER_CONFIRM);
        enum cfi_end end = ends(p, at + piece - p->bus_bytes, p->buffer_us, true);
        if (end == CFI_WELL) continue;
        unlock(p); /* a part that gave a buffered write up wants its own reset */
        command(p, RESET);
        return end;
    }
    return CFI_WELL;
}

static void program(void *context, volatile uint8_t *row, const uint8_t page[ENVY_ROW_BYTES]) {
    cfi_part *p = context;
    uint64_t offset = (uint64_t)(row - p->base);
    cfi_barrier();
    enum cfi_end end = p->buffer_bytes >= p->bus_bytes ? program_buffers(p, offset, page) : program_words(p, offset, page);
    settle(p, offset);
    if (end != CFI_WELL) cfi_spoil(p, offset, page, program_word);
}

static void erase(void *context, volatile uint8_t *at, size_t bytes) {
    cfi_part *p = context;
    uint64_t first = (uint64_t)(at - p->base);
    cfi_barrier();
    for (uint64_t offset = first; offset < first + bytes; offset += p->block_bytes) {
        unlock(p);
        command(p, ERASE_SETUP);
        unlock(p);
        cfi_command(p, offset, BLOCK_ERASE);
        enum cfi_end end = ends(p, offset, p->erase_us, false);
        settle(p, offset);
        if (end == CFI_WELL) continue;
        cfi_spoil_erased(p, offset, program_word);
        return;
    }
}

envy_part cfi_amd(cfi_part *p) { return (envy_part){p, program, erase}; }
