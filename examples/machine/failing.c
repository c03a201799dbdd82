/* Orders that go wrong, over whole calls of a memory over a part, on the host: a callback makes a drawn order bad, late,
   half done, done elsewhere in its row, done and told bad, or upward. A call must answer ENVY_BAD exactly where what
   it ordered isn't there, leave every word as before, and order nothing more; between two erases of a segment each row is
   ordered once, where it is blank, and a later one lies higher, so a row that went wrong is left alone. The same over the
   drivers of c/ports and a model of their chips (examples/ports/chip.h), which tells a failure although its cells read
   right, or fails half done, or is late, or stays busy until it is reset. Then: what is refused, with nothing ordered; the
   heap failing at each of its calls; two parts at once; a put of two places that is cut.

     failing SEED */
#include "../../c/envy_parted.h"
#include "../../c/envy_text.h"
#include "../../c/ports/cfi_amd.h"
#include "../../c/ports/cfi_intel.h"
#include "../ports/chip.h"
#include <stdbool.h>
#include <stdio.h>
#include <stdlib.h>
#include <string.h>

enum { SEGMENTS = 8, ROWS = 16, PAGES = 64, WORDS = 32 * PAGES, ALL_ROWS = SEGMENTS * ROWS, STEPS = 30000 };

static const envy_setup the_setup = {
    .segments = SEGMENTS, .rows = ROWS, .pages = PAGES, .shadows = 16, .frames = 8, .entries = 4,
    .policy = ENVY_GREEDY, .part = 2, .limit = 3, .mark = 6,
};

#define MUST(holds)                                                                                                    \
    do {                                                                                                               \
        if (!(holds)) {                                                                                                \
            fprintf(stderr, "failing.c:%d: %s\n", __LINE__, #holds);                                                   \
            exit(1);                                                                                                   \
        }                                                                                                              \
    } while (0)

static uint64_t state;
static uint64_t draw(uint64_t below) {
    state += 0x9E3779B97F4A7C15;
    uint64_t z = state;
    z = (z ^ (z >> 30)) * 0xBF58476D1CE4E5B9;
    z = (z ^ (z >> 27)) * 0x94D049BB133111EB;
    return (z ^ (z >> 31)) % below;
}

/* Power fails before a store of two_places.h: that one and all behind it aren't done. */
static int stores_left;
#define TWO_PLACES_BITS 16
#define TWO_PLACES_STORE(at, value) (stores_left-- > 0 ? (void)((at) = (value)) : (void)0)
#define TWO_PLACES_BARRIER() ((void)0)
#include "../../c/ports/two_places.h"

/* The heap of heap.c, which counts its calls and fails at one of them. */
struct block {
    bool ok;
    void *at;
};
static uint64_t heap_calls, heap_fails_at;
static char nowhere;
static struct block block_of(void *at) { return at ? (struct block){true, at} : (struct block){false, &nowhere}; }
struct block rattle_alloc(size_t bytes, size_t align) {
    if (++heap_calls == heap_fails_at) return block_of(NULL);
    return block_of(malloc(bytes ? bytes : align));
}
struct block rattle_realloc(void *at, size_t kept, size_t bytes, size_t align) {
    (void)kept;
    if (++heap_calls == heap_fails_at) return block_of(NULL);
    return block_of(realloc(at, bytes ? bytes : align));
}
void rattle_dealloc(void *at) { free(at); }

/* up to UPWARD by a callback of this file, from CHIP_FAILS on by a model of a chip under a driver */
enum manner { RIGHT, NOTHING, LATE, HALF, ELSEWHERE, TOLD_BAD, UPWARD, CHIP_FAILS, CHIP_FAILS_HALF, CHIP_IS_LATE, CHIP_IS_STUCK, MANNERS };
static const char *const manner_names[MANNERS] = {
    "right", "nothing", "late", "half", "elsewhere", "told bad", "upward", "chip fails", "chip half", "chip late", "chip stuck",
};
static const enum chip_fault fault_of[MANNERS] = {
    [CHIP_FAILS] = CHIP_TELLS, [CHIP_FAILS_HALF] = CHIP_HALF, [CHIP_IS_LATE] = CHIP_LATE, [CHIP_IS_STUCK] = CHIP_STUCK,
};
static bool is_done_all_the_same(enum manner manner) { return manner == TOLD_BAD || manner == CHIP_IS_LATE; }

/* what carries the orders out: a callback of this file, or a driver over a model of a chip */
enum kind { PLAIN, INTEL, AMD, KINDS };
static enum manner first_manner(enum kind kind) { return kind == PLAIN ? NOTHING : CHIP_FAILS; }
static enum manner end_of_manners(enum kind kind) { return kind == PLAIN ? CHIP_FAILS : MANNERS; }
enum call { FORMAT, STORE, PUT, TICK, CALLS };
static const char *const call_names[CALLS] = {"format", "store", "put", "tick"};

/* A part in memory. Order number `turn`, or the next erase, is carried out in a manner, and every other right. */
typedef struct fake {
    uint8_t (*rows)[ENVY_ROW_BYTES];
    enum kind kind;
    chip chip;
    cfi_part cfi;
    envy_part driver;
    enum manner manner;
    uint64_t orders, turn, told_bad;
    uint8_t before[ENVY_ROW_BYTES];
    int next[SEGMENTS];    /* the lowest row of the segment that may be ordered yet */
    bool awaits_erase;
    bool is_wrong, is_erase; /* whether the last order isn't there, and whether it was an erase */
    bool was_ordered_after_wrong;
} fake;

/* answers that were ENVY_BAD, and orders that were told bad and weren't: by manner, call, and program or erase */
static uint64_t table[MANNERS][CALLS][2];
static enum call in_call;

static enum manner manner_of(fake *f, bool is_erase) {
    f->was_ordered_after_wrong |= f->is_wrong;
    f->is_erase = is_erase;
    f->orders++;
    if (f->awaits_erase ? !is_erase : f->orders != f->turn) return RIGHT;
    f->awaits_erase = false;
    return f->manner;
}
/* A driver returned: the part reads as its array, and what the chip told of a failure is there to be seen. */
static void end_of_order(fake *f, enum manner manner, bool is_wrong) {
    MUST(!chip_gives_status(&f->chip) && f->chip.mode == IS_ARRAY && f->chip.fault == CHIP_RIGHT);
    MUST(is_wrong == (manner != RIGHT && !is_done_all_the_same(manner)));
    MUST((f->cfi.resets != 0) == (manner == CHIP_IS_STUCK) && f->cfi.was_late == (manner == CHIP_IS_LATE || manner == CHIP_IS_STUCK));
    f->cfi.resets = 0;
    f->cfi.was_late = false;
    f->is_wrong = is_wrong;
    if (manner == CHIP_IS_LATE) table[CHIP_IS_LATE][in_call][f->is_erase]++;
}
static void reset(cfi_part *part) { chip_reset(chip_of(part->base)); }
static void clear(volatile uint8_t *row, const uint8_t *page, size_t count, size_t shift) {
    for (size_t i = 0; i < count; i++) row[(i + shift) % ENVY_ROW_BYTES] &= page[i];
}
static void program(void *context, volatile uint8_t *at, const uint8_t page[ENVY_ROW_BYTES]) {
    fake *f = context;
    size_t row = (size_t)((uint8_t (*)[ENVY_ROW_BYTES])at - f->rows);
    int *next = &f->next[row / ROWS];
    MUST(row < ALL_ROWS && (int)(row % ROWS) >= *next);
    *next = (int)(row % ROWS) + 1;
    for (size_t i = 0; i < ENVY_ROW_BYTES; i++) MUST(at[i] == 0xff);
    enum manner manner = manner_of(f, false);
    if (f->kind != PLAIN) {
        f->chip.fault = fault_of[manner];
        f->driver.program(f->driver.context, at, page);
        chip_show(&f->chip);
        end_of_order(f, manner, memcmp(f->rows[row], page, ENVY_ROW_BYTES) != 0);
        return;
    }
    switch (manner) {
    case NOTHING: break;
    case LATE: clear(at, f->before, ENVY_ROW_BYTES, 0); break;
    case HALF: clear(at, page, ENVY_ROW_BYTES / 2, 0); break;
    case ELSEWHERE: clear(at, page, ENVY_ROW_BYTES, 8); break;
    case UPWARD: memset(f->rows[row], 0xff, ENVY_ROW_BYTES); break;
    default: clear(at, page, ENVY_ROW_BYTES, 0);
    }
    memcpy(f->before, page, ENVY_ROW_BYTES);
    f->is_wrong = memcmp(f->rows[row], page, ENVY_ROW_BYTES) != 0;
    if (manner == TOLD_BAD) f->told_bad++, table[TOLD_BAD][in_call][0]++;
}
static void erase(void *context, volatile uint8_t *at, size_t bytes) {
    fake *f = context;
    size_t row = (size_t)((uint8_t (*)[ENVY_ROW_BYTES])at - f->rows);
    MUST(bytes == ROWS * ENVY_ROW_BYTES && row % ROWS == 0 && row < ALL_ROWS);
    f->next[row / ROWS] = 0;
    enum manner manner = manner_of(f, true);
    if (f->kind != PLAIN) {
        f->chip.fault = fault_of[manner];
        f->driver.erase(f->driver.context, at, bytes);
        bool is_wrong = false;
        chip_show(&f->chip);
        for (size_t i = 0; i < bytes; i++) is_wrong |= at[i] != 0xff;
        end_of_order(f, manner, is_wrong);
        return;
    }
    size_t count = manner == NOTHING || manner == LATE ? 0 : manner == HALF ? ROWS / 2 : manner == ELSEWHERE ? ROWS - 1 : ROWS;
    memset(f->rows[row], 0xff, count * ENVY_ROW_BYTES);
    f->is_wrong = false;
    for (size_t i = 0; i < bytes; i++) f->is_wrong |= at[i] != 0xff;
    if (manner == TOLD_BAD) f->told_bad++, table[TOLD_BAD][in_call][1]++;
}

/* A memory over a part of its own, and what its words must be. */
typedef struct store {
    fake part;
    envy_part callbacks;
    int32_t port;
    envy_parted memory;
    envy_part_map flash;
    envy_words sram;
    envy_setup setup;
    uint64_t words[WORDS], committed[WORDS];
    bool is_owned[PAGES];
    bool is_open;
    uint32_t slot;
    uint64_t bads, heap_calls;
} store;

/* A driver over a model: two chips of 16 bits with write buffers, or one without. */
static void make_chip(fake *f, enum kind kind) {
    bool is_intel = kind == INTEL;
    f->kind = kind;
    chip_make(&f->chip, is_intel ? CHIP_INTEL : CHIP_AMD, f->rows[0], is_intel ? 4 : 2, 2, is_intel ? 128 : 0);
    f->cfi = (cfi_part){.base = f->rows[0], .bus_bytes = is_intel ? 4 : 2, .chip_bytes = 2, .microseconds = chip_microseconds};
    int (*open)(cfi_part *) = is_intel ? cfi_intel_open : cfi_amd_open;
    MUST(open(&f->cfi) == CFI_NO_RESET);
    f->cfi.reset = reset;
    f->chip.regions = 2; /* boot blocks */
    MUST(open(&f->cfi) == CFI_UNEVEN);
    f->chip.regions = 1;
    MUST(open(&f->cfi) == CFI_DONE);
    MUST(f->cfi.bytes == CHIP_BYTES && f->cfi.block_bytes == CHIP_BLOCK && f->cfi.buffer_bytes == f->chip.buffer_bytes);
    MUST(f->cfi.word_us == CHIP_WORD_US && f->cfi.buffer_us == CHIP_BUFFER_US && f->cfi.erase_us == CHIP_ERASE_US);
    f->driver = is_intel ? cfi_intel(&f->cfi) : cfi_amd(&f->cfi);
}
static void make(store *s, enum kind kind) {
    envy_part_sizes sizes;
    memset(s, 0, sizeof *s);
    s->setup = the_setup;
    MUST(envy_parted_sizes(&s->setup, &sizes) == ENVY_DONE && sizes.rows == ALL_ROWS);
    s->flash = (envy_part_map){aligned_alloc(4096, sizes.rows * ENVY_ROW_BYTES), sizes.rows};
    s->sram = (envy_words){aligned_alloc(4096, (8 * sizes.words + 4095) / 4096 * 4096), sizes.words};
    MUST(s->flash.at && s->sram.at);
    memset(s->flash.at, 0, sizes.rows * ENVY_ROW_BYTES);
    memset(s->sram.at, 0, 8 * sizes.words);
    s->part.rows = s->flash.at;
    if (kind != PLAIN) make_chip(&s->part, kind);
    s->callbacks = (envy_part){&s->part, program, erase};
    s->port = envy_part_open(&s->callbacks);
    MUST(s->port >= 0);
    s->memory = (envy_parted)ENVY_PARTED_INIT;
    MUST(envy_parted_new(&s->memory) == ENVY_DONE);
}
static void unmake(store *s) {
    envy_parted_close(&s->memory);
    envy_part_close(s->port);
    chip_unmake(&s->part.chip);
    free(s->memory.at); /* a place lasts until the program ends; here it is known to come from malloc */
    free(s->flash.at);
    free(s->sram.at);
}
static uint32_t format(store *s) {
    return envy_parted_format(&s->memory, &s->setup, s->flash, s->sram, s->port);
}
static uint32_t attach(store *s) {
    return envy_parted_attach(&s->memory, &s->setup, s->flash, s->sram, s->port);
}
static void compare(store *s) {
    for (uint32_t a = 0; a < WORDS; a++) {
        uint64_t word;
        MUST(envy_parted_load(&s->memory, a, &word) == ENVY_DONE && word == s->words[a]);
        MUST(envy_parted_look(&s->memory, a, &word) == ENVY_DONE && word == s->committed[a]);
    }
}

static void begin_call(store *s, enum call call) {
    in_call = call;
    s->part.is_wrong = s->part.was_ordered_after_wrong = false;
    if (draw(6) || s->part.awaits_erase) return;
    s->part.awaits_erase = draw(4) == 0;
    s->part.turn = s->part.awaits_erase ? 0 : s->part.orders + 1 + draw(3);
    enum manner first = first_manner(s->part.kind);
    s->part.manner = first + draw(end_of_manners(s->part.kind) - first);
}
/* ENVY_BAD exactly where the last order isn't there, nothing ordered behind it, and no word changed. */
static bool ends_well(store *s, uint32_t code, enum call call) {
    MUST((code == ENVY_BAD) == s->part.is_wrong);
    MUST(!s->part.was_ordered_after_wrong);
    if (code != ENVY_BAD) {
        MUST(code == ENVY_DONE);
        return true;
    }
    table[s->part.manner][call][s->part.is_erase]++;
    s->bads++;
    compare(s);
    return false;
}
static void step(store *s) {
    uint32_t holder, did, address = (uint32_t)draw(WORDS), page = address / 32;
    uint64_t word = draw(UINT64_MAX);
    switch (draw(8)) {
    case 0: case 1: case 2:
        if (s->is_owned[page]) break;
        begin_call(s, STORE);
        if (ends_well(s, envy_parted_store(&s->memory, address, word, &holder), STORE)) s->words[address] = s->committed[address] = word;
        break;
    case 3: case 4: case 5:
        if (!s->is_open) MUST(envy_parted_begin(&s->memory, &s->slot) == ENVY_DONE);
        s->is_open = true;
        begin_call(s, PUT);
        if (!ends_well(s, envy_parted_put(&s->memory, s->slot, address, word, &holder), PUT)) break;
        s->words[address] = word;
        s->is_owned[page] = true;
        break;
    case 6:
        begin_call(s, TICK);
        ends_well(s, envy_parted_tick(&s->memory, &did), TICK);
        break;
    default: break;
    }
    unsigned owned = 0;
    for (int p = 0; p < PAGES; p++) owned += s->is_owned[p];
    if (owned < 14 && draw(12)) return;
    if (!s->is_open) return;
    /* an end of a transaction orders nothing */
    uint64_t orders = s->part.orders;
    if (draw(3)) {
        MUST(envy_parted_commit(&s->memory, s->slot) == ENVY_DONE);
        memcpy(s->committed, s->words, sizeof s->words);
    } else {
        MUST(envy_parted_abort(&s->memory, s->slot) == ENVY_DONE);
        memcpy(s->words, s->committed, sizeof s->words);
    }
    MUST(s->part.orders == orders);
    s->is_open = false;
    memset(s->is_owned, 0, sizeof s->is_owned);
}
/* What was open is undone, and an attachment, under a policy that is drawn anew, orders nothing. */
static void restart(store *s) {
    MUST(heap_calls == s->heap_calls);
    uint64_t orders = s->part.orders;
    envy_parted_close(&s->memory);
    s->setup.policy = (uint32_t)draw(5);
    MUST(attach(s) == ENVY_DONE);
    MUST(s->part.orders == orders);
    memcpy(s->words, s->committed, sizeof s->words);
    memset(s->is_owned, 0, sizeof s->is_owned);
    s->is_open = false;
    compare(s);
    s->heap_calls = heap_calls;
}

/* Two memories over a part each, with orders that go wrong in both. */
static void sessions(enum kind first, enum kind second) {
    static store two[2];
    for (int i = 0; i < 2; i++) {
        make(&two[i], i ? second : first);
        MUST(format(&two[i]) == ENVY_DONE);
        compare(&two[i]);
    }
    two[0].heap_calls = two[1].heap_calls = heap_calls;
    for (int n = 0; n < STEPS; n++) {
        step(&two[draw(2)]);
        if (n % 256 == 255) {
            store *s = &two[draw(2)];
            restart(s);
            two[0].heap_calls = two[1].heap_calls = heap_calls;
        }
    }
    for (int i = 0; i < 2; i++) {
        restart(&two[i]);
        two[0].heap_calls = two[1].heap_calls = heap_calls;
    }
    for (int i = 0; i < 2; i++) unmake(&two[i]);
}

/* A format whose order goes wrong: nothing that is formatted is left, and the next format is done. */
static void formats(enum kind kind) {
    for (enum manner manner = first_manner(kind); manner < end_of_manners(kind); manner++)
        for (uint64_t turn = 1; turn <= SEGMENTS; turn++) {
            static store s;
            make(&s, kind);
            in_call = FORMAT;
            s.part.manner = manner;
            s.part.turn = turn;
            uint32_t code = format(&s);
            MUST((code == ENVY_BAD) == s.part.is_wrong && (code == ENVY_BAD || code == ENVY_DONE));
            if (code == ENVY_BAD) {
                uint64_t word;
                table[manner][FORMAT][1]++;
                MUST(s.part.orders == turn);
                MUST(envy_parted_load(&s.memory, 0, &word) == ENVY_EMPTY);
                MUST(attach(&s) == ENVY_UNFORMATTED && s.part.orders == turn);
                s.part.is_wrong = false;
                MUST(format(&s) == ENVY_DONE);
            }
            compare(&s);
            unmake(&s);
        }
}

static store refused_store;
static uint8_t flash_kept[ALL_ROWS][ENVY_ROW_BYTES];
static uint64_t sram_kept[1 << 14];

/* Neither opens it: nothing is ordered, and part, SRAM and place are as before. */
static void refuses(int line, const envy_setup *setup, envy_part_map flash, envy_words sram, uint32_t code, bool only_attach) {
    store *s = &refused_store;
    uint64_t word, orders = s->part.orders;
    memcpy(flash_kept, s->flash.at, sizeof flash_kept);
    memcpy(sram_kept, s->sram.at, 8 * s->sram.len);
    uint32_t found = envy_parted_attach(&s->memory, setup, flash, sram, s->port);
    if (!only_attach && found == code) found = envy_parted_format(&s->memory, setup, flash, sram, s->port);
    bool is_same = memcmp(flash_kept, s->flash.at, sizeof flash_kept) == 0 && memcmp(sram_kept, s->sram.at, 8 * s->sram.len) == 0;
    if (found == code && is_same && s->part.orders == orders && envy_parted_load(&s->memory, 0, &word) == ENVY_EMPTY) return;
    fprintf(stderr, "failing.c:%d: %u (%s), not %u\n", line, found, envy_error_text(found), code);
    exit(1);
}
#define REFUSES(setup, flash, sram, code) refuses(__LINE__, setup, flash, sram, code, false)
#define HOLDS_NONE(setup, flash, sram, code) refuses(__LINE__, setup, flash, sram, code, true)

static envy_part_map map_at(uint64_t address, size_t len) {
    return (envy_part_map){(uint8_t (*)[ENVY_ROW_BYTES])(uintptr_t)address, len};
}
static envy_words words_at(uint64_t address, size_t len) { return (envy_words){(uint64_t *)(uintptr_t)address, len}; }

static void refusals(void) {
    store *s = &refused_store;
    make(s, PLAIN);
    const envy_setup setup = s->setup;
    envy_part_map f = s->flash;
    envy_words w = s->sram;
    uint64_t flash = (uintptr_t)f.at, sram = (uintptr_t)w.at, top = UINT64_MAX;
    envy_setup other = setup;
    other.policy = 5;
    REFUSES(&other, f, w, ENVY_POLICY);
    other = setup, other.segments = 3;
    REFUSES(&other, f, w, ENVY_SETUP_SEGMENTS);
    other = setup, other.mark = 9;
    REFUSES(&other, f, w, ENVY_SETUP_MARK);
    REFUSES(&setup, map_at(0, f.len), w, ENVY_FLASH_ADDRESS);
    REFUSES(&setup, map_at(flash + 128, f.len), w, ENVY_FLASH_ADDRESS);
    REFUSES(&setup, f, words_at(0, w.len), ENVY_SRAM_ADDRESS);
    REFUSES(&setup, f, words_at(sram + 4, w.len), ENVY_SRAM_ADDRESS);
    REFUSES(&setup, map_at(flash, f.len - 1), w, ENVY_FLASH_SIZE);
    REFUSES(&setup, map_at(flash, f.len + 1), w, ENVY_FLASH_SIZE);
    REFUSES(&setup, map_at(flash, 0), w, ENVY_FLASH_SIZE);
    REFUSES(&setup, f, words_at(sram, w.len - 1), ENVY_SRAM_SIZE);
    REFUSES(&setup, f, words_at(sram, w.len + 1), ENVY_SRAM_SIZE);
    REFUSES(&setup, map_at(top - 255, f.len), w, ENVY_PAST);
    REFUSES(&setup, f, words_at(top - 7, w.len), ENVY_PAST);
    REFUSES(&setup, f, words_at(flash, w.len), ENVY_OVERLAP);
    REFUSES(&setup, f, words_at(flash + ENVY_ROW_BYTES * (f.len - 1), w.len), ENVY_OVERLAP);
    HOLDS_NONE(&setup, f, w, ENVY_UNFORMATTED);

    MUST(format(s) == ENVY_DONE);
    MUST(format(s) == ENVY_OPEN && attach(s) == ENVY_OPEN);
    for (uint32_t a = 0; a < WORDS; a += 32) {
        uint32_t holder;
        MUST(envy_parted_store(&s->memory, a, a, &holder) == ENVY_DONE);
    }
    envy_parted_close(&s->memory);
    other = setup, other.shadows = 15;
    HOLDS_NONE(&other, f, w, ENVY_OTHER_SHAPE);
    w.at[1] = 1;
    HOLDS_NONE(&setup, f, w, ENVY_OLDER);
    w.at[1] = 2, w.at[5] = 7;
    HOLDS_NONE(&setup, f, w, ENVY_BROKEN_FIELDS);
    w.at[5] = 0;
    MUST(attach(s) == ENVY_DONE);

    /* over a number that is no part's nothing is carried out, and the library sees it */
    envy_parted_close(&s->memory);
    memset(f.at, 0, sizeof flash_kept);
    MUST(envy_parted_format(&s->memory, &setup, f, w, -1) == ENVY_BAD);
    MUST(envy_parted_format(&s->memory, &setup, f, w, s->port + 1) == ENVY_BAD);
    unmake(s);
}

/* The heap fails at its first call, its second, and so on, until opening is done. */
static void want_of_memory(void) {
    static store s;
    make(&s, PLAIN);
    uint64_t failed = 0;
    for (bool is_format = true;; is_format = false) {
        uint32_t code;
        for (uint64_t n = 1;; n++) {
            uint64_t orders = s.part.orders;
            heap_calls = 0, heap_fails_at = n;
            code = is_format ? format(&s) : attach(&s);
            heap_fails_at = 0;
            if (code == ENVY_DONE) break;
            MUST(code == ENVY_NO_MEMORY && s.part.orders == orders);
            failed++;
        }
        envy_parted_close(&s.memory);
        if (!is_format) break;
    }
    envy_parted place = ENVY_PARTED_INIT;
    heap_calls = 0, heap_fails_at = 1;
    MUST(envy_parted_new(&place) == ENVY_NO_MEMORY && !place.at);
    heap_fails_at = 0;
    unmake(&s);
    printf("the heap failed at each of %lu calls of opening: nothing was ordered\n", failed);
}

/* A put that is cut before any of its stores leaves the old word or the new one. */
static void cut_puts(void) {
    enum { STORES = TWO_PLACES_BEATS + 1 };
    two_places w = {0};
    uint64_t held = 0;
    MUST(two_places_get(&w) == held);
    for (int n = 0; n < 1000; n++) {
        uint64_t word = draw(UINT64_MAX), found;
        stores_left = n % (STORES + 1);
        bool is_whole = stores_left == STORES;
        two_places_put(&w, word);
        found = two_places_get(&w);
        MUST(found == (is_whole ? word : held));
        held = found;
    }
}

static void tell(void) {
    for (enum manner m = NOTHING; m < MANNERS; m++) {
        printf("%-10s", manner_names[m]);
        for (enum call c = FORMAT; c < CALLS; c++) {
            printf("  %s", call_names[c]);
            if (c != FORMAT) printf(" %5lu programs", table[m][c][0]);
            printf(" %4lu erases", table[m][c][1]);
            /* an erase can't go upward */
            if (c != FORMAT) MUST(table[m][c][0]);
            if (m != UPWARD) MUST(table[m][c][1]);
        }
        printf("%s\n", is_done_all_the_same(m) ? ": done all the same" : ": each answered ENVY_BAD, no word changed");
    }
}

int main(int count, char **words) {
    state = count > 1 ? strtoull(words[1], NULL, 10) : 1;
    for (enum kind kind = PLAIN; kind < KINDS; kind++) formats(kind);
    sessions(PLAIN, PLAIN);
    sessions(INTEL, AMD);
    refusals();
    want_of_memory();
    cut_puts();
    tell();
    return 0;
}
