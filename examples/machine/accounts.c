/* eNVy in a machine: a memory over the second flash part of qemu's `virt`, with SRAM in RAM that a file keeps. It
   attaches, or formats where nothing is there, lays down every word that it finds, and works from the piece on that
   word 0 names, saying the number of each once it was answered, until it is killed. */
#include "../../c/ports/cfi_intel.h"
#include "bare.h"
#include "machine.h"

enum work { WORK = 0, TELL = 1, PROBE = 2 };

static envy_setup setup = MACHINE_SETUP;
static envy_parted memory = ENVY_PARTED_INIT;
static uint64_t orders;

static void must(uint32_t code, const char *what) {
    if (code == ENVY_DONE) return;
    put_text("FAILED ");
    say(what, code);
    finish(1);
}

/* The part is read through the map that isn't cached, and its commands go out through the one of devices: a callback
   names the same bytes there. The barriers of the driver stand between. */
static void reset(cfi_part *part) { cfi_command(part, 0, 0xff); } /* this part has no line, and FF ends all that it does */
static cfi_part chips = {
    .base = (volatile uint8_t *)FLASH_AT, .bus_bytes = 4, .chip_bytes = 2, .microseconds = microseconds, .reset = reset,
};
static envy_part driver;

static volatile uint64_t *const order = (volatile uint64_t *)(uintptr_t)(ORDER_AT + NOT_CACHED);
static volatile uint8_t *device(volatile uint8_t *at) { return at - NOT_CACHED; }
static void program(void *context, volatile uint8_t *row, const uint8_t page[ENVY_ROW_BYTES]) {
    orders++;
    for (uint32_t i = 0; i < ENVY_ROW_BYTES; i += 8)
        if (~*(volatile uint64_t *)(row + i)) say("FAILED a row that isn't blank is ordered: byte", i);
    *order = 1;
    driver.program(context, device(row), page);
    *order = 0;
}
static void erase(void *context, volatile uint8_t *at, size_t bytes) {
    orders++;
    *order = 2;
    driver.erase(context, device(at), bytes);
    *order = 0;
}

static uint64_t draw(uint64_t *state) {
    *state += 0x9E3779B97F4A7C15;
    uint64_t z = *state;
    z = (z ^ (z >> 30)) * 0xBF58476D1CE4E5B9;
    z = (z ^ (z >> 27)) * 0x94D049BB133111EB;
    return z ^ (z >> 31);
}
static void tick(uint64_t drawn) {
    uint32_t did;
    if (drawn % 4 == 0) must(envy_parted_tick(&memory, &did), "tick");
}
static uint64_t loaded(uint32_t address) {
    uint64_t word;
    must(envy_parted_load(&memory, address, &word), "load");
    return word;
}

/* Moves an amount from one account to another and counts in word 0, or takes all of it back. */
static void transfer(uint64_t n, uint64_t *state, bool is_kept) {
    uint32_t slot, holder, from = 1 + (uint32_t)(draw(state) % (ACCOUNTS - 1)), to = 1 + (uint32_t)(draw(state) % (ACCOUNTS - 1));
    uint64_t amount = draw(state) % 1000;
    must(envy_parted_begin(&memory, &slot), "begin");
    must(envy_parted_put(&memory, slot, from, loaded(from) - amount, &holder), "put");
    tick(draw(state));
    must(envy_parted_put(&memory, slot, to, loaded(to) + amount, &holder), "put");
    tick(draw(state));
    must(envy_parted_put(&memory, slot, 0, n, &holder), "put");
    must(is_kept ? envy_parted_commit(&memory, slot) : envy_parted_abort(&memory, slot), "end");
}
/* Piece of work n: each fifth is a note, each seventh a transfer that is taken back, and the others are kept. */
static void work(uint64_t seed, uint64_t n) {
    uint64_t state = seed ^ (n * 0xD1B54A32D192ED03);
    uint32_t holder;
    if (n % 7 == 3) {
        transfer(n, &state, false);
    } else if (n % 5 == 2) {
        uint32_t address = ACCOUNTS + (uint32_t)(draw(&state) % (WORDS - ACCOUNTS));
        must(envy_parted_store(&memory, address, draw(&state), &holder), "store");
    } else {
        transfer(n, &state, true);
    }
}

/* Stores whose flushes fail, since the part can't be written: says which were done. */
static void probe(uint64_t seed) {
    uint64_t state = seed, done = 0, bad = 0;
    for (uint32_t i = 0; i < 200; i++) {
        uint32_t holder, address = ACCOUNTS + (uint32_t)(draw(&state) % (WORDS - ACCOUNTS));
        uint64_t word = draw(&state) >> 1;
        uint32_t code = envy_parted_store(&memory, address, word, &holder);
        if (code != ENVY_BAD) must(code, "store");
        if (code == ENVY_DONE) {
            put_text("stored ");
            say("", i);
        }
        done += code == ENVY_DONE;
        bad += code == ENVY_BAD;
    }
    say("answered bad", bad);
    say("answered done", done);
}

/* Lays down every word, as loaded; each must be committed too, since no transaction is open. */
static void lay_down(void) {
    volatile uint64_t *words = (volatile uint64_t *)(uintptr_t)(WORDS_AT + NOT_CACHED);
    for (uint32_t a = 0; a < WORDS; a++) {
        uint64_t looked;
        must(envy_parted_look(&memory, a, &looked), "look");
        words[a] = loaded(a);
        if (words[a] != looked) say("FAILED look", a);
    }
    say("words", WORDS);
}

static uint32_t open_memory(int32_t port) {
    envy_part_sizes sizes;
    must(envy_parted_sizes(&setup, &sizes), "sizes");
    if (sizes.rows != ROWS || sizes.words * 8 > SRAM_BYTES) must(ENVY_SRAM_SIZE, "sizes");
    envy_part_map flash = {(uint8_t (*)[ENVY_ROW_BYTES])(uintptr_t)(FLASH_AT + NOT_CACHED), sizes.rows};
    envy_words sram = {(uint64_t *)(uintptr_t)(SRAM_AT + NOT_CACHED), sizes.words};
    must(envy_parted_new(&memory), "new");
    uint32_t code = envy_parted_attach(&memory, &setup, flash, sram, port);
    say("attach", code);
    if (code != ENVY_UNFORMATTED) return code;
    heap_used = 0; /* nothing holds what the refused attach took */
    memory = (envy_parted)ENVY_PARTED_INIT;
    must(envy_parted_new(&memory), "new");
    return envy_parted_format(&memory, &setup, flash, sram, port);
}

int main(void) {
    paint_stack();
    *order = 0;
    const volatile uint64_t *given = (const volatile uint64_t *)GIVEN_AT;
    enum work what = (enum work)given[0];
    uint64_t seed = given[1];
    setup.policy = (uint32_t)given[2] % 5;
    if (cfi_intel_open(&chips) != CFI_DONE) must(ENVY_BAD, "part");
    driver = cfi_intel(&chips);
    envy_part callbacks = {&chips, program, erase};
    int32_t port = envy_part_open(&callbacks);
    must(open_memory(port), "open");
    say("orders", orders);
    say("heap", heap_used);
    say("stack", stack_used());
    if (what == PROBE) probe(seed);
    lay_down();
    if (what != WORK) return 0;
    size_t calls = heap_calls;
    put_text("working\n");
    paint_stack();
    for (uint64_t n = loaded(0) + 1;; n++) {
        work(seed, n);
        say("D", n);
        if (n % 64 == 0) say("stack of calls", stack_used());
        if (heap_calls != calls) say("FAILED calls of the heap", heap_calls - calls);
    }
}
