/* Between two stores to SRAM there is a barrier: the library runs over SRAM that can't be written, each store of its
   machine code stops, is done alone, and is noted. After it the library must order a barrier before the next store, and
   before another order to the part; and it changes one word. Linked with --wrap=envy_part_order, so that the real one runs
   too. On x86-64 a store is stepped over by the trap flag, on 64-bit ARM by a breakpoint behind it.

     stores */
#define _GNU_SOURCE
#include "../../c/envy_parted.h"
#include <signal.h>
#include <stdbool.h>
#include <stdio.h>
#include <stdlib.h>
#include <string.h>
#include <sys/mman.h>
#include <ucontext.h>
#include <unistd.h>

enum { SEGMENTS = 8, ROWS = 8, PAGES = 32, WORDS = 32 * PAGES, STEPS = 600, SRAM_WORDS = 4096 };

static uint64_t *sram, kept[SRAM_WORDS];
static uint8_t flash[SEGMENTS * ROWS][ENVY_ROW_BYTES] __attribute__((aligned(4096)));
static uint64_t stores, barriers, orders;
static bool awaits_barrier;

static void fail(const char *why) {
    fprintf(stderr, "stores.c: %s, after %lu stores and %lu barriers\n", why, stores, barriers);
    _exit(1);
}
static void protect(int how) {
    if (mprotect(sram, 8 * SRAM_WORDS, how)) fail("the SRAM can't be protected");
}

#if defined(__aarch64__)
enum { BREAK = 0xd4200000 };
static uint32_t *behind, held;
static void write_code(uint32_t word) {
    uintptr_t page = (uintptr_t)behind & ~(uintptr_t)4095;
    if (mprotect((void *)page, 4096, PROT_READ | PROT_WRITE | PROT_EXEC)) fail("code can't be written");
    *behind = word;
    __builtin___clear_cache((char *)behind, (char *)(behind + 1));
}
static void step_over(ucontext_t *at) {
    behind = (uint32_t *)at->uc_mcontext.pc + 1;
    held = *behind;
    write_code(BREAK);
}
static void stepped(ucontext_t *at) {
    (void)at;
    write_code(held);
}
#else
enum { TRAP_FLAG = 0x100 };
static void step_over(ucontext_t *at) { at->uc_mcontext.gregs[REG_EFL] |= TRAP_FLAG; }
static void stepped(ucontext_t *at) { at->uc_mcontext.gregs[REG_EFL] &= ~(greg_t)TRAP_FLAG; }
#endif

static void on_store(int signal, siginfo_t *info, void *at) {
    (void)signal;
    uintptr_t offset = (uintptr_t)info->si_addr - (uintptr_t)sram;
    if (offset >= 8 * SRAM_WORDS) fail("a store goes astray");
    if (awaits_barrier) fail("two stores have no barrier between them");
    stores++;
    awaits_barrier = true;
    protect(PROT_READ | PROT_WRITE);
    step_over(at);
}
static void on_step(int signal, siginfo_t *info, void *at) {
    (void)signal, (void)info;
    stepped(at);
    protect(PROT_READ);
    unsigned changed = 0;
    for (int i = 0; i < SRAM_WORDS; i++) changed += sram[i] != kept[i];
    if (changed > 1) fail("one store changed two words");
    memcpy(kept, sram, sizeof kept);
}

intptr_t __real_envy_part_order(int number, const void *bytes, size_t count);
intptr_t __wrap_envy_part_order(int number, const void *bytes, size_t count);
intptr_t __wrap_envy_part_order(int number, const void *bytes, size_t count) {
    if (count == 1 && *(const uint8_t *)bytes == 0) {
        barriers++;
        awaits_barrier = false;
    } else if (awaits_barrier) {
        fail("an order follows a store with no barrier between them");
    }
    return __real_envy_part_order(number, bytes, count);
}
static void program(void *context, volatile uint8_t *row, const uint8_t page[ENVY_ROW_BYTES]) {
    (void)context;
    orders++;
    for (int i = 0; i < ENVY_ROW_BYTES; i++) row[i] &= page[i];
}
static void erase(void *context, volatile uint8_t *at, size_t bytes) {
    (void)context;
    orders++;
    for (size_t i = 0; i < bytes; i++) at[i] = 0xff;
}

static void must(uint32_t code, const char *what) {
    if (code != ENVY_DONE) fail(what);
}
/* Stores, transactions that are committed or aborted, and steps in the background: enough for segments to be cleaned. */
static void work(envy_parted *memory) {
    uint32_t slot, holder, did;
    for (uint32_t n = 0; n < STEPS; n++) {
        must(envy_parted_store(memory, n * 37 % (WORDS / 2), n, &holder), "store");
        must(envy_parted_tick(memory, &did), "tick");
        if (n % 5) continue;
        must(envy_parted_begin(memory, &slot), "begin");
        for (uint32_t i = 0; i < 3; i++) must(envy_parted_put(memory, slot, WORDS / 2 + (n + 32 * i) % (WORDS / 2), n + i, &holder), "put");
        if (n % 2) must(envy_parted_commit(memory, slot), "commit");
        else must(envy_parted_abort(memory, slot), "abort");
    }
}

int main(void) {
    const envy_setup setup = {.segments = SEGMENTS, .rows = ROWS, .pages = PAGES, .shadows = 8, .frames = 4, .entries = 4,
                              .policy = ENVY_GREEDY, .part = 2, .limit = 3, .mark = 2};
    envy_part_sizes sizes;
    must(envy_parted_sizes(&setup, &sizes), "sizes");
    sram = mmap(NULL, 8 * SRAM_WORDS, PROT_READ, MAP_PRIVATE | MAP_ANONYMOUS, -1, 0);
    if (sram == MAP_FAILED || sizes.words > SRAM_WORDS || sizes.rows != SEGMENTS * ROWS) fail("no SRAM");
    struct sigaction store = {.sa_sigaction = on_store, .sa_flags = SA_SIGINFO}, step = {.sa_sigaction = on_step, .sa_flags = SA_SIGINFO};
    sigaction(SIGSEGV, &store, NULL);
    sigaction(SIGTRAP, &step, NULL);
    envy_part part = {NULL, program, erase};
    int32_t port = envy_part_open(&part);
    envy_parted memory = ENVY_PARTED_INIT;
    envy_part_map map = {flash, sizes.rows};
    envy_words words = {sram, sizes.words};
    must(envy_parted_new(&memory), "new");
    must(envy_parted_format(&memory, &setup, map, words, port), "format");
    work(&memory);
    envy_parted_close(&memory);
    must(envy_parted_attach(&memory, &setup, map, words, port), "attach");
    work(&memory);
    if (!orders || stores < WORDS || barriers != stores) fail("a barrier is missing");
    printf("%lu stores to SRAM, each followed by a barrier\n", stores);
    return 0;
}
