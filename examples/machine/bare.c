#include "bare.h"

/* PL011: word 0 data, 6 flags, 11 line, 12 control */
static volatile uint32_t *const uart = (volatile uint32_t *)0x09000000;
static bool is_open;

static void put_char(char c) {
    if (!is_open) {
        uart[12] = 0;
        uart[11] = 0x70; /* 8 bits, FIFOs on */
        uart[12] = 0x301;
        is_open = true;
    }
    while (uart[6] & 0x20) {} /* full */
    uart[0] = (uint8_t)c;
}
void put_text(const char *text) {
    while (*text) put_char(*text++);
}
static void put_number(uint64_t n) {
    if (n > 9) put_number(n / 10);
    put_char((char)('0' + n % 10));
}
void say(const char *text, uint64_t number) {
    put_text(text);
    put_char(' ');
    put_number(number);
    put_char('\n');
}

void trap(uint64_t esr, uint64_t elr, uint64_t far) __attribute__((noreturn));
void trap(uint64_t esr, uint64_t elr, uint64_t far) {
    say("FAILED trap: esr", esr);
    say("elr", elr);
    say("far", far);
    finish(99);
}

extern uint8_t bss_end[], stack_top[];
enum { PAINT = 0xa5, IN_USE = 256 };
void paint_stack(void) {
    volatile uint8_t here = 0;
    for (volatile uint8_t *at = bss_end; at + IN_USE < &here; at++) *at = PAINT;
}
size_t stack_used(void) {
    const volatile uint8_t *at = bss_end;
    while (at < stack_top && *at == PAINT) at++;
    return (size_t)(stack_top - at);
}

uint64_t microseconds(void) {
    uint64_t ticks, rate;
    __asm__ volatile("isb; mrs %0, cntvct_el0; mrs %1, cntfrq_el0" : "=r"(ticks), "=r"(rate));
    return ticks / (rate / 1000000);
}

/* Where both sides are aligned whole words are moved, so that no word of SRAM is halved. (Built with -fno-builtin and
   -fno-tree-loop-distribute-patterns, or the compiler makes each of these call itself.) */
void *memcpy(void *to, const void *from, size_t n) {
    uint8_t *t = to;
    const uint8_t *f = from;
    if ((((uintptr_t)t | (uintptr_t)f) & 7) == 0)
        for (; n >= 8; n -= 8, t += 8, f += 8) *(volatile uint64_t *)t = *(const uint64_t *)f;
    while (n--) *t++ = *f++;
    return to;
}
void *memmove(void *to, const void *from, size_t n) {
    uint8_t *t = to;
    const uint8_t *f = from;
    if (t <= f || t >= f + n) return memcpy(to, from, n);
    if ((((uintptr_t)t | (uintptr_t)f | n) & 7) == 0)
        for (; n; n -= 8) *(volatile uint64_t *)(t + n - 8) = *(const uint64_t *)(f + n - 8);
    while (n--) t[n] = f[n];
    return to;
}
void *memset(void *to, int c, size_t n) {
    uint8_t *t = to;
    uint64_t w = (uint8_t)c * 0x0101010101010101u;
    if (((uintptr_t)t & 7) == 0)
        for (; n >= 8; n -= 8, t += 8) *(volatile uint64_t *)t = w;
    while (n--) *t++ = (uint8_t)c;
    return to;
}

/* The three functions of heap.c over an array: blocks are given in order, the last can grow in place or be given back,
   and no other comes back. */
enum { HEAP = 1 << 20 };
struct block {
    bool ok;
    void *at;
};
static uint8_t heap[HEAP] __attribute__((aligned(16)));
static uint8_t *last;
size_t heap_used, heap_calls;

struct block rattle_alloc(size_t bytes, size_t align) {
    size_t n = bytes ? bytes : align, step = align > 16 ? align : 16;
    size_t at = (heap_used + step - 1) & ~(step - 1);
    heap_calls++;
    if (n > HEAP || at > HEAP - n) return (struct block){false, heap};
    last = heap + at;
    heap_used = at + n;
    return (struct block){true, last};
}
struct block rattle_realloc(void *at, size_t kept, size_t bytes, size_t align) {
    size_t n = bytes ? bytes : align;
    heap_calls++;
    if (at == last) {
        if (n > HEAP || (size_t)((uint8_t *)at - heap) > HEAP - n) return (struct block){false, heap};
        heap_used = (size_t)((uint8_t *)at - heap) + n;
        return (struct block){true, at};
    }
    struct block b = rattle_alloc(bytes, align);
    if (b.ok) memcpy(b.at, at, kept < n ? kept : n);
    return b;
}
void rattle_dealloc(void *at) {
    if (at != last) return;
    heap_used = (size_t)(last - heap);
    last = NULL;
}
