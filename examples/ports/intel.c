/* The driver of Intel's command set on bare metal: qemu's `virt`, whose second flash is two chips of 16 bits side by
   side. Where the flash is read-only every order must be found bad, and no row may change. */
#include "../../c/ports/cfi_intel.h"
#include "try.h"

void finish(uint64_t code) __attribute__((noreturn));
void trap(uint64_t esr, uint64_t elr, uint64_t far) __attribute__((noreturn));

static volatile uint32_t *const uart = (volatile uint32_t *)0x09000000; /* PL011: 0 data, 6 flags, 11 line, 12 control */
static volatile uint8_t *const flash = (volatile uint8_t *)0x04000000;
static const volatile uint64_t *const is_read_only = (const volatile uint64_t *)0x44000000; /* written before the start */

static void put_char(char c) {
    while (uart[6] & 0x20) {}
    uart[0] = (uint8_t)c;
}
static void put_text(const char *text) {
    while (*text) put_char(*text++);
}
static void put_number(uint64_t n) {
    if (n > 9) put_number(n / 10);
    put_char((char)('0' + n % 10));
}
void say(const char *text, uint64_t n) {
    put_text(text);
    put_char(' ');
    put_number(n);
    put_char('\n');
}
void trap(uint64_t esr, uint64_t elr, uint64_t far) {
    say("trap: esr", esr);
    say("elr", elr);
    say("far", far);
    finish(99);
}
void *memcpy(void *to, const void *from, size_t n) {
    for (size_t i = 0; i < n; i++) ((uint8_t *)to)[i] = ((const uint8_t *)from)[i];
    return to;
}
void *memset(void *to, int c, size_t n) {
    for (size_t i = 0; i < n; i++) ((uint8_t *)to)[i] = (uint8_t)c;
    return to;
}
static uint64_t microseconds(void) {
    uint64_t ticks, rate;
    __asm__ volatile("isb; mrs %0, cntvct_el0; mrs %1, cntfrq_el0" : "=r"(ticks), "=r"(rate));
    return ticks / (rate / 1000000);
}
bool row_is(const cfi_part *part, uint32_t row, const uint8_t page[ENVY_ROW_BYTES]) {
    for (uint32_t i = 0; i < ENVY_ROW_BYTES; i++)
        if (part->base[(uint64_t)row * ENVY_ROW_BYTES + i] != page[i]) return false;
    return true;
}

static void reset(cfi_part *p) { cfi_command(p, 0, 0xff); } /* this part has no line, and FF ends all that it does */
static cfi_part part = {.base = flash, .bus_bytes = 4, .chip_bytes = 2, .microseconds = microseconds, .reset = reset};

static uint64_t try_read_only(int port) {
    uint8_t page[ENVY_ROW_BYTES], held[ENVY_ROW_BYTES];
    uint64_t wrong = 0;
    for (uint32_t i = 0; i < ENVY_ROW_BYTES; i++) held[i] = part.base[i];
    page_of(7, page);
    wrong += program_row(&part, port, 0, page);
    wrong += erase_block(&part, port, 0);
    wrong += !row_is(&part, 0, held);
    return wrong;
}

int main(void) {
    uart[12] = 0;
    uart[11] = 0x70;
    uart[12] = 0x301;
    int code = cfi_intel_open(&part);
    say("open:", (uint64_t)code);
    say("blocks:", part.blocks);
    say("bytes of a block:", part.block_bytes);
    say("bytes of a write buffer:", part.buffer_bytes);
    if (code != CFI_DONE) return 2;
    envy_part callbacks = cfi_intel(&part);
    int port = envy_part_open(&callbacks);
    uint64_t wrong = 0;
    if (*is_read_only) {
        wrong = try_read_only(port);
    } else {
        wrong = try_part(&part, port, 64);
        part.buffer_bytes = 0; /* and word by word */
        wrong += try_part(&part, port, 16);
    }
    envy_part_close(port);
    say("wrong:", wrong);
    return wrong != 0;
}
