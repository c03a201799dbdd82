/* What stands in for a C library on the bare machine: the serial port, a clock, a few memory functions, and the heap. */
#ifndef BARE_H
#define BARE_H
#include <stdbool.h>
#include <stddef.h>
#include <stdint.h>

/* Ends the emulator with this status. */
void finish(uint64_t code) __attribute__((noreturn));
/* Text on the serial port: as it is, and as a line "text number". */
void put_text(const char *text);
void say(const char *text, uint64_t number);
/* Paints the stack that isn't in use, and tells how much was used since then. */
void paint_stack(void);
size_t stack_used(void);
/* A clock that runs on. */
uint64_t microseconds(void);
void *memcpy(void *to, const void *from, size_t n);
void *memmove(void *to, const void *from, size_t n);
void *memset(void *to, int c, size_t n);
/* What was taken of the heap, and by how many calls. */
extern size_t heap_used, heap_calls;
#endif
