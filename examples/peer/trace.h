/* Lines in and replies out. */
#ifndef PEER_TRACE_H
#define PEER_TRACE_H

#include "memory.h"

#include <stddef.h>

enum { PIECE = 1 << 16 };

struct output {
    size_t used;
    char bytes[PIECE];
};

void write_out(struct output *output);
void push(struct output *output, const void *bytes, size_t count);
void push_text(struct output *output, const char *text);
void push_number(struct output *output, uint64_t number);
void push_counts(struct output *output, const struct counts *counts);

/* What becomes of each line: REPLIES are written, or COUNTS of the puts and of the flash operations so far, or nothing. */
enum replying { REPLIES, COUNTS, SILENCE };

/* Does the lines on standard input. Answers the number of the line that was refused, or 0. */
uint64_t serve_trace(struct memory *memory, struct output *output, enum replying replying);

#endif
