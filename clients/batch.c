/* Batches. Over a mapped file a batch is the transaction of a slot: a process that is killed leaves the whole or nothing of
   it. Over a durable file nothing is on the disk before a sync, and no sync is made in a batch, so the words of before are
   kept in memory alone, to undo it. */
#include "bytes.h"
#include "known.h"
#include <stdlib.h>
#include <string.h>

typedef struct undone {
    struct undone *before;
    uint32_t address;
    size_t n;
    uint64_t words[];
} undone;

void batch_forget(bytes *b) {
    while (b->undone) {
        undone *last = b->undone;
        b->undone = last->before;
        free(last);
    }
}

static uint32_t put_alone(bytes *b, uint32_t address, const uint64_t *words, size_t n) {
    size_t done;
    uint32_t holder;
    return envy_store_run(&b->memory, address, words, n, &done, &holder);
}

static uint32_t commit(bytes *b) {
    if (b->mapped) return envy_commit(&b->memory, b->slot);
    batch_forget(b);
    return ENVY_DONE;
}

static uint32_t undo(bytes *b) {
    uint32_t code = ENVY_DONE;
    known_forget_all(b->known);
    if (b->mapped) return envy_abort(&b->memory, b->slot);
    for (const undone *u = b->undone; u && !code; u = u->before) code = put_alone(b, u->address, u->words, u->n);
    batch_forget(b);
    return code;
}

static uint32_t put_in_batch(bytes *b, uint32_t address, const uint64_t *words, const uint64_t *old, size_t n) {
    size_t done;
    uint32_t holder;
    if (b->mapped) return envy_write(&b->memory, b->slot, address, words, n, &done, &holder);
    undone *last = malloc(sizeof *last + n * WORD_BYTES);
    if (!last) return ENVY_NO_MEMORY;
    *last = (undone){b->undone, address, n};
    memcpy(last->words, old, n * WORD_BYTES);
    b->undone = last;
    return put_alone(b, address, words, n);
}

uint32_t bytes_put(bytes *b, uint32_t address, const uint64_t *words, const uint64_t *old, size_t n) {
    return b->in_batch ? put_in_batch(b, address, words, old, n) : put_alone(b, address, words, n);
}

uint32_t bytes_begin(bytes *b) {
    uint32_t code = b->mapped ? envy_begin(&b->memory, &b->slot) : envy_powered(&b->memory);
    if (code) return code;
    b->in_batch = 1;
    b->length_first = b->length;
    return ENVY_DONE;
}

uint32_t bytes_commit(bytes *b) {
    uint32_t code = commit(b);
    if (!code) b->in_batch = 0;
    return code;
}

uint32_t bytes_abort(bytes *b) {
    uint32_t code = undo(b);
    b->in_batch = 0;
    b->length = b->length_first;
    return code;
}
