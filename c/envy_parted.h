/* A memory over a flash part that the processor sees as memory, with SRAM in memory of the program's: a plain array of
   64-bit words, with transactions. Orders to the part go through the callbacks of envy_part.h. A machine whose power
   fails at any moment finds, when it attaches again, every word that was stored and every transaction that was
   committed, and of others nothing; of the call in which power failed it finds the whole or nothing.

       envy_part part = cfi_intel(&chip);                 // or callbacks of your own
       int32_t port = envy_part_open(&part);
       envy_part_map flash = {(void *)0x04000000, 1024};  // rows of 256 bytes
       envy_words sram = {(void *)0x48000000, 2048};
       envy_parted memory = ENVY_PARTED_INIT;
       if (envy_parted_new(&memory)) ..
       code = envy_parted_attach(&memory, &setup, flash, sram, port);
       if (code == ENVY_UNFORMATTED) code = envy_parted_format(&memory, &setup, flash, sram, port);

   What the program promises, and nothing checks:
   - The five points at the head of envy_part.h, of its callbacks, of the map and of the SRAM.
   - It makes a handle with ENVY_PARTED_INIT, calls envy_parted_new on it once, and gives every other call a handle of
     which envy_parted_new answered ENVY_DONE. It neither copies nor changes a handle.
   - One call at a time uses a handle, and none is made from a callback or from a handler that interrupts a call.
   - Every pointer but those of the map and the SRAM is to memory that is there, aligned, of the size that is said, and
     in no two arguments at once. Map and SRAM are there as far as is said.
   - `port` is one that envy_part_open gave and envy_part_close didn't end, and no two memories use it. (Over another
     number nothing is carried out, and every order is bad.)
   - From the call that gives map and SRAM until envy_parted_close, or until a call that gave them is refused, it neither
     reads nor writes them except in its callbacks.
   - A store of 64 bits to SRAM is done whole or not at all when power fails (docs/PORTING.md).
   - rattle_alloc, rattle_realloc and rattle_dealloc are those of heap.c, or do the same. memcpy, memmove and memset are
     there; on SRAM they must not halve a word.
   - Vector registers are on, and what interrupts a call saves them or is built with -mgeneral-regs-only.

   Several memories may be open at once, each over a port of its own (ENVY_PARTS of envy_part.h).

   Heap and stack. The heap is called in envy_parted_new, format and attach alone, and in close, which gives back what the
   memory took: no other call takes or frees memory (tested). Measured: 920 bytes for a place; a memory takes 104 bytes for
   each segment and 9 KB for 64 frames, 256 entries and 64 shadows; under ENVY_LIFETIME 8 bytes more for each page; and an
   attach 5 bytes for each row while it looks at what it finds. Of the stack an attach takes 15 KB, a format 8 KB, and any
   other call 3 KB.
   32-bit processors have no library. The counts of erases aren't asked for: the memory keeps wear in SRAM.

   What is ordered of the part. Between two erases of a segment each of its rows is ordered once at most, and a later one
   lies higher than an earlier one. A row is ordered only if it reads as all ones, as error-correcting words and NAND ask.
   (Tested by drawn sessions with orders that go wrong, in examples/machine/failing.c; a clause says it of the pool of
   rows alone.) load, look, begin, commit, abort, counts, attach and close order nothing. store and put begin at most
   4 * rows + 16 programs and six erases, a tick one of either, format one erase of each segment (proved of the memory over
   any board).

   If a call answers anything but ENVY_DONE, what its pointers point to is as before, except for ENVY_HELD. If several
   answers would be right, it is the first of them in the order in which the call names them, except that ENVY_NO_MEMORY may
   come in place of what attach finds.

   ENVY_BAD: what was ordered of the part isn't there, and the library saw it, by comparing the row with what was ordered
   or each row of the segment with ones. The call has changed no word: what it was to store isn't there, and may be tried
   again. The row or the segment that it was ordered of counts as dead until its next erase, and each later call goes on
   with others. No other cause has this answer. */
#ifndef ENVY_PARTED_H
#define ENVY_PARTED_H

#include "envy_codes.h"
#include "envy_part.h"

#ifdef __cplusplus
extern "C" {
#endif

/* A place for a memory. */
typedef struct envy_parted {
    void *at;
} envy_parted;
#define ENVY_PARTED_INIT {0}

/* The map of a part: rows of 256 bytes. A segment's rows lie together, and are whole blocks of the part. */
typedef struct envy_part_map {
    uint8_t (*at)[ENVY_ROW_BYTES];
    size_t len;
} envy_part_map;

/* The sizes that a setup asks for. */
typedef struct envy_part_sizes {
    uint64_t rows;  /* of the part, 256 bytes each */
    uint64_t words; /* of SRAM, 8 bytes each */
} envy_part_sizes;

/* Writes the sizes that a setup asks for. ENVY_DONE, ENVY_POLICY or an ENVY_SETUP_*. */
uint32_t envy_parted_sizes(const envy_setup *setup, envy_part_sizes *sizes);

/* Makes a place that holds no memory. ENVY_DONE or ENVY_NO_MEMORY. The place, a few hundred bytes, stays until the
   program ends, and serves for any number of memories, one after another. */
uint32_t envy_parted_new(envy_parted *m);

/* Makes a memory of zeros over the part, whatever it holds, and erases each segment once. If power fails in it, what
   is found is what was there, or nothing that is formatted, or a memory of zeros.
   ENVY_DONE; ENVY_OPEN; ENVY_POLICY, ENVY_SETUP_*; ENVY_FLASH_ADDRESS, ENVY_SRAM_ADDRESS; ENVY_FLASH_SIZE,
   ENVY_SRAM_SIZE; ENVY_PAST, ENVY_OVERLAP; ENVY_NO_MEMORY; ENVY_BAD.
   If it is refused the place is as before, nothing was ordered and the SRAM is as before, except for ENVY_BAD: then
   more erases weren't carried out than the setup has reserves, and nothing that is formatted is there. */
static inline uint32_t envy_parted_format(envy_parted *m, const envy_setup *setup, envy_part_map flash, envy_words sram,
                                          int32_t port);

/* Opens the memory that the part and the SRAM hold. Sizes, version and shape are compared, and the map of the memory
   is audited first, in a time that grows with the part. A byte of a page's data that was changed it can't see: the
   memory keeps no sums over data. Transactions that were open are undone then. Nothing is ordered, so it is never bad,
   and if power fails in it the next attach finds the same. Policy, part, limit and mark may differ from the earlier ones.
   ENVY_DONE; ENVY_OPEN; ENVY_POLICY, ENVY_SETUP_*; ENVY_FLASH_ADDRESS, ENVY_SRAM_ADDRESS; ENVY_FLASH_SIZE,
   ENVY_SRAM_SIZE; ENVY_PAST, ENVY_OVERLAP; ENVY_UNFORMATTED; ENVY_OLDER; ENVY_OTHER_SHAPE; ENVY_BROKEN_*;
   ENVY_NO_MEMORY. If it is refused the place, the part and the SRAM are as before. */
static inline uint32_t envy_parted_attach(envy_parted *m, const envy_setup *setup, envy_part_map flash, envy_words sram,
                                          int32_t port);

/* Ends the memory and frees what it took from the heap. Part and SRAM are the program's again and hold the memory still;
   what open transactions put is undone by the next attach. On an empty place it does nothing. */
void envy_parted_close(envy_parted *m);

/* Writes the word at an address, also if an open transaction put it. ENVY_DONE, ENVY_EMPTY, ENVY_RANGE.
   If power fails in it, no word is another. */
uint32_t envy_parted_load(envy_parted *m, uint32_t address, uint64_t *word);

/* Writes the committed word at an address: what a restart would leave. ENVY_DONE, ENVY_EMPTY, ENVY_RANGE.
   If power fails in it, no word is another. */
uint32_t envy_parted_look(envy_parted *m, uint32_t address, uint64_t *word);

/* Makes the word at an address this. From then on it outlives power. ENVY_DONE, ENVY_EMPTY, ENVY_RANGE, ENVY_HELD with
   the slot that owns the page at *holder, or ENVY_BAD. Refused, it changes no word. If power fails in it, the word is
   the old one or the new one. */
uint32_t envy_parted_store(envy_parted *m, uint32_t address, uint64_t word, uint32_t *holder);

/* Opens a transaction in the lowest slot that isn't open, and writes its number, 0 to 63, at *slot.
   ENVY_DONE, ENVY_EMPTY, ENVY_BUSY. If power fails in it, no slot is open afterwards. */
uint32_t envy_parted_begin(envy_parted *m, uint32_t *slot);

/* Makes the word at an address this within the transaction of a slot, which owns the page from then on: stores and
   other transactions are kept from it. ENVY_DONE, ENVY_EMPTY, ENVY_RANGE, ENVY_CLOSED, ENVY_FULL, ENVY_HELD with the
   slot that owns the page at *holder, or ENVY_BAD. Refused, it changes no word. If power fails in it, all that the
   transaction put is undone. */
uint32_t envy_parted_put(envy_parted *m, uint32_t slot, uint32_t address, uint64_t word, uint32_t *holder);

/* Closes a slot and keeps all that it put. From then on it outlives power. ENVY_DONE, ENVY_EMPTY, ENVY_CLOSED. If
   power fails in it, all words that it put are there or none. */
uint32_t envy_parted_commit(envy_parted *m, uint32_t slot);

/* Closes a slot and puts back the words of its pages. ENVY_DONE, ENVY_EMPTY, ENVY_CLOSED. If power fails in it, none
   of the words that it put is there. */
uint32_t envy_parted_abort(envy_parted *m, uint32_t slot);

/* Does one step of work in the background, and writes an envy_did. No word changes, also if power fails in it.
   ENVY_DONE, ENVY_EMPTY, ENVY_BAD. */
uint32_t envy_parted_tick(envy_parted *m, uint32_t *did);

/* Writes the counters. ENVY_DONE, ENVY_EMPTY. */
uint32_t envy_parted_counts(envy_parted *m, envy_counts *counts);

/* Writes how many segments in reserve are retired, and how many are left; together they are the setup's reserves. If none
   is left, the next erase of the spare that the part reports as bad is answered by ENVY_BAD. ENVY_DONE, ENVY_EMPTY. */
uint32_t envy_parted_worn(envy_parted *m, uint32_t *retired, uint32_t *left);

/* Where map and SRAM lie, as numbers, which the library looks at before it takes them. */
typedef struct envy_places {
    uint64_t flash, flash_bytes, sram, sram_bytes;
} envy_places;

uint32_t envy_parted_format_at(envy_parted *m, const envy_setup *setup, const envy_places *places, envy_part_map flash,
                               envy_words sram, int32_t port);
uint32_t envy_parted_attach_at(envy_parted *m, const envy_setup *setup, const envy_places *places, envy_part_map flash,
                               envy_words sram, int32_t port);

static inline envy_places envy_places_of(envy_part_map flash, envy_words sram) {
    envy_places places = {(uintptr_t)flash.at, (uint64_t)ENVY_ROW_BYTES * flash.len, (uintptr_t)sram.at, 8 * (uint64_t)sram.len};
    return places;
}

static inline uint32_t envy_parted_format(envy_parted *m, const envy_setup *setup, envy_part_map flash, envy_words sram,
                                          int32_t port) {
    envy_places places = envy_places_of(flash, sram);
    return envy_parted_format_at(m, setup, &places, flash, sram, port);
}

static inline uint32_t envy_parted_attach(envy_parted *m, const envy_setup *setup, envy_part_map flash, envy_words sram,
                                          int32_t port) {
    envy_places places = envy_places_of(flash, sram);
    return envy_parted_attach_at(m, setup, &places, flash, sram, port);
}

#ifdef __cplusplus
}
#endif
#endif
