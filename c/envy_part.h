/* A flash part as a program drives it: two callbacks, in the manner of littlefs's lfs_config.

   The library orders the program of a row and the erase of a segment, and reads the part through its map. A callback
   returns nothing: the library looks at the map afterwards, and what differs from what it asked for is answered as
   bad. So a driver that does nothing, or the wrong thing within the row or segment that it is handed, costs a row and
   no word.

   What the program promises, and nothing checks:
   1. The map reads as the part's array whenever a call of the library begins, and when a callback returns.
   2. A callback changes no memory that the library was given but the row or the segment that it is handed. Every other
      row reads as before.
   3. What a row reads as when the callback returns, it reads as later. A callback to which the part reports a failure, or
      that finds a row which wavers (two compares that differ), must leave the row different from what was asked, so that
      it counts as bad. (A row that power tore and a segment whose erase it cut may waver: nothing depends on what they
      read as before the segment is erased, docs/PORTING.md.)
   4. Between two calls nothing else writes the part or the SRAM, and no code runs from the part.
   5. A store to the SRAM is there when a later one is, and before a later order begins. Of the first the library does
      its part: after each store to SRAM, and before the next one, it runs ENVY_PART_BARRIER of envy_part.c (proved, of
      any port), which orders stores as the processor makes them. What is left to the program: the memory is uncached or
      written through, nothing between the processor and the SRAM changes the order, and the callbacks begin with what
      waits until all stores are done.

   When power fails inside a callback, the row or the segment that it is handed may hold anything, and nothing else.

   What the memory does over a part, as flash with error-correcting words and NAND ask for. Between two erases of a
   segment each of its rows is ordered once at most, and a later one lies higher than an earlier one. A row is ordered
   only if it reads as all ones, so that the AND is the page. (Once and rising is proved of the pool of rows, also
   over failures of power; all of it is tested over failures of power and of flash.) Each order is made once: one call of
   `program` for the program of a row, one of `erase` for the erase of a segment, and a read of the part or a store to
   SRAM makes neither (proved). */
#ifndef ENVY_PART_H
#define ENVY_PART_H
#include <stddef.h>
#include <stdint.h>
#ifdef __cplusplus
extern "C" {
#endif

enum {
    ENVY_ROW_BYTES = 256,
#ifndef ENVY_PARTS
    ENVY_PARTS = 4 /* parts that may be open at a time */
#endif
};

typedef struct envy_part {
    void *context;
    /* Makes the 256 bytes at `row`, in the map, those of the page, which is the AND of the row and what is wanted there:
       each bit that it sets is set there already. */
    void (*program)(void *context, volatile uint8_t *row, const uint8_t page[ENVY_ROW_BYTES]);
    /* Makes the bytes from `at` on, a whole segment of the map, all ones. */
    void (*erase)(void *context, volatile uint8_t *at, size_t bytes);
} envy_part;

/* The number of a port to the part, or -1 if ENVY_PARTS are open. The part must stay where it is. */
int32_t envy_part_open(const envy_part *part);
/* Ends a port to a part that no memory uses any more. */
void envy_part_close(int32_t port);

#ifdef __cplusplus
}
#endif
#endif
