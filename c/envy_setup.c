#include "envy_setup.h"
#include "envy.h"

enum { PAGE_WORDS = 32, MOST_ROWS = 16777216, MOST_SEGMENT = 65536 };

static uint32_t between(uint64_t least, uint64_t wanted, uint64_t most) {
    return (uint32_t)(wanted < least ? least : wanted > most ? most : wanted);
}

uint32_t envy_setup_for(uint64_t words, uint32_t owned_pages, envy_setup *setup) {
    uint64_t pages = words / PAGE_WORDS + (words % PAGE_WORDS != 0);
    if (pages > MOST_ROWS) return ENVY_SETUP_TOTAL;
    /* each page has a row, and each owned page a second one, its shadow; these are 80 of 100 rows */
    uint64_t rows = ((pages + owned_pages) * 5 + 3) / 4;
    if (rows > MOST_ROWS) return ENVY_SETUP_TOTAL;
    /* A segment is what is erased and cleaned at once: 16 rows, or so many that about 64 segments do, unless it would be
       larger than one may be. Under ten of them the two that hold no pages would be more than 20 of 100. */
    uint32_t segment = 16;
    while (rows > 64 * (uint64_t)segment && segment < MOST_SEGMENT) segment *= 2;
    envy_setup chosen = {
        .segments = between(10, (rows + segment - 1) / segment, MOST_ROWS / MOST_SEGMENT),
        .rows = segment,
        .pages = (uint32_t)pages,
        .shadows = owned_pages,
        /* a frame of SRAM for one page in 16: what is stored again and again should fit */
        .frames = between(16, pages / 16, 4096),
        /* the cache has an entry for each page, of a few bytes of the heap */
        .entries = between(1, pages, 65536),
        /* cleans the segment with the most dead rows; the best where stores are spread evenly */
        .policy = ENVY_GREEDY,
        /* the size of a partition, which only ENVY_HYBRID has */
        .part = 2,
        /* a segment is swapped once it was erased 100 times less than another */
        .limit = 100,
    };
    /* a tick writes pages back from three quarters of the frames on */
    chosen.mark = chosen.frames - chosen.frames / 4;
    envy_sizes sizes;
    uint32_t code = envy_region_sizes(&chosen, &sizes);
    if (code == ENVY_DONE) *setup = chosen;
    return code;
}
