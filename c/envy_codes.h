/* What envy.h and envy_parted.h share: the numbers of answers, the setup of a memory, and its counters. */
#ifndef ENVY_CODES_H
#define ENVY_CODES_H

#include <stddef.h>
#include <stdint.h>

#ifdef __cplusplus
extern "C" {
#endif

/* What a call answers. Each answer has a number of its own. */
enum envy_code {
    ENVY_DONE = 0,
    ENVY_EMPTY = 1,       /* the place holds no memory */
    ENVY_OFF = 2,         /* power is off, or failed in the call; never over regions. Of a file: it failed */
    ENVY_RANGE = 3,       /* the address lies past the last page */
    ENVY_HELD = 4,        /* the transaction of another slot owns the page */
    ENVY_FULL = 5,        /* the page has no owner, and no more pages may be owned */
    ENVY_BUSY = 6,        /* all 64 slots are open */
    ENVY_CLOSED = 7,      /* no such slot is open */
    ENVY_BAD = 8,         /* a flash operation failed; never over regions */
    ENVY_NO_MEMORY = 9,   /* the heap gave nothing */
    ENVY_OPEN = 10,       /* the place holds a memory already */
    ENVY_ZERO = 11,       /* a failure was planned for the 0th operation */
    ENVY_DEAD = 12,       /* power doesn't return */
    ENVY_POWERED = 13,    /* power is on already */
    ENVY_FLASH_SIZE = 14, /* the flash hasn't as many rows as the setup's shape */
    ENVY_SRAM_SIZE = 15,  /* the SRAM hasn't as many words as the shape's map */
    ENVY_ERASES_SIZE = 16, /* there aren't as many counts of erases as segments */
    ENVY_POLICY = 17,     /* no policy has this number */
    ENVY_UNFORMATTED = 18, /* what was found isn't formatted: something foreign */
    ENVY_OLDER = 19,      /* what was found is of the first version of the map */
    ENVY_OTHER_SHAPE = 20, /* what was found has another shape */

    /* the first rule that the setup breaks */
    ENVY_SETUP_SEGMENTS = 21, /* 4 to 4,096 segments */
    ENVY_SETUP_ROWS = 22,     /* 2 to 65,536 rows to a segment */
    ENVY_SETUP_PAGES = 23,    /* at least one page */
    ENVY_SETUP_FRAMES = 24,   /* 2 to 65,536 frames */
    ENVY_SETUP_ENTRIES = 25,  /* 1 to 65,536 entries */
    ENVY_SETUP_SHARE = 26,    /* pages and shadows: at most the rows of all segments but two and those in reserve */
    ENVY_SETUP_TOTAL = 27,    /* at most 16,777,216 rows */
    ENVY_SETUP_PART = 28,     /* a hybrid partition of 1 to all but one segment */
    ENVY_SETUP_LIMIT = 29,    /* a limit of at least 1 */
    ENVY_SETUP_MARK = 30,     /* a mark of 1 to the number of frames */
    ENVY_SETUP_RESERVES = 58, /* reserves: at most the segments less four; of a kept file 0 */
    ENVY_SETUP_SUMS = 59,     /* sums: 0, since no board keeps them yet; asked after the reserves */

    /* what was found is damaged: the first point of soundness that fails. The audit for these looks at the map, at
       the rows that are free and at copies of the cleaner's. A byte of a page's data that was changed it can't see: the
       memory keeps no sums over data. */
    ENVY_BROKEN_FIELDS = 31,     /* a field of the map doesn't decode, or is out of its range */
    ENVY_BROKEN_POSITIONS = 32,  /* two positions name one segment */
    ENVY_BROKEN_FRAMES = 33,     /* two places name one frame */
    ENVY_BROKEN_ROWS = 34,       /* a row is referred to from two pages */
    ENVY_BROKEN_CLAIMS = 35,     /* a kept row lies past the fill, or was claimed for another page */
    ENVY_BROKEN_FREE = 36,       /* a row past the fill isn't all ones */
    ENVY_BROKEN_SPARE = 37,      /* the spare is filled while there is no job */
    ENVY_BROKEN_PLACES = 38,     /* a kept row lies in no segment at a position */
    ENVY_BROKEN_JOB = 39,        /* the job's segment, or a copy of its rows, is not as it should be */
    ENVY_BROKEN_COPIES = 40,     /* of a row and its copy both are kept */
    ENVY_BROKEN_OWNED = 41,      /* more pages are owned than may be */
    ENVY_BROKEN_UNDOS = 42,      /* an undo names a slot that isn't in use */
    ENVY_BROKEN_RESERVES = 63,   /* a kept row lies in a segment in reserve */

    /* images */
    ENVY_SMALL = 43,       /* the bytes have no room for the image */
    ENVY_IMAGE_SHORT = 44, /* the bytes end within the image */
    ENVY_IMAGE_MARK = 45,  /* the bytes don't begin with the mark of an image */
    ENVY_IMAGE_OTHER = 46, /* the image is one of another shape than the setup's */

    /* the first rule that the shape of an image breaks, as of a setup */
    ENVY_IMAGE_SEGMENTS = 47,
    ENVY_IMAGE_ROWS = 48,
    ENVY_IMAGE_PAGES = 49,
    ENVY_IMAGE_FRAMES = 50,
    ENVY_IMAGE_ENTRIES = 51,
    ENVY_IMAGE_SHARE = 52,
    ENVY_IMAGE_TOTAL = 53,
    ENVY_IMAGE_RESERVES = 60,
    ENVY_IMAGE_SUMS = 61,

    /* maps */
    ENVY_ABSENT = 54,    /* the map has no such pair */
    ENVY_MAP_FULL = 55,  /* the map has as many pairs as it may have */
    ENVY_SLOT_OPEN = 56, /* a transaction is open, which is to be committed or aborted first */
    ENVY_MAP_SETUP = 57, /* no map fits: fewer than 20 pages or 32 shadows */
    ENVY_BROKEN_MAP = 62, /* the words of the array stand for no map */
    ENVY_BAD_ABORTED = 80, /* a flash operation failed, and the transaction of maps was aborted */

    /* where a flash part and SRAM lie; over a part alone */
    ENVY_FLASH_ADDRESS = 64, /* the part's map begins at 0, or at no multiple of 256 */
    ENVY_SRAM_ADDRESS = 65,  /* the SRAM begins at 0, or at no multiple of 8 */
    ENVY_PAST = 66,          /* one of them reaches past the last address */
    ENVY_OVERLAP = 67,       /* they overlap */

    /* files that a memory is kept in */
    ENVY_NO_JOURNAL = 72,     /* the file holds something else, or a journal of no memory */
    ENVY_OTHER_JOURNAL = 73,  /* the file is a journal of a version that isn't known here */
    ENVY_DAMAGED = 74,        /* the file is a journal that no crash leaves so: something else changed it */
    ENVY_APPENDED = 75,       /* all is on the disk, as after a sync, but the second file of a compaction failed */
    ENVY_OTHER_BOARD = 76     /* what the memory stands over can't do this */
};

/* What calls that open files answer beside an envy_code. */
enum envy_file_code {
    ENVY_SYSTEM = 1000, /* the system refused a call, and errno says why */
    ENVY_LOCKED = 1001, /* the file is open already, here or in another process */
    ENVY_TOO_MANY = 1002 /* ENVY_DISKS files are open already */
};

/* How the cleaner chooses what to clean. */
enum envy_policy { ENVY_GREEDY = 0, ENVY_FIFO = 1, ENVY_LOCALITY = 2, ENVY_HYBRID = 3, ENVY_LIFETIME = 4 };

/* What a background step did. */
enum envy_did {
    ENVY_IDLE = 0,     /* nothing was to be done */
    ENVY_FLUSHED = 1,  /* the oldest held page was programmed into flash */
    ENVY_BEGAN = 2,    /* a relocation was begun */
    ENVY_MOVED = 3,    /* a kept row went to the neighbour partition */
    ENVY_COPIED = 4,   /* a kept row was copied to the spare */
    ENVY_SWITCHED = 5, /* references were switched to the copies */
    ENVY_PLACED = 6,   /* the spare took its position */
    ENVY_ERASED = 7    /* the spare was erased */
};

/* What a memory is made with. A word has 64 bits; a page, a row and a frame have 32 words. */
typedef struct envy_setup {
    uint32_t segments; /* of flash, each of which is erased as one: 4 to 4,096 */
    uint32_t rows;     /* of a segment: 2 to 65,536 */
    uint32_t pages;    /* of the array, whose addresses are 0 to 32 * pages - 1 */
    uint32_t shadows;  /* pages that open transactions may own together */
    uint32_t frames;   /* of SRAM: 2 to 65,536 */
    uint32_t entries;  /* of the translation cache: 1 to 65,536 */
    uint32_t policy;   /* an envy_policy */
    uint32_t part;     /* positions of a partition, if the policy is ENVY_HYBRID */
    uint64_t limit;    /* how far wear may differ before two segments are swapped: at least 1 */
    uint32_t mark;     /* held frames from which on a background step writes pages back */
    uint32_t reserves; /* segments in reserve, which stand in for those that wear out: 0 to segments - 4; of a kept file 0 */
    uint32_t sums;     /* whether each row has a sum: 0, since no board keeps them yet */
} envy_setup;

/* A region of words. */
typedef struct envy_words {
    uint64_t *at;
    size_t len;
} envy_words;

/* A region of rows of 32 words. */
typedef struct envy_rows {
    uint64_t (*at)[32];
    size_t len;
} envy_rows;

/* The sizes of the regions that a setup asks for. */
typedef struct envy_sizes {
    uint64_t rows;   /* of flash, 256 bytes each */
    uint64_t words;  /* of SRAM, 8 bytes each */
    uint64_t erases; /* counts of erases, 8 bytes each */
} envy_sizes;

/* What a memory has done since it was formatted or attached. Each counter stops at 2^64 - 1. */
typedef struct envy_counts {
    uint64_t hits;    /* accesses whose page the translation cache held */
    uint64_t misses;  /* accesses whose page it didn't hold */
    uint64_t flushes; /* programs begun to flush a page, or to keep a shadow of one */
    uint64_t copies;  /* programs begun to copy a kept row into the spare */
    uint64_t moves;   /* programs begun to move a kept row to a neighbour partition */
    uint64_t erases;  /* erases begun */
    uint64_t swaps;   /* wear swaps begun */
} envy_counts;

#ifdef __cplusplus
}
#endif
#endif
