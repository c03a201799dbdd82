/* What crosses by the calls of envy.h that show what the board of a memory holds. */
#ifndef ENVY_SHOWN_H
#define ENVY_SHOWN_H

#include "envy_codes.h"

#ifdef __cplusplus
extern "C" {
#endif

/* What a row of flash is. */
enum envy_row_kind {
    ENVY_ROW_FREE = 0,   /* not claimed since its segment was erased */
    ENVY_ROW_KEPT = 1,   /* loads of its page read it */
    ENVY_ROW_SHADOW = 2, /* a transaction owns its page, whose earlier words are here */
    ENVY_ROW_DEAD = 3    /* claimed, and no page names it */
};
enum { ENVY_ROW_KINDS = 4 };
typedef struct envy_row {
    uint32_t kind; /* an envy_row_kind */
    uint32_t page; /* of a row that is kept or a shadow; else 0 */
    uint32_t slot; /* of a shadow, the slot whose transaction owns the page; else 0 */
} envy_row;

/* Where a page is. */
enum envy_page_place { ENVY_PLACE_ABSENT = 0 /* which is zeros */, ENVY_PLACE_ROW = 1, ENVY_PLACE_FRAME = 2 };
/* What a page goes back to if the transaction that owns it ends without a commit. */
enum envy_page_undo { ENVY_UNDO_CLEAR = 0 /* no transaction owns it */, ENVY_UNDO_ZEROS = 1, ENVY_UNDO_SHADOW = 2 };
typedef struct envy_page {
    uint32_t place;  /* an envy_page_place */
    uint32_t at;     /* the row or the frame */
    uint32_t undo;   /* an envy_page_undo */
    uint32_t slot;   /* the slot whose transaction owns it */
    uint32_t shadow; /* the row of the shadow */
} envy_page;

typedef struct envy_segment {
    uint64_t wear; /* how often it was erased */
    uint32_t fill; /* how many of its rows were claimed since */
} envy_segment;

/* The cleaner's job. */
enum envy_job_kind {
    ENVY_JOB_IDLE = 0,   /* none */
    ENVY_JOB_COPY = 1,   /* kept rows are copied to the spare */
    ENVY_JOB_SWITCH = 2, /* references go to the copies */
    ENVY_JOB_ERASE = 3   /* the spare is erased */
};
typedef struct envy_job {
    uint32_t kind;    /* an envy_job_kind */
    uint32_t segment; /* whose kept rows, or references; else 0 */
} envy_job;

/* What a memory did and holds. */
typedef struct envy_stats {
    envy_counts counts;  /* what was done since it was formatted or opened */
    uint64_t rows[ENVY_ROW_KINDS]; /* how many there are of each envy_row_kind */
    uint32_t segments;
    uint32_t retired;    /* segments in reserve that stand in for worn ones */
    uint32_t reserves;   /* those that are left */
    uint64_t least_wear; /* of the segment that was erased least, and most */
    uint64_t most_wear;
    uint64_t file_bytes; /* of the file that it was opened from by its path, else 0 */
} envy_stats;

#ifdef __cplusplus
}
#endif
#endif
