/* What a memory did and holds, in one record. */
#include "envy.h"

/* Counts the rows of each kind. The last row is the one before the first that is refused as past the end. */
static uint32_t count_rows(envy *m, envy_stats *found) {
    for (uint32_t row = 0;; row++) {
        envy_row shown;
        uint32_t code = envy_show_row(m, row, &shown);
        if (code == ENVY_RANGE) return ENVY_DONE;
        if (code != ENVY_DONE) return code;
        found->rows[shown.kind]++;
    }
}

/* Looks at the wear of each segment. */
static uint32_t compare_wear(envy *m, envy_stats *found) {
    found->least_wear = UINT64_MAX;
    for (uint32_t segment = 0;; segment++) {
        envy_segment shown;
        uint32_t code = envy_show_segment(m, segment, &shown);
        if (code == ENVY_RANGE) return ENVY_DONE;
        if (code != ENVY_DONE) return code;
        if (shown.wear < found->least_wear) found->least_wear = shown.wear;
        if (shown.wear > found->most_wear) found->most_wear = shown.wear;
        found->segments++;
    }
}

uint32_t envy_stat(envy *m, envy_stats *stats) {
    envy_stats found = {.file_bytes = envy_file_bytes(m)};
    uint32_t code = envy_counters(m, &found.counts);
    if (code == ENVY_DONE) code = envy_worn(m, &found.retired, &found.reserves);
    if (code == ENVY_DONE) code = count_rows(m, &found);
    if (code == ENVY_DONE) code = compare_wear(m, &found);
    if (code == ENVY_DONE) *stats = found;
    return code;
}
