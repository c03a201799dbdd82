/* The calls of a memory on a handle that was never made, which has no place: they are answered here, and the proved calls,
   which ask for a place, aren't called. What a program doesn't ask for gets a place here, since the proved calls take no
   NULL. In the archive these have other names:

       objcopy --redefine-sym envy_NAME=envy_proved_NAME LIBRARY.a */
#include "envy_place.h"

/* A place that lasts as long as the call, for what isn't asked for. */
#define OR_PLACE(at, type) ((at) ? (at) : &(type){0})

#define CALL(name, parameters, arguments)                                                                              \
    uint32_t envy_proved_##name parameters;                                                                            \
    uint32_t envy_##name parameters { return m->at ? envy_proved_##name arguments : ENVY_EMPTY; }

/* The same of a call that takes places for what may not be asked for. If all is asked for no place is made. */
#define CALL_OR(name, parameters, arguments, is_asked, arguments_or_places)                                            \
    uint32_t envy_proved_##name parameters;                                                                            \
    __attribute__((noinline)) static uint32_t name##_unasked parameters { return envy_proved_##name arguments_or_places; } \
    uint32_t envy_##name parameters {                                                                                  \
        if (!m->at) return ENVY_EMPTY;                                                                                 \
        return is_asked ? envy_proved_##name arguments : name##_unasked arguments;                                     \
    }

/* A call that opens a memory: it makes a place for a handle that has none, and takes it back if it is refused. */
#define OPENING(name, parameters, arguments)                                                                           \
    uint32_t envy_proved_##name parameters;                                                                            \
    uint32_t envy_##name parameters {                                                                                  \
        uint32_t code = envy_place_take(m);                                                                            \
        if (code == ENVY_DONE) code = envy_proved_##name arguments;                                                    \
        if (code != ENVY_DONE && code != ENVY_OPEN) envy_place_give(m);                                                \
        return code;                                                                                                   \
    }

OPENING(open_port, (envy *m, const envy_setup *setup, const uint8_t *file, size_t n, int32_t port, uint32_t bytewise),
     (m, setup, file, n, port, bytewise))
OPENING(format_regions, (envy *m, const envy_setup *setup, envy_rows flash, envy_words sram, envy_words erases),
     (m, setup, flash, sram, erases))
OPENING(open_regions, (envy *m, const envy_setup *setup, envy_rows flash, envy_words sram, envy_words erases),
     (m, setup, flash, sram, erases))
OPENING(open_sim, (envy *m, const envy_setup *setup, uint32_t lives), (m, setup, lives))
OPENING(restore, (envy *m, const envy_setup *setup, uint32_t lives, const uint8_t *image, size_t n), (m, setup, lives, image, n))
CALL(save, (envy *m, uint8_t *image, size_t n), (m, image, n))
CALL(powered, (envy *m), (m))
CALL(arm_cut, (envy *m, uint32_t k, uint64_t g), (m, k, g))
CALL(arm_bad, (envy *m, uint32_t k, uint64_t g), (m, k, g))
CALL(cut_now, (envy *m), (m))
CALL(revive, (envy *m), (m))
CALL(lives, (envy *m, uint32_t *left), (m, left))
CALL(load, (envy *m, uint32_t address, uint64_t *word), (m, address, word))
CALL(look, (envy *m, uint32_t address, uint64_t *word), (m, address, word))
CALL(view, (envy *m, uint32_t slot, uint32_t address, uint64_t *word), (m, slot, address, word))
CALL(read, (envy *m, uint32_t address, uint64_t *words, size_t n), (m, address, words, n))
CALL_OR(store, (envy *m, uint32_t address, uint64_t word, uint32_t *holder), (m, address, word, holder), holder,
        (m, address, word, OR_PLACE(holder, uint32_t)))
CALL(begin, (envy *m, uint32_t *slot), (m, slot))
CALL_OR(put, (envy *m, uint32_t slot, uint32_t address, uint64_t word, uint32_t *holder), (m, slot, address, word, holder),
        holder, (m, slot, address, word, OR_PLACE(holder, uint32_t)))
CALL(commit, (envy *m, uint32_t slot), (m, slot))
CALL(abort, (envy *m, uint32_t slot), (m, slot))
CALL(tick, (envy *m, uint32_t *did), (m, did))
CALL(counters, (envy *m, envy_counts *counts), (m, counts))
CALL(worn, (envy *m, uint32_t *retired, uint32_t *left), (m, retired, left))
CALL(show_row, (envy *m, uint32_t row, envy_row *found), (m, row, found))
CALL(show_page, (envy *m, uint32_t page, envy_page *found), (m, page, found))
CALL(show_position, (envy *m, uint32_t position, uint32_t *segment), (m, position, segment))
CALL(show_segment, (envy *m, uint32_t segment, envy_segment *found), (m, segment, found))
CALL(show_job, (envy *m, envy_job *found), (m, found))
CALL(index_create, (envy *m), (m))
CALL(index_get, (envy *m, uint64_t key, uint64_t *value), (m, key, value))
CALL_OR(index_insert, (envy *m, uint64_t key, uint64_t value, envy_old *before), (m, key, value, before), before,
        (m, key, value, OR_PLACE(before, envy_old)))
CALL(index_remove, (envy *m, uint64_t key, uint64_t *value), (m, key, value))
CALL(index_count, (envy *m, uint64_t *count), (m, count))
CALL(index_next, (envy *m, uint64_t key, envy_pair *pair), (m, key, pair))
CALL(index_above, (envy *m, uint64_t key, envy_pair *pair), (m, key, pair))
CALL(index_last, (envy *m, uint64_t key, envy_pair *pair), (m, key, pair))
CALL(index_scan, (envy *m, uint64_t key, envy_pair *pairs, size_t n, size_t *count), (m, key, pairs, n, count))
CALL(index_scan_down, (envy *m, uint64_t key, envy_pair *pairs, size_t n, size_t *count), (m, key, pairs, n, count))
CALL(map_begin, (envy *m, uint32_t *slot), (m, slot))
CALL(map_create, (envy *m, uint32_t slot, const envy_map *map), (m, slot, map))
CALL(map_load, (envy *m, const envy_map *map, const envy_pair *pairs, size_t n), (m, map, pairs, n))
CALL_OR(map_insert, (envy *m, uint32_t slot, const envy_map *map, uint64_t key, uint64_t value, envy_old *before),
        (m, slot, map, key, value, before), before, (m, slot, map, key, value, OR_PLACE(before, envy_old)))
CALL(map_remove, (envy *m, uint32_t slot, const envy_map *map, uint64_t key, uint64_t *value), (m, slot, map, key, value))
CALL(map_commit, (envy *m, uint32_t slot), (m, slot))
CALL(map_abort, (envy *m, uint32_t slot), (m, slot))
CALL(map_get, (envy *m, const envy_map *map, uint64_t key, uint64_t *value), (m, map, key, value))
CALL(map_count, (envy *m, const envy_map *map, uint64_t *count), (m, map, count))
CALL(map_check, (envy *m, const envy_map *map, uint32_t *rule), (m, map, OR_PLACE(rule, uint32_t)))
CALL(map_scan, (envy *m, const envy_map *map, uint64_t key, envy_pair *pairs, size_t n, size_t *count),
     (m, map, key, pairs, n, count))
CALL(map_scan_down, (envy *m, const envy_map *map, uint64_t key, envy_pair *pairs, size_t n, size_t *count),
     (m, map, key, pairs, n, count))

/* (of no place, none of the words is stored or put) */
uint32_t envy_proved_store_run(envy *m, uint32_t address, const uint64_t *words, size_t n, size_t *done, uint32_t *holder);
uint32_t envy_store_run(envy *m, uint32_t address, const uint64_t *words, size_t n, size_t *done, uint32_t *holder) {
    done = OR_PLACE(done, size_t);
    if (m->at) return envy_proved_store_run(m, address, words, n, done, OR_PLACE(holder, uint32_t));
    *done = 0;
    return ENVY_EMPTY;
}

uint32_t envy_proved_write(envy *m, uint32_t slot, uint32_t address, const uint64_t *words, size_t n, size_t *done,
                           uint32_t *holder);
uint32_t envy_write(envy *m, uint32_t slot, uint32_t address, const uint64_t *words, size_t n, size_t *done, uint32_t *holder) {
    done = OR_PLACE(done, size_t);
    if (m->at) return envy_proved_write(m, slot, address, words, n, done, OR_PLACE(holder, uint32_t));
    *done = 0;
    return ENVY_EMPTY;
}
