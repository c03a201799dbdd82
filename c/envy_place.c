/* The places of handles. The library gives a place for good, so one that holds no memory any more serves the next handle. */
#include "envy_place.h"
#include <stdatomic.h>
#include <stdlib.h>

typedef struct spare {
    void *at;
    struct spare *next;
} spare;

static spare *spares;
static atomic_flag in_use = ATOMIC_FLAG_INIT;

uint32_t envy_proved_new(envy *m);

/* Any thread may ask, and what is done meanwhile takes a moment. A process that was forked off while another thread was at it
   finds it in use for good: it does without. */
static int is_entered(void) {
    enum { TIMES = 1000000 };
    for (int n = 0; n < TIMES; n++)
        if (!atomic_flag_test_and_set(&in_use)) return 1;
    return 0;
}

static void leave(void) { atomic_flag_clear(&in_use); }

uint32_t envy_place_take(envy *m) {
    spare *found = NULL;
    if (m->at) return ENVY_DONE;
    if (is_entered()) {
        found = spares;
        if (found) spares = found->next;
        leave();
    }
    if (!found) return envy_proved_new(m);
    m->at = found->at;
    free(found);
    return ENVY_DONE;
}

/* (if the heap gives nothing, or another thread doesn't end, the handle keeps it) */
void envy_place_give(envy *m) {
    spare *given = m->at ? malloc(sizeof *given) : NULL;
    if (!given) return;
    if (!is_entered()) {
        free(given);
        return;
    }
    *given = (spare){m->at, spares};
    spares = given;
    leave();
    m->at = NULL;
}

uint32_t envy_new(envy *m) { return envy_place_take(m); }
