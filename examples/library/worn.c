/* A board of which erases go bad, with two segments in reserve: each is retired in its turn, and the words stay. */
#include "../../c/envy.h"
#include <stdio.h>
#include <stdlib.h>

enum { RESERVES = 2, PAGES = 64, WORDS = 32 * PAGES, MOST_STORES = 1000000 };

static const envy_setup setup = {
    .segments = 10, .rows = 16, .pages = PAGES, .shadows = 16, .frames = 8, .entries = 4,
    .policy = ENVY_GREEDY, .part = 2, .limit = 100, .mark = 8, .reserves = RESERVES,
};

static envy memory = ENVY_INIT;
static uint64_t stored[WORDS];
static uint64_t state = 1994;

static void want(int line, uint64_t found, uint64_t wanted) {
    if (found == wanted) return;
    fprintf(stderr, "worn.c:%d: %llu, not %llu\n", line, (unsigned long long)found, (unsigned long long)wanted);
    exit(1);
}
#define WANT(found, wanted) want(__LINE__, found, wanted)

static uint32_t draw(uint32_t below) {
    state = state * 6364136223846793005u + 1442695040888963407u;
    return (uint32_t)(state >> 33) % below;
}

/* One store of a drawn word. One that a bad operation stopped changed nothing. Whether it was done. */
static int store(void) {
    uint32_t holder, address = draw(WORDS);
    uint64_t word = state;
    uint32_t code = envy_store(&memory, address, word, &holder);
    if (code == ENVY_BAD) return 0;
    WANT(code, ENVY_DONE);
    stored[address] = word;
    return 1;
}

static void holds(void) {
    for (uint32_t address = 0; address < WORDS; address++) {
        uint64_t word;
        WANT(envy_load(&memory, address, &word), ENVY_DONE);
        WANT(word, stored[address]);
    }
}

int main(void) {
    uint32_t retired = 7, left = 7;
    WANT(envy_new(&memory), ENVY_DONE);
    WANT(envy_worn(&memory, &retired, &left), ENVY_EMPTY);
    WANT(retired == 7 && left == 7, 1);
    WANT(envy_open_sim(&memory, &setup, 1), ENVY_DONE);
    for (uint32_t gone = 0, stores = 0; gone < RESERVES; stores++) {
        WANT(stores < MOST_STORES, 1);
        WANT(envy_worn(&memory, &retired, &left), ENVY_DONE);
        WANT(retired + left, RESERVES);
        /* what is retired stays so */
        WANT(retired == gone || retired == gone + 1, 1);
        if (retired > gone) holds();
        gone = retired;
        /* one flash operation in some sixteen is bad: a program that is answered, or an erase that retires a segment */
        if (draw(16) == 0) WANT(envy_arm_bad(&memory, 1, draw(1000)), ENVY_DONE);
        store();
    }
    /* none is left, so the next bad erase is answered, and changes nothing */
    WANT(envy_worn(&memory, &retired, &left), ENVY_DONE);
    WANT(retired == RESERVES && left == 0, 1);
    for (uint32_t i = 0; i < 1000; i++) store();
    holds();
    /* a restart finds as many */
    WANT(envy_cut_now(&memory), ENVY_DONE);
    WANT(envy_worn(&memory, &retired, &left), ENVY_OFF);
    WANT(envy_revive(&memory), ENVY_DONE);
    WANT(envy_worn(&memory, &retired, &left), ENVY_DONE);
    WANT(retired == RESERVES && left == 0, 1);
    holds();
    envy_close(&memory);
    printf("worn: ok\n");
    return 0;
}
