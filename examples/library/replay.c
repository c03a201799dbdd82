/* Answers a trace on standard input in the replies of `envy run`, by a memory over a mapped file, where `power` closes
   the memory and attaches to what it left; or, built with IN_MEMORY, by one over a board in memory, where failures can
   be planned too.

     replay FILE | replay-memory */
#include "../../c/envy.h"
#include "../../c/envy_text.h"
#include <stdio.h>
#include <stdlib.h>
#include <string.h>
static envy map = ENVY_INIT;

static const envy_setup setup = {
    .segments = 8, .rows = 16, .pages = 64, .shadows = 16, .frames = 8, .entries = 4,
    .policy = ENVY_GREEDY, .limit = 100, .mark = 8,
};

#ifdef IN_MEMORY
static void restart(void) {
    uint32_t code;
    while ((code = envy_revive(&map)) == ENVY_OFF) {}
    if (code != ENVY_DONE) exit(6);
    puts("restarted");
}
#endif

static void reply(uint32_t code, uint32_t holder) {
    switch (code) {
    case ENVY_DONE: puts("ok"); break;
    case ENVY_RANGE: puts("range"); break;
    case ENVY_HELD: printf("held %u\n", holder); break;
    case ENVY_FULL: puts("full"); break;
    case ENVY_BUSY: puts("busy"); break;
    case ENVY_CLOSED: puts("closed"); break;
#ifdef IN_MEMORY
    case ENVY_BAD: puts("fault"); break;
    case ENVY_OFF: puts("lost"); restart(); break;
#endif
    default: puts(envy_error_text(code)); exit(1);
    }
}

static void answer(const char *command, const unsigned long long *x, const char *path) {
    uint64_t word = 0;
    uint32_t number = 0, code;
    if (!strcmp(command, "load") || !strcmp(command, "look")) {
        code = command[2] == 'a' ? envy_load(&map, x[0], &word) : envy_look(&map, x[0], &word);
        if (code == ENVY_DONE) printf("%llu\n", (unsigned long long)word);
        else reply(code, 0);
    } else if (!strcmp(command, "store")) {
        code = envy_store(&map, x[0], x[1], &number);
        reply(code, number);
    } else if (!strcmp(command, "begin")) {
        code = envy_begin(&map, &number);
        if (code == ENVY_DONE) printf("tx %u\n", number);
        else reply(code, 0);
    } else if (!strcmp(command, "put")) {
        code = envy_put(&map, x[0], x[1], x[2], &number);
        reply(code, number);
    } else if (!strcmp(command, "commit")) {
        reply(envy_commit(&map, x[0]), 0);
    } else if (!strcmp(command, "abort")) {
        reply(envy_abort(&map, x[0]), 0);
    } else if (!strcmp(command, "tick")) {
        reply(envy_tick(&map, &number), 0);
    } else if (!strcmp(command, "power")) {
#ifdef IN_MEMORY
        (void)path;
        if (envy_cut_now(&map) != ENVY_DONE) exit(1);
        restart();
    } else if (!strcmp(command, "cut") || !strcmp(command, "bad")) {
        code = command[0] == 'c' ? envy_arm_cut(&map, x[0], x[1]) : envy_arm_bad(&map, x[0], x[1]);
        if (code != ENVY_DONE) exit(1);
        puts("armed");
#else
        envy_close(&map);
        code = envy_open_mapped(&map, path, &setup, ENVY_CREATE);
        if (code != ENVY_DONE) reply(code, 0);
        puts("restarted");
#endif
    } else {
        exit(5);
    }
}

int main(int words, char **word) {
    char line[128], command[16];
#ifdef IN_MEMORY
    if (words != 1 || envy_new(&map) != ENVY_DONE) return 2;
    if (envy_open_sim(&map, &setup, UINT32_MAX) != ENVY_DONE) return 2;
#else
    if (words != 2 || envy_open_mapped(&map, word[1], &setup, ENVY_CREATE) != ENVY_DONE) return 2;
#endif
    while (fgets(line, sizeof line, stdin)) {
        unsigned long long x[3] = {0, 0, 0};
        if (sscanf(line, "%15s %llu %llu %llu", command, x, x + 1, x + 2) > 0) answer(command, x, word[1]);
    }
    envy_close(&map);
    return 0;
}
