/* Answers a trace on standard input in the replies of `envy keep`, by a memory over a kept file.

     kept_words FILE <TRACE */
#include "../../c/envy.h"
#include "../../c/envy_text.h"
#include <stdio.h>
#include <stdlib.h>
#include <string.h>

/* the setup that `envy keep` takes for a new file */
static const envy_setup setup = {
    .segments = 8, .rows = 16, .pages = 64, .shadows = 16, .frames = 8, .entries = 4,
    .policy = ENVY_GREEDY, .limit = 100, .mark = 8,
};

static envy kept = ENVY_INIT;

static void reply(uint32_t code, const char *done, uint32_t holder) {
    switch (code) {
    case ENVY_DONE: puts(done); break;
    case ENVY_RANGE: puts("range"); break;
    case ENVY_HELD: printf("held %u\n", holder); break;
    case ENVY_FULL: puts("full"); break;
    case ENVY_BUSY: puts("busy"); break;
    case ENVY_CLOSED: puts("closed"); break;
    case ENVY_OFF: puts("lost"); exit(6);
    default: puts(envy_error_text(code)); exit(1);
    }
}

static void answer(const char *command, const unsigned long long *x) {
    envy *m = &kept;
    uint64_t word = 0;
    uint32_t number = 0, code;
    if (!strcmp(command, "load") || !strcmp(command, "look")) {
        code = command[2] == 'a' ? envy_load(m, x[0], &word) : envy_look(m, x[0], &word);
        if (code == ENVY_DONE) printf("%llu\n", (unsigned long long)word);
        else reply(code, "", 0);
    } else if (!strcmp(command, "store")) {
        code = envy_store(m, x[0], x[1], &number);
        reply(code, "ok", number);
    } else if (!strcmp(command, "begin")) {
        code = envy_begin(m, &number);
        if (code == ENVY_DONE) printf("tx %u\n", number);
        else reply(code, "", 0);
    } else if (!strcmp(command, "put")) {
        code = envy_put(m, x[0], x[1], x[2], &number);
        reply(code, "ok", number);
    } else if (!strcmp(command, "commit")) {
        reply(envy_commit(m, x[0]), "ok", 0);
    } else if (!strcmp(command, "abort")) {
        reply(envy_abort(m, x[0]), "ok", 0);
    } else if (!strcmp(command, "tick")) {
        reply(envy_tick(m, &number), "ok", 0);
    } else if (!strcmp(command, "sync")) {
        reply(envy_sync(m), "synced", 0);
    } else {
        exit(5);
    }
}

int main(int words, char **word) {
    char line[128], command[16];
    if (words != 2) return 2;
    uint32_t code = envy_open_file(&kept, word[1], &setup, ENVY_CREATE);
    if (code != ENVY_DONE) {
        puts(envy_error_text(code));
        return 1;
    }
    while (fgets(line, sizeof line, stdin)) {
        unsigned long long x[3] = {0, 0, 0};
        if (sscanf(line, "%15s %llu %llu %llu", command, x, x + 1, x + 2) > 0) answer(command, x);
    }
    return envy_close(&kept) == ENVY_DONE ? 0 : 6;
}
