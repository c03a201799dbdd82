/* Kills a process that works in transactions on a mapped file, at a drawn moment, again and again. The process tells
   through a pipe what was answered, before it goes on. After each kill the file is attached to, and holds just what
   was answered, or that and the one piece of work that was in flight.

     killed FILE ROUNDS SEED */
#include "../../c/envy.h"
#include "../../c/envy_text.h"
#include <signal.h>
#include <stdio.h>
#include <stdlib.h>
#include <string.h>
#include <sys/wait.h>
#include <unistd.h>

enum { PAGES = 64, WORDS = 32 * PAGES, MOST = 12 };

static envy_setup setup = {
    .segments = 8, .rows = 16, .pages = PAGES, .shadows = 16, .frames = 8, .entries = 4,
    .policy = ENVY_GREEDY, .part = 2, .limit = 3, .mark = 6,
};

static envy map = ENVY_INIT;

static uint64_t draw(uint64_t *state) {
    *state += 0x9E3779B97F4A7C15;
    uint64_t z = *state;
    z = (z ^ (z >> 30)) * 0xBF58476D1CE4E5B9;
    z = (z ^ (z >> 27)) * 0x94D049BB133111EB;
    return z ^ (z >> 31);
}

/* Piece of work n: every fifth is a store, every seventh a transaction that is aborted, and the others are committed.
   A transaction puts some words, and n in word 0. */
typedef struct piece {
    enum { STORE, ABORT, COMMIT } kind;
    int count;
    uint32_t address[MOST];
    uint64_t word[MOST];
} piece;

static piece piece_of(uint64_t seed, uint64_t n) {
    uint64_t state = seed ^ (n * 0xD1B54A32D192ED03);
    piece p;
    p.kind = n % 7 == 3 ? ABORT : n % 5 == 2 ? STORE : COMMIT;
    p.count = p.kind == STORE ? 1 : 2 + (int)(draw(&state) % (MOST - 1));
    for (int i = 0; i < p.count; i++) {
        p.address[i] = 1 + (uint32_t)(draw(&state) % (WORDS - 1));
        p.word[i] = draw(&state);
    }
    if (p.kind != STORE) {
        p.address[p.count - 1] = 0;
        p.word[p.count - 1] = n;
    }
    return p;
}

static void apply(uint64_t *words, const piece *p) {
    if (p->kind == ABORT) return;
    for (int i = 0; i < p->count; i++) words[p->address[i]] = p->word[i];
}

static void must(uint32_t code, const char *what) {
    if (code == ENVY_DONE) return;
    fprintf(stderr, "killed: %s: %s\n", what, envy_error_text(code));
    _exit(1);
}

static void do_piece(const piece *p, uint64_t *state) {
    uint32_t slot, number;
    if (p->kind == STORE) {
        must(envy_store(&map, p->address[0], p->word[0], &number), "store");
        return;
    }
    must(envy_begin(&map, &slot), "begin");
    for (int i = 0; i < p->count; i++) {
        must(envy_put(&map, slot, p->address[i], p->word[i], &number), "put");
        if (draw(state) % 4 == 0) must(envy_tick(&map, &number), "tick");
    }
    must(p->kind == ABORT ? envy_abort(&map, slot) : envy_commit(&map, slot), "end");
}

/* Works from piece n on until it is killed, and writes the number of each piece once it was answered. */
static void work(const char *path, uint64_t seed, uint64_t n, int pipe) {
    uint64_t state = seed + n;
    must(envy_open_mapped(&map, path, &setup, ENVY_CREATE), "attach");
    for (;; n++) {
        piece p = piece_of(seed, n);
        do_piece(&p, &state);
        if (write(pipe, &n, sizeof n) != sizeof n) _exit(1);
    }
}

/* Runs the worker for a while, kills it, and answers the last number that it wrote, or `last`. */
static uint64_t killed_after(const char *path, uint64_t seed, uint64_t last, useconds_t moment) {
    int ends[2];
    if (pipe(ends)) exit(1);
    pid_t worker = fork();
    if (worker < 0) exit(1);
    if (worker == 0) {
        close(ends[0]);
        work(path, seed, last + 1, ends[1]);
    }
    close(ends[1]);
    /* what it writes is read while it works, since a pipe holds no more than so much */
    pid_t killer = fork();
    if (killer < 0) exit(1);
    if (killer == 0) {
        usleep(moment);
        kill(worker, SIGKILL);
        _exit(0);
    }
    for (uint64_t n; read(ends[0], &n, sizeof n) == sizeof n;) {
        if (n != last + 1) exit(1);
        last = n;
    }
    close(ends[0]);
    int status;
    waitpid(killer, NULL, 0);
    waitpid(worker, &status, 0);
    if (!WIFSIGNALED(status) || WTERMSIG(status) != SIGKILL) {
        fprintf(stderr, "killed: the worker ended by itself\n");
        exit(1);
    }
    return last;
}

static int holds(const uint64_t *words) {
    uint64_t loaded, looked;
    for (uint32_t a = 0; a < WORDS; a++) {
        must(envy_load(&map, a, &loaded), "load");
        must(envy_look(&map, a, &looked), "look");
        if (loaded != words[a] || looked != words[a]) return 0;
    }
    return 1;
}

int main(int words, char **word) {
    static uint64_t before[WORDS], after[WORDS];
    if (words != 4) return 2;
    int rounds = atoi(word[2]), in_flight = 0;
    uint64_t seed = strtoull(word[3], NULL, 10), state = seed, last = 0;
    must(envy_open_mapped(&map, word[1], &setup, ENVY_CREATE), "format");
    envy_close(&map);
    for (int round = 1; round <= rounds; round++) {
        setup.policy = draw(&state) % 5;
        uint64_t answered = killed_after(word[1], seed, last, (useconds_t)(draw(&state) % 12000));
        for (; last < answered; last++) {
            piece p = piece_of(seed, last + 1);
            apply(before, &p);
        }
        piece next = piece_of(seed, last + 1);
        memcpy(after, before, sizeof after);
        apply(after, &next);
        must(envy_open_mapped(&map, word[1], &setup, ENVY_CREATE), "attach after a kill");
        if (!holds(before)) {
            if (!holds(after)) {
                fprintf(stderr, "killed: round %d: the words are neither those of piece %llu nor of the next\n", round,
                        (unsigned long long)last);
                return 1;
            }
            memcpy(before, after, sizeof before);
            last++;
            in_flight++;
        }
        envy_close(&map);
    }
    printf("%d kills, %llu pieces of work, %d of them done but not yet answered\n", rounds, (unsigned long long)last,
           in_flight);
    return 0;
}
