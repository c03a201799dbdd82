/* Kills a process that works in transactions on a kept file and syncs from time to time, at a drawn moment, again and
   again. The process tells through a pipe which sync it begins, and once it was done. After each kill the file opens as
   just what was committed at the last sync that was done, or at the one in flight. Every other process takes the file as
   one that is written byte by byte.

     kept_killed FILE ROUNDS SEED */
#include "../../c/envy.h"
#include "../../c/envy_text.h"
#include <signal.h>
#include <stdio.h>
#include <stdlib.h>
#include <string.h>
#include <sys/wait.h>
#include <unistd.h>

enum { PAGES = 64, WORDS = 32 * PAGES, MOST = 12 };

static envy_setup setup = {
    .segments = 8, .rows = 16, .pages = PAGES, .shadows = 16, .frames = 8, .entries = 4,
    .policy = ENVY_GREEDY, .part = 2, .limit = 3, .mark = 6,
};

static envy kept = ENVY_INIT;

static uint64_t draw(uint64_t *state) {
    *state += 0x9E3779B97F4A7C15;
    uint64_t z = *state;
    z = (z ^ (z >> 30)) * 0xBF58476D1CE4E5B9;
    z = (z ^ (z >> 27)) * 0x94D049BB133111EB;
    return z ^ (z >> 31);
}

/* Piece of work n: a transaction puts some words, and n in word 0; every seventh is aborted. Behind every so many of them
   stands a sync, and behind every hundredth sync a compaction. */
typedef struct piece {
    int is_aborted, is_synced, is_compacted, count;
    uint32_t address[MOST];
    uint64_t word[MOST];
} piece;

static piece piece_of(uint64_t seed, uint64_t n) {
    uint64_t state = seed ^ (n * 0xD1B54A32D192ED03);
    piece p;
    p.is_aborted = n % 7 == 3;
    p.is_synced = draw(&state) % 3 == 0;
    p.is_compacted = p.is_synced && draw(&state) % 20 == 0;
    p.count = 2 + (int)(draw(&state) % (MOST - 1));
    for (int i = 0; i < p.count; i++) {
        p.address[i] = 1 + (uint32_t)(draw(&state) % (WORDS - 1));
        p.word[i] = draw(&state);
    }
    p.address[p.count - 1] = 0;
    p.word[p.count - 1] = n;
    return p;
}

static void apply(uint64_t *words, const piece *p) {
    if (p->is_aborted) return;
    for (int i = 0; i < p->count; i++) words[p->address[i]] = p->word[i];
}

static void must(uint32_t code, const char *what) {
    if (code == ENVY_DONE) return;
    fprintf(stderr, "kept_killed: %s: %s\n", what, envy_error_text(code));
    _exit(1);
}

static void do_piece(const piece *p, uint64_t *state) {
    uint32_t slot, number;
    must(envy_begin(&kept, &slot), "begin");
    for (int i = 0; i < p->count; i++) {
        must(envy_put(&kept, slot, p->address[i], p->word[i], &number), "put");
        if (draw(state) % 4 == 0) must(envy_tick(&kept, &number), "tick");
    }
    must(p->is_aborted ? envy_abort(&kept, slot) : envy_commit(&kept, slot), "end");
}

/* What the worker tells: it begins the sync behind piece n, or that is done. */
typedef struct told {
    uint64_t n;
    uint64_t is_done;
} told;

static void tell(int pipe, uint64_t n, uint64_t is_done) {
    told it = {n, is_done};
    if (write(pipe, &it, sizeof it) != sizeof it) _exit(1);
}

/* Works from piece n on until it is killed. */
static void work(const char *path, uint64_t seed, uint64_t n, int pipe, int is_bytewise) {
    uint64_t state = seed + n;
    must(envy_open_file(&kept, path, &setup, ENVY_CREATE | (is_bytewise ? ENVY_BYTEWISE : 0)), "open");
    for (;; n++) {
        piece p = piece_of(seed, n);
        do_piece(&p, &state);
        if (!p.is_synced) continue;
        tell(pipe, n, 0);
        must(p.is_compacted ? envy_compact(&kept) : envy_sync(&kept), "sync");
        tell(pipe, n, 1);
    }
}

/* Runs the worker for a while and kills it. The last sync that was done, and the one in flight, or the same. */
static void killed_after(const char *path, uint64_t seed, useconds_t moment, int is_bytewise, uint64_t *done,
                         uint64_t *begun) {
    int ends[2];
    if (pipe(ends)) exit(1);
    pid_t worker = fork();
    if (worker < 0) exit(1);
    if (worker == 0) {
        close(ends[0]);
        work(path, seed, *done + 1, ends[1], is_bytewise);
    }
    close(ends[1]);
    /* what it tells is read while it works, since a pipe holds no more than so much */
    pid_t killer = fork();
    if (killer < 0) exit(1);
    if (killer == 0) {
        usleep(moment);
        kill(worker, SIGKILL);
        _exit(0);
    }
    *begun = *done;
    for (told it; read(ends[0], &it, sizeof it) == sizeof it;) {
        *begun = it.n;
        if (it.is_done) *done = it.n;
    }
    close(ends[0]);
    int status;
    waitpid(killer, NULL, 0);
    waitpid(worker, &status, 0);
    if (!WIFSIGNALED(status) || WTERMSIG(status) != SIGKILL) {
        fprintf(stderr, "kept_killed: the worker ended by itself\n");
        exit(1);
    }
}

static int holds(const uint64_t *words) {
    uint64_t loaded, looked;
    for (uint32_t a = 0; a < WORDS; a++) {
        must(envy_load(&kept, a, &loaded), "load");
        must(envy_look(&kept, a, &looked), "look");
        if (loaded != words[a] || looked != words[a]) return 0;
    }
    return 1;
}

int main(int words, char **word) {
    static uint64_t before[WORDS], after[WORDS];
    if (words != 4) return 2;
    int rounds = atoi(word[2]), in_flight = 0;
    uint64_t seed = strtoull(word[3], NULL, 10), state = seed, last = 0, syncs = 0;
    must(envy_open_file(&kept, word[1], &setup, ENVY_CREATE), "make");
    must(envy_close(&kept), "close");
    for (int round = 1; round <= rounds; round++) {
        setup.policy = draw(&state) % 5;
        uint64_t done = last, begun;
        killed_after(word[1], seed, (useconds_t)(draw(&state) % 150000), round % 2, &done, &begun);
        for (; last < done; last++) {
            piece p = piece_of(seed, last + 1);
            syncs += (uint64_t)p.is_synced;
            apply(before, &p);
        }
        memcpy(after, before, sizeof after);
        for (uint64_t n = last + 1; n <= begun; n++) {
            piece p = piece_of(seed, n);
            apply(after, &p);
        }
        must(envy_open_file(&kept, word[1], &setup, ENVY_CREATE), "open after a kill");
        if (!holds(before)) {
            if (!holds(after)) {
                fprintf(stderr, "kept_killed: round %d: the words are neither those of the sync behind piece %llu nor of %llu\n",
                        round, (unsigned long long)done, (unsigned long long)begun);
                return 1;
            }
            memcpy(before, after, sizeof before);
            last = begun;
            in_flight++;
        }
        must(envy_close(&kept), "close");
    }
    printf("kept files: %d kills, %llu pieces of work, %llu syncs, %d of them done but not yet told\n", rounds,
           (unsigned long long)last, (unsigned long long)syncs, in_flight);
    return 0;
}
