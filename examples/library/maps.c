/* Drawn changes of three maps in ranges of a mapped file and of plain words beside them, in transactions of one change to a
   thousand, whose process is killed at drawn moments. Each answer is compared with those of sorted arrays; after each kill
   the maps and words are just those of the last transaction that was answered, or of the one that was in flight.

     maps FILE CHANGES SEED */
#include "../../c/envy.h"
#include "sorted.h"
#include <signal.h>
#include <stdio.h>
#include <stdlib.h>
#include <string.h>
#include <sys/wait.h>
#include <unistd.h>

/* The ranges have other sizes, and don't lie side by side: the words between them and after them are plain. */
enum { MAPS = 3, PLAIN = 64, PAGES = 900, SHADOWS = 250 };

static const envy_map maps[MAPS] = {{32, 32 * 400}, {32 * 420, 32 * 300}, {32 * 780, 32 * 110}};

static uint32_t plain_at(uint64_t i) { return i < 32 ? (uint32_t)i : 32 * 401 + (uint32_t)i; }

static envy_setup setup = {
    .segments = 32, .rows = 64, .pages = PAGES, .shadows = SHADOWS, .frames = 300, .entries = 64,
    .policy = ENVY_GREEDY, .part = 2, .limit = 3, .mark = 64,
};

static envy file = ENVY_INIT;

/* What the file holds. */
typedef struct state {
    model map[MAPS];
    uint64_t plain[PLAIN];
} state;

static void must(int holds, const char *what) {
    if (holds) return;
    fprintf(stderr, "maps: %s\n", what);
    _exit(1);
}

static uint64_t draw(uint64_t *seed) {
    *seed += 0x9E3779B97F4A7C15;
    uint64_t z = *seed;
    z = (z ^ (z >> 30)) * 0xBF58476D1CE4E5B9;
    z = (z ^ (z >> 27)) * 0x94D049BB133111EB;
    return z ^ (z >> 31);
}

/* ---- transactions */

typedef struct change {
    int map; /* or MAPS, of a plain word */
    int takes_out;
    uint64_t key, value;
} change;

/* How many changes transaction n is to have at most, and whether it is to be committed. */
static int length_of(uint64_t seed, uint64_t n, int *kept) {
    uint64_t drawn = seed ^ (n * 0xD1B54A32D192ED03);
    static const int most[] = {1, 3, 10, 30, 100, 1000};
    *kept = draw(&drawn) % 8 != 0;
    return 1 + (int)(draw(&drawn) % (uint64_t)most[draw(&drawn) % 6]);
}

/* Change i of transaction n. Maps grow for a while, up to their most pairs, and shrink for a while. */
static change change_of(uint64_t seed, uint64_t n, int i) {
    uint64_t drawn = seed ^ (n * 0xA0761D6478BD642F) ^ ((uint64_t)i << 48);
    change c;
    c.map = (int)(draw(&drawn) % (2 * MAPS + 1)) / 2;
    c.takes_out = (draw(&drawn) % 8 < 2) == (n / 300 % 2 == 0);
    c.key = c.map == MAPS ? draw(&drawn) % PLAIN : draw(&drawn) % SORTED * 0x000F83E0F83E0F83;
    c.value = draw(&drawn);
    return c;
}

static int most_of(int map) { return 14 * ((int)(maps[map].words - 64) / 64 - 8); }

static int is_full(const model *m, int map, uint64_t key) { return !has(m, key) && m->count == most_of(map); }

static void apply(state *s, const change *c) {
    if (c->map == MAPS) s->plain[c->key] = c->value;
    else if (c->takes_out) take_out(&s->map[c->map], c->key);
    else if (!is_full(&s->map[c->map], c->map, c->key)) set(&s->map[c->map], c->key, c->value);
}

/* Does a change, and compares its answer. It tells whether there was room for it. */
static int do_change(uint32_t slot, const state *s, const change *c) {
    uint32_t holder, code;
    if (c->map == MAPS) {
        code = envy_put(&file, slot, plain_at(c->key), c->value, &holder);
        must(code == ENVY_DONE || code == ENVY_FULL, "a plain word is put");
        return code == ENVY_DONE;
    }
    const model *m = &s->map[c->map];
    const envy_map *map = &maps[c->map];
    int place = place_of(m, c->key), there = has(m, c->key);
    uint64_t word = 77;
    envy_old before = {77, 78};
    if (c->takes_out) {
        code = envy_map_remove(&file, slot, map, c->key, &word);
        if (code != ENVY_FULL) must(code == (there ? ENVY_DONE : ENVY_ABSENT), "remove");
        must(word == (code == ENVY_DONE ? m->pair[place].value : 77), "the value of a removal");
    } else {
        code = envy_map_insert(&file, slot, map, c->key, c->value, &before);
        if (code != ENVY_FULL) must(code == (is_full(m, c->map, c->key) ? ENVY_MAP_FULL : ENVY_DONE), "insert");
        if (code != ENVY_DONE) must(before.value == 77 && before.had == 78, "a refused insert writes");
        else must(before.had == (uint32_t)there && before.value == (there ? m->pair[place].value : 0), "the value before");
    }
    uint32_t found = envy_map_get(&file, map, c->key, &word);
    if (code == ENVY_DONE) must(found == (c->takes_out ? ENVY_ABSENT : ENVY_DONE), "a change is seen");
    else must(found == (there ? ENVY_DONE : ENVY_ABSENT), "a refused change is none");
    if (code == ENVY_DONE && !c->takes_out) must(word == c->value, "the value is seen");
    return code != ENVY_FULL;
}

/* Whether the file holds just this. */
static int holds(const state *s) {
    static envy_pair pair[SORTED + 1];
    for (int i = 0; i < MAPS; i++) {
        const model *m = &s->map[i];
        uint64_t number = 0;
        size_t count = 0;
        must(envy_map_count(&file, &maps[i], &number) == ENVY_DONE, "count");
        must(envy_map_scan(&file, &maps[i], 0, pair, SORTED + 1, &count) == ENVY_DONE, "scan");
        if (number != (uint64_t)m->count || count != (size_t)m->count) return 0;
        if (memcmp(pair, m->pair, count * sizeof *pair)) return 0;
        must(envy_map_scan_down(&file, &maps[i], UINT64_MAX, pair, SORTED + 1, &count) == ENVY_DONE, "scan_down");
        if (count != (size_t)m->count) return 0;
        for (size_t j = 0; j < count; j++)
            if (memcmp(&pair[j], &m->pair[count - 1 - j], sizeof *pair)) return 0;
    }
    for (uint64_t i = 0; i < PLAIN; i++) {
        uint64_t word;
        must(envy_load(&file, plain_at(i), &word) == ENVY_DONE, "load");
        if (word != s->plain[i]) return 0;
    }
    return 1;
}

/* ---- kills */

/* What a worker tells of transaction n: that so many of its changes are about to be kept, or that it has ended. */
typedef struct note {
    uint64_t n;
    int32_t changes, ended;
} note;

static void work(const char *path, uint64_t seed, uint64_t n, state *s, int pipe) {
    static state saved;
    uint32_t slot, did;
    must(envy_open_mapped(&file, path, &setup, ENVY_CREATE) == ENVY_DONE, "attach");
    for (;; n++) {
        int kept, length = length_of(seed, n, &kept), i = 0;
        saved = *s;
        must(envy_map_begin(&file, &slot) == ENVY_DONE && slot == 0, "begin");
        for (; i < length; i++) {
            change c = change_of(seed, n, i);
            if (!do_change(slot, s, &c)) break;
            apply(s, &c);
        }
        note told = {n, kept ? i : 0, 0};
        if (write(pipe, &told, sizeof told) != sizeof told) _exit(1);
        must((kept ? envy_map_commit : envy_map_abort)(&file, slot) == ENVY_DONE, "the end of a transaction");
        if (!kept) *s = saved;
        told.ended = 1;
        if (write(pipe, &told, sizeof told) != sizeof told) _exit(1);
        if (n % 64 == 0) must(holds(s), "what the worker sees");
        if (n % 4 == 0) must(envy_tick(&file, &did) == ENVY_DONE, "tick");
    }
}

static void play(state *s, uint64_t seed, const note *told) {
    for (int i = 0; i < told->changes; i++) {
        change c = change_of(seed, told->n, i);
        apply(s, &c);
    }
}

/* Runs a worker from where the state is, kills it, and plays what it said was kept; `flying` is what may be. */
static uint64_t killed_after(const char *path, uint64_t seed, uint64_t next, state *s, note *flying, uint64_t *changes, useconds_t moment) {
    int ends[2], status;
    if (pipe(ends)) exit(1);
    pid_t worker = fork();
    if (worker < 0) exit(1);
    if (worker == 0) {
        close(ends[0]);
        work(path, seed, next, s, ends[1]);
    }
    close(ends[1]);
    pid_t killer = fork();
    if (killer < 0) exit(1);
    if (killer == 0) {
        usleep(moment);
        kill(worker, SIGKILL);
        _exit(0);
    }
    *flying = (note){next, 0, 0};
    for (note told; read(ends[0], &told, sizeof told) == sizeof told;) {
        must(told.n == next, "transactions are told in order");
        *flying = told;
        if (!told.ended) continue;
        play(s, seed, &told);
        *changes += (uint64_t)told.changes;
        *flying = (note){++next, 0, 0};
    }
    close(ends[0]);
    waitpid(killer, NULL, 0);
    waitpid(worker, &status, 0);
    must(WIFSIGNALED(status) && WTERMSIG(status) == SIGKILL, "the worker ended by itself");
    return next;
}

/* ---- refusals, which change nothing */

static void all_answer(uint32_t code, const envy_map *map) {
    uint64_t word = 77;
    envy_old before = {77, 78};
    envy_pair pair = {77, 78};
    size_t count = 77;
    must(envy_map_create(&file, 0, map) == code, "create is refused");
    must(envy_map_insert(&file, 0, map, 5, 50, &before) == code, "insert is refused");
    must(envy_map_remove(&file, 0, map, 5, &word) == code, "remove is refused");
    if (code == ENVY_CLOSED) return;
    must(envy_map_get(&file, map, 5, &word) == code, "get is refused");
    must(envy_map_count(&file, map, &word) == code, "count is refused");
    must(envy_map_scan(&file, map, 5, &pair, 1, &count) == code, "scan is refused");
    must(envy_map_scan_down(&file, map, 5, &pair, 1, &count) == code, "scan_down is refused");
    must(word == 77 && before.value == 77 && before.had == 78 && pair.key == 77 && count == 77, "a refusal writes");
}

static void refusals(const char *path) {
    static const envy_map past[] = {{0, 608}, {16, 640}, {0, 656}, {32 * (PAGES - 19), 640}, {UINT32_MAX - 31, 640}, {0, 0}};
    uint32_t slot, other;
    uint64_t word;
    envy_old before;
    must(envy_new(&file) == ENVY_DONE, "a place is made");
    all_answer(ENVY_EMPTY, &maps[0]);
    must(envy_map_begin(&file, &slot) == ENVY_EMPTY && envy_map_commit(&file, 0) == ENVY_EMPTY, "no memory");
    must(envy_open_mapped(&file, path, &setup, ENVY_CREATE) == ENVY_DONE, "format");
    all_answer(ENVY_CLOSED, &maps[0]);
    must(envy_map_commit(&file, 0) == ENVY_CLOSED && envy_map_abort(&file, 0) == ENVY_CLOSED, "no transaction");
    /* beside another transaction there is none of maps */
    must(envy_begin(&file, &slot) == ENVY_DONE && slot == 0, "begin");
    must(envy_map_begin(&file, &other) == ENVY_SLOT_OPEN, "a slot is open");
    must(envy_begin(&file, &other) == ENVY_DONE && other == 1, "begin");
    all_answer(ENVY_SLOT_OPEN, &maps[0]);
    must(envy_abort(&file, 0) == ENVY_DONE && envy_abort(&file, 1) == ENVY_DONE, "abort");
    must(envy_map_begin(&file, &slot) == ENVY_DONE, "begin");
    for (size_t i = 0; i < sizeof past / sizeof *past; i++) all_answer(ENVY_RANGE, &past[i]);
    must(envy_map_commit(&file, 1) == ENVY_CLOSED, "another slot");
    must(envy_map_insert(&file, 1, &maps[0], 5, 50, &before) == ENVY_CLOSED, "a change in another slot");
    /* a map is made of any words, and an aborted one is none */
    must(envy_map_create(&file, slot, &maps[1]) == ENVY_DONE, "create");
    must(envy_load(&file, maps[1].first + 4, &word) == ENVY_DONE && word, "a map is marked");
    must(envy_map_insert(&file, slot, &maps[1], 5, 50, &before) == ENVY_DONE, "insert");
    must(envy_map_abort(&file, slot) == ENVY_DONE, "abort");
    must(envy_load(&file, maps[1].first + 4, &word) == ENVY_DONE && !word, "an aborted map");
    must(envy_map_get(&file, &maps[1], 5, &word) == ENVY_ABSENT, "an aborted pair");
}

int main(int words, char **word) {
    static state before, after;
    if (words != 4) return 2;
    uint64_t end = strtoull(word[2], NULL, 10), seed = strtoull(word[3], NULL, 10), drawn = seed, next = 1, changes = 0;
    int kills = 0, in_flight = 0;
    note flying;
    refusals(word[1]);
    must(envy_close(&file) == ENVY_DONE, "close");
    while (changes < end) {
        next = killed_after(word[1], seed, next, &before, &flying, &changes, (useconds_t)(draw(&drawn) % 200000));
        kills++;
        must(envy_open_mapped(&file, word[1], &setup, ENVY_CREATE) == ENVY_DONE, "attach after a kill");
        if (!holds(&before)) {
            after = before;
            play(&after, seed, &flying);
            must(holds(&after), "the maps are neither those of the last transaction nor those of the one in flight");
            before = after;
            in_flight++;
        }
        /* (a transaction that was in flight isn't begun again) */
        next++;
        envy_close(&file);
    }
    printf("%llu changes of three maps and %d words in %llu transactions, %d kills, %d transactions done but not yet answered\n",
           (unsigned long long)changes, PLAIN, (unsigned long long)next - 1, kills, in_flight);
    return 0;
}
