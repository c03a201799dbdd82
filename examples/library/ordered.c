/* A million drawn operations on a map in a mapped file, whose process is killed at drawn moments. Each answer is compared
   with that of a sorted array, and after each kill the whole map, upward and downward: it is just what was answered, or
   that and the one operation that was in flight. Over a kept file (OF_KEPT) every sixteen operations are synced: it is
   just what was synced last, or what was being synced. Calls that only read are also made of drawn words.

     ordered FILE OPERATIONS SEED */
#include "../../c/envy.h"
#ifdef OF_KEPT
#define OPEN envy_open_file
#else
#define OPEN envy_open_mapped
#endif
#include "sorted.h"
#include <signal.h>
#include <stdio.h>
#include <stdlib.h>
#include <string.h>
#include <sys/wait.h>
#include <unistd.h>

/* A map of 400 pages has at most 2,674 pairs; keys are drawn from 4,096. */
enum { PAGES = 400, KEYS = SORTED, MOST = 14 * ((32 * PAGES - 64) / 64 - 8), SWING = 40000 };

static envy_setup setup = {
    .segments = 16, .rows = 64, .pages = PAGES, .shadows = 32, .frames = 16, .entries = 64,
    .policy = ENVY_GREEDY, .part = 2, .limit = 3, .mark = 12,
};

static envy map = ENVY_INIT;

static void must(int holds, const char *what) {
    if (holds) return;
    fprintf(stderr, "ordered: %s\n", what);
    _exit(1);
}

static uint64_t draw(uint64_t *state) {
    *state += 0x9E3779B97F4A7C15;
    uint64_t z = *state;
    z = (z ^ (z >> 30)) * 0xBF58476D1CE4E5B9;
    z = (z ^ (z >> 27)) * 0x94D049BB133111EB;
    return z ^ (z >> 31);
}

/* ---- operations */

enum kind { GET, INSERT, REMOVE, NEXT, ABOVE, LAST, COUNT };

typedef struct operation {
    enum kind kind;
    uint64_t key, value;
} operation;

/* Operation n. The map grows for a while, up to its most pairs, and then shrinks for a while, down to few. */
static operation operation_of(uint64_t seed, uint64_t n) {
    uint64_t state = seed ^ (n * 0xD1B54A32D192ED03);
    uint64_t drawn = draw(&state) % 16, number = draw(&state) % KEYS;
    int grows = n / SWING % 2 == 0;
    operation o;
    o.kind = drawn < 8 ? (grows ? INSERT : REMOVE) : drawn < 9 ? (grows ? REMOVE : INSERT) : (enum kind[]){GET, GET, NEXT,
        ABOVE, LAST, LAST, COUNT}[drawn - 9];
    /* from 0 to the greatest number, and for the neighbours also numbers between the keys */
    o.key = number == KEYS - 1 ? UINT64_MAX : number * 0x000F83E0F83E0F83;
    if (o.kind >= NEXT) o.key += draw(&state) % 3 - 1;
    o.value = draw(&state);
    return o;
}

static int is_full(const model *m, const operation *o) { return !has(m, o->key) && m->count == MOST; }

static void apply(model *m, const operation *o) {
    if (o->kind == INSERT && !is_full(m, o)) set(m, o->key, o->value);
    if (o->kind == REMOVE) take_out(m, o->key);
}

/* A call that looks for a pair answers the one at this place of the array, or that there is none. */
static void tells(const model *m, int place, uint32_t code, const envy_pair *pair, const char *what) {
    int there = place >= 0 && place < m->count;
    must(code == (there ? ENVY_DONE : ENVY_ABSENT), what);
    if (there) must(pair->key == m->pair[place].key && pair->value == m->pair[place].value, what);
    else must(pair->key == 77 && pair->value == 78, what);
}

/* Does an operation, and compares its answer with the array's. */
static void do_operation(const model *m, const operation *o) {
    int place = place_of(m, o->key), there = has(m, o->key);
    uint64_t word = 77;
    envy_old before = {77, 78};
    envy_pair pair = {77, 78};
    uint32_t code;
    switch (o->kind) {
    case GET:
        code = envy_index_get(&map, o->key, &word);
        must(code == (there ? ENVY_DONE : ENVY_ABSENT) && word == (there ? m->pair[place].value : 77), "get");
        break;
    case INSERT:
        code = envy_index_insert(&map, o->key, o->value, &before);
        if (is_full(m, o)) {
            must(code == ENVY_MAP_FULL && before.value == 77 && before.had == 78, "insert into a full map");
            break;
        }
        must(code == ENVY_DONE && before.had == (uint32_t)there, "insert");
        must(before.value == (there ? m->pair[place].value : 0), "the value before an insert");
        break;
    case REMOVE:
        code = envy_index_remove(&map, o->key, &word);
        must(code == (there ? ENVY_DONE : ENVY_ABSENT) && word == (there ? m->pair[place].value : 77), "remove");
        break;
    case NEXT:
        code = envy_index_next(&map, o->key, &pair);
        tells(m, place, code, &pair, "next");
        break;
    case ABOVE:
        code = envy_index_above(&map, o->key, &pair);
        tells(m, place + there, code, &pair, "above");
        break;
    case LAST:
        code = envy_index_last(&map, o->key, &pair);
        tells(m, place - !there, code, &pair, "last");
        break;
    case COUNT:
        code = envy_index_count(&map, &word);
        must(code == ENVY_DONE && word == (uint64_t)m->count, "count");
        break;
    }
}

/* Whether scans of n pairs at a time write just the pairs of the array, and no pair past n, upward or downward. */
static int scans(const model *m, int down, size_t n) {
    static envy_pair pair[KEYS + 1];
    uint64_t key = down ? UINT64_MAX : 0;
    int seen = 0, ended;
    do {
        size_t count = 77;
        for (size_t i = 0; i <= n; i++) pair[i] = (envy_pair){77, 78};
        must((down ? envy_index_scan_down : envy_index_scan)(&map, key, pair, n, &count) == ENVY_DONE, "a scan is done");
        must(count <= n, "a scan goes on past n");
        for (size_t i = count; i <= n; i++) must(pair[i].key == 77 && pair[i].value == 78, "a scan writes past its pairs");
        for (size_t i = 0; i < count; i++, seen++) {
            if (seen == m->count) return 0;
            if (memcmp(&pair[i], &m->pair[down ? m->count - 1 - seen : seen], sizeof *pair)) return 0;
        }
        ended = count < n || n == 0 || pair[count - 1].key == (down ? 0 : UINT64_MAX);
        if (!ended) key = pair[count - 1].key + (down ? UINT64_MAX : 1);
    } while (!ended);
    return seen == (n ? m->count : 0);
}

/* Whether the map has just the pairs of the array, upward and downward. */
static int holds(const model *m) {
    envy_pair pair = {0, 0};
    int i = 0;
    uint32_t code = envy_index_next(&map, 0, &pair);
    for (; code == ENVY_DONE; code = envy_index_above(&map, pair.key, &pair), i++)
        if (i == m->count || pair.key != m->pair[i].key || pair.value != m->pair[i].value) return 0;
    must(code == ENVY_ABSENT, "a scan upward");
    if (i != m->count) return 0;
    code = envy_index_last(&map, UINT64_MAX, &pair);
    while (code == ENVY_DONE) {
        if (i == 0 || pair.key != m->pair[i - 1].key) return 0;
        i--;
        if (pair.key == 0) break;
        code = envy_index_last(&map, pair.key - 1, &pair);
    }
    must(code == ENVY_DONE || code == ENVY_ABSENT, "a scan downward");
    for (int down = 0; down < 2; down++)
        if (!scans(m, down, 64) || !scans(m, down, 100) || !scans(m, down, KEYS)) return 0;
    return i == 0;
}

/* ---- kills */

/* So many operations are answered together. */
#ifdef OF_KEPT
enum { BATCH = 16 };

static void keep(uint64_t n) {
    if (n % (100 * BATCH) == 0) must(envy_compact(&map) == ENVY_DONE, "compact");
    else must(envy_sync(&map) == ENVY_DONE, "sync");
}
#else
enum { BATCH = 1 };

static void keep(uint64_t n) { (void)n; }
#endif

static void work(const char *path, uint64_t seed, uint64_t n, uint64_t end, model *m, int pipe) {
    uint32_t did;
    must(OPEN(&map, path, &setup, ENVY_CREATE) == ENVY_DONE, "attach");
    for (; n <= end; n++) {
        operation o = operation_of(seed, n);
        do_operation(m, &o);
        apply(m, &o);
        if (n % BATCH == 0) {
            keep(n);
            if (write(pipe, &n, sizeof n) != sizeof n) _exit(1);
        }
        if (n % 4 == 0) must(envy_tick(&map, &did) == ENVY_DONE, "tick");
    }
    pause();
}

/* Runs a worker from where the array stands, kills it, and answers the last number that it wrote. */
static uint64_t killed_after(const char *path, uint64_t seed, uint64_t last, uint64_t end, model *m, useconds_t moment) {
    int ends[2], status;
    if (pipe(ends)) exit(1);
    pid_t worker = fork();
    if (worker < 0) exit(1);
    if (worker == 0) {
        close(ends[0]);
        work(path, seed, last + 1, end, m, ends[1]);
    }
    close(ends[1]);
    pid_t killer = fork();
    if (killer < 0) exit(1);
    if (killer == 0) {
        usleep(moment);
        kill(worker, SIGKILL);
        _exit(0);
    }
    for (uint64_t n; read(ends[0], &n, sizeof n) == sizeof n; last = n)
        must(n == last + BATCH, "numbers are answered in order");
    close(ends[0]);
    waitpid(killer, NULL, 0);
    waitpid(worker, &status, 0);
    must(WIFSIGNALED(status) && WTERMSIG(status) == SIGKILL, "the worker ended by itself");
    return last;
}

/* ---- answers of a map that isn't there, or may not be asked */

static void all_answer(uint32_t code) {
    uint64_t word = 77;
    envy_old before = {77, 78};
    envy_pair pair = {77, 78};
    size_t pairs = 77;
    must(envy_index_create(&map) == code, "create is refused");
    must(envy_index_get(&map, 5, &word) == code, "get is refused");
    must(envy_index_insert(&map, 5, 50, &before) == code, "insert is refused");
    must(envy_index_remove(&map, 5, &word) == code, "remove is refused");
    must(envy_index_count(&map, &word) == code, "count is refused");
    must(envy_index_next(&map, 5, &pair) == code, "next is refused");
    must(envy_index_above(&map, 5, &pair) == code, "above is refused");
    must(envy_index_last(&map, 5, &pair) == code, "last is refused");
    must(envy_index_scan(&map, 5, &pair, 1, &pairs) == code, "scan is refused");
    must(envy_index_scan_down(&map, 5, &pair, 1, &pairs) == code, "scan_down is refused");
    must(pairs == 77 && word == 77 && before.value == 77 && before.had == 78 && pair.key == 77 && pair.value == 78, "a refusal writes");
}

/* Answers of the calls that only read, for words that stand for a map or not: how many are that they don't. */
static int broken_answers(uint64_t key) {
    static envy_pair pair[101];
    uint64_t word;
    size_t count = 0;
    uint32_t code[] = {envy_index_get(&map, key, &word), envy_index_next(&map, key, pair), envy_index_above(&map, key, pair),
        envy_index_last(&map, key, pair), envy_index_count(&map, &word), ENVY_DONE, ENVY_DONE};
    int broken = 0;
    pair[100].key = 77;
    code[5] = envy_index_scan(&map, key, pair, 100, &count);
    must(count <= 100, "a scan of any words");
    code[6] = envy_index_scan_down(&map, key, pair, 100, &count);
    must(count <= 100 && pair[100].key == 77, "a scan downward of any words");
    for (int i = 0; i < 7; i++) {
        must(code[i] == ENVY_DONE || code[i] == ENVY_BROKEN_MAP || (i < 4 && code[i] == ENVY_ABSENT), "an answer of any words");
        broken += code[i] == ENVY_BROKEN_MAP;
    }
    return broken;
}

/* A map of 1,000 pairs of which one word is drawn anew, 2,000 times. */
static void any_words(uint64_t seed) {
    uint32_t holder;
    uint64_t word, state = seed;
    envy_old before;
    int broken = 0;
    for (uint64_t key = 0; key < 1000; key++)
        must(envy_index_insert(&map, 7 * key, key, &before) == ENVY_DONE, "insert");
    must(broken_answers(3500) == 0, "a map isn't broken");
    for (int i = 0; i < 2000; i++) {
        uint32_t a = i < 4 ? (uint32_t)i : (uint32_t)(draw(&state) % (64 * 100));
        uint64_t drawn = draw(&state), other;
        must(envy_look(&map, a, &word) == ENVY_DONE, "look");
        other = i % 2 ? drawn : word ^ (1ull << drawn % 64);
        must(envy_store(&map, a, other, &holder) == ENVY_DONE, "store");
        broken += broken_answers(drawn % 7000) > 0;
        must(envy_store(&map, a, word, &holder) == ENVY_DONE, "store");
    }
    must(broken > 0 && broken_answers(3500) == 0, "some words are no map");
}

static void refusals(const char *path) {
    static const model none;
    uint32_t slot, holder;
    uint64_t word;
    envy_old before;
    must(envy_new(&map) == ENVY_DONE, "a place is made");
    all_answer(ENVY_EMPTY);
    for (int other = 0; other < 2; other++) {
        envy_setup small = setup;
        if (other) small.pages = 19;
        else small.shadows = 31;
        must(OPEN(&map, path, &small, ENVY_CREATE) == ENVY_DONE, "format");
        if (other) must(envy_index_create(&map) == ENVY_MAP_SETUP, "19 pages");
        else all_answer(ENVY_MAP_SETUP);
        envy_close(&map);
        must(!unlink(path), "unlink");
    }
    must(OPEN(&map, path, &setup, ENVY_CREATE) == ENVY_DONE, "format");
    must(envy_index_insert(&map, 5, 50, &before) == ENVY_DONE && !before.had, "zeros are a map");
    must(envy_begin(&map, &slot) == ENVY_DONE, "begin");
    must(envy_put(&map, slot, 0, 99, &holder) == ENVY_DONE, "put");
    all_answer(ENVY_SLOT_OPEN);
    must(envy_abort(&map, slot) == ENVY_DONE, "abort");
    must(envy_index_get(&map, 5, &word) == ENVY_DONE && word == 50, "an aborted transaction");
    /* over other words a map begins without pairs, and leaves them */
    for (uint32_t a = 0; a < 32 * PAGES; a++)
        must(envy_store(&map, a, a * 0x0123456789ABCDEFull, &holder) == ENVY_DONE, "store");
    must(envy_index_create(&map) == ENVY_DONE, "create");
    for (uint32_t a = 0; a < 32 * PAGES; a++) {
        must(envy_look(&map, a, &word) == ENVY_DONE, "look");
        must(word == (a < 4 ? 0 : a * 0x0123456789ABCDEFull), "create leaves other words");
    }
    must(envy_index_count(&map, &word) == ENVY_DONE && word == 0, "no pairs");
    must(scans(&none, 0, 100) && scans(&none, 1, 100) && scans(&none, 0, 0), "scans of no pairs");
    any_words(20);
    /* the operations begin with no pairs */
    must(envy_index_create(&map) == ENVY_DONE, "create");
    envy_close(&map);
}

int main(int words, char **word) {
    static model before, after;
    if (words != 4) return 2;
    uint64_t end = strtoull(word[2], NULL, 10), seed = strtoull(word[3], NULL, 10), state = seed, last = 0;
    int kills = 0, in_flight = 0, most = 0;
    refusals(word[1]);
    while (last < end) {
        uint64_t answered = killed_after(word[1], seed, last, end, &before, (useconds_t)(draw(&state) % 100000));
        for (; last < answered; last++) {
            operation o = operation_of(seed, last + 1);
            apply(&before, &o);
            if (before.count > most) most = before.count;
        }
        after = before;
        for (uint64_t n = last + 1; n <= last + BATCH; n++) {
            operation o = operation_of(seed, n);
            apply(&after, &o);
        }
        kills++;
        must(OPEN(&map, word[1], &setup, ENVY_CREATE) == ENVY_DONE, "attach after a kill");
        if (!holds(&before)) {
            must(holds(&after), "the map is neither that of the last answer nor that of what was in flight");
            before = after;
            last += BATCH;
            in_flight++;
        }
        envy_close(&map);
    }
    printf("%llu operations on a map of up to %d pairs, %d kills, %d operations done but not yet answered\n",
           (unsigned long long)last, most, kills, in_flight);
    return 0;
}
