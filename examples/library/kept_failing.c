/* The library over a file in this program's memory, whose calls fail where they are told: each answer of opening; a
   session whose k-th call of the disk fails, for each k, with any part of it done, also if the file is opened as written
   byte by byte, and goes on if that was a call of the second file alone; an opening whose k-th block of the heap
   isn't given; and a compaction, which leaves a shorter file that opens as the same words.

     kept_failing SEED */
#include "../../c/envy.h"
#include "../../c/envy_text.h"
#include <stdbool.h>
#include <stdio.h>
#include <stdlib.h>
#include <string.h>

enum { PAGES = 12, WORDS = 32 * PAGES, PIECES = 40, ROOM = 1 << 22, NEVER = 1 << 30 };

static const envy_setup setup = {
    .segments = 4, .rows = 8, .pages = PAGES, .shadows = 4, .frames = 3, .entries = 2,
    .policy = ENVY_GREEDY, .part = 2, .limit = 3, .mark = 2,
};

static void want(int line, uint64_t found, uint64_t wanted) {
    if (found == wanted) return;
    fprintf(stderr, "kept_failing.c:%d: %llu, not %llu\n", line, (unsigned long long)found, (unsigned long long)wanted);
    exit(1);
}
#define WANT(found, wanted) want(__LINE__, found, wanted)

static uint64_t draw(uint64_t *state) {
    *state += 0x9E3779B97F4A7C15;
    uint64_t z = *state;
    z = (z ^ (z >> 30)) * 0xBF58476D1CE4E5B9;
    z = (z ^ (z >> 27)) * 0x94D049BB133111EB;
    return z ^ (z >> 31);
}

/* ---- the heap, of which one block isn't given */

struct block {
    bool ok;
    void *at;
};
static int blocks, block_fails = NEVER;
static char nowhere;

static struct block given(void *at) { return at ? (struct block){true, at} : (struct block){false, &nowhere}; }
struct block rattle_alloc(size_t bytes, size_t align) {
    return blocks++ == block_fails ? given(NULL) : given(malloc(bytes ? bytes : align));
}
struct block rattle_realloc(void *at, size_t kept, size_t bytes, size_t align) {
    (void)kept;
    return blocks++ == block_fails ? given(NULL) : given(realloc(at, bytes ? bytes : align));
}
void rattle_dealloc(void *at) { free(at); }

/* ---- the disk, of which one call fails */

typedef struct file {
    uint8_t *bytes;
    size_t n;
} file;
static file first, second;
static int calls, call_fails = NEVER, called_after, in_session;
static bool is_over, has_second, second_failed;
static uint64_t chance;

/* Whether this call fails: then any part of it may be done. */
static bool fails(void) {
    if (is_over) called_after++;
    return calls++ == call_fails;
}

/* A failure of the file ends it; one of the second file ends that one, until it is begun again. */
static int over(bool failed) {
    is_over |= failed;
    return failed;
}

static int given_up(bool failed) {
    has_second = !failed;
    second_failed |= failed;
    return failed;
}

static void put(file *f, size_t at, const uint8_t *bytes, size_t n) {
    if (at + n > ROOM) exit(1);
    memcpy(f->bytes + at, bytes, n);
    if (at + n > f->n) f->n = at + n;
}

static int do_write(void *context, uint64_t at, const void *bytes, size_t n) {
    (void)context;
    bool failed = fails();
    put(&first, at, bytes, failed ? draw(&chance) % (n + 1) : n);
    return over(failed);
}

static int do_cut(void *context, uint64_t size) {
    (void)context;
    bool failed = fails();
    if (!failed || draw(&chance) % 2) first.n = size;
    return over(failed);
}

static int do_sync(void *context) {
    (void)context;
    return over(fails());
}

static int do_begin(void *context) {
    (void)context;
    bool failed = fails();
    if (!failed || draw(&chance) % 2) second.n = 0;
    return given_up(failed);
}

static int do_append(void *context, const void *bytes, size_t n) {
    (void)context;
    bool failed = fails();
    if (!has_second) called_after++;
    put(&second, second.n, bytes, failed ? draw(&chance) % (n + 1) : n);
    return given_up(failed);
}

static int do_replace(void *context) {
    (void)context;
    bool failed = fails();
    uint64_t way = failed ? draw(&chance) % 3 : 0;
    if (!has_second) called_after++;
    has_second = false;
    second_failed |= way == 2;
    if (way == 2) return ENVY_NOT_REPLACED;
    if (way == 0) {
        file old = first;
        first = second;
        second = old;
    }
    return over(failed);
}

static bool bytewise;
static const envy_disk disk = {NULL, do_write, do_cut, do_sync, do_begin, do_append, do_replace};
static envy m = ENVY_INIT;
static int32_t port;

/* Opens what the file holds, from a copy of it. */
static uint32_t open_file(const envy_setup *s) {
    uint8_t *copy = malloc(first.n + 1);
    memcpy(copy, first.bytes, first.n);
    uint32_t code = envy_open_port(&m, s, copy, first.n, port, bytewise);
    free(copy);
    return code;
}

static void holds(int line, const uint64_t *words) {
    uint64_t word;
    for (uint32_t a = 0; a < WORDS; a++) {
        want(line, envy_look(&m, a, &word), ENVY_DONE);
        want(line, word, words[a]);
    }
}

static bool is(const uint64_t *words) {
    uint64_t word;
    for (uint32_t a = 0; a < WORDS; a++)
        if (envy_look(&m, a, &word) != ENVY_DONE || word != words[a]) return false;
    return true;
}

/* ---- a session of pieces of work: words that are put and committed, or stored; every third is synced */

typedef struct session {
    uint64_t now[WORDS], synced[WORDS];
    bool ended, in_sync;
    int done;
} session;

/* If the second file fails, a compaction is done as a sync. */
static uint32_t compacted_or_synced(void) {
    second_failed = false;
    uint32_t code = envy_compact(&m);
    if (code != ENVY_APPENDED) return code;
    WANT(second_failed, true);
    return ENVY_DONE;
}

static bool goes_on(session *s, uint32_t code) {
    if (s->ended) WANT(code, ENVY_OFF); /* never an answer but this behind a failure */
    if (code == ENVY_OFF) s->ended = true;
    else WANT(code, ENVY_DONE);
    return !s->ended;
}

static void piece(session *s, uint64_t *state, int n) {
    uint32_t slot = 0, number;
    uint64_t to[WORDS];
    memcpy(to, s->now, sizeof to);
    bool on = goes_on(s, envy_begin(&m, &slot));
    for (int i = 0; i < 6; i++) {
        uint32_t a = (uint32_t)(draw(state) % WORDS);
        uint64_t word = draw(state);
        uint32_t code = envy_put(&m, slot, a, word, &number);
        if (code == ENVY_FULL) continue;
        on = goes_on(s, code);
        to[a] = word;
    }
    on = goes_on(s, envy_commit(&m, slot));
    if (on) memcpy(s->now, to, sizeof to);
    goes_on(s, envy_tick(&m, &number));
    if (n % 3) return;
    uint32_t code = n % 12 ? envy_sync(&m) : compacted_or_synced();
    if (!s->ended) s->in_sync = true;
    if (goes_on(s, code)) {
        memcpy(s->synced, s->now, sizeof to);
        s->in_sync = false;
    }
}

/* The whole session on a new file; where a call failed the file opens as the words of the last sync or the one that
   failed. */
static void session_with(int fails_at, uint64_t seed) {
    static session s;
    memset(&s, 0, sizeof s);
    first.n = second.n = 0;
    calls = called_after = 0;
    is_over = has_second = false;
    call_fails = fails_at;
    chance = seed ^ (uint64_t)fails_at;
    uint64_t state = seed;
    uint32_t code = open_file(&setup);
    if (code == ENVY_DONE) {
        WANT(envy_powered(&m), ENVY_DONE);
        for (int n = 1; n <= PIECES; n++) piece(&s, &state, n);
        WANT(envy_powered(&m), s.ended ? ENVY_OFF : ENVY_DONE);
        uint64_t word = 77;
        WANT(envy_load(&m, 0, &word), s.ended ? ENVY_OFF : ENVY_DONE);
        if (s.ended) {
            uint32_t number;
            WANT(word, 77);
            WANT(envy_store(&m, 0, 1, &number), ENVY_OFF);
            WANT(envy_sync(&m), ENVY_OFF);
            WANT(envy_compact(&m), ENVY_OFF);
        }
        envy_close(&m);
    } else {
        WANT(code, ENVY_OFF);
    }
    WANT(called_after, 0);
    if (code == ENVY_DONE) WANT(s.ended, is_over);
    in_session = calls;
    call_fails = NEVER;
    is_over = has_second = false;
    WANT(open_file(&setup), ENVY_DONE);
    if (!is(s.synced)) {
        WANT(s.in_sync, true);
        holds(__LINE__, s.now);
    }
    envy_close(&m);
}

/* ---- the answers of opening */

static void refuses(int line, const envy_setup *s, uint32_t code, bool is_asked) {
    uint8_t *before = malloc(first.n + 1);
    size_t n = first.n;
    memcpy(before, first.bytes, n);
    int asked = calls;
    uint64_t word = 77;
    want(line, open_file(s), code);
    want(line, is_asked || calls == asked, true);
    want(line, is_asked || (first.n == n && !memcmp(first.bytes, before, n)), true);
    want(line, envy_load(&m, 0, &word), ENVY_EMPTY);
    want(line, word, 77);
    free(before);
}
#define REFUSES(code) refuses(__LINE__, &setup, code, false)

static void set(const char *text) {
    first.n = strlen(text);
    memcpy(first.bytes, text, first.n);
}

static void setups(void) {
    struct {
        uint32_t code;
        envy_setup s;
    } bad[] = {{ENVY_SETUP_SEGMENTS, setup}, {ENVY_SETUP_ROWS, setup}, {ENVY_SETUP_PAGES, setup}, {ENVY_SETUP_FRAMES, setup},
               {ENVY_SETUP_ENTRIES, setup}, {ENVY_SETUP_SHARE, setup}, {ENVY_SETUP_LIMIT, setup}, {ENVY_SETUP_MARK, setup},
               {ENVY_POLICY, setup}};
    bad[0].s.segments = 3;
    bad[1].s.rows = 1;
    bad[2].s.pages = 0;
    bad[3].s.frames = 1;
    bad[4].s.entries = 0;
    bad[5].s.pages = 17;
    bad[6].s.limit = 0;
    bad[7].s.mark = 0;
    bad[8].s.policy = 5;
    for (size_t i = 0; i < sizeof bad / sizeof *bad; i++) {
        uint64_t bytes = 77;
        refuses(__LINE__, &bad[i].s, bad[i].code, false);
        WANT(envy_board_size(&bad[i].s, &bytes), bad[i].code);
        WANT(bytes, 77);
    }
}

static void answers(void) {
    uint32_t number;
    uint64_t word, bytes;
    size_t done;
    envy_counts counts;
    WANT(envy_load(&m, 0, &word), ENVY_EMPTY);
    WANT(envy_look(&m, 0, &word), ENVY_EMPTY);
    WANT(envy_view(&m, 0, 0, &word), ENVY_EMPTY);
    WANT(envy_read(&m, 0, &word, 1), ENVY_EMPTY);
    WANT(envy_store(&m, 0, 1, &number), ENVY_EMPTY);
    WANT(envy_begin(&m, &number), ENVY_EMPTY);
    WANT(envy_put(&m, 0, 0, 1, &number), ENVY_EMPTY);
    WANT(envy_write(&m, 0, 0, &word, 1, &done, &number), ENVY_EMPTY);
    WANT(envy_commit(&m, 0), ENVY_EMPTY);
    WANT(envy_abort(&m, 0), ENVY_EMPTY);
    WANT(envy_tick(&m, &number), ENVY_EMPTY);
    WANT(envy_counters(&m, &counts), ENVY_EMPTY);
    WANT(envy_sync(&m), ENVY_EMPTY);
    WANT(envy_compact(&m), ENVY_EMPTY);
    WANT(envy_powered(&m), ENVY_EMPTY);
    envy_close(&m);
    WANT(envy_board_size(&setup, &bytes), ENVY_DONE);
    /* 32 rows of 256 bytes and a mark; 71 + 3*4 + 2*6 + 32 + 8 + 32*3 words of SRAM; 4 counts */
    WANT(bytes, 32 * 257 + 8 * (71 + 12 + 12 + 32 + 8 + 96) + 8 * 4);

    first.n = 0;
    setups();
    WANT(open_file(&setup), ENVY_DONE);
    WANT(open_file(&setup), ENVY_OPEN);
    WANT(envy_store(&m, 5, 7, &number), ENVY_DONE);
    WANT(envy_begin(&m, &number), ENVY_DONE);
    WANT(envy_put(&m, number, 5, 8, &number), ENVY_DONE);
    WANT(envy_sync(&m), ENVY_DONE);
    WANT(envy_store(&m, 40, 9, &number), ENVY_DONE);
    envy_close(&m);
    setups();
    /* what wasn't synced is lost, and what was open is undone */
    WANT(open_file(&setup), ENVY_DONE);
    WANT(envy_load(&m, 5, &word), ENVY_DONE);
    WANT(word, 7);
    WANT(envy_load(&m, 40, &word), ENVY_DONE);
    WANT(word, 0);
    envy_close(&m);

    envy_setup other = setup;
    other.entries = 3;
    refuses(__LINE__, &other, ENVY_OTHER_SHAPE, false);
    other = setup;
    other.policy = ENVY_FIFO;
    other.mark = 3;
    WANT(open_file(&other), ENVY_DONE);
    envy_close(&m);
    /* versions that aren't known: 4 is this one, and 2 the one before it */
    first.bytes[8] = 1;
    REFUSES(ENVY_OTHER_JOURNAL);
    first.bytes[8] = 3;
    REFUSES(ENVY_OTHER_JOURNAL);
    first.bytes[8] = 5;
    REFUSES(ENVY_OTHER_JOURNAL);
    first.bytes[8] = 4;
    first.bytes[1] ^= 1;
    REFUSES(ENVY_NO_JOURNAL);
    first.bytes[1] ^= 1;
    /* an operation of a row that the board doesn't have, in place of the first */
    uint8_t was = first.bytes[37];
    first.bytes[37] = 0x7f;
    REFUSES(ENVY_NO_JOURNAL);
    first.bytes[37] = was;
    WANT(open_file(&setup), ENVY_DONE);
    envy_close(&m);
    /* a journal of no memory: its one operation, a word of SRAM, makes no board */
    static const uint8_t batch[] = {4, 1, 0, 0, 0, 0, 9, 0, 0, 0, 0, 0, 0, 0, 5, 0};
    first.n = 33 + sizeof batch;
    memcpy(first.bytes + 33, batch, sizeof batch);
    refuses(__LINE__, &setup, ENVY_NO_JOURNAL, true);
    /* one in which nothing was done begins with zeros */
    first.n = 36;
    memcpy(first.bytes + 33, "\4\5", 3);
    WANT(open_file(&setup), ENVY_DONE);
    WANT(envy_load(&m, 5, &word), ENVY_DONE);
    WANT(word, 0);
    envy_close(&m);
    set("a text of another kind, which is long enough to be one");
    REFUSES(ENVY_NO_JOURNAL);
}

/* The heap gives all blocks but one: it is told, and the file opens as before. */
static void without_blocks(void) {
    uint64_t word;
    uint32_t number;
    first.n = 0;
    WANT(open_file(&setup), ENVY_DONE);
    WANT(envy_store(&m, 5, 7, &number), ENVY_DONE);
    WANT(envy_sync(&m), ENVY_DONE);
    envy_close(&m);
    for (int block = 0;; block++) {
        blocks = 0;
        block_fails = block;
        uint32_t code = open_file(&setup);
        block_fails = NEVER;
        if (code == ENVY_DONE) break;
        WANT(code, ENVY_NO_MEMORY);
        WANT(open_file(&setup), ENVY_DONE);
        WANT(envy_load(&m, 5, &word), ENVY_DONE);
        WANT(word, 7);
        envy_close(&m);
    }
    envy_close(&m);
}

/* A word that is stored again and again makes the file long; a compaction makes it short again. */
static void compacted(void) {
    uint32_t number;
    uint64_t word;
    first.n = 0;
    WANT(open_file(&setup), ENVY_DONE);
    for (uint64_t n = 1; n <= 5000; n++) {
        WANT(envy_store(&m, 5, n, &number), ENVY_DONE);
        if (n % 100 == 0) WANT(envy_sync(&m), ENVY_DONE);
    }
    size_t was = first.n;
    WANT(envy_compact(&m), ENVY_DONE);
    WANT(first.n < was / 2, true);
    /* at most each row and each word of SRAM, and what stands around them */
    WANT(first.n <= 34 + 32 * 261 + 231 * 13 + 2, true);
    envy_close(&m);
    WANT(open_file(&setup), ENVY_DONE);
    WANT(envy_load(&m, 5, &word), ENVY_DONE);
    WANT(word, 5000);
    /* and a sync does it by itself, so that a file never grows far above 1 MiB and twice what the board holds */
    for (uint64_t n = 1; n <= 150000; n++) {
        WANT(envy_store(&m, 5, n, &number), ENVY_DONE);
        if (n % 1000 == 0) WANT(envy_sync(&m), ENVY_DONE);
        WANT(first.n < (1 << 20) + 2 * (32 * 261 + 231 * 13) + (1 << 17), true);
    }
    WANT(envy_load(&m, 5, &word), ENVY_DONE);
    WANT(word, 150000);
    envy_close(&m);
}

int main(int words, char **word) {
    uint64_t seed = words > 1 ? strtoull(word[1], NULL, 10) : 1;
    first.bytes = malloc(ROOM);
    second.bytes = malloc(ROOM);
    WANT(envy_new(&m), ENVY_DONE);
    port = envy_disk_open(&disk);
    answers();
    without_blocks();
    compacted();
    int all[2] = {0};
    for (int way = 0; way < 2; way++) {
        bytewise = way;
        session_with(NEVER, seed);
        for (int k = 0;; k++) {
            session_with(k, seed + (uint64_t)k / 7);
            if (in_session <= k) break; /* the session ended before its k-th call */
            all[way] = k + 1;
        }
    }
    envy_disk_close(port);
    WANT(open_file(&setup), ENVY_OFF); /* no such port */
    free(first.bytes);
    free(second.bytes);
    printf("kept files: each answer of opening, and a session with each of its %d calls of the disk failing, or of its %d where "
           "the file is written byte by byte\n", all[0], all[1]);
    return 0;
}
