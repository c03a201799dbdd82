/* One library over each kind of board: the same work and the same answers over a file, over a mapped file, over a disk of the
   program's, over regions and over a board that can be made to fail; what lasts of each; what the others answer of a call that
   is for one alone; how a file is opened; a place that serves for one after another; and a handle that has no place.

     one FOLDER */
#include "../../c/envy.h"
#include "../../c/envy_text.h"
#include <stdio.h>
#include <stdlib.h>
#include <string.h>

static const envy_setup setup = {
    .segments = 8, .rows = 32, .pages = 64, .shadows = 48, .frames = 16, .entries = 16,
    .policy = ENVY_GREEDY, .limit = 100, .mark = 12,
};

static int failures;

static void is(const char *what, uint32_t code, uint32_t wanted) {
    if (code == wanted) return;
    fprintf(stderr, "one: %s: %s, and not: %s\n", what, envy_error_text(code), envy_error_text(wanted));
    failures++;
}

static void holds(const char *what, envy *m, uint32_t address, uint64_t wanted) {
    uint64_t word = 0;
    is(what, envy_load(m, address, &word), ENVY_DONE);
    if (word == wanted) return;
    fprintf(stderr, "one: %s: %llu, and not %llu\n", what, (unsigned long long)word, (unsigned long long)wanted);
    failures++;
}

/* A store, a transaction that is kept, one that isn't, and words in one call. */
static void work(const char *over, envy *m) {
    uint32_t slot, other, holder = 99;
    uint64_t words[3] = {1, 2, 3}, read[3] = {0, 0, 0};
    size_t done = 0;
    is(over, envy_store(m, 5, 7, NULL), ENVY_DONE);
    is(over, envy_begin(m, &slot), ENVY_DONE);
    is(over, envy_put(m, slot, 5, 8, NULL), ENVY_DONE);
    is(over, envy_begin(m, &other), ENVY_DONE);
    is(over, envy_put(m, other, 6, 9, &holder), ENVY_HELD);
    if (holder != slot) is(over, holder, slot);
    is(over, envy_write(m, other, 320, words, 3, &done, NULL), ENVY_DONE);
    is(over, envy_commit(m, slot), ENVY_DONE);
    is(over, envy_abort(m, other), ENVY_DONE);
    holds(over, m, 5, 8);
    holds(over, m, 320, 0);
    is(over, envy_store_run(m, 640, words, 3, &done, NULL), ENVY_DONE);
    is(over, envy_read(m, 640, read, 3), ENVY_DONE);
    if (memcmp(words, read, sizeof words)) is(over, 1, 0);
    is(over, envy_store(m, 32 * 64, 1, NULL), ENVY_RANGE);
    is(over, envy_sync(m), ENVY_DONE);
}

/* A map in a range behind the words. */
static const envy_map map = {1024, 640};
static void keep_pairs(const char *over, envy *m) {
    uint32_t slot;
    uint64_t value = 0, count = 0;
    envy_pair pairs[2];
    size_t found = 0;
    is(over, envy_map_begin(m, &slot), ENVY_DONE);
    is(over, envy_map_create(m, slot, &map), ENVY_DONE);
    is(over, envy_map_insert(m, slot, &map, 3, 30, NULL), ENVY_DONE);
    is(over, envy_map_insert(m, slot, &map, 1, 10, NULL), ENVY_DONE);
    is(over, envy_map_commit(m, slot), ENVY_DONE);
    is(over, envy_map_get(m, &map, 3, &value), ENVY_DONE);
    is(over, envy_map_count(m, &map, &count), ENVY_DONE);
    is(over, envy_map_scan(m, &map, 0, pairs, 2, &found), ENVY_DONE);
    if (value != 30 || count != 2 || found != 2 || pairs[0].key != 1) is(over, 1, 0);
}

/* What the board holds, and how often things were done. */
static void shows(const char *over, envy *m) {
    envy_row row;
    envy_page page = {0, 0, 0, 0, 0};
    envy_segment segment;
    envy_job job = {9, 9};
    envy_counts counts = {0, 0, 0, 0, 0, 0, 0};
    uint32_t position, retired, left = 9;
    is(over, envy_show_row(m, 0, &row), ENVY_DONE);
    is(over, envy_show_row(m, 8 * 32, &row), ENVY_RANGE);
    is(over, envy_show_page(m, 0, &page), ENVY_DONE);
    is(over, envy_show_position(m, 0, &position), ENVY_DONE);
    is(over, envy_show_segment(m, 0, &segment), ENVY_DONE);
    is(over, envy_show_job(m, &job), ENVY_DONE);
    is(over, envy_counters(m, &counts), ENVY_DONE);
    is(over, envy_worn(m, &retired, &left), ENVY_DONE);
    if (!page.place || job.kind > 3 || !counts.hits || left) is(over, 1, 0);
    envy_stats stats = {.segments = 99};
    is(over, envy_stat(m, &stats), ENVY_DONE);
    if (stats.segments != setup.segments || stats.counts.hits != counts.hits) is(over, 1, 0);
    if (stats.rows[0] + stats.rows[1] + stats.rows[2] + stats.rows[3] != 8 * 32) is(over, 1, 0);
    if (stats.least_wear > stats.most_wear || stats.file_bytes != envy_file_bytes(m)) is(over, 1, 0);
}

/* A call that is for a board that can be made to fail alone. */
static void refuses_failures(const char *over, envy *m) {
    uint32_t left = 0;
    is(over, envy_arm_cut(m, 1, 0), ENVY_OTHER_BOARD);
    is(over, envy_cut_now(m), ENVY_OTHER_BOARD);
    is(over, envy_revive(m), ENVY_OTHER_BOARD);
    is(over, envy_lives(m, &left), ENVY_OTHER_BOARD);
}

static void over_a_file(envy *m, const char *path) {
    envy_setup shape;
    is("no file", envy_open_file(m, path, &setup, 0), ENVY_SYSTEM);
    is("a new file", envy_open_file(m, path, &setup, ENVY_CREATE), ENVY_DONE);
    work("a file", m);
    shows("a file", m);
    keep_pairs("a file's map", m);
    refuses_failures("a file", m);
    is("a file that is open", envy_open_file(m, path, &setup, 0), ENVY_OPEN);
    is("another board while a file is open", envy_open_sim(m, &setup, 1), ENVY_OPEN);
    is("a compaction", envy_compact(m), ENVY_DONE);
    is("a file's end", envy_close(m), ENVY_DONE);
    is("its shape", envy_file_shape(path, &shape), ENVY_DONE);
    is("its shape", shape.segments * shape.rows, setup.segments * setup.rows);
    is("the file again", envy_open_file(m, path, NULL, ENVY_BYTEWISE), ENVY_DONE);
    holds("the file again", m, 5, 8);
    is("its end", envy_close(m), ENVY_DONE);
    is("the file for reading", envy_open_file(m, path, &setup, ENVY_READING), ENVY_DONE);
    holds("the file for reading", m, 642, 3);
    is("its end", envy_close(m), ENVY_DONE);
}

/* Sizes from the file, or from the setup; an end without a sync; and a file that is compacted when it is opened. */
static void opened_in_each_way(envy *m, const char *path) {
    static const envy_setup none = {.limit = 0};
    envy_setup other = setup;
    other.pages = 32;
    other.policy = ENVY_FIFO;
    is("a setup of zeros", envy_open_file(m, path, &none, ENVY_CREATE), ENVY_DONE);
    is("a store", envy_store(m, 5, 99, NULL), ENVY_DONE);
    is("an end without a sync", envy_leave(m), ENVY_DONE);
    is("a file of another shape", envy_open_file(m, path, &other, 0), ENVY_OTHER_SHAPE);
    is("sizes of the file", envy_open_file(m, path, &other, ENVY_READ_SIZES | ENVY_COMPACT), ENVY_DONE);
    holds("what was synced", m, 5, 8);
    holds("the last page", m, 32 * 64 - 1, 0);
    is("its end", envy_close(m), ENVY_DONE);
    other.mark = 0;
    is("a rule that the setup breaks", envy_open_file(m, path, &other, ENVY_READ_SIZES), ENVY_SETUP_MARK);
    static const envy_setup rules = {.policy = ENVY_FIFO, .limit = 100};
    is("a rule that a setup without sizes breaks", envy_open_file(m, path, &rules, ENVY_READ_SIZES), ENVY_SETUP_MARK);
    is("a setup without sizes", envy_open_file(m, path, &rules, 0), ENVY_SETUP_SEGMENTS);
    is("no file to have sizes of", envy_open_file(m, "/nowhere/at/all", NULL, ENVY_CREATE), ENVY_SYSTEM);
    is("a refused place", envy_load(m, 5, &(uint64_t){0}), ENVY_EMPTY);
}

/* A file in memory, which the program serves. */
static struct {
    uint8_t bytes[1 << 20];
    uint8_t second[1 << 20];
    size_t n;
    size_t second_n;
} served;

static int write_served(void *context, uint64_t at, const void *bytes, size_t n) {
    (void)context;
    if (at > served.n || at + n > sizeof served.bytes) return 1;
    memcpy(served.bytes + at, bytes, n);
    if (at + n > served.n) served.n = at + n;
    return 0;
}

static int cut_served(void *context, uint64_t size) {
    (void)context;
    served.n = size;
    return 0;
}

static int sync_served(void *context) {
    (void)context;
    return 0;
}

static int begin_second(void *context) {
    (void)context;
    served.second_n = 0;
    return 0;
}

static int append_second(void *context, const void *bytes, size_t n) {
    (void)context;
    if (served.second_n + n > sizeof served.second) return 1;
    memcpy(served.second + served.second_n, bytes, n);
    served.second_n += n;
    return 0;
}

static int replace_served(void *context) {
    (void)context;
    memcpy(served.bytes, served.second, served.second_n);
    served.n = served.second_n;
    return 0;
}

static void over_a_disk(envy *m) {
    static const envy_disk disk = {0, write_served, cut_served, sync_served, begin_second, append_second, replace_served};
    static uint8_t found[1 << 20];
    is("a disk", envy_open_disk(m, &setup, found, 0, &disk, 0), ENVY_DONE);
    work("a disk", m);
    shows("a disk", m);
    keep_pairs("a disk's map", m);
    refuses_failures("a disk", m);
    is("a disk that is open", envy_open_disk(m, &setup, found, 0, &disk, 0), ENVY_OPEN);
    is("its compaction", envy_compact(m), ENVY_DONE);
    is("its end", envy_close(m), ENVY_DONE);
    /* (each port is given up: more openings than there are ports) */
    for (int n = 0; n <= ENVY_DISKS; n++) {
        size_t bytes = served.n;
        memcpy(found, served.bytes, bytes);
        is("the disk again", envy_open_disk(m, &setup, found, bytes, &disk, n % 2 ? ENVY_BYTEWISE : 0), ENVY_DONE);
        if (n == 0) holds("the disk again", m, 5, 8);
        is("its end", envy_close(m), ENVY_DONE);
        found[0] = 'x';
        is("bytes of another kind", envy_open_disk(m, &setup, found, bytes, &disk, 0), ENVY_NO_JOURNAL);
    }
}

static void over_a_mapped_file(envy *m, const char *path) {
    envy_setup shape;
    is("no mapped file", envy_open_mapped(m, path, &setup, 0), ENVY_SYSTEM);
    is("a new mapped file", envy_open_mapped(m, path, &setup, ENVY_CREATE), ENVY_DONE);
    work("a mapped file", m);
    keep_pairs("a mapped file's map", m);
    refuses_failures("a mapped file", m);
    is("its compaction", envy_compact(m), ENVY_DONE);
    is("its end", envy_close(m), ENVY_DONE);
    is("its shape", envy_file_shape(path, &shape), ENVY_DONE);
    is("a mapped file as a kept one", envy_open_file(m, path, &setup, 0), ENVY_NO_JOURNAL);
    is("the mapped file again", envy_open_mapped(m, path, NULL, 0), ENVY_DONE);
    holds("the mapped file again", m, 5, 8);
    is("its end", envy_leave(m), ENVY_DONE);
}

static void over_regions(envy *m) {
    envy_sizes sizes;
    is("sizes", envy_region_sizes(&setup, &sizes), ENVY_DONE);
    envy_rows flash = {calloc(sizes.rows, sizeof *flash.at), sizes.rows};
    envy_words sram = {calloc(sizes.words, 8), sizes.words}, erases = {calloc(sizes.erases, 8), sizes.erases};
    is("regions that hold nothing", envy_open_regions(m, &setup, flash, sram, erases), ENVY_UNFORMATTED);
    is("regions", envy_format_regions(m, &setup, flash, sram, erases), ENVY_DONE);
    work("regions", m);
    shows("regions", m);
    keep_pairs("a map in regions", m);
    refuses_failures("regions", m);
    is("their end", envy_close(m), ENVY_DONE);
    is("regions again", envy_open_regions(m, &setup, flash, sram, erases), ENVY_DONE);
    holds("regions again", m, 5, 8);
    is("their end", envy_close(m), ENVY_DONE);
    free(flash.at);
    free(sram.at);
    free(erases.at);
}

static void over_a_simulation(envy *m) {
    uint64_t size = 0;
    envy_setup shape = setup;
    is("a simulation", envy_open_sim(m, &setup, 2), ENVY_DONE);
    work("a simulation", m);
    shows("a simulation", m);
    keep_pairs("a map in a simulation", m);
    is("a plan for no operation", envy_arm_cut(m, 0, 1), ENVY_ZERO);
    is("a cut", envy_cut_now(m), ENVY_DONE);
    is("a load without power", envy_load(m, 5, &size), ENVY_OFF);
    is("a sync without power", envy_sync(m), ENVY_OFF);
    is("power", envy_revive(m), ENVY_DONE);
    holds("a simulation that restarted", m, 5, 8);
    is("an image's size", envy_image_size(&setup, &size), ENVY_DONE);
    uint8_t *image = malloc(size);
    is("an image without room", envy_save(m, image, size - 1), ENVY_SMALL);
    is("an image", envy_save(m, image, size), ENVY_DONE);
    is("its end", envy_close(m), ENVY_DONE);
    is("the image's shape", envy_image_shape(image, size, &shape), ENVY_DONE);
    is("the image", envy_restore(m, &shape, 1, image, size), ENVY_DONE);
    holds("the image", m, 642, 3);
    is("its end", envy_close(m), ENVY_DONE);
    free(image);
}

int main(int count, char **words) {
    char path[4096];
    if (count != 2) return 2;
    snprintf(path, sizeof path, "%s/one.kept", words[1]);
    envy none = ENVY_INIT, m = ENVY_INIT;
    uint64_t word;
    is("a handle without a place", envy_load(&none, 5, &word), ENVY_EMPTY);
    is("its sync", envy_sync(&none), ENVY_EMPTY);
    is("its end", envy_close(&none), ENVY_DONE);
    over_a_file(&m, path);
    opened_in_each_way(&m, path);
    over_a_disk(&m);
    snprintf(path, sizeof path, "%s/one.mapped", words[1]);
    over_a_mapped_file(&m, path);
    over_regions(&m);
    over_a_simulation(&m);
    over_regions(&m);
    is("an empty handle", envy_load(&m, 5, &word), ENVY_EMPTY);
    is("what a closed handle has", m.at || m.file, 0);
    return failures != 0;
}
