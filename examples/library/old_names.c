/* A program in the earlier names, which stay for one version: over a file, over a mapped file, over a simulation, with maps.

     old_names FOLDER */
#include "envy_file.h"
#include "envy_index.h"
#include "envy_kept_file.h"
#include "envy_kept_index.h"
#include "envy_kept_map.h"
#include "envy_map.h"
#include "envy_mapped.h"
#include "envy_sim.h"
#include "envy_setup.h"
#include "envy_text.h"
#include <stdio.h>
#include <stdlib.h>

static envy_setup setup;

static void want(int line, uint32_t found, uint32_t wanted) {
    if (found == wanted) return;
    fprintf(stderr, "old_names.c:%d: %s, and not: %s\n", line, envy_error_text(found), envy_error_text(wanted));
    exit(1);
}
#define WANT(found, wanted) want(__LINE__, found, wanted)

static void over_a_file(const char *path) {
    envy_kept_file f = ENVY_KEPT_FILE_INIT;
    envy_setup found;
    uint32_t slot, holder;
    uint64_t word = 0, value = 0;
    WANT(envy_kept_open_file(&f, path, &setup), ENVY_DONE);
    WANT(envy_kept_begin(&f.memory, &slot), ENVY_DONE);
    WANT(envy_kept_put(&f.memory, slot, 700, 7, &holder), ENVY_DONE);
    WANT(envy_kept_commit(&f.memory, slot), ENVY_DONE);
    WANT(envy_kept_sync(&f.memory), ENVY_DONE);
    WANT(envy_kept_store(&f.memory, 700, 8, &holder), ENVY_DONE);
    WANT(envy_kept_leave_file(&f), ENVY_DONE);
    WANT(envy_kept_file_shape(path, &found), ENVY_DONE);
    WANT(envy_kept_open_file_bytewise(&f, path, &found), ENVY_DONE);
    WANT(envy_kept_load(&f.memory, 700, &word), ENVY_DONE);
    WANT(word == 7, 1);
    WANT(envy_kept_index_create(&f.memory), ENVY_DONE);
    WANT(envy_kept_index_insert(&f.memory, 1, 2, NULL), ENVY_DONE);
    WANT(envy_kept_index_get(&f.memory, 1, &value), ENVY_DONE);
    WANT(value == 2, 1);
    WANT(envy_kept_close_file(&f), ENVY_DONE);
    WANT((uint32_t)envy_kept_file_error(&f), 0);
}

static void over_a_mapped_file(const char *path) {
    static const envy_map map = {0, 640};
    envy_file f = ENVY_FILE_INIT;
    envy_setup found;
    envy_old before;
    uint32_t slot, holder;
    uint64_t word = 0;
    WANT(envy_file_open(&f, path, &setup), ENVY_DONE);
    WANT(envy_mapped_store(&f.memory, 700, 9, &holder), ENVY_DONE);
    WANT(envy_map_begin(&f.memory, &slot), ENVY_DONE);
    WANT(envy_map_insert(&f.memory, slot, &map, 1, 2, &before), ENVY_DONE);
    WANT(envy_map_commit(&f.memory, slot), ENVY_DONE);
    WANT(envy_file_close(&f), ENVY_DONE);
    WANT(envy_file_shape(path, &found), ENVY_DONE);
    WANT(envy_file_open(&f, path, &found), ENVY_DONE);
    WANT(envy_mapped_load(&f.memory, 700, &word), ENVY_DONE);
    WANT(word == 9, 1);
    WANT(envy_file_close(&f), ENVY_DONE);
}

static void over_a_simulation(void) {
    envy_sim m = ENVY_SIM_INIT;
    uint32_t holder;
    uint64_t word = 0, size = 0;
    WANT(envy_sim_new(&m), ENVY_DONE);
    WANT(envy_sim_format(&m, &setup, 1), ENVY_DONE);
    WANT(envy_sim_store(&m, 5, 7, &holder), ENVY_DONE);
    WANT(envy_sim_cut_now(&m), ENVY_DONE);
    WANT(envy_sim_revive(&m), ENVY_DONE);
    WANT(envy_sim_image_size(&setup, &size), ENVY_DONE);
    envy_bytes image = {malloc(size), size};
    WANT(envy_sim_save(&m, &image), ENVY_DONE);
    envy_sim_close(&m);
    WANT(envy_sim_restore(&m, &setup, 0, &image), ENVY_DONE);
    WANT(envy_sim_load(&m, 5, &word), ENVY_DONE);
    WANT(word == 7, 1);
    envy_sim_close(&m);
    free(image.at);
}

int main(int words, char **word) {
    char path[4096];
    if (words != 2) return 2;
    WANT(envy_setup_for(2000, 64, &setup), ENVY_DONE);
    snprintf(path, sizeof path, "%s/old.kept", word[1]);
    over_a_file(path);
    snprintf(path, sizeof path, "%s/old.mapped", word[1]);
    over_a_mapped_file(path);
    over_a_simulation();
    puts("a program in the earlier names does what it did");
    return 0;
}
