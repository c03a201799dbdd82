/* The earlier names of what envy.h has, for one version: a program that includes envy_kept.h, envy_kept_file.h, envy_mapped.h,
   envy_file.h, envy_sim.h or one of their maps includes this, and links libenvy.a. The shared object doesn't
   show the calls on files that these names need. */
#ifndef ENVY_OLD_H
#define ENVY_OLD_H

#include "envy_mapping.h"
#include "envy_served.h"

/* a memory in a file */
typedef envy envy_kept;
typedef envy_served envy_kept_file;
#define ENVY_KEPT_INIT ENVY_INIT
#define ENVY_KEPT_FILE_INIT ENVY_SERVED_INIT
#define envy_kept_size envy_board_size
#define envy_kept_new envy_new
#define envy_kept_cut envy_journal_cut
#define envy_kept_close (void)envy_close
#define envy_kept_sync envy_sync
#define envy_kept_compact envy_compact
#define envy_kept_powered envy_powered
#define envy_kept_load envy_load
#define envy_kept_look envy_look
#define envy_kept_read envy_read
#define envy_kept_store envy_store
#define envy_kept_store_run envy_store_run
#define envy_kept_begin envy_begin
#define envy_kept_put envy_put
#define envy_kept_write envy_write
#define envy_kept_view envy_view
#define envy_kept_commit envy_commit
#define envy_kept_abort envy_abort
#define envy_kept_tick envy_tick
#define envy_kept_counts envy_counters
#define envy_kept_index_create envy_index_create
#define envy_kept_index_get envy_index_get
#define envy_kept_index_insert envy_index_insert
#define envy_kept_index_remove envy_index_remove
#define envy_kept_index_count envy_index_count
#define envy_kept_index_next envy_index_next
#define envy_kept_index_above envy_index_above
#define envy_kept_index_last envy_index_last
#define envy_kept_index_scan envy_index_scan
#define envy_kept_index_scan_down envy_index_scan_down
#define envy_kept_map_begin envy_map_begin
#define envy_kept_map_create envy_map_create
#define envy_kept_map_insert envy_map_insert
#define envy_kept_map_remove envy_map_remove
#define envy_kept_map_commit envy_map_commit
#define envy_kept_map_abort envy_map_abort
#define envy_kept_map_get envy_map_get
#define envy_kept_map_count envy_map_count
#define envy_kept_map_check envy_map_check
#define envy_kept_map_scan envy_map_scan
#define envy_kept_map_scan_down envy_map_scan_down

#define envy_kept_leave_file envy_served_leave
#define envy_kept_close_file envy_served_close
#define envy_kept_file_shape envy_served_shape
#define envy_kept_file_new envy_served_new
#define envy_kept_file_error envy_served_error

static inline uint32_t envy_kept_open(envy *m, const envy_setup *setup, const uint8_t *file, size_t n, int32_t port) {
    return envy_open_port(m, setup, file, n, port, 0);
}

static inline uint32_t envy_kept_open_bytewise(envy *m, const envy_setup *setup, const uint8_t *file, size_t n, int32_t port) {
    return envy_open_port(m, setup, file, n, port, 1);
}

static inline uint32_t envy_kept_open_file(envy_served *f, const char *path, const envy_setup *setup) {
    return envy_served_open(f, path, setup, ENVY_CREATE);
}

static inline uint32_t envy_kept_open_file_bytewise(envy_served *f, const char *path, const envy_setup *setup) {
    return envy_served_open(f, path, setup, ENVY_CREATE | ENVY_BYTEWISE);
}

static inline uint32_t envy_kept_open_file_reading(envy_served *f, const char *path, const envy_setup *setup) {
    return envy_served_open(f, path, setup, ENVY_READING);
}

/* a memory over regions, and in a file that is mapped */
typedef envy envy_mapped;
typedef envy_mapping envy_file;
#define ENVY_MAPPED_INIT ENVY_INIT
#define ENVY_NO_MAPPED ENVY_INIT
#define ENVY_FILE_INIT ENVY_MAPPING_INIT
#define ENVY_NO_FILE ENVY_MAPPING_INIT
#define envy_mapped_sizes envy_region_sizes
#define envy_mapped_shape envy_sram_shape
#define envy_mapped_new envy_new
#define envy_mapped_format envy_format_regions
#define envy_mapped_attach envy_open_regions
#define envy_mapped_close (void)envy_close
#define envy_mapped_load envy_load
#define envy_mapped_look envy_look
#define envy_mapped_read envy_read
#define envy_mapped_store envy_store
#define envy_mapped_store_run envy_store_run
#define envy_mapped_begin envy_begin
#define envy_mapped_put envy_put
#define envy_mapped_write envy_write
#define envy_mapped_view envy_view
#define envy_mapped_commit envy_commit
#define envy_mapped_abort envy_abort
#define envy_mapped_tick envy_tick
#define envy_mapped_counts envy_counters
#define envy_mapped_worn envy_worn
/* (that of envy.h knows files of both kinds) */
#define envy_file_shape envy_mapping_shape
#define envy_file_sync envy_mapping_sync
#define envy_file_close envy_mapping_close

static inline uint32_t envy_file_open(envy_mapping *f, const char *path, const envy_setup *setup) {
    return envy_mapping_open(f, path, setup, ENVY_CREATE);
}

/* a memory over a board that can be made to fail */
typedef envy envy_sim;
#define ENVY_SIM_INIT ENVY_INIT
#define envy_sim_close (void)envy_close
#define envy_sim_new envy_new
#define envy_sim_format envy_open_sim
#define envy_sim_image_size envy_image_size
#define envy_sim_load envy_load
#define envy_sim_look envy_look
#define envy_sim_store envy_store
#define envy_sim_begin envy_begin
#define envy_sim_put envy_put
#define envy_sim_commit envy_commit
#define envy_sim_abort envy_abort
#define envy_sim_tick envy_tick
#define envy_sim_counts envy_counters
#define envy_sim_worn envy_worn
#define envy_sim_arm_cut envy_arm_cut
#define envy_sim_arm_bad envy_arm_bad
#define envy_sim_cut_now envy_cut_now
#define envy_sim_revive envy_revive
#define envy_sim_lives envy_lives
#define envy_sim_row envy_show_row
#define envy_sim_page envy_show_page
#define envy_sim_position envy_show_position
#define envy_sim_segment envy_show_segment
#define envy_sim_job envy_show_job

/* Bytes of the program's. */
typedef struct envy_bytes {
    uint8_t *at;
    size_t len;
} envy_bytes;

static inline uint32_t envy_sim_save(envy *m, envy_bytes *image) { return envy_save(m, image->at, image->len); }

static inline uint32_t envy_sim_image_shape(envy_bytes *image, envy_setup *setup) {
    return envy_image_shape(image->at, image->len, setup);
}

static inline uint32_t envy_sim_restore(envy *m, const envy_setup *setup, uint32_t lives, envy_bytes *image) {
    return envy_restore(m, setup, lives, image->at, image->len);
}

#endif
