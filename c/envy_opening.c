/* Memories of envy.h in files: opened by their paths, or over calls of the program's own, and ended. */
#define _GNU_SOURCE
#include "envy_held.h"
#include "envy_place.h"
#include <errno.h>
#include <stdlib.h>
#include <sys/stat.h>

/* Frees what was known of a file. What the system refused before stays in errno. */
static void forgotten(envy_held *f) {
    int why = errno;
    if (f) free(f->path);
    free(f);
    errno = why;
}

/* Makes room for what is known of the file of a handle that holds no memory. */
static uint32_t roomed(envy *m, envy_held **f) {
    if (m->at && envy_powered(m) != ENVY_EMPTY) return ENVY_OPEN;
    *f = malloc(sizeof **f);
    uint32_t code = *f ? envy_place_take(m) : (uint32_t)ENVY_NO_MEMORY;
    if (code != ENVY_DONE) free(*f);
    return code;
}

/* Notes what is known of a file that was opened, or frees it, and the place, if it was refused. */
static uint32_t noted(envy *m, envy_held *f, const char *path, uint32_t code) {
    if (code == ENVY_DONE) {
        f->path = path ? realpath(path, NULL) : NULL;
        m->file = f;
    } else {
        forgotten(f);
        int why = errno;
        envy_place_give(m);
        errno = why;
    }
    return code;
}

/* Whether there is nothing at a path, or a file without bytes. */
static int is_new(const char *path) {
    struct stat found;
    return stat(path, &found) ? errno == ENOENT : !found.st_size;
}

typedef uint32_t shape_of(const char *path, envy_setup *setup);

/* Whether a setup is given that is neither NULL nor one of zeros. */
static int has_numbers(const envy_setup *given) {
    return given && (given->segments || given->rows || given->pages || given->shadows || given->frames || given->entries ||
                     given->policy || given->part || given->limit || given->mark || given->reserves || given->sums);
}

/* Chooses the setup of a file: the given one, or its own sizes if these are asked for, or if no setup is given. */
static uint32_t chosen(const char *path, const envy_setup *given, uint32_t flags, shape_of *shape, envy_setup *setup) {
    int is_given = has_numbers(given);
    if (is_given && (!(flags & ENVY_READ_SIZES) || is_new(path))) {
        *setup = *given;
        return ENVY_DONE;
    }
    uint32_t code = shape(path, setup);
    if (code != ENVY_DONE || !is_given) return code;
    setup->policy = given->policy;
    setup->part = given->part;
    setup->limit = given->limit;
    setup->mark = given->mark;
    return ENVY_DONE;
}

/* Compacts the file if that is asked for. One that can't be compacted was synced, and is open. */
static uint32_t compacted(envy *m, uint32_t flags) {
    if (!(flags & ENVY_COMPACT) || flags & ENVY_READING) return ENVY_DONE;
    uint32_t code = envy_compact(m);
    if (code != ENVY_OFF) return ENVY_DONE;
    int why = envy_file_error(m);
    envy_close(m);
    errno = why;
    return ENVY_OFF;
}

uint32_t envy_open_file(envy *m, const char *path, const envy_setup *setup, uint32_t flags) {
    envy_held *f;
    envy_setup sizes;
    uint32_t code = roomed(m, &f);
    if (code != ENVY_DONE) return code;
    *f = (envy_held){.kind = SERVED, .flags = flags, .of.served = ENVY_SERVED_INIT};
    f->of.served.memory.at = m->at;
    code = chosen(path, setup, flags, envy_served_shape, &sizes);
    f->setup = sizes;
    if (code == ENVY_DONE) code = envy_served_open(&f->of.served, path, &sizes, flags);
    code = noted(m, f, path, code);
    return code == ENVY_DONE ? compacted(m, flags) : code;
}

uint32_t envy_open_mapped(envy *m, const char *path, const envy_setup *setup, uint32_t flags) {
    envy_held *f;
    envy_setup sizes;
    uint32_t code = roomed(m, &f);
    if (code != ENVY_DONE) return code;
    *f = (envy_held){.kind = MAPPED, .flags = flags, .of.mapping = ENVY_MAPPING_INIT};
    f->of.mapping.memory.at = m->at;
    code = chosen(path, setup, flags, envy_mapping_shape, &sizes);
    f->setup = sizes;
    if (code == ENVY_DONE) code = envy_mapping_open(&f->of.mapping, path, &sizes, flags);
    return noted(m, f, path, code);
}

uint32_t envy_open_disk(envy *m, const envy_setup *setup, const uint8_t *file, size_t n, const envy_disk *disk, uint32_t flags) {
    envy_held *f;
    uint32_t code = roomed(m, &f);
    if (code != ENVY_DONE) return code;
    int32_t port = envy_disk_open(disk);
    *f = (envy_held){.kind = DISK, .of.port = port};
    code = port < 0 ? (uint32_t)ENVY_TOO_MANY : envy_open_port(m, setup, file, n, port, flags & ENVY_BYTEWISE);
    if (code != ENVY_DONE && port >= 0) envy_disk_close(port);
    return noted(m, f, NULL, code);
}

uint32_t envy_sync(envy *m) {
    envy_held *f = m->file;
    if (!m->at) return ENVY_EMPTY;
    return f && f->kind == MAPPED ? envy_mapping_sync(&f->of.mapping) : envy_proved_sync(m);
}

/* (a mapped file keeps its size, so a compaction of it is a sync) */
uint32_t envy_compact(envy *m) {
    envy_held *f = m->file;
    if (!m->at) return ENVY_EMPTY;
    return f && f->kind == MAPPED ? envy_mapping_sync(&f->of.mapping) : envy_proved_compact(m);
}

/* Ends the memory, and gives up what its file took. */
static uint32_t ended(envy *m, int is_kept) {
    envy_held *f = m->file;
    if (!f || f->kind == DISK) {
        if (m->at) envy_proved_close(m);
        if (f) envy_disk_close(f->of.port);
        return ENVY_DONE;
    }
    if (f->kind == MAPPED) return envy_mapping_close(&f->of.mapping);
    return is_kept ? envy_served_close(&f->of.served) : envy_served_leave(&f->of.served);
}

/* Ends the memory, and gives back the place of the handle. What the system refused stays in errno. */
static uint32_t closed(envy *m, int is_kept) {
    uint32_t code = ended(m, is_kept);
    int why = errno;
    forgotten(m->file);
    m->file = NULL;
    envy_place_give(m);
    errno = why;
    return code;
}

uint32_t envy_close(envy *m) { return closed(m, 1); }

uint32_t envy_leave(envy *m) { return closed(m, 0); }

int envy_file_error(const envy *m) {
    const envy_held *f = m->file;
    return f && f->kind == SERVED ? envy_served_error(&f->of.served) : 0;
}

/* The descriptor of the file of a memory, or -1. */
static int descriptor_of(const envy *m) {
    const envy_held *f = m->file;
    if (!f || f->kind == DISK) return -1;
    return f->kind == SERVED ? f->of.served.descriptor : f->of.mapping.descriptor;
}

uint64_t envy_file_bytes(const envy *m) {
    struct stat found;
    int descriptor = descriptor_of(m);
    return descriptor >= 0 && !fstat(descriptor, &found) ? (uint64_t)found.st_size : 0;
}
