/* Copies of memories, and memories that grow by a copy. */
#define _GNU_SOURCE
#include "envy_held.h"
#include <errno.h>
#include <fcntl.h>
#include <stdio.h>
#include <stdlib.h>
#include <string.h>
#include <unistd.h>

enum { PAGE_WORDS = 32, MOST_PAGES = 16777216 };

/* What the name of a copy has after the one that it gets. */
static const char COPY[] = ".envy-copy";

/* Writes how many pages a memory has: the first page that is past the end is looked for by halves. */
static uint32_t count_pages(envy *m, uint32_t *pages) {
    uint32_t low = 0, high = MOST_PAGES;
    while (low < high) {
        uint32_t middle = low + (high - low) / 2;
        envy_page found;
        uint32_t code = envy_show_page(m, middle, &found);
        if (code != ENVY_DONE && code != ENVY_RANGE) return code;
        if (code == ENVY_DONE) low = middle + 1;
        else high = middle;
    }
    *pages = low;
    return ENVY_DONE;
}

/* Stores the committed words of a page into another memory, whose page is one of zeros. */
static uint32_t copy_page(envy *from, envy *to, uint32_t page) {
    static const uint64_t zeros[PAGE_WORDS];
    uint64_t words[PAGE_WORDS];
    uint32_t code = ENVY_DONE;
    for (uint32_t i = 0; i < PAGE_WORDS && code == ENVY_DONE; i++) code = envy_look(from, PAGE_WORDS * page + i, &words[i]);
    if (code != ENVY_DONE || !memcmp(words, zeros, sizeof words)) return code;
    return envy_store_run(to, PAGE_WORDS * page, words, PAGE_WORDS, NULL, NULL);
}

/* Makes a memory with the committed words of another one in a new file, and closes it. */
static uint32_t copied(envy *m, const char *path, const envy_setup *setup, int is_mapped, uint32_t pages) {
    envy to = ENVY_INIT;
    uint32_t code = (is_mapped ? envy_open_mapped : envy_open_file)(&to, path, setup, ENVY_CREATE);
    if (code != ENVY_DONE) return code;
    for (uint32_t page = 0; page < pages && code == ENVY_DONE; page++) code = copy_page(m, &to, page);
    if (code == ENVY_DONE && !is_mapped) code = envy_compact(&to);
    if (code == ENVY_APPENDED) code = ENVY_DONE;
    uint32_t closed = envy_close(&to);
    return code == ENVY_DONE ? closed : code;
}

/* Brings the names in the folder of a path to the disk. */
static int synced_folder(const char *path) {
    char *folder = strdup(path), *last = folder ? strrchr(folder, '/') : NULL;
    if (last) last[last == folder] = 0;
    int descriptor = folder ? open(last ? folder : ".", O_RDONLY | O_DIRECTORY | O_CLOEXEC) : -1;
    free(folder);
    if (descriptor < 0) return 0;
    int why = fsync(descriptor);
    close(descriptor);
    return !why;
}

/* The path of a copy that is being made, or NULL. */
static char *beside(const char *path) {
    char *name = malloc(strlen(path) + sizeof COPY);
    if (name) strcat(strcpy(name, path), COPY);
    return name;
}

/* Makes the copy under a name of its own, beside a path. */
static uint32_t made_beside(envy *m, const char *name, const envy_setup *setup, int is_mapped) {
    uint32_t pages = 0, code = count_pages(m, &pages);
    if (code != ENVY_DONE) return code;
    if (pages > setup->pages) return ENVY_RANGE;
    if (!access(name, F_OK)) {
        errno = EEXIST;
        return ENVY_SYSTEM;
    }
    code = copied(m, name, setup, is_mapped, pages);
    int why = errno;
    if (code != ENVY_DONE) unlink(name);
    errno = why;
    return code;
}

uint32_t envy_copy(envy *m, const char *path, const envy_setup *setup) {
    const envy_held *f = m->file;
    if (!setup && f && f->kind != DISK) setup = &f->setup;
    if (!setup) return m->at ? ENVY_OTHER_BOARD : ENVY_EMPTY;
    char *name = beside(path);
    if (!name) return ENVY_NO_MEMORY;
    uint32_t code = made_beside(m, name, setup, f && f->kind == MAPPED);
    if (code == ENVY_DONE) {
        if (link(name, path)) code = ENVY_SYSTEM;
        int why = errno;
        unlink(name);
        errno = why;
        if (code == ENVY_DONE && !synced_folder(path)) code = ENVY_SYSTEM;
    }
    free(name);
    return code;
}

/* Whether a transaction is open, whose puts a copy wouldn't have. */
static uint32_t has_open_slot(envy *m) {
    uint32_t slot, code = envy_map_begin(m, &slot);
    return code == ENVY_DONE ? envy_map_abort(m, slot) : code;
}

/* Closes a memory, puts a copy under the name of its file, and opens it there. The copy has all that the file has. */
static uint32_t replaced(envy *m, const char *path, const char *name, const envy_setup *setup) {
    const envy_held *f = m->file;
    envy_setup sizes = f->setup;
    uint32_t flags = f->flags & ENVY_BYTEWISE;
    uint32_t (*open_it)(envy *, const char *, const envy_setup *, uint32_t) = f->kind == MAPPED ? envy_open_mapped : envy_open_file;
    envy_leave(m);
    int is_there = !rename(name, path), why = errno;
    uint32_t code = open_it(m, path, is_there ? setup : &sizes, flags);
    if (is_there) return code == ENVY_DONE && !synced_folder(path) ? (uint32_t)ENVY_SYSTEM : code;
    unlink(name);
    errno = why;
    return code == ENVY_DONE ? (uint32_t)ENVY_SYSTEM : code;
}

uint32_t envy_grow(envy *m, const envy_setup *setup) {
    const envy_held *f = m->file;
    if (!m->at) return ENVY_EMPTY;
    if (!f || f->kind == DISK || f->flags & ENVY_READING) return ENVY_OTHER_BOARD;
    uint32_t code = has_open_slot(m);
    if (code == ENVY_DONE) code = envy_sync(m);
    if (code != ENVY_DONE) return code;
    char *path = f->path ? strdup(f->path) : NULL, *name = path ? beside(path) : NULL;
    code = name ? made_beside(m, name, setup, f->kind == MAPPED) : (uint32_t)ENVY_NO_MEMORY;
    if (code == ENVY_DONE) code = replaced(m, path, name, setup);
    free(name);
    free(path);
    return code;
}
