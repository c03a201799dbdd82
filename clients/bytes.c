#define _GNU_SOURCE
#include "bytes.h"
#include "envy_setup.h"
#include "envy_text.h"
#include "known.h"
#include <errno.h>
#include <stdlib.h>
#include <string.h>
#include <sys/stat.h>

#if __BYTE_ORDER__ != __ORDER_LITTLE_ENDIAN__
#error "bytes are taken as they lie in words: this needs a processor that has the lowest byte first"
#endif

enum { KIND_WORD = 0, LENGTH_WORD = 1, LINE_BYTES = LINE_WORDS * WORD_BYTES, PIECE_WORDS = 512 };
enum { PAGE_BYTES = HEADER_WORDS * WORD_BYTES }; /* of the array */

const char *bytes_text(uint32_t code) {
    switch (code) {
    case BYTES_OTHER_KIND: return "the array is another program's";
    case BYTES_MAPPED: return "the file is a mapped one, which mapped=1 opens";
    case BYTES_DURABLE: return "the file is a durable one, which mapped=0 opens";
    default: return envy_error_text(code);
    }
}

/* A background step writes pages back from three quarters of the frames on. */
static uint32_t mark_of(uint32_t frames) { return frames - frames / 4; }

/* Pages of SRAM, if none are asked for. Those of a durable file are the process's own memory, and a page that stays in one
   is neither brought in nor programmed: one page in eight of the array, 8 MiB at most. */
static uint32_t frames_for(const envy_setup *setup, int mapped) {
    enum { MOST_FRAMES = 32768 };
    uint32_t eighth = setup->pages / 8;
    if (mapped) return setup->frames;
    return eighth > MOST_FRAMES ? (uint32_t)MOST_FRAMES : eighth > setup->frames ? eighth : setup->frames;
}

/* (no batch over a durable file is a transaction, and a setup has one shadow at least) */
static uint32_t setup_for(const bytes_options *options, envy_setup *setup) {
    uint64_t words = options->size / WORD_BYTES + (options->size % WORD_BYTES != 0);
    uint32_t code = envy_setup_for(HEADER_WORDS + words, options->mapped ? options->shadows : 1, setup);
    if (code) return code;
    setup->frames = options->frames ? options->frames : frames_for(setup, options->mapped);
    setup->mark = mark_of(setup->frames);
    return ENVY_DONE;
}

uint64_t bytes_largest(const bytes_options *options) {
    envy_setup setup;
    bytes_options tried = *options;
    uint64_t fits = 0, over = UINT64_C(1) << 40;
    while (over - fits > 1) {
        tried.size = fits + (over - fits) / 2;
        if (setup_for(&tried, &setup)) over = tried.size;
        else fits = tried.size;
    }
    return fits;
}

static uint32_t shape_of(const char *path, envy_setup *setup) {
    uint32_t code = envy_file_shape(path, setup);
    if (!code) setup->mark = mark_of(setup->frames);
    return code;
}

static uint32_t open_file(bytes *b, const char *path, int bytewise) {
    if (b->mapped) return envy_open_mapped(&b->memory, path, &b->setup, ENVY_CREATE);
    return envy_open_file(&b->memory, path, &b->setup, ENVY_CREATE | (bytewise ? ENVY_BYTEWISE : 0));
}

/* What is answered for a file that was refused though it has a shape. envy_file_shape finds that of either kind, and an opening
   without a setup that of its own kind alone: if it finds none, the file is of the other kind. */
static uint32_t refused(const char *path, int mapped, uint32_t code) {
    envy tried = ENVY_INIT;
    if (code >= ENVY_SYSTEM || code == ENVY_NO_MEMORY || code == ENVY_OFF) return code;
    uint32_t again = mapped ? envy_open_mapped(&tried, path, NULL, 0) : envy_open_file(&tried, path, NULL, 0);
    if (again == ENVY_DONE) envy_leave(&tried);
    if (again == ENVY_NO_JOURNAL) return BYTES_MAPPED;
    return again == ENVY_UNFORMATTED || again == ENVY_OLDER ? (uint32_t)BYTES_DURABLE : code;
}

/* Whether all words of the array are zeros. */
static uint32_t is_blank(bytes *b, int *blank) {
    static const uint64_t zeros[PIECE_WORDS];
    uint64_t words[PIECE_WORDS], all = (uint64_t)b->setup.pages * HEADER_WORDS;
    *blank = 1;
    for (uint64_t a = 0; a < all && *blank; a += PIECE_WORDS) {
        size_t n = all - a < PIECE_WORDS ? (size_t)(all - a) : PIECE_WORDS;
        uint32_t code = envy_read(&b->memory, (uint32_t)a, words, n);
        if (code) return code;
        *blank = !memcmp(words, zeros, n * WORD_BYTES);
    }
    return ENVY_DONE;
}

/* Reads the header, and names the client in an array that nobody has used. */
static uint32_t claim(bytes *b, uint64_t kind) {
    uint64_t header[HEADER_WORDS];
    uint32_t holder;
    int blank;
    uint32_t code = envy_read(&b->memory, 0, header, HEADER_WORDS);
    if (code) return code;
    b->length = header[LENGTH_WORD];
    if (header[KIND_WORD] == kind) return b->length <= b->room ? ENVY_DONE : (uint32_t)BYTES_OTHER_KIND;
    if (header[KIND_WORD]) return BYTES_OTHER_KIND;
    if ((code = is_blank(b, &blank))) return code;
    if (!blank) return BYTES_OTHER_KIND;
    code = envy_store(&b->memory, KIND_WORD, kind, &holder);
    return code ? code : bytes_sync(b);
}

uint32_t bytes_open(bytes *b, const char *path, uint64_t kind, const bytes_options *options) {
    struct stat found;
    *b = (bytes){.mapped = options->mapped};
    int is_old = !stat(path, &found) && found.st_size;
    uint32_t code = is_old ? shape_of(path, &b->setup) : setup_for(options, &b->setup);
    if (code) return code;
    if (!(b->known = known_new())) return ENVY_NO_MEMORY;
    if ((code = open_file(b, path, options->bytewise))) {
        free(b->known);
        return is_old ? refused(path, b->mapped, code) : code;
    }
    b->room = (uint64_t)b->setup.pages * PAGE_BYTES - PAGE_BYTES;
    code = claim(b, kind);
    if (code) bytes_close(b, 0);
    return code;
}

uint32_t bytes_close(bytes *b, int is_kept) {
    int why = errno;
    free(b->known);
    b->known = NULL;
    batch_forget(b);
    uint32_t code = is_kept ? envy_close(&b->memory) : envy_leave(&b->memory);
    if (!code) errno = why;
    return code;
}

static int is_past(const bytes *b, uint64_t at, uint64_t n) { return at > b->room || n > b->room - at; }

static uint32_t word_at(uint64_t at) { return HEADER_WORDS + (uint32_t)(at / WORD_BYTES); }

static uint32_t read_words(bytes *b, uint64_t at, uint64_t *words, size_t n) {
    if (!n) return ENVY_DONE;
    uint32_t code = envy_read(&b->memory, word_at(at), words, n);
    if (code) return code;
    b->counts.words_read += n;
    known_note(b->known, at, words, n);
    return ENVY_DONE;
}

uint32_t bytes_read(bytes *b, uint64_t at, void *to, size_t n) {
    uint64_t words[PIECE_WORDS];
    if (is_past(b, at, n)) return ENVY_RANGE;
    if (at % WORD_BYTES == 0 && n % WORD_BYTES == 0 && (uintptr_t)to % WORD_BYTES == 0)
        return read_words(b, at, to, n / WORD_BYTES);
    for (uint8_t *next = to; n;) {
        size_t skip = at % WORD_BYTES, part = sizeof words - skip;
        if (part > n) part = n;
        uint32_t code = read_words(b, at - skip, words, (skip + part + WORD_BYTES - 1) / WORD_BYTES);
        if (code) return code;
        memcpy(next, (uint8_t *)words + skip, part);
        next += part;
        at += part;
        n -= part;
    }
    return ENVY_DONE;
}

/* Stores words of a line, from one to another, and knows them then. */
static uint32_t store_run(bytes *b, uint64_t number, known_line *line, const uint64_t *words, size_t from, size_t to) {
    uint32_t address = HEADER_WORDS + (uint32_t)(number * LINE_WORDS + from);
    uint32_t code = bytes_put(b, address, words + from, line->words + from, to - from);
    if (code) {
        known_forget(line);
        return code;
    }
    memcpy(line->words + from, words + from, (to - from) * WORD_BYTES);
    b->counts.words_stored += to - from;
    return ENVY_DONE;
}

/* Stores the words that differ, of those from one to another, which lie in one page of the array. */
static uint32_t store_changed(bytes *b, uint64_t number, known_line *line, const uint64_t *words, size_t from, size_t to) {
    while (from < to) {
        while (from < to && line->words[from] == words[from]) from++;
        size_t end = from;
        while (end < to && line->words[end] != words[end]) end++;
        uint32_t code = end == from ? (uint32_t)ENVY_DONE : store_run(b, number, line, words, from, end);
        if (code) return code;
        from = end;
    }
    return ENVY_DONE;
}

/* Most pages of the array that SQLite writes stay as they are, so pages are compared before words. */
static uint32_t write_in_line(bytes *b, uint64_t number, size_t skip, const uint8_t *bytes_, size_t n) {
    uint64_t words[LINE_WORDS];
    known_line *line;
    uint32_t code = known_find(b, number, &line);
    b->counts.words_given += (skip % WORD_BYTES + n + WORD_BYTES - 1) / WORD_BYTES;
    for (size_t part; n && !code; skip += part, bytes_ += part, n -= part) {
        part = PAGE_BYTES - skip % PAGE_BYTES;
        if (part > n) part = n;
        if (!memcmp((uint8_t *)line->words + skip, bytes_, part)) continue;
        size_t from = skip / WORD_BYTES, to = (skip + part + WORD_BYTES - 1) / WORD_BYTES;
        words[from] = line->words[from];
        words[to - 1] = line->words[to - 1];
        memcpy((uint8_t *)words + skip, bytes_, part);
        code = store_changed(b, number, line, words, from, to);
    }
    return code;
}

uint32_t bytes_write(bytes *b, uint64_t at, const void *from, size_t n) {
    if (is_past(b, at, n)) return ENVY_RANGE;
    for (const uint8_t *next = from; n;) {
        size_t skip = at % LINE_BYTES, part = LINE_BYTES - skip;
        if (part > n) part = n;
        uint32_t code = write_in_line(b, at / LINE_BYTES, skip, next, part);
        if (code) return code;
        next += part;
        at += part;
        n -= part;
    }
    return ENVY_DONE;
}

uint32_t bytes_zero(bytes *b, uint64_t at, uint64_t n) {
    static const uint8_t zeros[LINE_BYTES];
    if (is_past(b, at, n)) return ENVY_RANGE;
    while (n) {
        size_t part = LINE_BYTES - at % LINE_BYTES;
        if (part > n) part = (size_t)n;
        uint32_t code = bytes_write(b, at, zeros, part);
        if (code) return code;
        at += part;
        n -= part;
    }
    return ENVY_DONE;
}

uint32_t bytes_set_length(bytes *b, uint64_t length) {
    if (b->length == length) return ENVY_DONE;
    uint32_t code = bytes_put(b, LENGTH_WORD, &length, &b->length, 1);
    if (!code) b->length = length;
    return code;
}

uint32_t bytes_sync(bytes *b) {
    b->counts.syncs++;
    return envy_sync(&b->memory);
}
