/* Files that memories of envy.h are mapped from. */
#define _DEFAULT_SOURCE
#include "envy_mapping.h"
#include "envy_open.h"
#include <errno.h>
#include <fcntl.h>
#include <stdio.h>
#include <stdlib.h>
#include <string.h>
#include <sys/file.h>
#include <sys/mman.h>
#include <sys/stat.h>
#include <unistd.h>

/* PIECE_ROWS: how many rows are read at once while a shape is looked for. */
enum { WORD = 8, ROW_WORDS = 32, PIECE_ROWS = 64 };

/* How many names a file may have while it is made, and the room for what makes them differ. */
enum { NAMES = 100, NUMBERS = 40 };

typedef uint32_t open_regions(envy *, const envy_setup *, envy_rows, envy_words, envy_words);

/* Has a call format or open the mapped words: each region gets as much as is there, and the last one what is too much. */
static uint32_t opened(envy_mapping *f, const envy_setup *setup, const envy_sizes *sizes, open_regions *call) {
    uint64_t *at = f->at;
    size_t words = f->bytes / WORD;
    if (f->bytes % WORD && words >= sizes->rows * ROW_WORDS + sizes->words + sizes->erases) return ENVY_ERASES_SIZE;
    size_t rows = words / ROW_WORDS < sizes->rows ? words / ROW_WORDS : (size_t)sizes->rows;
    envy_rows flash = {(uint64_t(*)[ROW_WORDS])at, rows};
    words -= rows * ROW_WORDS;
    envy_words sram = {at + rows * ROW_WORDS, words < sizes->words ? words : (size_t)sizes->words};
    envy_words erases = {sram.at + sram.len, words - sram.len};
    return call(&f->memory, setup, flash, sram, erases);
}

/* Maps the file that was opened, and has a call format or open it. */
static uint32_t mapped(envy_mapping *f, const envy_setup *setup, const envy_sizes *sizes, open_regions *call) {
    struct stat found;
    if (fstat(f->descriptor, &found)) return ENVY_SYSTEM;
    if (found.st_size == 0) return ENVY_FLASH_SIZE;
    f->bytes = (size_t)found.st_size;
    f->at = mmap(NULL, f->bytes, PROT_READ | PROT_WRITE, MAP_SHARED, f->descriptor, 0);
    if (f->at == MAP_FAILED) {
        f->at = NULL;
        return ENVY_SYSTEM;
    }
    uint32_t code = opened(f, setup, sizes, call);
    if (code != ENVY_DONE) {
        munmap(f->at, f->bytes);
        f->at = NULL;
    }
    return code;
}

static uint32_t locked(int descriptor) {
    if (!flock(descriptor, LOCK_EX | LOCK_NB)) return ENVY_DONE;
    return errno == EWOULDBLOCK ? ENVY_LOCKED : ENVY_SYSTEM;
}

/* Takes the lock of the file that was opened, maps it, and has a call format or open it. */
static uint32_t taken(envy_mapping *f, const envy_setup *setup, const envy_sizes *sizes, open_regions *call) {
    uint32_t code = locked(f->descriptor);
    return code == ENVY_DONE ? mapped(f, setup, sizes, call) : code;
}

/* Gives the file up, and its lock, which a process that was forked off would keep. If this is such a process, the lock
   is the other one's. What the system refused before stays in errno. */
static void let_go(envy_mapping *f) {
    int why = errno;
    if (f->at) {
        envy_proved_close(&f->memory);
        munmap(f->at, f->bytes);
        f->at = NULL;
    }
    if (f->descriptor >= 0 && f->process == getpid()) flock(f->descriptor, LOCK_UN);
    if (f->descriptor >= 0) close(f->descriptor);
    f->descriptor = -1;
    errno = why;
}

/* Makes a file under a name that nothing has, which begins with this path, and which has the access rights that a new
   file has. Writes the name, for which there is room. */
static int made_beside(const char *path, char *beside, size_t room) {
    int descriptor = -1;
    for (unsigned number = 0; number < NAMES; number++) {
        snprintf(beside, room, "%s.%ld.%u", path, (long)getpid(), number);
        descriptor = open(beside, O_RDWR | O_CREAT | O_EXCL | O_CLOEXEC, 0666);
        if (descriptor >= 0 || errno != EEXIST) break;
    }
    return above_standard_streams(descriptor);
}

/* Makes the file beside its path, formats it, and puts it there: whole, and only where there is none. */
static uint32_t made(envy_mapping *f, const char *path, const envy_setup *setup, const envy_sizes *sizes) {
    size_t long_enough = strlen(path) + NUMBERS;
    char *beside = malloc(long_enough);
    if (!beside) return ENVY_NO_MEMORY;
    f->descriptor = made_beside(path, beside, long_enough);
    uint32_t code = ENVY_SYSTEM;
    if (f->descriptor >= 0) {
        off_t bytes = (off_t)((sizes->rows * ROW_WORDS + sizes->words + sizes->erases) * WORD);
        /* so that no store finds the disk full */
        int why = posix_fallocate(f->descriptor, 0, bytes);
        if (why) errno = why;
        else code = taken(f, setup, sizes, envy_proved_format_regions);
        if (code == ENVY_DONE && (msync(f->at, f->bytes, MS_SYNC) || link(beside, path))) code = ENVY_SYSTEM;
        why = errno;
        unlink(beside);
        errno = why;
    }
    free(beside);
    return code;
}

/* Opens the file that is there. */
static uint32_t found_there(envy_mapping *f, const char *path, const envy_setup *setup, const envy_sizes *sizes) {
    f->descriptor = above_standard_streams(open(path, O_RDWR | O_CLOEXEC));
    return f->descriptor < 0 ? ENVY_SYSTEM : taken(f, setup, sizes, envy_proved_open_regions);
}

uint32_t envy_mapping_open(envy_mapping *f, const char *path, const envy_setup *setup, uint32_t flags) {
    envy_sizes sizes;
    if (f->at) return ENVY_OPEN;
    uint32_t code = envy_region_sizes(setup, &sizes);
    if (code != ENVY_DONE) return code;
    if (!f->memory.at && (code = envy_new(&f->memory)) != ENVY_DONE) return code;
    hold_standard_streams();
    f->process = getpid();
    code = found_there(f, path, setup, &sizes);
    if (f->descriptor < 0 && errno == ENOENT && flags & ENVY_CREATE) {
        code = made(f, path, setup, &sizes);
        /* another process made it meanwhile */
        if (code == ENVY_SYSTEM && errno == EEXIST) {
            let_go(f);
            code = found_there(f, path, setup, &sizes);
        }
    }
    if (code != ENVY_DONE) let_go(f);
    return code;
}

/* Finds the SRAM, which lies after the flash: its first words name the number of rows. So it begins at a row if they name the
   number of rows before it, and if the words of the whole file are those of that setup. */
static uint32_t found(int descriptor, size_t words, envy_setup *setup) {
    uint64_t piece[PIECE_ROWS * ROW_WORDS];
    uint32_t why = ENVY_UNFORMATTED;
    for (size_t first = 0; first * ROW_WORDS < words; first += PIECE_ROWS) {
        /* (read, since a file that is mapped and cut meanwhile ends the process) */
        ssize_t got = pread(descriptor, piece, sizeof piece, (off_t)(first * ROW_WORDS * WORD));
        if (got < 0 && errno == EINTR) {
            first -= PIECE_ROWS;
            continue;
        }
        if (got < 0) return ENVY_SYSTEM;
        size_t there = (size_t)got / WORD;
        for (size_t at = first ? 0 : ROW_WORDS; at < there; at += ROW_WORDS) {
            envy_setup told;
            envy_sizes sizes;
            size_t rows = first + at / ROW_WORDS;
            uint32_t code = envy_sram_shape(piece + at, there - at, &told);
            if (code == ENVY_OLDER) why = code;
            if (code != ENVY_DONE || envy_region_sizes(&told, &sizes) != ENVY_DONE || sizes.rows != rows) continue;
            if (sizes.rows * ROW_WORDS + sizes.words + sizes.erases != words) continue;
            *setup = told;
            return ENVY_DONE;
        }
        if (!got) break;
    }
    return why;
}

uint32_t envy_mapping_shape(const char *path, envy_setup *setup) {
    /* (so that a pipe isn't waited for) */
    int descriptor = open(path, O_RDONLY | O_CLOEXEC | O_NONBLOCK);
    if (descriptor < 0) return ENVY_SYSTEM;
    struct stat about;
    uint32_t code = ENVY_SYSTEM;
    if (!fstat(descriptor, &about)) {
        size_t bytes = (size_t)about.st_size;
        code = ENVY_UNFORMATTED;
        if (bytes && bytes % WORD == 0) code = found(descriptor, bytes / WORD, setup);
    }
    int why = errno;
    close(descriptor);
    errno = why;
    return code;
}

uint32_t envy_mapping_sync(envy_mapping *f) {
    if (!f->at) return ENVY_EMPTY;
    return msync(f->at, f->bytes, MS_SYNC) ? ENVY_SYSTEM : ENVY_DONE;
}

uint32_t envy_mapping_close(envy_mapping *f) {
    if (!f->at) return ENVY_DONE;
    uint32_t code = envy_mapping_sync(f);
    let_go(f);
    return code;
}
