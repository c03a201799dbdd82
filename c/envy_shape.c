/* What is known of a file before it is opened. */
#define _GNU_SOURCE
#include "envy_head.h"
#include "envy_mapping.h"
#include "envy_served.h"
#include <errno.h>
#include <fcntl.h>
#include <stdlib.h>
#include <string.h>
#include <sys/stat.h>
#include <unistd.h>

/* A number of 4 bytes of the head. */
static uint32_t size_at(const uint8_t *head, int number) {
    const uint8_t *at = head + SIZES_AT + 4 * number;
    return at[0] | (uint32_t)at[1] << 8 | (uint32_t)at[2] << 16 | (uint32_t)at[3] << 24;
}

/* Reads the head of a file. ENVY_NO_JOURNAL if the file is shorter. */
static uint32_t head_of(int descriptor, uint8_t *head) {
    struct stat found;
    if (fstat(descriptor, &found)) return ENVY_SYSTEM;
    if (!S_ISREG(found.st_mode)) {
        errno = EINVAL;
        return ENVY_SYSTEM;
    }
    for (size_t at = 0; at < HEAD;) {
        ssize_t done = pread(descriptor, head + at, HEAD - at, (off_t)at);
        if (done < 0 && errno == EINTR) continue;
        if (done < 0) return ENVY_SYSTEM;
        if (!done) return ENVY_NO_JOURNAL;
        at += (size_t)done;
    }
    return ENVY_DONE;
}

/* What a head doesn't tell of a setup, as envy_sram_shape has it. */
enum { USUAL_PART = 2, USUAL_LIMIT = 100 };

/* The setup that a head tells. */
static uint32_t told(const uint8_t *head, envy_setup *setup) {
    if (memcmp(head, JOURNAL_MARK, MARK_BYTES)) return ENVY_NO_JOURNAL;
    if (head[MARK_BYTES] != JOURNAL_VERSION && head[MARK_BYTES] != OLDER_JOURNAL_VERSION) return ENVY_OTHER_JOURNAL;
    envy_setup found = {
        .segments = size_at(head, 0),
        .rows = size_at(head, 1),
        .pages = size_at(head, 2),
        .shadows = size_at(head, 3),
        .frames = size_at(head, 4),
        .entries = size_at(head, 5),
        .policy = ENVY_GREEDY,
        .part = USUAL_PART,
        .limit = USUAL_LIMIT,
        .mark = size_at(head, 4),
    };
    uint64_t bytes;
    if (envy_board_size(&found, &bytes) != ENVY_DONE) return ENVY_NO_JOURNAL;
    *setup = found;
    return ENVY_DONE;
}

uint32_t envy_served_shape(const char *path, envy_setup *setup) {
    uint8_t head[HEAD];
    /* (so that a pipe isn't waited for) */
    int descriptor = open(path, O_RDONLY | O_CLOEXEC | O_NONBLOCK);
    if (descriptor < 0) return ENVY_SYSTEM;
    uint32_t code = head_of(descriptor, head);
    int why = errno;
    close(descriptor);
    errno = why;
    return code == ENVY_DONE ? told(head, setup) : code;
}

envy_served *envy_served_new(void) {
    envy_served *f = malloc(sizeof *f);
    if (f) *f = (envy_served)ENVY_SERVED_INIT;
    return f;
}

/* (a journal isn't formatted as regions are, and regions hold no journal) */
uint32_t envy_file_shape(const char *path, envy_setup *setup) {
    uint32_t code = envy_served_shape(path, setup);
    if (code != ENVY_NO_JOURNAL) return code;
    code = envy_mapping_shape(path, setup);
    return code == ENVY_UNFORMATTED ? (uint32_t)ENVY_NO_JOURNAL : code;
}
