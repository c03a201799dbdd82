/* A run of bytes in an array of eNVy's words, for the clients of this folder: a SQLite VFS and a block device. Byte b is in
   word 32 + b / 8 of the array, the lowest byte first; the first page of 32 words is a header, whose word 0 names the
   client and whose word 1 is a length that the client keeps.

   An array is in a durable file, in which a sync brings all that was written to the disk, as one; or, if that is asked for,
   in a mapped file, where a write outlives the process at once, word by word, and the writes of a batch as one.

   One call at a time uses an array, and one at a time opens or closes one: callers hold a lock. */
#ifndef ENVY_CLIENT_BYTES_H
#define ENVY_CLIENT_BYTES_H

#include <stddef.h>
#include <stdint.h>
#include "envy.h"

enum { WORD_BYTES = 8, HEADER_WORDS = 32 };

/* What is answered beside the codes of the library. */
enum bytes_code {
    BYTES_OTHER_KIND = 2000, /* the array is another program's */
    BYTES_MAPPED = 2001,     /* the file is a mapped one, and a durable one is asked for */
    BYTES_DURABLE = 2002     /* the file is a durable one, and a mapped one is asked for */
};

/* A text for each code of the library or of this file. */
const char *bytes_text(uint32_t code);

/* How a file is made and opened. Size, shadows and frames count when it is made: a file keeps its shape. */
typedef struct bytes_options {
    uint64_t size;    /* bytes that it has room for */
    uint32_t shadows; /* pages of 256 bytes that a batch over a mapped file may change */
    uint32_t frames;  /* of SRAM, which hold pages that are written again and again; 0: for the size */
    int mapped;       /* it is a mapped file, not a durable one. A file of the other kind is refused */
    int bytewise;     /* the file system and the disk write a durable file byte by byte (ENVY_BYTEWISE) */
} bytes_options;
#define BYTES_OPTIONS_INIT {64u << 20, 4096, 0, 0, 0}

/* What the client asked for, and what the array was asked for. */
typedef struct bytes_counts {
    uint64_t words_given;  /* in writes */
    uint64_t words_stored; /* of them, since they differ from those that were there */
    uint64_t words_read;   /* from the array, to compare too */
    uint64_t syncs;
} bytes_counts;

struct known_words; /* known.h */
struct undone;      /* batch.c */

typedef struct bytes {
    envy memory;
    envy_setup setup;
    int mapped;
    uint64_t room;   /* bytes */
    uint64_t length; /* word 1 of the header */
    bytes_counts counts;
    struct known_words *known;
    /* a batch */
    int in_batch;
    uint32_t slot;         /* over a mapped file: of its transaction */
    uint64_t length_first; /* when it began */
    struct undone *undone; /* over a durable file: what its writes changed, the last first */
} bytes;

/* Opens the array in the file at a path, or makes one if there is none or an empty one. The kind is a number of the client's
   own, never 0. Answers 0, a code of the library, or a bytes_code. Refused, nothing is open, and the file is as before. */
uint32_t bytes_open(bytes *b, const char *path, uint64_t kind, const bytes_options *options);

/* Ends it. If nothing is to be kept since the last sync, a durable file opens as of that sync. */
uint32_t bytes_close(bytes *b, int is_kept);

/* The largest size that a file may be made with. */
uint64_t bytes_largest(const bytes_options *options);

/* Those from a place on. ENVY_RANGE if they reach past the room. */
uint32_t bytes_read(bytes *b, uint64_t at, void *to, size_t n);

/* Makes them these. Only words that differ are stored. ENVY_RANGE as above. In a batch over a mapped file ENVY_FULL too: it
   may change no further page. */
uint32_t bytes_write(bytes *b, uint64_t at, const void *from, size_t n);

/* Makes them zeros. */
uint32_t bytes_zero(bytes *b, uint64_t at, uint64_t n);

uint32_t bytes_set_length(bytes *b, uint64_t length);

/* Brings all that was written to the disk. */
uint32_t bytes_sync(bytes *b);

/* A batch: its writes are kept as one, or undone. Only one is open at a time, and reads see its writes. */
uint32_t bytes_begin(bytes *b);
uint32_t bytes_commit(bytes *b);
uint32_t bytes_abort(bytes *b);

/* Of these calls' own: makes n words of the array these, in the batch or outside one. The old ones are there now. */
uint32_t bytes_put(bytes *b, uint32_t address, const uint64_t *words, const uint64_t *old, size_t n);
/* Frees what is kept to undo a batch. */
void batch_forget(bytes *b);

#endif
