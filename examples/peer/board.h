/* A board in memory, and the map of its SRAM. Flash is rows of 32 words: a program makes a row its AND with a page, and an
 * erase makes the rows of a segment all ones. SRAM keeps its words while power is off, and power may fail between any two
 * writes to it, so each put is made and they stay in order. */
#ifndef PEER_BOARD_H
#define PEER_BOARD_H

#include <stdbool.h>
#include <stddef.h>
#include <stdint.h>

#define MAGIC 0x654E5679464C5348u
#define VERSION 2u
#define NONE UINT32_MAX

enum { PAGE_WORDS = 32, SLOTS = 64 };

/* the first words of the map, which stand where they do on each board */
enum { AT_MAGIC = 0, AT_VERSION = 1, AT_SIZES = 2, AT_JOB = 5, AT_SLOTS = 8, AT_WEAR = 72 };

struct shape {
    uint32_t segments, rows, pages, shadows, frames, entries;
};

struct board {
    struct shape shape;
    uint64_t *sram;
    uint64_t (*flash)[PAGE_WORDS]; /* the words of an erased row aren't touched */
    uint8_t *erased;
    uint64_t puts, flashed; /* programs and erases; both are counted in a build for it */
    /* where the other regions of the map begin */
    uint32_t at_fill, at_position, at_table, at_undo, at_back, at_origin, at_frames, words;
};

bool board_make(struct board *board, const struct shape *shape);
void board_format(struct board *board);
void board_program(struct board *board, uint32_t row, const uint64_t *page);
void board_erase(struct board *board, uint32_t segment);

#ifdef COUNTED
#define COUNT(counter) ((void)(counter)++)
#else
#define COUNT(counter) ((void)0)
#endif

/* A put that is volatile is neither merged with others nor moved past them. */
#ifdef MERGED
typedef uint64_t put_word;
#else
typedef volatile uint64_t put_word;
#endif

static inline void put(struct board *board, uint32_t at, uint64_t word) {
    *(put_word *)&board->sram[at] = word;
    COUNT(board->puts);
}

/* Puts the words of a page, from the first. */
static inline void put_page(struct board *board, uint32_t at, const uint64_t *page) {
    put_word *words = &board->sram[at];
    for (int i = 0; i < PAGE_WORDS; i++) {
        words[i] = page[i];
        COUNT(board->puts);
    }
}

/* Places and undos stand two to a word. */
static inline uint32_t half(const struct board *board, uint32_t at, uint32_t entry) {
    return (uint32_t)(board->sram[at + entry / 2] >> (entry % 2 * 32));
}

static inline void put_half(struct board *board, uint32_t at, uint32_t entry, uint32_t code) {
    uint64_t word = board->sram[at + entry / 2];
    unsigned shift = entry % 2 * 32;
    put(board, at + entry / 2, (word & ~((uint64_t)UINT32_MAX << shift)) | (uint64_t)code << shift);
}

/* A place is no words (0), a row or a frame: the lowest two bits tell which, and the others its number. */
enum { PLACE_ABSENT = 0, PLACE_ROW = 1, PLACE_FRAME = 2 };

static inline uint32_t place_of(const struct board *board, uint32_t page) { return half(board, board->at_table, page); }
static inline unsigned place_kind(uint32_t place) { return place % 4; }
static inline uint32_t place_number(uint32_t place) { return place / 4; }
static inline uint32_t row_place(uint32_t row) { return 4 * row + PLACE_ROW; }
static inline uint32_t frame_place(uint32_t frame) { return 4 * frame + PLACE_FRAME; }

/* An undo is clear (0), blank, or a shadow in a row; 6 bits behind the kind tell the slot. */
enum { UNDO_CLEAR = 0, UNDO_BLANK = 1, UNDO_SHADOW = 2 };

static inline uint32_t undo_of(const struct board *board, uint32_t page) { return half(board, board->at_undo, page); }
static inline void put_undo(struct board *board, uint32_t page, uint32_t undo) { put_half(board, board->at_undo, page, undo); }
static inline unsigned undo_kind(uint32_t undo) { return undo % 4; }
static inline uint32_t undo_row(uint32_t undo) { return undo / 256; }
static inline uint32_t blank_undo(unsigned slot) { return 4 * slot + UNDO_BLANK; }
static inline uint32_t shadow_undo(unsigned slot, uint32_t row) { return 256 * row + 4 * slot + UNDO_SHADOW; }

/* The place that an undo names. */
static inline uint32_t undone_place(uint32_t undo) {
    return undo_kind(undo) == UNDO_SHADOW ? row_place(undo_row(undo)) : PLACE_ABSENT;
}

enum { SLOT_VACANT = 0, SLOT_ACTIVE = 1, SLOT_COMMITTED = 2 };
enum job { JOB_IDLE = 0, JOB_COPY = 1, JOB_SWITCH = 2, JOB_ERASE = 3 };

static inline void put_job(struct board *board, enum job job, uint32_t segment) {
    put(board, AT_JOB, 4 * (uint64_t)segment + job);
}

static inline const uint64_t *frame_words(const struct board *board, uint32_t frame) {
    return &board->sram[board->at_frames + PAGE_WORDS * frame];
}

#endif
