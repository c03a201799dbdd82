#include "board.h"

#include <stdlib.h>
#include <string.h>

bool board_make(struct board *board, const struct shape *shape) {
    size_t rows = (size_t)shape->segments * shape->rows;
    uint32_t packed = (shape->pages + 1) / 2;
    board->shape = *shape;
    board->puts = board->flashed = 0;
    board->at_fill = AT_WEAR + shape->segments;
    board->at_position = board->at_fill + shape->segments;
    board->at_table = board->at_position + shape->segments - 1;
    board->at_undo = board->at_table + packed;
    board->at_back = board->at_undo + packed;
    board->at_origin = board->at_back + (uint32_t)rows;
    board->at_frames = board->at_origin + shape->rows;
    board->words = board->at_frames + PAGE_WORDS * shape->frames;
    board->sram = calloc(board->words, sizeof *board->sram);
    board->flash = malloc(rows * sizeof *board->flash);
    board->erased = malloc(rows);
    if (!board->sram || !board->flash || !board->erased) return false;
    memset(board->erased, true, rows);
    return true;
}

void board_program(struct board *board, uint32_t row, const uint64_t *page) {
    uint64_t *words = board->flash[row];
    COUNT(board->flashed);
    if (board->erased[row]) {
        board->erased[row] = false;
        memcpy(words, page, sizeof board->flash[row]);
        return;
    }
    for (int i = 0; i < PAGE_WORDS; i++)
        words[i] &= page[i];
}

void board_erase(struct board *board, uint32_t segment) {
    COUNT(board->flashed);
    memset(&board->erased[(size_t)segment * board->shape.rows], true, board->shape.rows);
}

/* Puts a word into each of those from one on up to another. */
static void put_all(struct board *board, uint32_t from, uint32_t end, uint64_t word) {
    for (uint32_t at = from; at < end; at++)
        put(board, at, word);
}

static uint64_t packed(uint32_t high, uint32_t low) {
    return (uint64_t)high << 32 | low;
}

/* Makes the board an array of zeros. The first word, by which it is known, is cleared before all else and written last. */
void board_format(struct board *board) {
    const struct shape *shape = &board->shape;
    put(board, AT_MAGIC, 0);
    for (uint32_t segment = 0; segment < shape->segments; segment++) {
        put(board, AT_WEAR + segment, 1);
        board_erase(board, segment);
        put(board, board->at_fill + segment, 0);
    }
    put(board, AT_SIZES, packed(shape->segments, shape->rows));
    put(board, AT_SIZES + 1, packed(shape->pages, shape->shadows));
    put(board, AT_SIZES + 2, packed(shape->frames, shape->entries));
    put(board, AT_VERSION, VERSION);
    put_job(board, JOB_IDLE, 0);
    put_all(board, AT_SLOTS, AT_SLOTS + SLOTS, SLOT_VACANT);
    for (uint32_t position = 0; position < shape->segments - 1; position++)
        put(board, board->at_position + position, position);
    put_all(board, board->at_table, board->at_frames, 0);
    put(board, AT_MAGIC, MAGIC);
}
