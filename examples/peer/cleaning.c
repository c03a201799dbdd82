/* Relocations: the rows of a segment that are kept are copied into the spare, references are switched to the copies, the
 * spare takes the segment's position, and the segment is erased and is the spare. A store may come between any two steps. */
#include "memory.h"

/* The position that is cleaned: under greedy that with most dead rows, under fifo the next with some. */
uint32_t choose_victim(const struct memory *memory) {
    if (memory->policy == POLICY_FIFO) return space_next_dead(&memory->space, memory->turn);
    return space_most_dead(&memory->space);
}

static void begin_relocation(struct memory *memory, uint32_t position) {
    memory->job = JOB_COPY;
    memory->position = position;
    memory->moving = memory->space.segment_at[position];
    memory->next_row = memory->moving * memory->board.shape.rows;
    put_job(&memory->board, JOB_COPY, memory->moving);
}

void begin_cleaning(struct memory *memory, uint32_t position) {
    begin_relocation(memory, position);
    memory->turn = position;
}

enum keeper { KEPT_BY_NOBODY, KEPT_BY_PLACE, KEPT_BY_UNDO };

/* Who keeps a row: only the page that it was claimed for can name it. */
static enum keeper keeper_of(const struct board *board, uint32_t row, uint32_t *page) {
    *page = (uint32_t)board->sram[board->at_back + row];
    if (place_of(board, *page) == row_place(row)) return KEPT_BY_PLACE;
    uint32_t undo = undo_of(board, *page);
    return undo_kind(undo) == UNDO_SHADOW && undo_row(undo) == row ? KEPT_BY_UNDO : KEPT_BY_NOBODY;
}

static void copy_row(struct memory *memory, uint32_t row, uint32_t page) {
    struct board *board = &memory->board;
    uint32_t spare = memory->space.spare;
    put(board, board->at_origin + memory->space.fill[spare], row);
    uint32_t copy = claim(memory, spare, page);
    memory->counts.copies++;
    board_program(board, copy, board->flash[row]);
}

/* Copies the next row that is kept. False where none is left. */
static bool copy_next(struct memory *memory) {
    uint32_t end = memory->moving * memory->board.shape.rows + memory->space.fill[memory->moving];
    uint32_t page;
    while (memory->next_row < end) {
        uint32_t row = memory->next_row++;
        if (keeper_of(&memory->board, row, &page) != KEPT_BY_NOBODY) {
            copy_row(memory, row, page);
            return true;
        }
    }
    return false;
}

/* Switches what names a row to its copy. */
static void switch_row(struct memory *memory, uint32_t row, uint32_t copy) {
    struct board *board = &memory->board;
    uint32_t page;
    enum keeper keeper = keeper_of(board, row, &page);
    if (keeper == KEPT_BY_NOBODY) return;
    if (keeper == KEPT_BY_PLACE)
        move_page(memory, page, row_place(copy));
    else
        put_undo(board, page, shadow_undo(undo_of(board, page) % 256 / 4, copy));
    memory->space.kept[memory->moving]--;
    memory->space.kept[memory->space.spare]++;
}

static void switch_rows(struct memory *memory) {
    struct board *board = &memory->board;
    uint32_t spare = memory->space.spare;
    memory->job = JOB_SWITCH;
    put_job(board, JOB_SWITCH, memory->moving);
    for (uint32_t i = 0; i < memory->space.fill[spare]; i++)
        switch_row(memory, (uint32_t)board->sram[board->at_origin + i], spare * board->shape.rows + i);
}

static void place_spare(struct memory *memory) {
    memory->job = JOB_ERASE;
    put(&memory->board, memory->board.at_position + memory->position, memory->space.spare);
    space_exchange(&memory->space, memory->position);
    put_job(&memory->board, JOB_ERASE, 0);
}

static void erase_spare(struct memory *memory) {
    struct board *board = &memory->board;
    uint32_t spare = memory->space.spare;
    put(board, AT_WEAR + spare, board->sram[AT_WEAR + spare] + 1);
    board_erase(board, spare);
    memory->counts.erases++;
    memory->since++;
    put(board, board->at_fill + spare, 0);
    memory->space.fill[spare] = 0;
    memory->job = JOB_IDLE;
    put_job(board, JOB_IDLE, 0);
}

/* One step: at most one program or one erase. */
void step_relocation(struct memory *memory) {
    if (memory->job == JOB_ERASE)
        erase_spare(memory);
    else if (memory->job == JOB_SWITCH)
        place_spare(memory);
    else if (!copy_next(memory))
        switch_rows(memory);
}

/* Begins the next relocation of a swap. Of three the middle one is of the young segment's position. */
void begin_stage(struct memory *memory) {
    memory->stages--;
    begin_relocation(memory, memory->stages == 1 ? memory->young : memory->worn);
}

static uint64_t wear_at(const struct memory *memory, uint32_t position) {
    return memory->board.sram[AT_WEAR + memory->space.segment_at[position]];
}

/* Finds the positions of most and of least wear, the lowest of several, and answers by how much they differ. */
static uint64_t find_extremes(struct memory *memory) {
    memory->worn = 0;
    memory->young = 0;
    for (uint32_t position = 1; position < memory->space.positions; position++) {
        if (wear_at(memory, position) > wear_at(memory, memory->worn))
            memory->worn = position;
        if (wear_at(memory, position) < wear_at(memory, memory->young))
            memory->young = position;
    }
    return wear_at(memory, memory->worn) - wear_at(memory, memory->young);
}

/* Begins a swap where one is due. Else none is until some segment was erased as often as is missing, also the spare. */
void begin_due_swap(struct memory *memory) {
    if (memory->since < memory->limit || memory->since < memory->quiet_until) return;
    uint64_t spread = find_extremes(memory);
    if (spread <= memory->limit) {
        uint64_t least = wear_at(memory, memory->young), most = wear_at(memory, memory->worn);
        uint64_t spare = memory->board.sram[AT_WEAR + memory->space.spare];
        spread = (spare > most ? spare : most) - (spare < least ? spare : least);
        memory->quiet_until = spread > memory->limit ? 0 : memory->since + memory->limit - spread + 1;
        return;
    }
    memory->quiet_until = 0;
    memory->since = 0;
    memory->counts.swaps++;
    memory->stages = 3;
    begin_stage(memory);
}
