#include "memory.h"

#include <stdlib.h>
#include <string.h>

static const struct answer done = {OUTCOME_DONE, 0, 0};

static struct answer answer_of(enum outcome outcome, uint32_t slot, uint64_t word) {
    return (struct answer){outcome, slot, word};
}

static bool make_tables(struct memory *memory, const struct shape *shape) {
    memory->cache = malloc(shape->entries * sizeof *memory->cache);
    memory->held = calloc(shape->frames + 1, sizeof *memory->held);
    memory->free_frames = calloc(shape->frames, sizeof *memory->free_frames);
    memory->owner = calloc(shape->pages, sizeof *memory->owner);
    memory->next_owned = calloc(shape->pages, sizeof *memory->next_owned);
    return memory->cache && memory->held && memory->free_frames && memory->owner && memory->next_owned;
}

bool memory_make(struct memory *memory, const struct setup *setup) {
    const struct shape *shape = &setup->shape;
    memset(memory, 0, sizeof *memory);
    if (!board_make(&memory->board, shape) || !space_make(&memory->space, shape) || !make_tables(memory, shape))
        return false;
    memory->policy = setup->policy;
    memory->limit = setup->limit;
    memory->mark = setup->mark;
    memory->turn = shape->segments - 2;
    memset(memory->cache, 0xFF, shape->entries * sizeof *memory->cache); /* no page has such a number */
    memory->held[shape->frames] = (struct held){NONE, shape->frames, shape->frames};
    for (uint32_t frame = 0; frame < shape->frames; frame++)
        memory->free_frames[memory->free_count++] = frame;
    for (uint32_t slot = 0; slot < SLOTS; slot++)
        memory->chains[slot].first = NONE;
    board_format(&memory->board);
    memory->board.puts = memory->board.flashed = 0;
    return true;
}

/* The place of a page, by the cache. */
static uint32_t translate(struct memory *memory, uint32_t page) {
    struct cached *cached = &memory->cache[page % memory->board.shape.entries];
    if (cached->page == page) {
        memory->counts.hits++;
        return cached->place;
    }
    memory->counts.misses++;
    *cached = (struct cached){page, place_of(&memory->board, page)};
    return cached->place;
}

/* The words of a page that isn't absent. */
static const uint64_t *page_words(const struct board *board, uint32_t place) {
    if (place_kind(place) == PLACE_FRAME) return frame_words(board, place_number(place));
    return board->flash[place_number(place)];
}

static uint64_t word_at(const struct board *board, uint32_t place, uint32_t i) {
    return place == PLACE_ABSENT ? 0 : page_words(board, place)[i];
}

/* Frames */

static uint32_t take_frame(struct memory *memory, uint32_t page) {
    struct held *held = memory->held, *head = &held[memory->board.shape.frames];
    uint32_t frame = memory->free_frames[--memory->free_count];
    held[frame] = (struct held){page, memory->board.shape.frames, head->older};
    held[head->older].newer = frame;
    head->older = frame;
    return frame;
}

static void give_back(struct memory *memory, uint32_t frame) {
    struct held *held = memory->held;
    held[held[frame].older].newer = held[frame].newer;
    held[held[frame].newer].older = held[frame].older;
    memory->free_frames[memory->free_count++] = frame;
}

static uint32_t oldest_frame(const struct memory *memory) {
    return memory->held[memory->board.shape.frames].newer;
}

/* Rows */

/* Claims the next row of a segment. Its page is put first, so that the row is free until the fill rises over it. */
uint32_t claim(struct memory *memory, uint32_t segment, uint32_t page) {
    struct board *board = &memory->board;
    uint32_t fill = memory->space.fill[segment];
    uint32_t row = segment * board->shape.rows + fill;
    put(board, board->at_back + row, page);
    put(board, board->at_fill + segment, fill + 1);
    space_claimed(&memory->space, segment);
    return row;
}

/* The same at a position, for a page that is written there before another choice is made, and keeps the row then. */
static uint32_t claim_kept(struct memory *memory, uint32_t position, uint32_t page) {
    uint32_t segment = memory->space.segment_at[position];
    memory->space.kept[segment]++;
    return claim(memory, segment, page);
}

/* The lowest position with a free row that the relocation leaves free, or NONE. */
static uint32_t free_beside_job(const struct memory *memory) {
    uint32_t position = space_lowest_free(&memory->space, 0);
    if (position == memory->position && (memory->job == JOB_COPY || memory->job == JOB_SWITCH))
        return space_lowest_free(&memory->space, position + 1);
    return position;
}

static void finish_relocations(struct memory *memory) {
    while (memory->job != JOB_IDLE || memory->stages)
        if (memory->job != JOB_IDLE)
            step_relocation(memory);
        else
            begin_stage(memory);
}

/* Claims a row for a page that is written there at once. */
static uint32_t get_row(struct memory *memory, uint32_t page) {
    uint32_t position;
    if (memory->job != JOB_IDLE || memory->stages) {
        position = free_beside_job(memory);
        if (position != NONE) return claim_kept(memory, position, page);
        finish_relocations(memory);
    }
    position = space_lowest_free(&memory->space, 0);
    if (position == NONE) {
        position = choose_victim(memory);
        begin_cleaning(memory, position);
        while (memory->job != JOB_IDLE)
            step_relocation(memory);
    }
    return claim_kept(memory, position, page);
}

/* Writes the page that was held longest to a row that was claimed for it, and gives its frame back. */
static void flush_oldest(struct memory *memory, uint32_t row) {
    uint32_t frame = oldest_frame(memory);
    memory->counts.flushes++;
    board_program(&memory->board, row, frame_words(&memory->board, frame));
    move_page(memory, memory->held[frame].page, row_place(row));
    give_back(memory, frame);
}

/* Stores */

static void put_frame_word(struct board *board, uint32_t frame, uint32_t i, uint64_t word) {
    put(board, board->at_frames + PAGE_WORDS * frame + i, word);
}

/* Fills a frame with the words of a page, one of them changed. */
static uint32_t fill_frame(struct memory *memory, uint32_t page, uint32_t place, uint32_t i, uint64_t word) {
    struct board *board = &memory->board;
    uint64_t words[PAGE_WORDS];
    uint32_t frame = take_frame(memory, page);
    if (place == PLACE_ABSENT)
        memset(words, 0, sizeof words);
    else
        memcpy(words, page_words(board, place), sizeof words);
    words[i] = word;
    put_page(board, board->at_frames + PAGE_WORDS * frame, words);
    return frame;
}

/* Frees a frame where none is, and answers where a page that is in no frame stands then. */
static uint32_t make_room(struct memory *memory, uint32_t page) {
    if (!memory->free_count)
        flush_oldest(memory, get_row(memory, memory->held[oldest_frame(memory)].page));
    return place_of(&memory->board, page);
}

/* Stores a word of a page, whose owner stays. */
static void store_word(struct memory *memory, uint32_t page, uint32_t i, uint64_t word) {
    uint32_t place = translate(memory, page);
    if (place_kind(place) == PLACE_FRAME) {
        put_frame_word(&memory->board, place_number(place), i, word);
        return;
    }
    place = make_room(memory, page);
    move_page(memory, page, frame_place(fill_frame(memory, page, place, i, word)));
    if (place_kind(place) == PLACE_ROW)
        space_dropped(&memory->space, place_number(place));
}

/* Transactions */

static bool is_open(const struct memory *memory, uint32_t slot) {
    return slot < SLOTS && memory->open >> slot & 1;
}

/* A slot comes to own a page: its undo tells what an abort or a restart puts back. */
static void own_page(struct memory *memory, uint32_t slot, uint32_t page, uint32_t undo) {
    struct chain *chain = &memory->chains[slot];
    put_undo(&memory->board, page, undo);
    if (chain->first == NONE)
        chain->first = page;
    else
        memory->next_owned[chain->last] = page;
    chain->last = page;
    memory->next_owned[page] = NONE;
    memory->owner[page] = (uint8_t)(slot + 1);
    memory->owned++;
}

/* The first put of a slot to a page that nobody owns. */
static void put_first(struct memory *memory, uint32_t slot, uint32_t page, uint32_t i, uint64_t word) {
    uint32_t place = translate(memory, page);
    if (place_kind(place) == PLACE_FRAME) {
        uint32_t frame = place_number(place), row = get_row(memory, page);
        memory->counts.flushes++;
        board_program(&memory->board, row, frame_words(&memory->board, frame));
        own_page(memory, slot, page, shadow_undo(slot, row));
        put_frame_word(&memory->board, frame, i, word);
        return;
    }
    place = make_room(memory, page);
    uint32_t frame = fill_frame(memory, page, place, i, word);
    own_page(memory, slot, page, place == PLACE_ABSENT ? blank_undo(slot) : shadow_undo(slot, place_number(place)));
    move_page(memory, page, frame_place(frame));
}

/* Lets a committed slot go of a page: the row that its undo names is dead. */
static void release_page(struct memory *memory, uint32_t page) {
    uint32_t undo = undo_of(&memory->board, page);
    put_undo(&memory->board, page, UNDO_CLEAR);
    if (undo_kind(undo) == UNDO_SHADOW)
        space_dropped(&memory->space, undo_row(undo));
}

/* Puts a page back where its undo says. */
static void restore_page(struct memory *memory, uint32_t page) {
    uint32_t place = place_of(&memory->board, page);
    move_page(memory, page, undone_place(undo_of(&memory->board, page)));
    put_undo(&memory->board, page, UNDO_CLEAR);
    if (place_kind(place) == PLACE_FRAME)
        give_back(memory, place_number(place));
    else if (place_kind(place) == PLACE_ROW)
        space_dropped(&memory->space, place_number(place));
}

/* Ends what a slot owns, in order of owning, and closes it. */
static void close_slot(struct memory *memory, uint32_t slot, void (*end_page)(struct memory *, uint32_t)) {
    for (uint32_t page = memory->chains[slot].first; page != NONE; page = memory->next_owned[page]) {
        end_page(memory, page);
        memory->owner[page] = 0;
        memory->owned--;
    }
    memory->chains[slot].first = NONE;
    put(&memory->board, AT_SLOTS + slot, SLOT_VACANT);
    memory->open &= ~(UINT64_C(1) << slot);
}

/* Calls */

static bool in_range(const struct memory *memory, uint32_t address) {
    return address / PAGE_WORDS < memory->board.shape.pages;
}

struct answer memory_load(struct memory *memory, uint32_t address) {
    if (!in_range(memory, address)) return answer_of(OUTCOME_RANGE, 0, 0);
    uint32_t place = translate(memory, address / PAGE_WORDS);
    return answer_of(OUTCOME_WORD, 0, word_at(&memory->board, place, address % PAGE_WORDS));
}

/* The word that a restart would leave. */
struct answer memory_look(const struct memory *memory, uint32_t address) {
    uint32_t page = address / PAGE_WORDS;
    if (!in_range(memory, address)) return answer_of(OUTCOME_RANGE, 0, 0);
    uint32_t undo = undo_of(&memory->board, page);
    uint32_t place = undo == UNDO_CLEAR ? place_of(&memory->board, page) : undone_place(undo);
    return answer_of(OUTCOME_WORD, 0, word_at(&memory->board, place, address % PAGE_WORDS));
}

struct answer memory_store(struct memory *memory, uint32_t address, uint64_t word) {
    uint32_t page = address / PAGE_WORDS;
    if (!in_range(memory, address)) return answer_of(OUTCOME_RANGE, 0, 0);
    if (memory->owner[page]) return answer_of(OUTCOME_HELD, memory->owner[page] - 1u, 0);
    store_word(memory, page, address % PAGE_WORDS, word);
    return done;
}

struct answer memory_begin(struct memory *memory) {
    if (!~memory->open) return answer_of(OUTCOME_BUSY, 0, 0);
    uint32_t slot = (uint32_t)__builtin_ctzll(~memory->open);
    put(&memory->board, AT_SLOTS + slot, SLOT_ACTIVE);
    memory->open |= UINT64_C(1) << slot;
    return answer_of(OUTCOME_STARTED, slot, 0);
}

struct answer memory_put(struct memory *memory, uint32_t slot, uint32_t address, uint64_t word) {
    uint32_t page = address / PAGE_WORDS;
    if (!in_range(memory, address)) return answer_of(OUTCOME_RANGE, 0, 0);
    if (!is_open(memory, slot)) return answer_of(OUTCOME_CLOSED, 0, 0);
    if (memory->owner[page] == slot + 1)
        store_word(memory, page, address % PAGE_WORDS, word);
    else if (memory->owner[page])
        return answer_of(OUTCOME_HELD, memory->owner[page] - 1u, 0);
    else if (memory->owned == memory->board.shape.shadows)
        return answer_of(OUTCOME_FULL, 0, 0);
    else
        put_first(memory, slot, page, address % PAGE_WORDS, word);
    return done;
}

struct answer memory_commit(struct memory *memory, uint32_t slot) {
    if (!is_open(memory, slot)) return answer_of(OUTCOME_CLOSED, 0, 0);
    put(&memory->board, AT_SLOTS + slot, SLOT_COMMITTED);
    close_slot(memory, slot, release_page);
    return done;
}

struct answer memory_abort(struct memory *memory, uint32_t slot) {
    if (!is_open(memory, slot)) return answer_of(OUTCOME_CLOSED, 0, 0);
    close_slot(memory, slot, restore_page);
    return done;
}

/* One background step. */
struct answer memory_tick(struct memory *memory) {
    uint32_t held = memory->board.shape.frames - memory->free_count;
    if (memory->job != JOB_IDLE)
        step_relocation(memory);
    else if (memory->stages)
        begin_stage(memory);
    else if (held < memory->mark)
        begin_due_swap(memory);
    else if (memory->space.free_top)
        flush_oldest(memory, get_row(memory, memory->held[oldest_frame(memory)].page));
    else
        begin_cleaning(memory, choose_victim(memory));
    return done;
}
