#include "trace.h"

#include <stdio.h>
#include <stdlib.h>
#include <string.h>
#include <unistd.h>

enum { MOST_FIELDS = 3, MOST_DIGITS = 20 };

/* Output */

void write_out(struct output *output) {
    for (size_t written = 0; written < output->used;) {
        ssize_t count = write(STDOUT_FILENO, output->bytes + written, output->used - written);
        if (count <= 0)
            exit(EXIT_FAILURE);
        written += (size_t)count;
    }
    output->used = 0;
}

void push(struct output *output, const void *bytes, size_t count) {
    if (count > PIECE - output->used)
        write_out(output);
    memcpy(output->bytes + output->used, bytes, count);
    output->used += count;
}

void push_text(struct output *output, const char *text) {
    push(output, text, strlen(text));
}

void push_number(struct output *output, uint64_t number) {
    char digits[MOST_DIGITS];
    int first = MOST_DIGITS;
    do {
        digits[--first] = (char)('0' + number % 10);
        number /= 10;
    } while (number);
    push(output, digits + first, (size_t)(MOST_DIGITS - first));
}

static void push_count(struct output *output, const char *name, uint64_t number) {
    push_text(output, name);
    push_number(output, number);
}

void push_counts(struct output *output, const struct counts *counts) {
    push_count(output, "stat hits ", counts->hits);
    push_count(output, " misses ", counts->misses);
    push_count(output, " flushes ", counts->flushes);
    push_count(output, " copies ", counts->copies);
    push_count(output, " moves ", 0);
    push_count(output, " erases ", counts->erases);
    push_count(output, " swaps ", counts->swaps);
    push_count(output, " cost ", counts->flushes ? 100 * counts->copies / counts->flushes : 0);
}

static void push_answer(struct output *output, struct answer answer) {
    static const char *const names[] = {
        [OUTCOME_DONE] = "ok",     [OUTCOME_RANGE] = "range", [OUTCOME_CLOSED] = "closed",
        [OUTCOME_FULL] = "full",   [OUTCOME_BUSY] = "busy",
    };
    switch (answer.outcome) {
    case OUTCOME_WORD: push_number(output, answer.word); break;
    case OUTCOME_STARTED: push_count(output, "tx ", answer.slot); break;
    case OUTCOME_HELD: push_count(output, "held ", answer.slot); break;
    default: push_text(output, names[answer.outcome]);
    }
}

/* Lines */

enum command { LOAD, LOOK, STORE, BEGIN, PUT, COMMIT, ABORT, TICK, STAT, COMMANDS, EMPTY };

struct line {
    enum command command;
    uint64_t fields[MOST_FIELDS];
};

struct form {
    char name[8];
    int fields;
    uint64_t most[MOST_FIELDS];
};

static const struct form forms[COMMANDS] = {
    [LOAD] = {"load", 1, {UINT32_MAX}},
    [LOOK] = {"look", 1, {UINT32_MAX}},
    [STORE] = {"store", 2, {UINT32_MAX, UINT64_MAX}},
    [BEGIN] = {"begin", 0, {0}},
    [PUT] = {"put", 3, {UINT8_MAX, UINT32_MAX, UINT64_MAX}},
    [COMMIT] = {"commit", 1, {UINT8_MAX}},
    [ABORT] = {"abort", 1, {UINT8_MAX}},
    [TICK] = {"tick", 0, {0}},
    [STAT] = {"stat", 0, {0}},
};

static const char *skip_blanks(const char *at, const char *end) {
    while (at < end && (*at == ' ' || *at == '\t'))
        at++;
    return at;
}

/* The command of a name, whose letters come one after another in a word, the first in the lowest byte. */
static enum command command_named(uint64_t name) {
    static uint64_t names[COMMANDS];
    enum command command = LOAD;
    if (!names[LOAD])
        for (int i = 0; i < COMMANDS; i++)
            memcpy(&names[i], forms[i].name, sizeof names[i]);
    while (command < COMMANDS && names[command] != name)
        command++;
    return command;
}

/* Reads a number of at most this value. Answers where it ends, or NULL where there is none. */
static const char *read_number(const char *at, const char *end, uint64_t most, uint64_t *number) {
    const char *first = at;
    uint64_t value = 0;
    unsigned digit;
    for (; at < end && (digit = (unsigned)(*at - '0')) <= 9; at++) {
        if (value > (UINT64_MAX - 9) / 10 && value > (UINT64_MAX - digit) / 10) return NULL;
        value = 10 * value + digit;
    }
    *number = value;
    return at > first && value <= most ? at : NULL;
}

/* Reads a line of a trace, or answers false where it is refused. */
static bool read_line(const char *at, const char *end, struct line *line) {
    if (at < end && end[-1] == '\r')
        end--;
    at = skip_blanks(at, end);
    line->command = EMPTY;
    if (at == end || *at == '#') return true;
    uint64_t name = 0;
    for (int i = 0; at < end && *at != ' ' && *at != '\t'; i++)
        name |= (uint64_t)(unsigned char)*at++ << 8 * i;
    line->command = command_named(name);
    if (line->command == COMMANDS) return false;
    const struct form *form = &forms[line->command];
    for (int i = 0; i < form->fields; i++) {
        const char *field = skip_blanks(at, end);
        if (field == at || !(at = read_number(field, end, form->most[i], &line->fields[i])))
            return false;
    }
    return skip_blanks(at, end) == end;
}

static struct answer obey(struct memory *memory, const struct line *line) {
    uint32_t field = (uint32_t)line->fields[0];
    switch (line->command) {
    case LOAD: return memory_load(memory, field);
    case LOOK: return memory_look(memory, field);
    case STORE: return memory_store(memory, field, line->fields[1]);
    case BEGIN: return memory_begin(memory);
    case PUT: return memory_put(memory, field, (uint32_t)line->fields[1], line->fields[2]);
    case COMMIT: return memory_commit(memory, field);
    case ABORT: return memory_abort(memory, field);
    default: return memory_tick(memory);
    }
}

struct serving {
    struct memory *memory;
    struct output *output;
    enum replying replying;
    uint64_t lines;
};

/* Does a line, and writes what is to be written of it. */
static void do_line(struct serving *serving, const struct line *line) {
    struct output *output = serving->output;
    struct answer answer = {OUTCOME_DONE, 0, 0};
    if (line->command == EMPTY) return;
    if (line->command != STAT) answer = obey(serving->memory, line);
    if (serving->replying == SILENCE) return;
    if (serving->replying == COUNTS) {
        push_number(output, serving->memory->board.puts);
        push_count(output, " ", serving->memory->board.flashed);
    } else if (line->command == STAT)
        push_counts(output, &serving->memory->counts);
    else
        push_answer(output, answer);
    push(output, "\n", 1);
}

/* Does the lines of a piece of input up to its last newline, and answers where they end, or NULL where one is refused. */
static char *serve_piece(struct serving *serving, char *at, char *end) {
    struct line line;
    char *newline;
    while ((newline = memchr(at, '\n', (size_t)(end - at)))) {
        serving->lines++;
        if (!read_line(at, newline, &line)) return NULL;
        do_line(serving, &line);
        at = newline + 1;
    }
    return at;
}

uint64_t serve_trace(struct memory *memory, struct output *output, enum replying replying) {
    static char bytes[PIECE + 1];
    struct serving serving = {memory, output, replying, 0};
    size_t held = 0;
    for (bool ended = false; !ended;) {
        write_out(output);
        ssize_t count = read(STDIN_FILENO, bytes + held, PIECE - held);
        ended = count <= 0;
        char *end = bytes + held + (ended ? 0 : (size_t)count);
        if (ended && held) *end++ = '\n';
        char *left = serve_piece(&serving, bytes, end);
        if (!left) return serving.lines;
        held = (size_t)(end - left);
        memmove(bytes, left, held);
    }
    return 0;
}
