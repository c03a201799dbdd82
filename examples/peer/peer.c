/* A native peer of the program: what a C programmer writes who wants the same device operations and speed. It does the
 * words run, save and tpca over such a board in memory, under the policies greedy and fifo, and makes the same puts,
 * programs and erases in the same order. Nothing is proved of it. It knows no failing power (no restart, no lines power
 * and cut), no bad rows (no line bad, no retry), no other policies, and no rules of sizes: it takes those that fit.
 *
 * Beside them count: as run, but each reply is the numbers of puts and of flash operations since the board was
 * formatted, in a build that counts them (-DCOUNTED). With -DMERGED the compiler may merge and move puts, which no supply
 * of power that fails could allow. examples/peer.sh measures it. */
#include "tpca.h"
#include "trace.h"

#include <stdio.h>
#include <stdlib.h>
#include <string.h>

enum { STATUS_WORDS = 2, STATUS_LINE = 5, STATUS_MEMORY = 8 };

struct options {
    struct setup setup;
    struct area area;
    uint64_t start;
};

static struct options defaults(bool tpca) {
    struct options options = {.setup = {{8, 16, 64, 16, 8, 4}, POLICY_GREEDY, 100, 0}, .area = {1, 8000, 1000}, .start = 1};
    if (tpca)
        options.setup.shape = (struct shape){16, 32, 384, 16, 16, 16};
    return options;
}

/* Where an option of 32 bits is kept, or NULL. */
static uint32_t *option_named(struct options *options, const char *name) {
    struct shape *shape = &options->setup.shape;
    const struct {
        const char *name;
        uint32_t *at;
    } table[] = {
        {"--segments", &shape->segments}, {"--rows", &shape->rows}, {"--pages", &shape->pages},
        {"--shadows", &shape->shadows}, {"--frames", &shape->frames}, {"--entries", &shape->entries},
        {"--mark", &options->setup.mark}, {"--branches", &options->area.branches},
        {"--accounts", &options->area.accounts}, {"--transfers", &options->area.transfers},
    };
    for (size_t i = 0; i < sizeof table / sizeof *table; i++)
        if (!strcmp(name, table[i].name)) return table[i].at;
    return NULL;
}

static bool read_option(struct options *options, const char *name, const char *value) {
    char *end;
    uint64_t number = strtoull(value, &end, 10);
    uint32_t *at = option_named(options, name);
    if (!strcmp(name, "--policy")) {
        options->setup.policy = strcmp(value, "fifo") ? POLICY_GREEDY : POLICY_FIFO;
        return !strcmp(value, "fifo") || !strcmp(value, "greedy");
    }
    if (*end || end == value) return false;
    if (at)
        *at = (uint32_t)number;
    else if (!strcmp(name, "--limit"))
        options->setup.limit = number;
    else if (!strcmp(name, "--start"))
        options->start = number;
    else
        return false;
    return true;
}

static void push_sum(struct output *output, const char *name, int64_t sum) {
    push_text(output, name);
    if (sum < 0)
        push_text(output, "-");
    push_number(output, sum < 0 ? -(uint64_t)sum : (uint64_t)sum);
    push_text(output, "\n");
}

static void report(struct output *output, const struct area *area, const struct sums *sums) {
    push_sum(output, "transfers ", area->transfers);
    push_sum(output, "branches ", sums->branches);
    push_sum(output, "tellers ", sums->tellers);
    push_sum(output, "accounts ", sums->accounts);
    push_sum(output, "history ", sums->history);
    push_sum(output, "deltas ", sums->deltas);
    push_text(output, "cuts 0\n");
    push_counts(output, &sums->counts);
    push_text(output, "\n");
}

/* The image of a board: a mark, its shape, the words of its rows and those of SRAM, the lowest byte of each first. */
static void save(struct output *output, const struct board *board) {
    static const uint64_t erased[PAGE_WORDS] = {
#define FOUR UINT64_MAX, UINT64_MAX, UINT64_MAX, UINT64_MAX
        FOUR, FOUR, FOUR, FOUR, FOUR, FOUR, FOUR, FOUR
    };
    size_t rows = (size_t)board->shape.segments * board->shape.rows;
    push_text(output, "eNVyIMG1");
    push(output, &board->shape, sizeof board->shape);
    for (size_t row = 0; row < rows; row++)
        push(output, board->erased[row] ? erased : board->flash[row], sizeof erased);
    for (uint32_t word = 0; word < board->words; word++)
        push(output, &board->sram[word], sizeof board->sram[word]);
}

static int refused(const char *what, uint64_t line) {
    fprintf(stderr, "peer: %s", what);
    if (line)
        fprintf(stderr, " %llu", (unsigned long long)line);
    fputc('\n', stderr);
    return line ? STATUS_LINE : STATUS_WORDS;
}

/* Serves a trace by a word, and answers the exit status. */
static int serve(const char *word, struct memory *memory, struct output *output) {
    bool saves = !strcmp(word, "save");
    enum replying replying = saves ? SILENCE : strcmp(word, "count") ? REPLIES : COUNTS;
    uint64_t line = serve_trace(memory, output, replying);
    if (saves && !line)
        save(output, &memory->board);
    write_out(output);
    return line ? refused("refused: line", line) : EXIT_SUCCESS;
}

static bool is_word(const char *word) {
#ifdef COUNTED
    if (!strcmp(word, "count")) return true;
#endif
    return !strcmp(word, "run") || !strcmp(word, "save") || !strcmp(word, "tpca");
}

int main(int count, char **words) {
    static struct memory memory;
    static struct output output;
    bool tpca = count > 1 && !strcmp(words[1], "tpca");
    struct options options = defaults(tpca);
    if (count < 2 || count % 2 || !is_word(words[1])) return refused("words not understood", 0);
    for (int i = 2; i < count; i += 2)
        if (!read_option(&options, words[i], words[i + 1]))
            return refused("words not understood", 0);
    if (!options.setup.mark)
        options.setup.mark = options.setup.shape.frames;
    if (tpca && !area_fits(&options.area, options.setup.shape.pages))
        return refused("the load does not fit", 0);
    if (!memory_make(&memory, &options.setup)) {
        fputs("peer: out of memory\n", stderr);
        return STATUS_MEMORY;
    }
    if (!tpca) return serve(words[1], &memory, &output);
    struct sums sums = tpca_drive(&memory, &options.area, options.start);
    report(&output, &options.area, &sums);
    write_out(&output);
    return EXIT_SUCCESS;
}
