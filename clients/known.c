#include "known.h"
#include <stdlib.h>
#include <string.h>

/* Pages that weren't touched take no memory. */
known_words *known_new(void) { return calloc(1, sizeof(known_words)); }

static known_line *place_of(known_words *k, uint64_t number) { return &k->lines[number % LINE_COUNT]; }

uint32_t known_find(bytes *b, uint64_t number, known_line **line) {
    known_line *found = place_of(b->known, number);
    *line = found;
    if (found->number_and_1 == number + 1) return ENVY_DONE;
    uint64_t first = number * LINE_WORDS, all = b->room / WORD_BYTES;
    size_t n = all - first < LINE_WORDS ? (size_t)(all - first) : LINE_WORDS;
    known_forget(found);
    uint32_t code = envy_read(&b->memory, (uint32_t)(HEADER_WORDS + first), found->words, n);
    if (code) return code;
    b->counts.words_read += n;
    found->number_and_1 = number + 1;
    return ENVY_DONE;
}

void known_note(known_words *k, uint64_t at, const uint64_t *words, size_t n) {
    uint64_t first = at / WORD_BYTES;
    size_t skip = (LINE_WORDS - first % LINE_WORDS) % LINE_WORDS;
    for (; skip + LINE_WORDS <= n; skip += LINE_WORDS) {
        uint64_t number = (first + skip) / LINE_WORDS;
        known_line *line = place_of(k, number);
        memcpy(line->words, words + skip, sizeof line->words);
        line->number_and_1 = number + 1;
    }
}

void known_forget(known_line *line) { line->number_and_1 = 0; }

void known_forget_all(known_words *k) {
    for (size_t i = 0; i < LINE_COUNT; i++) known_forget(&k->lines[i]);
}
