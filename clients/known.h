/* Words of an array that are known without asking it, so that a write can be compared with them: it stores only what
   differs, and to read the old words from the array costs as much as to store one in four. The client alone changes the
   array, so what it read and stored is what is there. Reads of the client's are never answered from here. */
#ifndef ENVY_CLIENT_KNOWN_H
#define ENVY_CLIENT_KNOWN_H

#include "bytes.h"

enum { LINE_WORDS = 128, LINE_COUNT = 8192 }; /* lines of 1 KiB, 8 MiB of them: more than SQLite's own cache of 2 MB */

typedef struct known_line {
    uint64_t number_and_1; /* 0: it holds nothing */
    uint64_t words[LINE_WORDS];
} known_line;

typedef struct known_words {
    known_line lines[LINE_COUNT];
} known_words;

/* NULL: there is no memory for it. */
known_words *known_new(void);

/* The line of a number, read from the array if it isn't known. Line 0 begins with byte 0. */
uint32_t known_find(bytes *b, uint64_t number, known_line **line);

/* These words were read from a byte on, which is the first of a word: lines that they cover are known. */
void known_note(known_words *k, uint64_t at, const uint64_t *words, size_t n);

void known_forget(known_line *line);

/* Nothing is known any more. */
void known_forget_all(known_words *k);

#endif
