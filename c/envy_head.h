/* The head of a journal, which a file begins with that a memory is kept in. It is for the C beside the libraries, and isn't
   installed. */
#ifndef ENVY_HEAD_H
#define ENVY_HEAD_H

#include <stdint.h>

/* A mark, a version, and six sizes of 4 bytes, the lowest byte first. */
enum { HEAD = 33, MARK_BYTES = 8, SIZES_AT = MARK_BYTES + 1 };

/* The version that is written, and the one before it, which is read too. */
enum { JOURNAL_VERSION = 4, OLDER_JOURNAL_VERSION = 2 };

static const uint8_t JOURNAL_MARK[MARK_BYTES] = {1, 'e', 'N', 'V', 'y', 'J', 'N', 'L'};

#endif
