/* A setup for those who know how much they store, and not yet how eNVy works. */
#ifndef ENVY_SETUP_H
#define ENVY_SETUP_H

#include "envy_codes.h"

#ifdef __cplusplus
extern "C" {
#endif

/* Writes a setup for an array of at least this many words, whose open transactions own at most this many pages of 32 words
   together. Of 100 rows of flash at most 80 hold pages, or the earlier words of owned pages, so that cleaning stays
   cheap. The reason for each choice is in envy_setup.c, beside its number. The rules are those of envy_region_sizes,
   which is asked in the end.
   ENVY_DONE; ENVY_SETUP_PAGES, if it is for no words; ENVY_SETUP_TOTAL, if no setup has that many rows. Refused,
   the setup is as before. */
uint32_t envy_setup_for(uint64_t words, uint32_t owned_pages, envy_setup *setup);

#ifdef __cplusplus
}
#endif
#endif
