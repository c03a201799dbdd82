/* The file of a memory that is mapped from one, as the C beside the library has it: rows of flash, then words of SRAM, then
   counts of erases. A program calls envy_open_mapped and has an `envy`; this header is for that call, and for the earlier names
   of envy_old.h, which goes with the next version. */
#ifndef ENVY_MAPPING_H
#define ENVY_MAPPING_H

#include "envy.h"

#ifdef __cplusplus
extern "C" {
#endif

/* A place for a file. */
typedef struct envy_mapping {
    envy memory;
    void *at;
    size_t bytes;
    int descriptor;
    int process; /* the one that opened the file */
} envy_mapping;
#define ENVY_MAPPING_INIT {ENVY_INIT, NULL, 0, -1, 0}

/* Opens the file at a path, as envy_open_mapped with these flags. How much of each region it has is read off its length. So a
   file that was cut short is refused by the code of the region that is too short, and one that grew by ENVY_ERASES_SIZE.
   Refused, the file is as before, and the place holds none. */
uint32_t envy_mapping_open(envy_mapping *f, const char *path, const envy_setup *setup, uint32_t flags);

/* Writes the setup that the file at a path was formatted with: the file must be as long as that setup asks. It neither locks
   nor audits it. ENVY_DONE, ENVY_SYSTEM, ENVY_OLDER, or ENVY_UNFORMATTED, also if a file was cut short or grew. Refused, the
   setup is as before. */
uint32_t envy_mapping_shape(const char *path, envy_setup *setup);

/* Writes all that was changed through to the disk. ENVY_DONE, ENVY_EMPTY or ENVY_SYSTEM. */
uint32_t envy_mapping_sync(envy_mapping *f);

/* Ends the memory, writes it through to the disk, and gives up the file and its lock. The place may be opened again.
   ENVY_DONE, or ENVY_SYSTEM if it wasn't all written through. On a place without a file it does nothing. */
uint32_t envy_mapping_close(envy_mapping *f);

/* The calls of the memory alone, without its file, and on a handle that has a place. */
uint32_t envy_proved_format_regions(envy *m, const envy_setup *setup, envy_rows flash, envy_words sram, envy_words erases);
uint32_t envy_proved_open_regions(envy *m, const envy_setup *setup, envy_rows flash, envy_words sram, envy_words erases);
void envy_proved_close(envy *m);

#ifdef __cplusplus
}
#endif
#endif
