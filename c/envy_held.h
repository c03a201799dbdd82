/* What envy_opening.c and envy_copy.c know of the file of a memory. It isn't installed. */
#ifndef ENVY_HELD_H
#define ENVY_HELD_H

#include "envy_mapping.h"
#include "envy_served.h"

/* The file of a memory that was opened by its path, or the disk that a program gave. While a file is opened and closed it has
   the place of the handle. */
typedef struct envy_held {
    enum { SERVED, MAPPED, DISK } kind;
    uint32_t flags;
    envy_setup setup;
    char *path; /* where the file is, links followed; NULL of a disk, or if the heap gave no memory for it */
    union {
        envy_served served;
        envy_mapping mapping;
        int32_t port; /* of a disk of the program's */
    } of;
} envy_held;

#endif
