/* What envy_served.c and envy_host_file.c have of each other. It isn't installed. */
#ifndef ENVY_HOST_FILE_H
#define ENVY_HOST_FILE_H

#include "envy_served.h"

/* What a second file's name has after the first one's, and the room for a number after that. */
#define ENVY_BESIDE ".envy-new"
enum { ENVY_BESIDE_NUMBER = 1 };

/* Whether a file is open for reading alone: while it is opened, and after that. */
enum { NOT_READING, READING_BEGINS, READING };

/* The calls of a disk over the file that is open. */
envy_disk envy_host_disk(envy_served *f);

/* Keeps errno, since the calls after this one aren't made, and report nothing. It is always 1. */
int envy_host_failed(envy_served *f);

/* Whether the process is one that was forked off from the one that opened the file; then errno is EPERM. */
int envy_host_is_forked(const envy_served *f);

/* Whether a path, links not followed, names the file that is open. */
int envy_host_is_named(const char *path, int descriptor);

/* Makes the second file, locked, with no bytes in it: 0 if it is there. */
int envy_host_make_second(envy_served *f);

/* Removes the second file, which has no use any more. errno stays. */
void envy_host_remove_second(envy_served *f);

/* Removes the second files that a process left when it ended. */
void envy_host_remove_left(envy_served *f);

/* Brings the names in the folder of the file to the disk: 0 if they are there. */
int envy_host_sync_folder(const envy_served *f);

#endif
