/* The file of a memory that is kept in one, as the C beside the library has it. A program calls envy_open_file and has an
   `envy`; this header is for that call, and for the earlier names of envy_old.h, which goes with the next version. */
#ifndef ENVY_SERVED_H
#define ENVY_SERVED_H

#include "envy.h"

#ifdef __cplusplus
extern "C" {
#endif

/* A place for a file. It stays where it is while the file is open. */
typedef struct envy_served {
    envy memory; /* first, so that both have one address */
    envy_disk disk;
    int32_t port;
    int descriptor;     /* -1 if no file is open */
    int second;         /* of a second file that is written, else -1 */
    uint64_t second_at; /* the bytes of it */
    char *path;
    char *beside; /* the path of the second file */
    int process;  /* the one that opened the file */
    int why;      /* errno of the call on the file that failed, else 0 */
    const uint8_t *found; /* its bytes, while it is opened and what the opening cuts off may hold a sync; else NULL */
    size_t found_n;
    int reading; /* 0, or it is open for reading alone: 1 while it is opened, and 2 after that */
} envy_served;
#define ENVY_SERVED_INIT {ENVY_INIT, {0, 0, 0, 0, 0, 0, 0}, -1, -1, -1, 0, 0, 0, 0, 0, 0, 0, 0}

/* Opens the file at a path, as envy_open_file with these flags. It brings the file and its folder to the disk, has the system
   drop what it holds of the file, and reads it whole (only the head, if it doesn't begin as a journal does). Then
   envy_open_port makes or opens the memory in it. Refused, the place holds none. At ENVY_SYSTEM and ENVY_OFF errno says why.
   Beside it a second file may come to be, at the path and ".envy-new", or with a number of 1 to 7 after that if something
   else has the name. One is made and removed at once: so a folder in which none can be made, or a name that is too long,
   is ENVY_SYSTEM here. Those that a crash left are removed. */
uint32_t envy_served_open(envy_served *f, const char *path, const envy_setup *setup, uint32_t flags);

/* Ends the memory without a sync, and gives up the file and its lock: the file opens as of the last sync. ENVY_DONE, also
   on a place without a file. */
uint32_t envy_served_leave(envy_served *f);

/* Syncs, ends the memory, and gives up the file and its lock. The place may be opened again. ENVY_DONE, also on a place
   without a file; ENVY_OFF, with errno, if the last sync failed: then the file opens as of that sync or of the previous one.
   In a process that was forked off it is ENVY_OFF with EPERM, and nothing is done to the file or to the lock. */
uint32_t envy_served_close(envy_served *f);

/* Writes the setup that the file at a path was made with, by its first bytes, and locks, reads and checks no more of it.
   ENVY_DONE; ENVY_SYSTEM, with errno; ENVY_NO_JOURNAL, also of an empty file; ENVY_OTHER_JOURNAL. Refused, the setup is as
   before. */
uint32_t envy_served_shape(const char *path, envy_setup *setup);

/* A place of its own, as of ENVY_SERVED_INIT, or NULL if the heap gives none. It stays until the process ends. */
envy_served *envy_served_new(void);

/* The errno of the call on the file after which calls answer ENVY_OFF, or 0. It stays after envy_served_close, until the place
   is opened again. */
int envy_served_error(const envy_served *f);

/* The calls of the memory alone, without its file, and on a handle that has a place. */
uint32_t envy_proved_open_port(envy *m, const envy_setup *setup, const uint8_t *file, size_t n, int32_t port, uint32_t bytewise);
uint32_t envy_proved_sync(envy *m);
uint32_t envy_proved_compact(envy *m);
void envy_proved_close(envy *m);

#ifdef __cplusplus
}
#endif
#endif
