/* What serves the file of a memory: the calls that a program gives, and the ports under which files are served. */
#ifndef ENVY_DISK_H
#define ENVY_DISK_H

#include <stddef.h>
#include <stdint.h>

#ifdef __cplusplus
extern "C" {
#endif

/* What serves the file of one memory, by calls that answer 0 if they did what they say, and anything else if they may
   have done any part of it. After such an answer of write, cut or sync none of them is called again. After one of begin or
   append, or ENVY_NOT_REPLACED of replace, the next call on the second file, if there is one, is begin.

   What is promised of them:
   1. Until a sync, a stop of the machine may leave of each range that was written or cut any bytes, in any order; what
      was in the file when a sync answered 0 stays, except what was written since.
   2. `replace` brings the second file to the disk first, then puts it under the file's name, and answers 0 once that
      name is on the disk. A stop of the machine in it leaves the old file or the second one, whole. From then on the
      other calls are about the file that has the name. It answers ENVY_NOT_REPLACED only if the second file isn't under
      that name, and won't be after a stop of the machine; after any other answer none of the calls is made again.
   3. Nobody else writes the file while it is open.

   A call that is interrupted or writes less than it was given continues by itself. */
typedef struct envy_disk {
    void *context; /* handed to each call */
    /* Writes all n bytes at an offset that lies in the file or at its end. */
    int (*write)(void *context, uint64_t at, const void *bytes, size_t n);
    /* Cuts the file to a size. */
    int (*cut)(void *context, uint64_t size);
    /* Brings all that was written to the disk. */
    int (*sync)(void *context);
    /* Makes a second file beside the first, or cuts it to no bytes. */
    int (*begin)(void *context);
    /* Writes all n bytes after those of the second file. */
    int (*append)(void *context, const void *bytes, size_t n);
    /* Puts the second file in the first one's place. */
    int (*replace)(void *context);
} envy_disk;

/* The answer of `replace` if the second file wasn't put in the first one's place, which is as it was. */
enum { ENVY_NOT_REPLACED = 2 };

/* How many files may be served at a time. */
enum { ENVY_DISKS = 256 };

/* The number of a port to a file, or -1 if ENVY_DISKS are open. The disk must stay where it is. Any thread may call. */
int32_t envy_disk_open(const envy_disk *disk);

/* Ends a port to a file that no memory uses any more. */
void envy_disk_close(int32_t port);

#ifdef __cplusplus
}
#endif
#endif
