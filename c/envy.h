/* A memory for programs: a plain array of 64-bit words, with transactions and ordered maps. What it stands over is said
   when it is opened, and the calls are the same from then on:
   - a file that outlives the process and the machine: envy_open_file, or envy_open_disk over calls of the program's own;
   - a file that the process maps, which outlives the process: envy_open_mapped;
   - regions of memory that the program gives: envy_format_regions, envy_open_regions;
   - a board in memory whose power and flash operations can be made to fail: envy_open_sim, envy_restore.

   Isolation. There is one array, which is owned by pages of 32 words: addresses 32 k to 32 k + 31. The first put of a
   transaction to a word makes it the owner of the word's page until it commits or aborts. Until then a store, or a put of
   another transaction, to any word of that page is answered ENVY_HELD with the owner's slot, and changes nothing.
   Transactions aren't hidden from one another: load and read see what any open transaction put; look sees what is
   committed; view sees what the transaction of one slot put, and else what is committed. Nothing waits.

   What lasts. Of a file that isn't mapped, what was there at the last envy_sync that answered ENVY_DONE: after a stop of the
   process or the machine at any moment the file opens as the array of that sync or of a later one. Of a mapped file and of
   regions, every word that was stored and every transaction that was committed, as soon as the call has ended, if the
   process stops. A machine that stops may leave a mapped file as it likes. Transactions that were open are undone.

   ENVY_OFF: of a file that isn't mapped, it failed; close it and open it again. Of a board that can be made to fail, power is
   off until envy_revive answers ENVY_DONE. A mapped file and regions never answer it. ENVY_BAD, that a flash operation failed
   and no word changed, is answered by a board that can be made to fail alone. A call for another board than the memory's
   answers ENVY_OTHER_BOARD.

   What the program promises, and nothing checks:
   - It makes a handle with ENVY_INIT, and neither copies nor changes it.
   - One call at a time uses a handle. It may use it from any thread if it orders the calls itself. A process that was forked
     off while a mapped file was open makes no call of it but envy_close.
   - Every pointer is to memory that is there, aligned, of the size that is said, and in no two arguments at once. None is
     NULL, also not that of no words, except `holder`, `done`, `before` and `rule`, if the program doesn't ask for them.
   - From the call that gives regions until envy_close, or until a call that gave them is refused, nobody else reads or
     writes the regions, or unmaps them.
   - rattle_alloc, rattle_realloc and rattle_dealloc are those of heap.c, or do the same.

   If a call answers anything but ENVY_DONE, what its pointers point to is as before, except for ENVY_HELD and *done. If
   several answers would be right, it is the first of them in the order in which the call names them, except that ENVY_OFF
   goes before all but ENVY_EMPTY, and that ENVY_NO_MEMORY may come in place of an ENVY_BROKEN_*. */
#ifndef ENVY_H
#define ENVY_H

#include "envy_codes.h"
#include "envy_disk.h"
#include "envy_pair.h"
#include "envy_shown.h"

#ifdef __cplusplus
extern "C" {
#endif

/* A handle of a memory. */
typedef struct envy {
    void *at;   /* its place, or NULL */
    void *file; /* what is known of a file that was opened by its path, else NULL */
} envy;
#define ENVY_INIT {0, 0}

/* Makes the place of a handle, which each opening does by itself. ENVY_DONE or ENVY_NO_MEMORY. */
uint32_t envy_new(envy *m);

/* Ends the memory and frees what it took; the place of the handle, a few hundred bytes, serves the next handle of the process.
   Of a file that was opened by its path it syncs before, and gives up the file and its lock: ENVY_OFF or ENVY_SYSTEM, with
   errno, if that sync failed. Of a port it makes no call of the disk, so what was done since the last sync is lost. Regions are
   the program's again, and hold the memory still. Else, and on an empty handle, ENVY_DONE. The handle may be opened again. */
uint32_t envy_close(envy *m);

/* The same without a sync: a file opens as of the last one. Of a mapped file it is envy_close. */
uint32_t envy_leave(envy *m);

/* --- Files --- */

/* How a file is opened: the sum of these, or 0. */
enum envy_open_flag {
    ENVY_CREATE = 1,     /* if there is no file, one is made, with a memory of zeros */
    ENVY_BYTEWISE = 2,   /* the program states that file system and disk write byte by byte: then a sync is one of the file */
    ENVY_READING = 4,    /* for reading alone, by any number of processes: nothing is written, made or removed */
    ENVY_COMPACT = 8,    /* the file is compacted once it is open, if a second file can be made */
    ENVY_READ_SIZES = 16 /* the sizes are those of the file, if it has any; of the setup policy, part, limit and mark count */
};

/* Opens the memory that is kept in the file at a path, and locks it. The file is brought to the disk, read whole from there,
   replayed and audited; nothing in it is trusted. In an empty file a memory of zeros is made. If the setup is NULL or one of
   zeros, the sizes are those of the file.
   No descriptor of it is one of a standard stream: a standard stream that is closed is opened on /dev/null, and its use fails
   there as before. Beside the file a second one may come to be, at the path and ".envy-new"; if none can be made, that is
   ENVY_SYSTEM. A new file has the access rights that the process's umask leaves.
   Under ENVY_READING loads and looks answer as of the last sync. What is stored is seen until the memory is closed. The first
   call that would write to the file, as envy_sync, is ENVY_OFF with EROFS at envy_file_error.
   ENVY_DONE; ENVY_SYSTEM, with errno, as ENOENT if there is no file; ENVY_LOCKED; ENVY_TOO_MANY; or what envy_new,
   envy_file_shape and envy_open_port answer. Refused, the handle holds none; an empty file that was made stays, unless no second
   file can be made. */
uint32_t envy_open_file(envy *m, const char *path, const envy_setup *setup, uint32_t flags);

/* Opens the memory in the file at a path, which the process maps, and locks it. Its words outlive the process as soon as a
   call has ended. The system writes them to the disk when and in which order it likes: so a machine that stops may leave the
   file as it likes, except if nothing was changed since an envy_sync. Of the flags ENVY_CREATE and ENVY_READ_SIZES are looked
   at. A new file is there formatted or not at all. If the setup is NULL or one of zeros, the sizes are those of the file.
   Descriptors and access rights are as of envy_open_file.
   ENVY_DONE; ENVY_SYSTEM, with errno; ENVY_LOCKED; or what envy_new, envy_file_shape, envy_format_regions and
   envy_open_regions answer. Refused, the file is as before, and the handle holds none. */
uint32_t envy_open_mapped(envy *m, const char *path, const envy_setup *setup, uint32_t flags);

/* Opens the memory in a file that the program serves by six calls of its own, or makes one of zeros in a file without bytes.
   The program has opened the file, kept others out of it, brought it to the disk, had the system drop what it held of it (as by
   posix_fadvise with POSIX_FADV_DONTNEED), and then read it whole: `file` are its n bytes, which don't change while the call
   lasts. The system reports a failed write once, and takes what it holds for written then; so what it holds is dropped. Of the
   flags ENVY_BYTEWISE is looked at. The disk stays where it is until envy_close, which makes no call of it.
   ENVY_DONE; ENVY_TOO_MANY; or what envy_new and envy_open_port answer. Refused, the handle holds none. */
uint32_t envy_open_disk(envy *m, const envy_setup *setup, const uint8_t *file, size_t n, const envy_disk *disk, uint32_t flags);

/* Writes the setup that the file of either kind at a path was made with. Policy, part, limit and mark become ENVY_GREEDY, 2,
   100 and the number of frames. It neither locks nor audits the file. ENVY_DONE; ENVY_SYSTEM, with errno; ENVY_NO_JOURNAL, it
   holds neither, as a mapped file that was cut short or grew; ENVY_OTHER_JOURNAL; ENVY_OLDER. */
uint32_t envy_file_shape(const char *path, envy_setup *setup);

/* The errno of the call on the file after which calls answer ENVY_OFF, or 0: EFBIG also if the process may not make the file so
   long, EPERM in a process that was forked off. Such a process has no file: each call that would write to it is ENVY_OFF. Of a
   mapped file, and of a disk of the program's, it is 0. */
int envy_file_error(const envy *m);

/* How many bytes the file of a memory has that was opened by its path, or 0. */
uint64_t envy_file_bytes(const envy *m);

/* Makes a copy of a memory while it is in use: a new file at a path, with the words that are committed, of the kind of the
   memory's file, or one that envy_open_file opens. If the setup is NULL it is that of the memory's file. The copy is there whole
   or not at all; while it is made it has the path and ".envy-copy". The memory stays as it is.
   ENVY_DONE; ENVY_EMPTY; ENVY_OFF; ENVY_OTHER_BOARD, the setup is NULL and there is no such file; ENVY_RANGE, the setup has fewer
   pages than the memory; ENVY_SYSTEM, with errno, as EEXIST if there is a file; or what envy_open_file answers. */
uint32_t envy_copy(envy *m, const char *path, const envy_setup *setup);

/* Gives the file of a memory other sizes, with at least as many pages: by a copy, which takes the file's place, and in which the
   memory is opened again. A process or a machine that stops meanwhile leaves the earlier file or the new one.
   ENVY_DONE; ENVY_EMPTY; ENVY_OTHER_BOARD, it wasn't opened by a path, or for reading; ENVY_SLOT_OPEN; ENVY_OFF; or what
   envy_copy answers. Refused, the memory goes on, unless its file can't be opened again: then that is answered, and the handle
   holds none. */
uint32_t envy_grow(envy *m, const envy_setup *setup);

/* The call under envy_open_file and envy_open_disk: `port` is what envy_disk_open gave for the file, and if `bytewise` isn't 0,
   the program states that the file is written byte by byte. An empty file holds no journal yet.
   ENVY_DONE; ENVY_OPEN; ENVY_POLICY, ENVY_SETUP_*; ENVY_NO_JOURNAL; ENVY_OTHER_JOURNAL; ENVY_DAMAGED;
   ENVY_OTHER_SHAPE; ENVY_NO_MEMORY; ENVY_OFF if the file failed. Refused, the handle is as before. */
uint32_t envy_open_port(envy *m, const envy_setup *setup, const uint8_t *file, size_t n, int32_t port, uint32_t bytewise);

/* How many of the n bytes of a file opening it cuts off, if they hold what reads as a sync; else 0. */
uint64_t envy_journal_cut(const uint8_t *file, size_t n);

/* Writes how many bytes the rows, the SRAM and the counts of erases of a memory in a file take from the heap; beside them it
   takes one for each row, and the tables of its parts. ENVY_DONE, ENVY_POLICY or an ENVY_SETUP_*. */
uint32_t envy_board_size(const envy_setup *setup, uint64_t *bytes);

/* Brings all that a memory in a file holds to the disk, with what open transactions put. ENVY_DONE: it is there.
   ENVY_EMPTY. ENVY_OFF: it may be there or not. Of a mapped file it writes all that was changed through to the disk:
   ENVY_DONE or ENVY_SYSTEM. Over regions and a board that can be made to fail nothing is left to bring: ENVY_DONE, or
   ENVY_OFF if power is off. */
uint32_t envy_sync(envy *m);

/* A sync that leaves in the file no more than what the board holds takes. As envy_sync; ENVY_APPENDED if the second file
   failed before it was put there: then it was done as a sync, and the memory goes on. A mapped file keeps its size. */
uint32_t envy_compact(envy *m);

/* Whether the memory has power: ENVY_DONE, ENVY_EMPTY, or ENVY_OFF. */
uint32_t envy_powered(envy *m);

/* --- Regions --- */

/* Writes the sizes of the regions that a setup asks for. ENVY_DONE, ENVY_POLICY or an ENVY_SETUP_*. */
uint32_t envy_region_sizes(const envy_setup *setup, envy_sizes *sizes);

/* Writes the shape of the memory whose SRAM begins with these n words. Policy, part, limit and mark become ENVY_GREEDY, 2,
   100 and the number of frames. ENVY_DONE; ENVY_UNFORMATTED, also if n is less than 5; ENVY_OLDER; or an ENVY_SETUP_*. */
uint32_t envy_sram_shape(const uint64_t *sram, size_t n, envy_setup *setup);

/* Makes a memory of zeros over the regions, whatever they hold, and erases each segment once.
   ENVY_DONE; ENVY_OPEN; ENVY_POLICY, ENVY_SETUP_*; ENVY_FLASH_SIZE, ENVY_SRAM_SIZE, ENVY_ERASES_SIZE;
   ENVY_NO_MEMORY. Refused, the handle and the regions are as before. */
uint32_t envy_format_regions(envy *m, const envy_setup *setup, envy_rows flash, envy_words sram, envy_words erases);

/* Opens the memory that the regions hold, once it was found to be sound. Transactions that were open are undone. The answers
   of envy_format_regions; ENVY_UNFORMATTED; ENVY_OLDER; ENVY_OTHER_SHAPE; ENVY_BROKEN_*. Refused, both are as before. */
uint32_t envy_open_regions(envy *m, const envy_setup *setup, envy_rows flash, envy_words sram, envy_words erases);

/* --- A board that can be made to fail --- */

/* Makes a memory of zeros over a new board, whose power can return `lives` times. ENVY_DONE; ENVY_OPEN;
   ENVY_POLICY, ENVY_SETUP_*; ENVY_NO_MEMORY. Refused, the handle is as before. */
uint32_t envy_open_sim(envy *m, const envy_setup *setup, uint32_t lives);

/* Opens the memory that an image is, over such a board. The image is compared and audited, and isn't changed.
   The answers of envy_open_sim; ENVY_IMAGE_*; ENVY_UNFORMATTED; ENVY_OLDER; ENVY_OTHER_SHAPE; ENVY_BROKEN_*. */
uint32_t envy_restore(envy *m, const envy_setup *setup, uint32_t lives, const uint8_t *image, size_t n);

/* Plans a failure of power in the k-th device operation from now, or that the k-th flash operation fails. What the operation
   leaves is drawn from g. ENVY_DONE, ENVY_EMPTY, ENVY_OTHER_BOARD, or ENVY_ZERO if k is 0. */
uint32_t envy_arm_cut(envy *m, uint32_t k, uint64_t g);
uint32_t envy_arm_bad(envy *m, uint32_t k, uint64_t g);

/* Cuts power between two operations. ENVY_DONE, ENVY_EMPTY, ENVY_OTHER_BOARD, ENVY_OFF. */
uint32_t envy_cut_now(envy *m);

/* Asks for power, and restarts the memory. ENVY_DONE; ENVY_EMPTY; ENVY_OTHER_BOARD; ENVY_POWERED; ENVY_OFF if power failed
   again; ENVY_DEAD if no life is left, and nothing changed. */
uint32_t envy_revive(envy *m);

/* Writes how often power can still return. ENVY_DONE, ENVY_EMPTY, ENVY_OTHER_BOARD. */
uint32_t envy_lives(envy *m, uint32_t *left);

/* --- Images, of any memory --- */

/* Writes how many bytes the image of a board of this setup has. ENVY_DONE, ENVY_POLICY or an ENVY_SETUP_*. */
uint32_t envy_image_size(const envy_setup *setup, uint64_t *size);

/* Writes the shape that an image names into that of a setup. ENVY_DONE or an ENVY_IMAGE_*. */
uint32_t envy_image_shape(const uint8_t *image, size_t n, envy_setup *setup);

/* Writes the image of the memory's board over the first of n bytes. ENVY_DONE, ENVY_EMPTY, ENVY_OFF, ENVY_SMALL,
   ENVY_NO_MEMORY. */
uint32_t envy_save(envy *m, uint8_t *image, size_t n);

/* --- Words --- */

/* Writes the word at an address, also if an open transaction put it; or the committed one; or the one that the transaction
   of a slot sees. ENVY_DONE, ENVY_EMPTY, ENVY_OFF, ENVY_RANGE. */
uint32_t envy_load(envy *m, uint32_t address, uint64_t *word);
uint32_t envy_look(envy *m, uint32_t address, uint64_t *word);
uint32_t envy_view(envy *m, uint32_t slot, uint32_t address, uint64_t *word);

/* Writes the n words from an address on, those that n loads write. ENVY_DONE, ENVY_EMPTY, ENVY_OFF, or ENVY_RANGE if one of
   the addresses lies past the last page, and then none is written. */
uint32_t envy_read(envy *m, uint32_t address, uint64_t *words, size_t n);

/* Makes the word at an address this. ENVY_DONE, ENVY_EMPTY, ENVY_OFF, ENVY_RANGE, ENVY_BAD, or ENVY_HELD with the slot that
   owns the page at *holder. Refused for anything but ENVY_OFF, it changes no word. */
uint32_t envy_store(envy *m, uint32_t address, uint64_t word, uint32_t *holder);

/* Stores n words, one after another. The first store that is refused ends it and is answered; *done says how many were
   stored. */
uint32_t envy_store_run(envy *m, uint32_t address, const uint64_t *words, size_t n, size_t *done, uint32_t *holder);

/* --- Transactions --- */

/* Opens a transaction in the lowest slot that isn't open, and writes its number, 0 to 63, at *slot.
   ENVY_DONE, ENVY_EMPTY, ENVY_OFF, ENVY_BUSY. */
uint32_t envy_begin(envy *m, uint32_t *slot);

/* Makes the word at an address this within the transaction of a slot, which owns the page from then on. ENVY_DONE,
   ENVY_EMPTY, ENVY_OFF, ENVY_RANGE, ENVY_CLOSED, ENVY_FULL, ENVY_BAD, or ENVY_HELD with the owner's slot at *holder. */
uint32_t envy_put(envy *m, uint32_t slot, uint32_t address, uint64_t word, uint32_t *holder);

/* Puts n words, one after another. If they meet more pages without an owner than may yet be owned, that is ENVY_FULL before
   the first put. Else the first put that is refused ends it; *done says how many were put. */
uint32_t envy_write(envy *m, uint32_t slot, uint32_t address, const uint64_t *words, size_t n, size_t *done, uint32_t *holder);

/* Closes a slot, and keeps all that it put, or puts back the words of its pages. ENVY_DONE, ENVY_EMPTY, ENVY_OFF,
   ENVY_CLOSED. */
uint32_t envy_commit(envy *m, uint32_t slot);
uint32_t envy_abort(envy *m, uint32_t slot);

/* --- Work in the background, and what was done --- */

/* Does one step of work in the background, and writes an envy_did. No word changes. ENVY_DONE, ENVY_EMPTY, ENVY_OFF,
   ENVY_BAD. */
uint32_t envy_tick(envy *m, uint32_t *did);

/* Writes the counters. ENVY_DONE, ENVY_EMPTY. */
uint32_t envy_counters(envy *m, envy_counts *counts);

/* Writes how many segments in reserve are retired, and how many are left; together they are the setup's reserves. ENVY_DONE,
   ENVY_EMPTY, ENVY_OFF. */
uint32_t envy_worn(envy *m, uint32_t *retired, uint32_t *left);

/* Writes what the memory did and holds, in a time that grows with its rows. ENVY_DONE, ENVY_EMPTY, ENVY_OFF. */
uint32_t envy_stat(envy *m, envy_stats *stats);

/* --- What the board holds, for programs that draw it. None of these is an access to a page, and nothing changes ---

   ENVY_DONE, ENVY_EMPTY, ENVY_OFF; and ENVY_RANGE past the last row, page, position or segment. */
uint32_t envy_show_row(envy *m, uint32_t row, envy_row *found);
uint32_t envy_show_page(envy *m, uint32_t page, envy_page *found);
uint32_t envy_show_position(envy *m, uint32_t position, uint32_t *segment);
uint32_t envy_show_segment(envy *m, uint32_t segment, envy_segment *found);
uint32_t envy_show_job(envy *m, envy_job *found);

/* --- A map of the whole array. Each call is one transaction ---

   An array of zeros is the map without pairs. What the program promises, and nothing checks: of the array that it gives to
   envy_index_insert or envy_index_remove, it is one of zeros, or envy_index_create answered ENVY_DONE for it once, and since
   then no other call wrote words that lasted. A call that only reads takes any words, and answers ENVY_BROKEN_MAP if they
   stand for no map.

   Every call may answer first: ENVY_EMPTY; ENVY_MAP_SETUP, the setup has fewer than 20 pages or 32 shadows, or more than
   1,048,576 pages; ENVY_SLOT_OPEN, a transaction is open; ENVY_OFF. Nothing changes then. */

/* Makes a map without pairs of the array, whatever it holds. ENVY_DONE. */
uint32_t envy_index_create(envy *m);

/* Writes the value of a key. ENVY_DONE or ENVY_ABSENT. */
uint32_t envy_index_get(envy *m, uint64_t key, uint64_t *value);

/* Sets the value of a key, and writes the one that it had before, if any. ENVY_DONE or ENVY_MAP_FULL. */
uint32_t envy_index_insert(envy *m, uint64_t key, uint64_t value, envy_old *before);

/* Takes a key out of the map, and writes its value. ENVY_DONE or ENVY_ABSENT. */
uint32_t envy_index_remove(envy *m, uint64_t key, uint64_t *value);

/* Writes how many pairs the map has. ENVY_DONE. */
uint32_t envy_index_count(envy *m, uint64_t *count);

/* Writes the pair with the least key that is at least this one, or above it, or the one with the greatest key that is at
   most this one. ENVY_DONE or ENVY_ABSENT. */
uint32_t envy_index_next(envy *m, uint64_t key, envy_pair *pair);
uint32_t envy_index_above(envy *m, uint64_t key, envy_pair *pair);
uint32_t envy_index_last(envy *m, uint64_t key, envy_pair *pair);

/* Writes the pairs from this key on, by rising key, or up to it, by falling key, and how many there are: n, or all if there
   are fewer. The rest of the n stays. ENVY_DONE. After another answer nothing is said of the n pairs. */
uint32_t envy_index_scan(envy *m, uint64_t key, envy_pair *pairs, size_t n, size_t *count);
uint32_t envy_index_scan_down(envy *m, uint64_t key, envy_pair *pairs, size_t n, size_t *count);

/* --- Maps in ranges of the array, and transactions of several of them and of plain words ---

   A transaction of maps is the first slot; words outside the maps are put by envy_put in its slot. The range of
   envy_map_insert and envy_map_remove holds a map: that is promised and not checked. A range of zeros is one.

   Every call may answer first: ENVY_EMPTY; ENVY_SLOT_OPEN, another slot is open; ENVY_CLOSED, if it takes a slot: that isn't
   the one of an open transaction of maps; ENVY_RANGE, no map may lie in the range; ENVY_OFF. Nothing changes then. */

/* Begins a transaction, and writes its slot. ENVY_DONE or ENVY_SLOT_OPEN. */
uint32_t envy_map_begin(envy *m, uint32_t *slot);

/* Makes a map without pairs of a range, whatever its words are. ENVY_DONE or ENVY_FULL. */
uint32_t envy_map_create(envy *m, uint32_t slot, const envy_map *map);

/* Makes a map of n pairs of a range, whatever its words are, in transactions of its own: no slot may be open. Their keys
   rise. ENVY_DONE; ENVY_MAP_SETUP, ENVY_MAP_FULL or ENVY_RANGE (the keys don't rise), and nothing changes. After ENVY_OFF
   and ENVY_BAD the words of the range are those of before, or a map of the first of the pairs. */
uint32_t envy_map_load(envy *m, const envy_map *map, const envy_pair *pairs, size_t n);

/* Sets the value of a key, and writes the one that it had before, if any. ENVY_DONE, ENVY_FULL or ENVY_MAP_FULL. */
uint32_t envy_map_insert(envy *m, uint32_t slot, const envy_map *map, uint64_t key, uint64_t value, envy_old *before);

/* Takes a key out of a map, and writes its value. ENVY_DONE, ENVY_FULL or ENVY_ABSENT. */
uint32_t envy_map_remove(envy *m, uint32_t slot, const envy_map *map, uint64_t key, uint64_t *value);

/* Ends the transaction: keeps all that it put, or nothing. ENVY_DONE. */
uint32_t envy_map_commit(envy *m, uint32_t slot);
uint32_t envy_map_abort(envy *m, uint32_t slot);

/* Writes the value of a key, or how many pairs a map has, or pairs, as the calls of the whole array do. */
uint32_t envy_map_get(envy *m, const envy_map *map, uint64_t key, uint64_t *value);
uint32_t envy_map_count(envy *m, const envy_map *map, uint64_t *count);
/* (of envy_map_check: ENVY_DONE, the words of the range stand for a map; or ENVY_BROKEN_MAP, with the rule at *rule) */
uint32_t envy_map_check(envy *m, const envy_map *map, uint32_t *rule);
uint32_t envy_map_scan(envy *m, const envy_map *map, uint64_t key, envy_pair *pairs, size_t n, size_t *count);
uint32_t envy_map_scan_down(envy *m, const envy_map *map, uint64_t key, envy_pair *pairs, size_t n, size_t *count);

#ifdef __cplusplus
}
#endif
#endif
