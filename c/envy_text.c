#include "envy_text.h"
#include "envy_codes.h"
#include "envy_pair.h"

const char *envy_version(void) { return ENVY_VERSION; }

const char *envy_error_text(uint32_t code) {
    switch (code) {
    case ENVY_DONE: return "done";
    case ENVY_EMPTY: return "the place holds no memory";
    case ENVY_OFF: return "power is off, or the file failed";
    case ENVY_RANGE: return "the address lies past the last page";
    case ENVY_HELD: return "another transaction owns the page";
    case ENVY_FULL: return "there is no room for more";
    case ENVY_BUSY: return "all slots are open";
    case ENVY_CLOSED: return "the slot isn't open";
    case ENVY_BAD: return "a flash operation failed";
    case ENVY_NO_MEMORY: return "the heap gave no memory";
    case ENVY_OPEN: return "the place holds a memory already";
    case ENVY_ZERO: return "no operation has number 0";
    case ENVY_DEAD: return "power doesn't return";
    case ENVY_POWERED: return "power is on already";
    case ENVY_FLASH_SIZE: return "the flash hasn't the size of the setup";
    case ENVY_SRAM_SIZE: return "the SRAM hasn't the size of the setup";
    case ENVY_ERASES_SIZE: return "the counts of erases aren't as many as the segments";
    case ENVY_POLICY: return "no policy has this number";
    case ENVY_UNFORMATTED: return "what was found isn't formatted";
    case ENVY_OLDER: return "what was found is of an older version";
    case ENVY_OTHER_SHAPE: return "what was found has another shape";
    case ENVY_SETUP_SEGMENTS: return "segments must be 4 to 4096";
    case ENVY_SETUP_ROWS: return "rows must be 2 to 65536";
    case ENVY_SETUP_PAGES: return "pages must be at least 1";
    case ENVY_SETUP_FRAMES: return "frames must be 2 to 65536";
    case ENVY_SETUP_ENTRIES: return "entries must be 1 to 65536";
    case ENVY_SETUP_SHARE: return "pages and shadows must be at most the rows of all segments but two";
    case ENVY_SETUP_TOTAL: return "rows must be at most 16777216 in all";
    case ENVY_SETUP_PART: return "the part must be 1 to all segments but one";
    case ENVY_SETUP_LIMIT: return "the limit must be at least 1";
    case ENVY_SETUP_MARK: return "the mark must be 1 to the number of frames";
    case ENVY_SETUP_RESERVES: return "reserves must be at most segments - 4";
    case ENVY_SETUP_SUMS: return "sums must be 0";
    case ENVY_BROKEN_FIELDS: return "damaged: a field of the map is out of its range";
    case ENVY_BROKEN_POSITIONS: return "damaged: two positions name one segment";
    case ENVY_BROKEN_FRAMES: return "damaged: two places name one frame";
    case ENVY_BROKEN_ROWS: return "damaged: two pages name one row";
    case ENVY_BROKEN_CLAIMS: return "damaged: a kept row wasn't claimed for its page";
    case ENVY_BROKEN_FREE: return "damaged: a free row isn't erased";
    case ENVY_BROKEN_SPARE: return "damaged: the spare segment is filled";
    case ENVY_BROKEN_PLACES: return "damaged: a kept row lies in no position";
    case ENVY_BROKEN_JOB: return "damaged: the job isn't as it should be";
    case ENVY_BROKEN_COPIES: return "damaged: a row and its copy are both kept";
    case ENVY_BROKEN_OWNED: return "damaged: more pages are owned than may be";
    case ENVY_BROKEN_UNDOS: return "damaged: an undo names a slot that isn't in use";
    case ENVY_BROKEN_RESERVES: return "damaged: a kept row lies in a segment in reserve";
    case ENVY_SMALL: return "there is no room for the image";
    case ENVY_IMAGE_SHORT: return "the bytes end within the image";
    case ENVY_IMAGE_MARK: return "the bytes are no image";
    case ENVY_IMAGE_OTHER: return "the image has another shape";
    case ENVY_IMAGE_SEGMENTS: return "the image's segments must be 4 to 4096";
    case ENVY_IMAGE_ROWS: return "the image's rows must be 2 to 65536";
    case ENVY_IMAGE_PAGES: return "the image's pages must be at least 1";
    case ENVY_IMAGE_FRAMES: return "the image's frames must be 2 to 65536";
    case ENVY_IMAGE_ENTRIES: return "the image's entries must be 1 to 65536";
    case ENVY_IMAGE_SHARE: return "the image's pages and shadows must be at most the rows of all segments but two";
    case ENVY_IMAGE_TOTAL: return "the image's rows must be at most 16777216 in all";
    case ENVY_IMAGE_RESERVES: return "the image's reserves must be 1 to segments - 4";
    case ENVY_IMAGE_SUMS: return "the image's sums must be 0";
    case ENVY_ABSENT: return "the map has no such pair";
    case ENVY_MAP_FULL: return "the map has no room for more pairs";
    case ENVY_SLOT_OPEN: return "a transaction is open";
    case ENVY_MAP_SETUP: return "a map needs at least 20 pages and 32 shadows";
    case ENVY_BROKEN_MAP: return "the words of the array stand for no map";
    case ENVY_BAD_ABORTED: return "a flash operation failed, and the transaction was aborted";
    case ENVY_FLASH_ADDRESS: return "the part's map doesn't begin at a multiple of 256 bytes";
    case ENVY_SRAM_ADDRESS: return "the SRAM doesn't begin at a multiple of 8 bytes";
    case ENVY_PAST: return "a region reaches past the last address";
    case ENVY_OVERLAP: return "the part and the SRAM overlap";
    case ENVY_NO_JOURNAL: return "the file holds no memory";
    case ENVY_OTHER_JOURNAL: return "the file is a journal of another version";
    case ENVY_DAMAGED: return "the journal is damaged";
    case ENVY_APPENDED: return "synced, but not compacted: no second file could be written";
    case ENVY_OTHER_BOARD: return "what the memory stands over can't do this";
    case ENVY_SYSTEM: return "the system refused a call";
    case ENVY_LOCKED: return "the file is open already, here or in another process";
    case ENVY_TOO_MANY: return "too many files are open";
    }
    return "no code of this library";
}

const char *envy_map_rule_text(uint32_t rule) {
    switch (rule) {
    case ENVY_MAP_SHORT: return "there are fewer than 640 words";
    case ENVY_MAP_USED: return "more nodes were handed out than there is room for";
    case ENVY_MAP_MANY: return "the number of pairs is above the most";
    case ENVY_MAP_FREE_LIST: return "the list of free nodes has no end, or leads out of the map";
    case ENVY_MAP_DEEP: return "the tree has too many levels";
    case ENVY_MAP_NODE: return "the root or a child is no node";
    case ENVY_MAP_HEAD: return "the first word of a node isn't one of a node";
    case ENVY_MAP_LEVEL: return "a leaf is less deep than another one";
    case ENVY_MAP_FEW: return "a node has too few keys";
    case ENVY_MAP_KEYS: return "a key is out of order";
    case ENVY_MAP_FREED: return "a node of the tree is free too";
    case ENVY_MAP_LOST: return "a node is neither in the tree nor free";
    case ENVY_MAP_COUNT: return "the number of pairs isn't that of the tree";
    }
    return "no rule of maps";
}
