/* The heap that the libraries ask for, over the program's own. A block is aligned to 16 bytes; one of no bytes gets
   as many as its alignment. Where nothing is to be had, `ok` is false and the pointer is not null. */
#include <stdbool.h>
#include <stddef.h>
#include <stdlib.h>

struct block {
    bool ok;
    void *at;
};

static char nowhere;

static struct block block_of(void *at) {
    return at ? (struct block){true, at} : (struct block){false, &nowhere};
}

struct block rattle_alloc(size_t bytes, size_t align) { return block_of(malloc(bytes ? bytes : align)); }

struct block rattle_realloc(void *at, size_t kept, size_t bytes, size_t align) {
    (void)kept;
    return block_of(realloc(at, bytes ? bytes : align));
}

void rattle_dealloc(void *at) { free(at); }
