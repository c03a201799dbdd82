/* The heap of the page's module, in place of c/heap.c, since a browser has no C library: blocks of powers of two, each after
   a header of 16 bytes that says which power, and a list of free blocks for each. Nothing proves it. */
typedef __SIZE_TYPE__ size_t;
typedef __UINT64_TYPE__ word;
#define NULL ((void *)0)
#define GRAIN 65536 /* the module's memory grows by so many bytes */

struct head {
    unsigned power;
    struct head *next;
};

/* a struct of two words, since that is how the library's own code takes the answer */
struct block {
    word ok;
    void *at;
};

extern unsigned char __heap_base;
static struct head *freed[64];
static size_t end, limit;

static struct head *fresh(size_t bytes) {
    if (!end) {
        end = ((size_t)&__heap_base + 15) & ~(size_t)15;
        limit = __builtin_wasm_memory_size(0) * (size_t)GRAIN;
    }
    if (bytes > limit - end) {
        size_t pages = (bytes - (limit - end) + GRAIN - 1) / GRAIN;
        if (__builtin_wasm_memory_grow(0, pages) == (size_t)-1) return NULL;
        limit += pages * GRAIN;
    }
    struct head *found = (struct head *)end;
    end += bytes;
    return found;
}

static void *take(size_t bytes) {
    unsigned power = 5;
    while (((size_t)1 << power) - 16 < bytes)
        if (++power > 40) return NULL;
    struct head *found = freed[power];
    if (found) freed[power] = found->next;
    else if (!(found = fresh((size_t)1 << power))) return NULL;
    found->power = power;
    return (char *)found + 16;
}

static struct block block_of(void *at) {
    static char nowhere;
    return at ? (struct block){1, at} : (struct block){0, &nowhere};
}

struct block rattle_alloc(size_t bytes, size_t align) {
    (void)align;
    return block_of(take(bytes));
}

void rattle_dealloc(void *at) {
    struct head *gone = (struct head *)((char *)at - 16);
    gone->next = freed[gone->power];
    freed[gone->power] = gone;
}

struct block rattle_realloc(void *at, size_t kept, size_t bytes, size_t align) {
    (void)align;
    struct head *old = (struct head *)((char *)at - 16);
    if (((size_t)1 << old->power) - 16 >= bytes) return block_of(at);
    void *new = take(bytes);
    if (!new) return block_of(NULL);
    __builtin_memcpy(new, at, kept);
    rattle_dealloc(at);
    return block_of(new);
}

/* Room for what the page passes by pointer. It stays. */
void *envy_page_room(size_t bytes) { return take(bytes); }
