/* The two functions that the library's orders come through, over the calls of envy_disk.

   In the library they are the `write` and the `read` of a port. The archive's names are changed, so that they don't
   meet those of a C library:

       objcopy --redefine-sym write=envy_disk_order --redefine-sym read=envy_disk_answer LIBRARY.a */
#include "envy_disk.h"
#include <stdatomic.h>
#include <string.h>

/* An order as it comes: three numbers of 8 bytes, the lowest first. */
enum { ORDER_BYTES = 24 };
enum order { NONE, WRITE, CUT, SYNC, BEGIN, APPEND, REPLACE };

typedef struct port {
    _Atomic(const envy_disk *) disk;
    uint64_t order; /* the one whose bytes are still to come, else NONE */
    uint64_t at;
    uint64_t size;
    uint8_t answer; /* of the last order */
} port;

/* The answers to an order. */
enum { CARRIED_OUT = 0, FAILED = 1, NOT_REPLACED = 2 };

static port ports[ENVY_DISKS];

static port *port_of(int number) {
    return number >= 0 && number < ENVY_DISKS && atomic_load(&ports[number].disk) ? &ports[number] : NULL;
}

int32_t envy_disk_open(const envy_disk *disk) {
    for (int32_t i = 0; i < ENVY_DISKS; i++) {
        const envy_disk *none = NULL;
        if (!atomic_compare_exchange_strong(&ports[i].disk, &none, disk)) continue;
        ports[i].order = NONE;
        ports[i].answer = FAILED;
        return i;
    }
    return -1;
}

void envy_disk_close(int32_t number) {
    port *p = port_of(number);
    if (p) atomic_store(&p->disk, NULL);
}

static uint64_t number_at(const uint8_t *bytes) {
    uint64_t n = 0;
    for (int i = 7; i >= 0; i--) n = n << 8 | bytes[i];
    return n;
}

/* Has the program carry out an order that has these bytes. */
static int asked(port *p, uint64_t order, const void *bytes, size_t n) {
    const envy_disk *disk = atomic_load(&p->disk);
    switch (order) {
    case WRITE: return disk->write(disk->context, p->at, bytes, n);
    case CUT: return disk->cut(disk->context, p->at);
    case SYNC: return disk->sync(disk->context);
    case BEGIN: return disk->begin(disk->context);
    case APPEND: return disk->append(disk->context, bytes, n);
    case REPLACE: return disk->replace(disk->context);
    default: return FAILED;
    }
}

/* The answer to an order. That nothing was replaced is told of one that replaces alone. */
static uint8_t answered(port *p, uint64_t order, const void *bytes, size_t n) {
    int answer = asked(p, order, bytes, n);
    if (!answer) return CARRIED_OUT;
    return order == REPLACE && answer == ENVY_NOT_REPLACED ? NOT_REPLACED : FAILED;
}

/* An order, and after it the bytes of a write, where they lie. */
intptr_t envy_disk_order(int number, const void *bytes, size_t count) {
    port *p = port_of(number);
    if (!p) return -1;
    uint64_t order = p->order;
    if (order == NONE) {
        if (count != ORDER_BYTES) return -1;
        order = number_at(bytes);
        p->at = number_at((const uint8_t *)bytes + 8);
        p->size = number_at((const uint8_t *)bytes + 16);
        p->answer = FAILED;
        if (p->size) p->order = order;
        else p->answer = answered(p, order, "", 0);
        return ORDER_BYTES;
    }
    p->order = NONE;
    if (count != p->size) return -1;
    p->answer = answered(p, order, bytes, count);
    return (intptr_t)count;
}

/* The answer to the last order, once. */
intptr_t envy_disk_answer(int number, void *at, size_t count) {
    port *p = port_of(number);
    if (!p || count != 1) return -1;
    *(uint8_t *)at = p->answer;
    p->answer = FAILED;
    return 1;
}
