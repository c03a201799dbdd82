/* The driver of AMD's command set on the host, over qemu's `musicpal`: each access of the bus goes through qemu's test
   socket, so no code runs in the machine. */
#include "../../c/ports/cfi_amd.h"
#include "try.h"
#include <stdio.h>
#include <stdlib.h>
#include <string.h>
#include <sys/socket.h>
#include <sys/un.h>
#include <time.h>

enum { SIZE = 8 << 20 };
static const uint64_t flash = (1ull << 32) - SIZE;
static uint8_t map[SIZE]; /* nothing is kept here: an address in it names one of the part */
static FILE *socket_of;
static char line[256];

static void ask(const char *format, uint64_t at, uint32_t value) {
    fprintf(socket_of, format, at, value);
    fflush(socket_of);
    do {
        if (fgets(line, sizeof line, socket_of)) continue;
        fprintf(stderr, "qemu is gone\n");
        exit(3);
    } while (!strncmp(line, "IRQ", 3));
}
void cfi_store(volatile uint8_t *at, unsigned bus_bytes, uint32_t value) {
    (void)bus_bytes;
    ask("writew 0x%lx 0x%x\n", flash + (uint64_t)(at - map), value);
}
uint32_t cfi_load(volatile uint8_t *at, unsigned bus_bytes) {
    (void)bus_bytes;
    ask("readw 0x%lx\n", flash + (uint64_t)(at - map), 0);
    return (uint32_t)strtoul(line + 3, NULL, 16);
}
static uint64_t microseconds(void) {
    struct timespec t;
    clock_gettime(CLOCK_MONOTONIC, &t);
    return (uint64_t)t.tv_sec * 1000000 + (uint64_t)t.tv_nsec / 1000;
}
void say(const char *text, uint64_t n) { printf("%s %lu\n", text, n); }
bool row_is(const cfi_part *part, uint32_t row, const uint8_t page[ENVY_ROW_BYTES]) {
    for (uint32_t i = 0; i < ENVY_ROW_BYTES; i += 2)
        if (cfi_load(part->base + (uint64_t)row * ENVY_ROW_BYTES + i, 2) != cfi_word(part, page + i)) return false;
    return true;
}

static void reset(cfi_part *part) { cfi_command(part, 0, 0xf0); } /* this part has no line */

int main(int count, char **words) {
    if (count != 2) return 2;
    struct sockaddr_un at = {.sun_family = AF_UNIX};
    snprintf(at.sun_path, sizeof at.sun_path, "%s", words[1]);
    int s = socket(AF_UNIX, SOCK_STREAM, 0);
    if (s < 0 || connect(s, (struct sockaddr *)&at, sizeof at)) {
        perror("connect");
        return 2;
    }
    socket_of = fdopen(s, "r+");
    static cfi_part part = {.base = map, .bus_bytes = 2, .chip_bytes = 2, .microseconds = microseconds, .reset = reset};
    int code = cfi_amd_open(&part);
    say("open:", (uint64_t)code);
    say("blocks:", part.blocks);
    say("bytes of a block:", part.block_bytes);
    say("bytes of a write buffer:", part.buffer_bytes);
    if (code != CFI_DONE) return 2;
    /* the clock of the emulated part runs with the host's, and a busy host is late: give it time */
    part.word_us += 1000000;
    part.erase_us += 20000000;
    envy_part callbacks = cfi_amd(&part);
    int port = envy_part_open(&callbacks);
    uint64_t wrong = try_part(&part, port, 4);
    envy_part_close(port);
    say("wrong:", wrong);
    return wrong != 0;
}
