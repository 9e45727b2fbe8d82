/* Runs the rule file on standard input with large rooms, which the arguments give. It says of each what came of it: number, bytes, and the
 * first 48 bytes of the output.
 *
 * A room takes little memory: every 16 MB of it are the same again. So an answer of some gigabytes can be written on any machine.
 */
#define _GNU_SOURCE
#include <inttypes.h>
#include <stdio.h>
#include <stdlib.h>
#include <sys/mman.h>
#include <unistd.h>

#include "pegplanet.h"

enum { STRETCH = 1 << 24, SHOWN = 48 };

static void need(int good, const char *what) {
    if (!good) {
        perror(what);
        exit(1);
    }
}

static uint8_t *room_of(size_t bytes) {
    FILE *memory = tmpfile();
    need(memory != NULL && ftruncate(fileno(memory), STRETCH) == 0, "a file");
    uint8_t *room = mmap(NULL, bytes + STRETCH, PROT_NONE, MAP_PRIVATE | MAP_ANONYMOUS | MAP_NORESERVE, -1, 0);
    need(room != MAP_FAILED, "a room");
    for (size_t at = 0; at < bytes; at += STRETCH) {
        need(mmap(room + at, STRETCH, PROT_READ | PROT_WRITE, MAP_SHARED | MAP_FIXED, fileno(memory), 0) != MAP_FAILED, "a stretch");
    }
    return room;
}

int main(int argc, char **argv) {
    static uint8_t file[PEGPLANET_RUN_FILE];
    size_t length = fread(file, 1, sizeof file, stdin);
    for (int number = 1; number < argc; number++) {
        size_t bytes = (size_t)strtoull(argv[number], NULL, 10);
        uint8_t *room = room_of(bytes);
        uint64_t packed = pegplanet_run(file, length, 1000000, 1000, room, bytes);
        printf("%" PRIu32 " %" PRIu32, pegplanet_number(packed), pegplanet_bytes(packed));
        for (uint32_t place = 0; place < SHOWN; place++) {
            printf("%s%02X", place == 0 ? " " : "", room[place]);
        }
        puts("");
        munmap(room, bytes + STRETCH);
    }
    return 0;
}
