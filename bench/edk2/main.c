/* Times device paths that are checked, and walked, beside EDK II: both sides in turns, and of each the least of many rounds. */
#include <stddef.h>
#include <stdint.h>
#include <stdio.h>
#include <stdlib.h>
#include <string.h>
#include <time.h>

size_t ours_device_path_check(const uint8_t *bytes, size_t count);
size_t ours_device_path_walk(const uint8_t *bytes, size_t count);
size_t ours_load_option_walk(const uint8_t *bytes, size_t count);
size_t edk2_check(const uint8_t *bytes, size_t count);
size_t edk2_walk(const uint8_t *bytes, size_t count);
size_t edk2_option(const uint8_t *bytes, size_t count);

typedef size_t call(const uint8_t *bytes, size_t count);
static volatile size_t kept;

static double nanoseconds(call *of, const uint8_t *bytes, size_t count, int rounds)
{
    struct timespec from, to;
    clock_gettime(CLOCK_MONOTONIC, &from);
    for (int i = 0; i < rounds; i++)
        kept += of(bytes, count);
    clock_gettime(CLOCK_MONOTONIC, &to);
    return ((double)(to.tv_sec - from.tv_sec) * 1e9 + (double)(to.tv_nsec - from.tv_nsec)) / rounds;
}

/* Nodes of data of 0 to 40 bytes, as many as fit into this room with the end. */
static size_t path(uint8_t *bytes, size_t room)
{
    size_t count = 0;
    for (size_t data = (size_t)rand() % 21 * 2; count + data + 8 <= room; data = (size_t)rand() % 21 * 2) {
        uint8_t header[] = {(uint8_t)(1 + rand() % 3), (uint8_t)(1 + rand() % 20), (uint8_t)(data + 4), 0};
        memcpy(bytes + count, header, 4);
        memset(bytes + count + 4, rand(), data);
        count += data + 4;
    }
    memcpy(bytes + count, "\x7f\xff\x04\x00", 4);
    return count + 4;
}

static void compare(const char *what, call *ours, call *theirs, const uint8_t *bytes, size_t count)
{
    double best[2] = {1e18, 1e18};
    int rounds = (int)(2000000 / count) + 1;
    if (ours(bytes, count) != theirs(bytes, count)) {
        printf("%s of %zu bytes: the answers differ\n", what, count);
        exit(1);
    }
    for (int i = 0; i < 60; i++)
        for (int side = 0; side < 2; side++) {
            double time = nanoseconds(side ? theirs : ours, bytes, count, rounds);
            best[side] = time < best[side] ? time : best[side];
        }
    printf("%-16s %6zu bytes: ours %9.1f ns, EDK II %9.1f ns, ratio %.2f\n", what, count, best[0], best[1], best[0] / best[1]);
}

int main(void)
{
    static uint8_t bytes[70000];
    const size_t rooms[] = {60, 200, 1000, 4000, 65536};
    srand(7);
    for (size_t i = 0; i < sizeof rooms / sizeof *rooms; i++) {
        size_t count = path(bytes, rooms[i]);
        compare("checked", ours_device_path_check, edk2_check, bytes, count);
        compare("and walked", ours_device_path_walk, edk2_walk, bytes, count);
        if (count < 65530) {
            const uint8_t front[] = {1, 0, 0, 0, (uint8_t)count, (uint8_t)(count >> 8), 'b', 0, 'o', 0, 'o', 0, 't', 0, 0, 0};
            memmove(bytes + sizeof front, bytes, count);
            memcpy(bytes, front, sizeof front);
            compare("a load option", ours_load_option_walk, edk2_option, bytes, count + sizeof front);
        }
    }
    return 0;
}
