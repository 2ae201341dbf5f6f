/*
 * Prints each entry of a file that samples.py wrote as the menu does, on Linux. The bytes of each end right before a page
 * that nobody may read or write, so that a read beyond them ends the program. An entry that takes ten seconds ends it too.
 *
 * usage: try_reader FILE
 */
#define _GNU_SOURCE
#include <stdio.h>
#include <string.h>
#include <sys/mman.h>
#include <unistd.h>

#include "lines.h"

enum { PAGE = 65536, ROOM = 131072 };

void lines_put_unit(uint16_t unit)
{
    putchar(unit);
}

enum lines_found lines_look(const struct reader *reader, const uint16_t *normal)
{
    (void)reader;
    (void)normal;
    return LINES_UNKNOWN;
}

int main(int count, char **words)
{
    static struct reader reader;
    FILE *file = count == 2 ? fopen(words[1], "rb") : NULL;
    uint8_t *memory = mmap(NULL, ROOM + PAGE, PROT_READ | PROT_WRITE, MAP_PRIVATE | MAP_ANONYMOUS, -1, 0);
    if (file == NULL || memory == MAP_FAILED || mprotect(memory + ROOM, PAGE, PROT_NONE) != 0) {
        fprintf(stderr, "usage: try_reader FILE\n");
        return 2;
    }
    uint32_t size = 0;
    for (uint16_t number = 0; fread(&size, sizeof size, 1, file) == 1 && size <= ROOM; number++) {
        uint8_t *bytes = memory + ROOM - size;
        memset(memory, 0xa5, ROOM);
        if (fread(bytes, 1, size, file) != size)
            return 1;
        alarm(10);
        lines_show(&reader, number, bytes, size);
    }
    return 0;
}
