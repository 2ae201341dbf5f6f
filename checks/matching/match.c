/*
 * Prints for pairs of device paths whether the second is a short form of the first, and the offset in the first after the
 * nodes of the second. Each pair is two lengths, of four bytes each, and the bytes of both paths.
 */
#include <nardcorbel.h>
#include <stdio.h>

enum { MOST = 65536 };

int main(void)
{
    static uint8_t full[MOST], other[MOST];
    uint32_t sizes[2];
    while (fread(sizes, sizeof sizes, 1, stdin) == 1) {
        if (sizes[0] > MOST || sizes[1] > MOST || fread(full, 1, sizes[0], stdin) != sizes[0] ||
            fread(other, 1, sizes[1], stdin) != sizes[1])
            return 1;
        size_t offset = 0;
        bool stands = nard_device_path_is_expansion(full, sizes[0], other, sizes[1]);
        bool begins = nard_device_path_strip_prefix(full, sizes[0], other, sizes[1], &offset);
        printf("%d %d %zu\n", stands, begins, offset);
    }
    return 0;
}
