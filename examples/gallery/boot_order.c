/*
 * Edits the order of boot entries in a file, the variable BootOrder as Linux shows it, and prints it.
 *
 *     cc -I include examples/gallery/boot_order.c crates/nardcorbel/out/firmware/x86_64-linux-gnu/libnardcorbel.a -o boot_order
 *     cp /sys/firmware/efi/efivars/BootOrder-8be4df61-93ca-11d2-aa0d-00e098032b8c order
 *     ./boot_order order first=0002 insert=000A@1 remove=0001
 *
 *     BootOrder: 0002,000A,0000
 *
 * `insert` puts an entry at a place, 0 for the front. If an edit fails, because the order has no entry to move or remove, the
 * program changes nothing and ends with 1.
 */
#include <stdio.h>

#include "nardcorbel.h"

/* The attributes of a variable, which Linux puts before its value, and how many entries there can be. */
enum { ATTRIBUTES = 4, MOST = 65536 };

static uint8_t bytes[ATTRIBUTES + 2 * MOST];
static uint16_t order[MOST];
static size_t length;

/* Makes an edit, and returns whether that went well. */
static bool edit(const char *word)
{
    unsigned number = 0, place = 0;
    if (sscanf(word, "first=%4x", &number) == 1)
        return nard_boot_order_move_to_front(order, MOST, &length, (uint16_t)number);
    if (sscanf(word, "remove=%4x", &number) == 1)
        return nard_boot_order_remove(order, MOST, &length, (uint16_t)number);
    return sscanf(word, "insert=%4x@%u", &number, &place) == 2 &&
           nard_boot_order_insert(order, MOST, &length, place, (uint16_t)number) == NARD_OK;
}

int main(int count, char **words)
{
    FILE *file = count < 2 ? NULL : fopen(words[1], "rb");
    size_t size = file == NULL ? 0 : fread(bytes, 1, sizeof bytes, file);
    bool well = ATTRIBUTES <= size && fclose(file) == 0 &&
                nard_units_from_bytes(bytes + ATTRIBUTES, size - ATTRIBUTES, order, MOST, &length) == NARD_OK;
    for (int i = 2; i < count && well; i++)
        well = edit(words[i]);
    if (!well) {
        fprintf(stderr, "usage: boot_order FILE [first=NUMBER | insert=NUMBER@PLACE | remove=NUMBER] ..\n");
        return 1;
    }
    printf("BootOrder:");
    for (size_t i = 0; i < length; i++) {
        printf("%c%04X", i == 0 ? ' ' : ',', (unsigned)order[i]);
        bytes[ATTRIBUTES + 2 * i] = (uint8_t)order[i];
        bytes[ATTRIBUTES + 2 * i + 1] = (uint8_t)(order[i] >> 8);
    }
    printf("\n");
    size = ATTRIBUTES + 2 * length;
    file = fopen(words[1], "wb");
    return file != NULL && fwrite(bytes, 1, size, file) == size && fclose(file) == 0 ? 0 : 1;
}
