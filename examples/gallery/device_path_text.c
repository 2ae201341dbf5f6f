/*
 * Prints device paths as people read them, each from a line of hexadecimal on standard input.
 *
 *     cc -I include examples/gallery/device_path_text.c crates/nardcorbel/out/firmware/x86_64-linux-gnu/libnardcorbel.a -o device_path_text
 *     echo 02010c00d041030a000000000101060000027fff0400 | ./device_path_text
 *
 *     PciRoot(0x0)/Pci(0x2,0x0)
 *
 * Ends with 1 if a line is no device path.
 */
#include <ctype.h>
#include <stdio.h>
#include <stdlib.h>

#include "nardcorbel.h"

enum { MOST = 65536, MOST_TEXT = 4 * MOST };

int main(void)
{
    static char line[2 * MOST + 2];
    static uint8_t bytes[MOST];
    static char text[MOST_TEXT];
    bool all_well = true;
    while (fgets(line, sizeof line, stdin) != NULL) {
        size_t count = 0, fault = 0;
        for (const char *at = line; isxdigit((unsigned char)at[0]) && isxdigit((unsigned char)at[1]); at += 2)
            bytes[count++] = (uint8_t)strtoul((char[]){at[0], at[1], 0}, NULL, 16);
        nard_status status = nard_device_path_format(bytes, count, NARD_STYLE_UEFI, text, MOST_TEXT, NULL, &fault);
        if (status == NARD_OK)
            puts(text);
        else
            printf("malformed at offset %zu: %s\n", fault, nard_status_text(status));
        all_well = all_well && status == NARD_OK;
    }
    return all_well ? 0 : 1;
}
