/*
 * Lists the boot entries of a directory of variables as Linux shows them: of each entry its description and its loader.
 *
 *     cc -I include examples/gallery/list_loaders.c crates/nardcorbel/out/firmware/x86_64-linux-gnu/libnardcorbel.a -o list_loaders
 *     ./list_loaders /sys/firmware/efi/efivars/Boot*
 *
 *     Boot0001 debian: \EFI\debian\shimx64.efi
 */
#include <stdio.h>
#include <string.h>

#include "nardcorbel.h"

int main(int count, char **files)
{
    for (int i = 1; i < count; i++) {
        static uint8_t bytes[65536];
        char description[1024] = "", loader[4096] = "";
        const char *name = strrchr(files[i], '/') ? strrchr(files[i], '/') + 1 : files[i];
        uint32_t kind;
        uint16_t number;
        struct nard_load_option option;
        size_t fault = 0;
        if (nard_boot_name_read(name, strcspn(name, "-"), &kind, &number) != NARD_OK || kind != NARD_BOOT)
            continue;
        FILE *file = fopen(files[i], "rb");
        size_t size = file ? fread(bytes, 1, sizeof bytes, file) : 0;
        if (file)
            fclose(file);
        /* Linux puts four bytes of attributes before the value. */
        nard_status status = size < 4 ? NARD_OPTION_TOO_SHORT : nard_load_option_read(bytes + 4, size - 4, &option, &fault);
        if (status == NARD_OK)
            status = nard_load_option_description(&option, description, sizeof description, NULL);
        if (status == NARD_OK)
            status = nard_device_path_file_path(option.path, option.path_size, loader, sizeof loader, NULL, &fault);
        printf("Boot%04X %s: %s\n", number, description, status == NARD_OK ? loader : nard_status_text(status));
    }
}
