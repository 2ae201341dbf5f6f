/* Prints the device path of a boot entry, the value of a variable Boot#### from standard input. */
#include <nardcorbel.h>
#include <stdio.h>

int main(void)
{
    uint8_t entry[4096];
    char text[16384];
    struct nard_load_option option;
    size_t size = fread(entry, 1, sizeof entry, stdin), fault = 0;

    nard_status status = nard_load_option_read(entry, size, &option, &fault);
    if (status == NARD_OK)
        status = nard_device_path_format(option.path, option.path_size, NARD_STYLE_UEFI, text, sizeof text, NULL, NULL);
    if (status == NARD_OK)
        puts(text);
    else
        printf("byte %zu: %s\n", fault, nard_status_text(status));
    return status == NARD_OK ? 0 : 1;
}
