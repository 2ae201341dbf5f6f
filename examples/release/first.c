/* A first program: prints a path in its normal form. */
#include <nardcorbel.h>
#include <stdio.h>

int main(void)
{
    static const char text[] = "\\EFI\\debian\\..\\BOOT\\.\\BOOTX64.EFI";
    nard_char16 normal[2 * sizeof text];
    char line[sizeof text];
    size_t fault = 0;

    nard_status status = nard_path_normalize(text, NARD_NUL_TERMINATED, normal, 2 * sizeof text, NULL, &fault, NULL);
    if (status == NARD_OK)
        status = nard_string_to_utf8(normal, NARD_NUL_TERMINATED, line, sizeof line, NULL, &fault);
    if (status != NARD_OK)
        fprintf(stderr, "%s, at %zu\n", nard_status_text(status), fault);
    else
        puts(line);
    return status == NARD_OK ? 0 : 1;
}
