/*
 * Says of each name whether it is a path to a boot file, and if not, why.
 *
 *     cc -I include examples/gallery/check_paths.c crates/nardcorbel/out/firmware/x86_64-linux-gnu/libnardcorbel.a -o check_paths
 *     ./check_paths '\EFI\BOOT\BOOTX64.EFI' 'EFI/debian/shim?.efi'
 *
 *     EFI/debian/shim?.efi: path contains an illegal character, U+003F
 *
 * If there is no name, each line of standard input is one. Ends with 1 if a name is refused.
 */
#include <stdio.h>
#include <string.h>

#include "nardcorbel.h"

enum { MOST = 4096 };

static bool check(const char *name)
{
    static nard_char16 path[2 * MOST + 2];
    nard_char16 character = 0;
    nard_status status = nard_path_normalize(name, NARD_NUL_TERMINATED, path, 2 * MOST + 2, NULL, NULL, &character);

    printf("%s: %s", name, status == NARD_OK ? "accepted" : nard_status_text(status));
    if (character != 0)
        printf(", U+%04X", (unsigned)character);
    printf("\n");
    return status == NARD_OK;
}

int main(int count, char **names)
{
    static char line[MOST];
    bool all_well = true;
    for (int i = 1; i < count; i++)
        all_well = check(names[i]) && all_well;
    while (count < 2 && fgets(line, sizeof line, stdin) != NULL) {
        line[strcspn(line, "\n")] = 0;
        all_well = check(line) && all_well;
    }
    return all_well ? 0 : 1;
}
