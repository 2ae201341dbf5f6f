/*
 * Splits paths into their components and their parents.
 *
 *     cc -I include examples/gallery/split_path.c crates/nardcorbel/out/firmware/x86_64-linux-gnu/libnardcorbel.a -o split_path
 *     ./split_path '\EFI\debian\shimx64.efi'
 *
 *       components: EFI, debian, shimx64.efi
 */
#include <stdio.h>

#include "nardcorbel.h"

enum { MOST = 4096 };

static void print(const char *before, const nard_char16 *units, size_t count)
{
    static char shown[3 * MOST + 1];
    if (nard_string_to_utf8_lossy(units, count, shown, sizeof shown, NULL) == NARD_OK)
        printf("%s%s", before, shown);
}

static bool split(const char *name)
{
    static nard_char16 text[MOST];
    size_t length = 0, fault = 0, offset = 0, start = 0, size = 0;
    nard_status status = nard_string_from_utf8(name, NARD_NUL_TERMINATED, text, MOST, &length, &fault);
    printf("%s\n", name);
    if (status != NARD_OK) {
        printf("  refused: %s, at %zu\n", nard_status_text(status), fault);
        return false;
    }
    printf("  components:");
    for (const char *before = " "; nard_path_next_component(text, length, &offset, &start, &size); before = ", ")
        print(before, text + start, size);
    printf("\n  parents:");
    for (const char *before = " "; nard_path_parent_length(text, length, &length); before = ", ")
        print(before, text, length);
    printf("\n");
    return true;
}

int main(int count, char **names)
{
    bool all_well = true;
    for (int i = 1; i < count; i++)
        all_well = split(names[i]) && all_well;
    return all_well ? 0 : 1;
}
