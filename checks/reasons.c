/*
 * Compares the EFI_STATUS, the text and the success of each status code with what they should be. Exits with status 1 if one differs.
 */
#include <stdio.h>
#include <string.h>

/* Their values in the UEFI Specification 2.10, appendix D, with the highest bit of 64 set in an error. */
#define EFI_ERROR_(number) (0x8000000000000000u | (number))
#define EFI_SUCCESS 0u
#define EFI_INVALID_PARAMETER EFI_ERROR_(2u)
#define EFI_BUFFER_TOO_SMALL EFI_ERROR_(5u)
#define EFI_NOT_FOUND EFI_ERROR_(14u)

#include "nardcorbel.h"

enum { BUFFER_TOO_SMALL = 4, NO_PARENT = 11, LAST = 32, END = 256, CHAR_REPLACED = 257, CODES = 300 };

static uint64_t efi_status_of(int code)
{
    if (code == NO_PARENT || code == END)
        return EFI_NOT_FOUND;
    if (code == BUFFER_TOO_SMALL)
        return EFI_BUFFER_TOO_SMALL;
    return code == 0 || code == CHAR_REPLACED ? EFI_SUCCESS : EFI_INVALID_PARAMETER;
}

static bool is_code(int code)
{
    return code <= LAST ? code != 25 && code != 30 : code == END || code == CHAR_REPLACED;
}

int main(void)
{
    int wrong = 0;
    for (int code = 0; code < CODES; code++) {
        nard_status status = (nard_status)code;
        bool is_known = strcmp(nard_status_text(status), "unknown status") != 0;
        if (is_known != is_code(code) || (is_known && nard_to_efi_status(status) != efi_status_of(code)) ||
            (is_known && nard_succeeded(status) != (code == 0 || END <= code))) {
            printf("WRONG: status %d\n", code);
            wrong = 1;
        }
    }
    return wrong || strcmp(nard_status_text(NARD_OK), "success") != 0;
}
