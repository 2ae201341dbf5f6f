/* The program that the entries of the test start: prints how many bytes of options it got, and ends with its own status. */
#include <efi.h>

EFI_STATUS efi_main(EFI_HANDLE handle, EFI_SYSTEM_TABLE *table)
{
    static EFI_GUID loaded_image = {0x5b1b31a1, 0x9562, 0x11d2, {0x8e, 0x3f, 0x00, 0xa0, 0xc9, 0x69, 0x72, 0x3b}};
    void *found = NULL;
    UINT32 size = 0;
    if (table->BootServices->HandleProtocol(handle, &loaded_image, &found) == EFI_SUCCESS)
        size = ((EFI_LOADED_IMAGE *)found)->LoadOptionsSize;
    CHAR16 text[] = {'h', 'e', 'l', 'l', 'o', ' ', (CHAR16)('0' + size % 10), '\r', '\n', 0};
    table->ConOut->OutputString(table->ConOut, text);
    return EFI_NOT_STARTED;
}
