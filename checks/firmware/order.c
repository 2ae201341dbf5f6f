/*
 * Part of the menu's test: writes the variable TestOrder into BootOrder, because the firmware removes the entries that it
 * considers malformed from BootOrder when it starts. Ends with an error, so that the firmware starts the next entry, the menu.
 */
#include <efi.h>

EFI_STATUS efi_main(EFI_HANDLE handle, EFI_SYSTEM_TABLE *table)
{
    static EFI_GUID global_variable = {0x8be4df61, 0x93ca, 0x11d2, {0xaa, 0x0d, 0x00, 0xe0, 0x98, 0x03, 0x2b, 0x8c}};
    static CHAR16 from[] = {'T', 'e', 's', 't', 'O', 'r', 'd', 'e', 'r', 0}, to[] = {'B', 'o', 'o', 't', 'O', 'r', 'd', 'e', 'r', 0};
    static UINT16 order[1024];
    UINTN size = sizeof order;
    UINT32 attributes = 0;
    (void)handle;
    EFI_STATUS status = table->RuntimeServices->GetVariable(from, &global_variable, &attributes, &size, order);
    if (status == EFI_SUCCESS)
        status = table->RuntimeServices->SetVariable(to, &global_variable, attributes, size, order);
    return status == EFI_SUCCESS ? EFI_NOT_STARTED : status;
}
