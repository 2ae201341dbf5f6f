/* A first program for firmware: prints a path in its normal form. docs/FIRMWARE.md has the commands that build it. */
#include <efi.h>
#include <nardcorbel.h>

EFI_STATUS efi_main(EFI_HANDLE image, EFI_SYSTEM_TABLE *table)
{
    static const nard_char16 path[] = u"\\EFI\\debian\\..\\BOOT\\.\\BOOTX64.EFI";
    nard_char16 normal[64];
    nard_status status = nard_path_normalize_utf16(path, NARD_NUL_TERMINATED, normal, 64, NULL, NULL, NULL);
    (void)image;
    table->ConOut->OutputString(table->ConOut, status == NARD_OK ? (CHAR16 *)normal : (CHAR16 *)u"invalid path");
    table->ConOut->OutputString(table->ConOut, (CHAR16 *)u"\r\n");
    return nard_to_efi_status(status);
}
