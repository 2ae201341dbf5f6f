/*
 * What EDK II's device path functions and the glue need of the firmware's other libraries, for Linux: memory, and the GUIDs that
 * the functions name.
 */
#include <string.h>

#include <Uefi.h>
#include <Guid/PcAnsi.h>
#include <Protocol/DebugPort.h>
#include <Protocol/DevicePath.h>
#include <Library/BaseMemoryLib.h>
#include <Library/MemoryAllocationLib.h>

EFI_BOOT_SERVICES *gBS;

EFI_GUID gEfiPcAnsiGuid = EFI_PC_ANSI_GUID;
EFI_GUID gEfiVT100Guid = EFI_VT_100_GUID;
EFI_GUID gEfiVT100PlusGuid = EFI_VT_100_PLUS_GUID;
EFI_GUID gEfiVTUTF8Guid = EFI_VT_UTF8_GUID;
EFI_GUID gEfiUartDevicePathGuid = DEVICE_PATH_MESSAGING_UART_FLOW_CONTROL;
EFI_GUID gEfiSasDevicePathGuid = EFI_SAS_DEVICE_PATH_GUID;
EFI_GUID gEfiDebugPortProtocolGuid = EFI_DEBUGPORT_PROTOCOL_GUID;
EFI_GUID gEfiDevicePathProtocolGuid = EFI_DEVICE_PATH_PROTOCOL_GUID;
EFI_GUID gEfiVirtualDiskGuid = EFI_VIRTUAL_DISK_GUID;
EFI_GUID gEfiVirtualCdGuid = EFI_VIRTUAL_CD_GUID;
EFI_GUID gEfiPersistentVirtualDiskGuid = EFI_PERSISTENT_VIRTUAL_DISK_GUID;
EFI_GUID gEfiPersistentVirtualCdGuid = EFI_PERSISTENT_VIRTUAL_CD_GUID;

/*
 * Memory that is taken back all at once: a call that is ended from outside leaves nothing behind. A length below 0 asks for more than
 * there is.
 */
static UINT8 arena[1 << 24] __attribute__((aligned(16)));
static UINTN used;

__attribute__((visibility("default"))) VOID forget(VOID) { used = 0; }
VOID EFIAPI FreePool(VOID *place) { (void)place; }

VOID *EFIAPI AllocatePool(UINTN size)
{
    UINT8 *made = arena + used;
    if (sizeof arena - used < size)
        return NULL;
    used += (size + 15) / 16 * 16;
    return made;
}

VOID *EFIAPI AllocateZeroPool(UINTN size)
{
    VOID *made = AllocatePool(size);
    return made ? memset(made, 0, size) : NULL;
}

VOID *EFIAPI AllocateCopyPool(UINTN size, const VOID *from)
{
    VOID *made = AllocatePool(size);
    return made ? memcpy(made, from, size) : NULL;
}

VOID *EFIAPI ReallocatePool(UINTN old, UINTN size, VOID *place)
{
    VOID *made = AllocateZeroPool(size);
    if (made && place)
        memcpy(made, place, old < size ? old : size);
    return made;
}
