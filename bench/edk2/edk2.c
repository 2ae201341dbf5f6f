/*
 * EDK II's reader of device paths, built from its own source for Linux, and what that source needs of the firmware's libraries
 * here. `run` says where the source comes from; nothing of it stands in this repository.
 */
#define _PCD_GET_MODE_32_PcdMaximumDevicePathNodeCount 0
#define MDEPKG_NDEBUG 1
#include "DevicePathUtilities.c"

UINT16 EFIAPI ReadUnaligned16(const UINT16 *place) { return *place; }
UINT16 EFIAPI WriteUnaligned16(UINT16 *place, UINT16 value) { return *place = value; }
VOID *EFIAPI CopyMem(VOID *to, const VOID *from, UINTN count) { return __builtin_memcpy(to, from, count); }
/* No call that is timed takes memory. */
VOID *EFIAPI AllocatePool(UINTN count) { return count ? NULL : NULL; }
VOID *EFIAPI AllocateZeroPool(UINTN count) { return count ? NULL : NULL; }
VOID *EFIAPI AllocateCopyPool(UINTN count, const VOID *from) { return count && from ? NULL : NULL; }
VOID EFIAPI FreePool(VOID *place) { (void)place; }
UINTN EFIAPI AsciiStrLen(const CHAR8 *text) { return __builtin_strlen(text); }

/* How many bytes a path has, or 1 where it is refused. */
UINTN edk2_check(const UINT8 *bytes, UINTN count)
{
    return IsDevicePathValid((const EFI_DEVICE_PATH_PROTOCOL *)bytes, count) ? count : 1;
}

/* How many bytes of data the nodes have of a path that is checked first, or 1. */
UINTN edk2_walk(const UINT8 *bytes, UINTN count)
{
    const EFI_DEVICE_PATH_PROTOCOL *node = (const EFI_DEVICE_PATH_PROTOCOL *)bytes;
    UINTN total = 0;
    if (!IsDevicePathValid(node, count))
        return 1;
    for (; !IsDevicePathEnd(node); node = NextDevicePathNode(node))
        total += DevicePathNodeLength(node) - sizeof *node;
    return total;
}

/* The same of the paths in the list of a load option. */
UINTN edk2_option(const UINT8 *bytes, UINTN count)
{
    const UINT8 *place = bytes + 6, *end;
    UINTN total = 0;
    if (count < 6)
        return 1;
    while (place + 2 <= bytes + count && (place[0] | place[1]))
        place += 2, total++;
    place += 2;
    total++;
    end = place + (bytes[4] | bytes[5] << 8);
    if (bytes + count < end || place == end)
        return 1;
    while (place < end) {
        const EFI_DEVICE_PATH_PROTOCOL *node = (const EFI_DEVICE_PATH_PROTOCOL *)place;
        if (!IsDevicePathValid(node, (UINTN)(end - place)))
            return 1;
        for (; !IsDevicePathEnd(node); node = NextDevicePathNode(node))
            total += DevicePathNodeLength(node) - sizeof *node;
        place = (const UINT8 *)node + sizeof *node;
    }
    return total;
}
