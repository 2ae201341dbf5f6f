/*
 * The device path functions of gnu-efi's library, on top of nardcorbel: this file replaces lib/dpath.c.
 *
 * nardcorbel checks each header before its length is used, builds nodes and formats the text. Left to this file are memory from the
 * pool, the calls of the firmware, and copies of nodes whose sizes have been checked.
 *
 * A malformed path has the size 0, no instances and an empty text, and nothing is made of it: a function that returns a path returns
 * NULL. A path has no length in these calls, so all of them read up to its end node.
 *
 * SPDX-License-Identifier: MIT OR Apache-2.0
 */
#include "lib.h"
#include "nardcorbel_efi.h"

#define HEADER          sizeof(EFI_DEVICE_PATH)
#define AT(Path, Size)  ((EFI_DEVICE_PATH *) ((UINT8 *) (Path) + (Size)))
#define SPAN(From, To)  ((UINTN) ((UINT8 *) (To) - (UINT8 *) (From)))
/* The length of a node in an unpacked path. */
#define UNPACKED(Size)  (((Size) + MIN_ALIGNMENT_SIZE - 1) / MIN_ALIGNMENT_SIZE * MIN_ALIGNMENT_SIZE)

/* Returns the size of a node, or 0 if its header is malformed. */
static UINTN
NodeSize (
    IN EFI_DEVICE_PATH  *Node
    )
{
    EFI_DEVICE_PATH     Header = *Node;
    UINTN               Next = 0, Needed;

    // An unpacked node has a flag in its type, and an unpacked end node is padded.
    if (IsDevicePathUnpacked (Node)) {
        Header.Type &= EFI_DP_TYPE_MASK;
        if (IsDevicePathEndType (Node)) {
            SetDevicePathNodeLength (&Header, DevicePathNodeLength (Node) + HEADER - UNPACKED (HEADER));
        }
    }

    if (nard_device_path_needs ((UINT8 *) &Header, HEADER, &Next, &Needed, NULL) != NARD_OK) {
        return 0;
    }

    return DevicePathNodeLength (Node);
}

/* Returns the node that ends the first instance of a path, or NULL if there is none or a node before it is malformed. */
static EFI_DEVICE_PATH *
InstanceEnd (
    IN EFI_DEVICE_PATH  *Path   OPTIONAL
    )
{
    while (Path && NodeSize (Path) != 0) {
        if (IsDevicePathEndType (Path)) {
            return Path;
        }

        Path = NextDevicePathNode (Path);
    }

    return NULL;
}

/* Returns the node that ends a path, or NULL if there is none or the path is malformed. */
static EFI_DEVICE_PATH *
PathEnd (
    IN EFI_DEVICE_PATH  *Path   OPTIONAL
    )
{
    while ((Path = InstanceEnd (Path)) && !IsDevicePathEnd (Path)) {
        Path = NextDevicePathNode (Path);
    }

    return Path;
}

EFI_DEVICE_PATH *
DevicePathFromHandle (
    IN EFI_HANDLE       Handle
    )
{
    EFI_DEVICE_PATH     *DevicePath;

    if (EFI_ERROR (uefi_call_wrapper (BS->HandleProtocol, 3, Handle, &DevicePathProtocol, (VOID **) &DevicePath))) {
        return NULL;
    }

    return DevicePath;
}

EFI_STATUS
LibDevicePathToInterface (
    IN EFI_GUID         *Protocol,
    IN EFI_DEVICE_PATH  *FilePath,
    OUT VOID            **Interface
    )
{
    EFI_HANDLE          Device;
    EFI_STATUS          Status;

    *Interface = NULL;
    Status = uefi_call_wrapper (BS->LocateDevicePath, 3, Protocol, &FilePath, &Device);
    if (EFI_ERROR (Status)) {
        return Status;
    }

    // A device that only the first nodes name is another one.
    if (!IsDevicePathEnd (FilePath)) {
        return EFI_NOT_FOUND;
    }

    Status = uefi_call_wrapper (BS->HandleProtocol, 3, Device, Protocol, Interface);
    if (EFI_ERROR (Status)) {
        *Interface = NULL;
    }

    return Status;
}

UINTN
DevicePathSize (
    IN EFI_DEVICE_PATH  *DevPath
    )
{
    EFI_DEVICE_PATH     *End = PathEnd (DevPath);

    return End ? SPAN (DevPath, NextDevicePathNode (End)) : 0;
}

EFI_DEVICE_PATH *
DuplicateDevicePath (
    IN EFI_DEVICE_PATH  *DevPath
    )
{
    UINTN               Size = DevicePathSize (DevPath);
    EFI_DEVICE_PATH     *Made = Size == 0 ? NULL : AllocatePool (Size);

    if (Made) {
        CopyMem (Made, DevPath, Size);
    }

    return Made;
}

EFI_DEVICE_PATH *
DevicePathInstance (
    IN OUT EFI_DEVICE_PATH  **DevicePath,
    OUT UINTN               *Size
    )
{
    EFI_DEVICE_PATH     *Start = *DevicePath;
    EFI_DEVICE_PATH     *End = InstanceEnd (Start);

    *Size = End ? SPAN (Start, End) : 0;
    *DevicePath = End && !IsDevicePathEnd (End) ? NextDevicePathNode (End) : NULL;
    return End ? Start : NULL;
}

UINTN
DevicePathInstanceCount (
    IN EFI_DEVICE_PATH  *DevicePath
    )
{
    UINTN               Count = 0, Size;

    while (DevicePathInstance (&DevicePath, &Size)) {
        Count++;
    }

    return Count;
}

/* Returns a path with the same nodes at the end of each instance. */
static EFI_DEVICE_PATH *
Extended (
    IN EFI_DEVICE_PATH  *Path,
    IN EFI_DEVICE_PATH  *Nodes,
    IN UINTN            NodesSize
    )
{
    UINTN               PathSize = DevicePathSize (Path);
    UINTN               Count = DevicePathInstanceCount (Path);
    EFI_DEVICE_PATH     *Made, *To, *Instance;
    UINTN               Size;

    if (PathSize == 0 || NodesSize > ((UINTN) -1 - PathSize) / Count) {
        return NULL;
    }

    To = Made = AllocatePool (PathSize + Count * NodesSize);
    while (Made && (Instance = DevicePathInstance (&Path, &Size))) {
        CopyMem (To, Instance, Size);
        To = AT (To, Size);
        CopyMem (To, Nodes, NodesSize);
        To = AT (To, NodesSize);
        CopyMem (To, Path ? EndInstanceDevicePath : EndDevicePath, HEADER);
        To = AT (To, HEADER);
    }

    return Made;
}

EFI_DEVICE_PATH *
AppendDevicePath (
    IN EFI_DEVICE_PATH  *Src1,
    IN EFI_DEVICE_PATH  *Src2
    )
{
    EFI_DEVICE_PATH     *End;

    if (!Src1 || !Src2) {
        return DuplicateDevicePath (Src1 ? Src1 : Src2);
    }

    End = PathEnd (Src2);
    return End ? Extended (Src1, Src2, SPAN (Src2, End)) : NULL;
}

EFI_DEVICE_PATH *
AppendDevicePathNode (
    IN EFI_DEVICE_PATH  *Src1,
    IN EFI_DEVICE_PATH  *Src2
    )
{
    UINTN               Size = NodeSize (Src2);

    if (Size == 0) {
        return NULL;
    }

    return Extended (Src1 ? Src1 : EndDevicePath, Src2, IsDevicePathEnd (Src2) ? 0 : Size);
}

EFI_DEVICE_PATH *
AppendDevicePathInstance (
    IN EFI_DEVICE_PATH  *Src,
    IN EFI_DEVICE_PATH  *Instance
    )
{
    UINTN               SrcSize = DevicePathSize (Src);
    UINTN               InstanceSize = DevicePathSize (Instance);
    EFI_DEVICE_PATH     *Made;

    if (!Src) {
        return DuplicateDevicePath (Instance);
    }

    Made = SrcSize == 0 || InstanceSize == 0 ? NULL : AllocatePool (SrcSize + InstanceSize);
    if (Made) {
        CopyMem (Made, Src, SrcSize);
        PathEnd (Made)->SubType = END_INSTANCE_DEVICE_PATH_SUBTYPE;
        CopyMem (AT (Made, SrcSize), Instance, InstanceSize);
    }

    return Made;
}

EFI_DEVICE_PATH *
FileDevicePath (
    IN EFI_HANDLE       Device  OPTIONAL,
    IN CHAR16           *FileName
    )
{
    UINTN               NameSize = StrSize (FileName);
    UINTN               Capacity = NameSize + 2 * HEADER;
    UINT8               *File = AllocatePool (Capacity);
    EFI_DEVICE_PATH     *Whole;
    UINTN               Size;

    // The library rejects a name that is too long for a node.
    if (!File || nard_device_path_init (File, Capacity, &Size) != NARD_OK ||
        nard_device_path_push (File, Capacity, Size, MEDIA_DEVICE_PATH * 256 + MEDIA_FILEPATH_DP, (UINT8 *) FileName, NameSize,
                               NULL, NULL) != NARD_OK) {
        if (File) {
            FreePool (File);
        }
        return NULL;
    }

    if (!Device) {
        return (EFI_DEVICE_PATH *) File;
    }

    Whole = AppendDevicePath (DevicePathFromHandle (Device), (EFI_DEVICE_PATH *) File);
    FreePool (File);
    return Whole;
}

EFI_DEVICE_PATH *
UnpackDevicePath (
    IN EFI_DEVICE_PATH  *DevPath
    )
{
    EFI_DEVICE_PATH     *End = PathEnd (DevPath);
    EFI_DEVICE_PATH     *Node, *Made, *To;
    UINTN               Size = 0, Unpacked;

    for (Node = DevPath; End && Node <= End; Node = NextDevicePathNode (Node)) {
        Unpacked = UNPACKED (DevicePathNodeLength (Node));
        // The padded length has to fit its two bytes.
        if (Unpacked > 0xffff) {
            return NULL;
        }
        Size += Unpacked;
    }

    To = Made = End ? AllocateZeroPool (Size) : NULL;
    for (Node = DevPath; Made && Node <= End; Node = NextDevicePathNode (Node)) {
        CopyMem (To, Node, DevicePathNodeLength (Node));
        To->Type |= EFI_DP_TYPE_UNPACKED;
        SetDevicePathNodeLength (To, UNPACKED (DevicePathNodeLength (Node)));
        To = NextDevicePathNode (To);
    }

    return Made;
}

/* Returns a copy of a path with `*Size` bytes, without the flags of an unpacked one and the padding of its end nodes. */
static EFI_DEVICE_PATH *
Packed (
    IN EFI_DEVICE_PATH  *Path,
    OUT UINTN           *Size
    )
{
    EFI_DEVICE_PATH     *End = PathEnd (Path);
    EFI_DEVICE_PATH     *Made = AllocatePool (DevicePathSize (Path));
    EFI_DEVICE_PATH     *To = Made;
    UINTN               Length;

    for (; Made && Path <= End; Path = NextDevicePathNode (Path)) {
        Length = DevicePathNodeLength (Path);
        if (IsDevicePathEndType (Path)) {
            Length = HEADER;
        }
        CopyMem (To, Path, Length);
        To->Type &= EFI_DP_TYPE_MASK;
        SetDevicePathNodeLength (To, Length);
        To = AT (To, Length);
    }

    *Size = Made ? SPAN (Made, To) : 0;
    return Made;
}

CHAR16 *
DevicePathToStr (
    EFI_DEVICE_PATH     *DevPath
    )
{
    EFI_DEVICE_PATH     *Path;
    UINTN               Size, Capacity, Length;
    CHAR16              *Text;

    if (!PathEnd (DevPath)) {
        return AllocateZeroPool (sizeof(CHAR16));
    }

    Path = Packed (DevPath, &Size);
    if (!Path) {
        return NULL;
    }

    // The text is made once, in a buffer that is always large enough, and the buffer then shrinks.
    Capacity = NARD_DEVICE_PATH_TEXT_CAPACITY (Size);
    Text = AllocateZeroPool (Capacity * sizeof(CHAR16));
    if (Text && nard_device_path_format_utf16 ((UINT8 *) Path, Size, NARD_STYLE_UEFI, Text, Capacity, &Length, NULL) == NARD_OK) {
        Text = ReallocatePool (Text, Capacity * sizeof(CHAR16), (Length + 1) * sizeof(CHAR16));
    }

    FreePool (Path);
    return Text;
}

BOOLEAN
LibMatchDevicePaths (
    IN EFI_DEVICE_PATH  *Multi,
    IN EFI_DEVICE_PATH  *Single
    )
{
    UINTN               SingleSize = DevicePathSize (Single);
    EFI_DEVICE_PATH     *Instance;
    UINTN               Size;

    while (SingleSize != 0 && (Instance = DevicePathInstance (&Multi, &Size))) {
        if (Size <= SingleSize && CompareMem (Single, Instance, Size) == 0) {
            return TRUE;
        }
    }

    return FALSE;
}

EFI_DEVICE_PATH *
LibDuplicateDevicePathInstance (
    IN EFI_DEVICE_PATH  *DevPath
    )
{
    UINTN               Size;
    EFI_DEVICE_PATH     *Instance = DevicePathInstance (&DevPath, &Size);
    EFI_DEVICE_PATH     *Made = Size == 0 ? NULL : AllocatePool (Size + HEADER);

    if (Made) {
        CopyMem (Made, Instance, Size);
        SetDevicePathEndNode (AT (Made, Size));
    }

    return Made;
}
