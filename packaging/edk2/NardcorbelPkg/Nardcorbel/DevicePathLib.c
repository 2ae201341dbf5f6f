/** @file
  DevicePathLib on top of nardcorbel, which validates paths, walks their nodes, builds them, and formats and parses their text.

  Left to this file are the fields of single nodes, and memory from pools.

  SPDX-License-Identifier: MIT OR Apache-2.0
**/
#include "Nardcorbel.h"
#include <Library/BaseLib.h>
#include <Library/BaseMemoryLib.h>
#include <Library/DebugLib.h>
#include <Library/DevicePathLib.h>
#include <Library/MemoryAllocationLib.h>
#include <Library/PcdLib.h>
#include <Library/UefiBootServicesTableLib.h>
#include <Protocol/DevicePath.h>

#define HEADER  sizeof (EFI_DEVICE_PATH_PROTOCOL)

STATIC CONST EFI_DEVICE_PATH_PROTOCOL  mEmpty = {
  END_DEVICE_PATH_TYPE, END_ENTIRE_DEVICE_PATH_SUBTYPE, { HEADER, 0 }
};

//
// The fields of a node.
//

UINT8
EFIAPI
DevicePathType (
  IN CONST VOID  *Node
  )
{
  ASSERT (Node != NULL);
  return ((CONST EFI_DEVICE_PATH_PROTOCOL *)Node)->Type;
}

UINT8
EFIAPI
DevicePathSubType (
  IN CONST VOID  *Node
  )
{
  ASSERT (Node != NULL);
  return ((CONST EFI_DEVICE_PATH_PROTOCOL *)Node)->SubType;
}

UINTN
EFIAPI
DevicePathNodeLength (
  IN CONST VOID  *Node
  )
{
  ASSERT (Node != NULL);
  return ReadUnaligned16 ((CONST UINT16 *)((CONST EFI_DEVICE_PATH_PROTOCOL *)Node)->Length);
}

EFI_DEVICE_PATH_PROTOCOL *
EFIAPI
NextDevicePathNode (
  IN CONST VOID  *Node
  )
{
  return (EFI_DEVICE_PATH_PROTOCOL *)((UINT8 *)Node + DevicePathNodeLength (Node));
}

BOOLEAN
EFIAPI
IsDevicePathEndType (
  IN CONST VOID  *Node
  )
{
  return DevicePathType (Node) == END_DEVICE_PATH_TYPE;
}

BOOLEAN
EFIAPI
IsDevicePathEnd (
  IN CONST VOID  *Node
  )
{
  return IsDevicePathEndType (Node) && DevicePathSubType (Node) == END_ENTIRE_DEVICE_PATH_SUBTYPE;
}

BOOLEAN
EFIAPI
IsDevicePathEndInstance (
  IN CONST VOID  *Node
  )
{
  return IsDevicePathEndType (Node) && DevicePathSubType (Node) == END_INSTANCE_DEVICE_PATH_SUBTYPE;
}

UINT16
EFIAPI
SetDevicePathNodeLength (
  IN OUT VOID  *Node,
  IN UINTN     Length
  )
{
  ASSERT (Node != NULL);
  ASSERT ((Length >= HEADER) && (Length < SIZE_64KB));
  return WriteUnaligned16 ((UINT16 *)((EFI_DEVICE_PATH_PROTOCOL *)Node)->Length, (UINT16)Length);
}

VOID
EFIAPI
SetDevicePathEndNode (
  OUT VOID  *Node
  )
{
  ASSERT (Node != NULL);
  CopyMem (Node, &mEmpty, HEADER);
}

//
// The size of a path.
//

/**
  The size of a path whose file names end in a NUL, or 0: EDK II takes these names for strings.
**/
STATIC
UINTN
SizeOf (
  IN CONST VOID  *Path,
  IN UINTN       MaxSize
  )
{
  struct nard_device_node  Node;
  UINTN                    Size;
  UINTN                    At;
  UINTN                    Count;

  if ((Path == NULL) || (nard_device_path_size (Path, MaxSize, &Size, NULL) != NARD_OK)) {
    return 0;
  }

  Count = PcdGet32 (PcdMaximumDevicePathNodeCount);
  for (At = 0; nard_device_path_next_node (Path, Size, &At, &Node, NULL) == NARD_OK; Count--) {
    if (Count == 1) {
      return 0;
    }

    if ((Node.node_type == NARD_FILE_PATH) &&
        (nard_packed_length ((CONST UINT8 *)Path + Node.data_offset, Node.data_size, NULL) != NARD_OK))
    {
      return 0;
    }
  }

  return Size;
}

BOOLEAN
EFIAPI
IsDevicePathValid (
  IN CONST EFI_DEVICE_PATH_PROTOCOL  *DevicePath,
  IN       UINTN                     MaxSize
  )
{
  return SizeOf (DevicePath, MaxSize == 0 ? MAX_INTN : MIN (MaxSize, MAX_INTN)) != 0;
}

UINTN
EFIAPI
GetDevicePathSize (
  IN CONST EFI_DEVICE_PATH_PROTOCOL  *DevicePath
  )
{
  return SizeOf (DevicePath, MAX_INTN);
}

//
// Paths that are built.
//

EFI_DEVICE_PATH_PROTOCOL *
EFIAPI
DuplicateDevicePath (
  IN CONST EFI_DEVICE_PATH_PROTOCOL  *DevicePath
  )
{
  UINTN  Size;

  Size = GetDevicePathSize (DevicePath);
  return Size == 0 ? NULL : AllocateCopyPool (Size, DevicePath);
}

/**
  A copy of a path, or of the empty one if it is NULL, and its size, with room for more bytes; NULL if it is invalid or memory runs out.
**/
STATIC
UINT8 *
Copied (
  IN  CONST EFI_DEVICE_PATH_PROTOCOL  *DevicePath  OPTIONAL,
  IN  UINTN                           More,
  OUT UINTN                           *Size
  )
{
  UINT8  *Buffer;

  DevicePath = DevicePath == NULL ? &mEmpty : DevicePath;
  *Size      = GetDevicePathSize (DevicePath);
  Buffer     = *Size == 0 ? NULL : AllocatePool (*Size + More);
  return Buffer == NULL ? NULL : CopyMem (Buffer, DevicePath, *Size);
}

/**
  What was built, or NULL, and no memory, if the library returned an error.
**/
STATIC
EFI_DEVICE_PATH_PROTOCOL *
Built (
  IN nard_status  Status,
  IN UINT8        *Buffer  OPTIONAL
  )
{
  if ((Status != NARD_OK) && (Buffer != NULL)) {
    FreePool (Buffer);
    Buffer = NULL;
  }

  return (EFI_DEVICE_PATH_PROTOCOL *)Buffer;
}

/**
  A path with the nodes of another, after a node that ends an instance if IsInstance.
**/
STATIC
EFI_DEVICE_PATH_PROTOCOL *
Appended (
  IN CONST EFI_DEVICE_PATH_PROTOCOL  *First   OPTIONAL,
  IN CONST EFI_DEVICE_PATH_PROTOCOL  *Second  OPTIONAL,
  IN BOOLEAN                         IsInstance
  )
{
  UINT8        *Buffer;
  UINTN        Size;
  UINTN        SecondSize;
  UINTN        Capacity;
  nard_status  Status;

  Second     = Second == NULL ? &mEmpty : Second;
  SecondSize = GetDevicePathSize (Second);
  Buffer     = SecondSize == 0 ? NULL : Copied (First, SecondSize, &Size);
  if (Buffer == NULL) {
    return NULL;
  }

  Capacity = Size + SecondSize;
  Status   = NARD_OK;
  if (IsInstance) {
    Status = nard_device_path_push (Buffer, Capacity, Size, NARD_END_INSTANCE, NULL, 0, &Size, NULL);
  }

  if (Status == NARD_OK) {
    Status = nard_device_path_append (Buffer, Capacity, Size, (CONST UINT8 *)Second, SecondSize, NULL, NULL);
  }

  return Built (Status, Buffer);
}

/**
  A path with a node of this type and data.
**/
STATIC
EFI_DEVICE_PATH_PROTOCOL *
Pushed (
  IN CONST EFI_DEVICE_PATH_PROTOCOL  *DevicePath  OPTIONAL,
  IN UINT32                          NodeType,
  IN CONST VOID                      *Data,
  IN UINTN                           DataSize
  )
{
  UINT8  *Buffer;
  UINTN  Size;

  Buffer = Copied (DevicePath, HEADER + DataSize, &Size);
  return Buffer == NULL ? NULL : Built (
                                   nard_device_path_push (
                                     Buffer,
                                     Size + HEADER + DataSize,
                                     Size,
                                     NodeType,
                                     Data,
                                     DataSize,
                                     NULL,
                                     NULL
                                     ),
                                   Buffer
                                   );
}

EFI_DEVICE_PATH_PROTOCOL *
EFIAPI
AppendDevicePath (
  IN CONST EFI_DEVICE_PATH_PROTOCOL  *FirstDevicePath   OPTIONAL,
  IN CONST EFI_DEVICE_PATH_PROTOCOL  *SecondDevicePath  OPTIONAL
  )
{
  return Appended (FirstDevicePath, SecondDevicePath, FALSE);
}

EFI_DEVICE_PATH_PROTOCOL *
EFIAPI
AppendDevicePathNode (
  IN CONST EFI_DEVICE_PATH_PROTOCOL  *DevicePath      OPTIONAL,
  IN CONST EFI_DEVICE_PATH_PROTOCOL  *DevicePathNode  OPTIONAL
  )
{
  //
  // Callers append the node that ends a path and mean no node.
  //
  if ((DevicePathNode == NULL) || IsDevicePathEnd (DevicePathNode)) {
    return Appended (DevicePath, NULL, FALSE);
  }

  if (DevicePathNodeLength (DevicePathNode) < HEADER) {
    return NULL;
  }

  return Pushed (
           DevicePath,
           DevicePathNode->Type * 256 + DevicePathNode->SubType,
           DevicePathNode + 1,
           DevicePathNodeLength (DevicePathNode) - HEADER
           );
}

EFI_DEVICE_PATH_PROTOCOL *
EFIAPI
AppendDevicePathInstance (
  IN CONST EFI_DEVICE_PATH_PROTOCOL  *DevicePath          OPTIONAL,
  IN CONST EFI_DEVICE_PATH_PROTOCOL  *DevicePathInstance  OPTIONAL
  )
{
  if (DevicePathInstance == NULL) {
    return NULL;
  }

  return Appended (DevicePath, DevicePathInstance, DevicePath != NULL);
}

EFI_DEVICE_PATH_PROTOCOL *
EFIAPI
CreateDeviceNode (
  IN UINT8   NodeType,
  IN UINT8   NodeSubType,
  IN UINT16  NodeLength
  )
{
  EFI_DEVICE_PATH_PROTOCOL  *Node;

  Node = NodeLength < HEADER ? NULL : AllocateZeroPool (NodeLength);
  if (Node != NULL) {
    Node->Type    = NodeType;
    Node->SubType = NodeSubType;
    SetDevicePathNodeLength (Node, NodeLength);
  }

  return Node;
}

EFI_DEVICE_PATH_PROTOCOL *
EFIAPI
DevicePathFromHandle (
  IN EFI_HANDLE  Handle
  )
{
  EFI_DEVICE_PATH_PROTOCOL  *DevicePath;

  if (EFI_ERROR (gBS->HandleProtocol (Handle, &gEfiDevicePathProtocolGuid, (VOID **)&DevicePath))) {
    return NULL;
  }

  return DevicePath;
}

EFI_DEVICE_PATH_PROTOCOL *
EFIAPI
FileDevicePath (
  IN EFI_HANDLE    Device  OPTIONAL,
  IN CONST CHAR16  *FileName
  )
{
  return Pushed (
           Device == NULL ? NULL : DevicePathFromHandle (Device),
           NARD_FILE_PATH,
           FileName,
           StrSize (FileName)
           );
}

//
// Instances.
//

/**
  Where the first instance of a path ends, and whether another one follows.
**/
STATIC
BOOLEAN
EndOfInstance (
  IN  CONST VOID  *Path,
  IN  UINTN       Size,
  OUT UINTN       *End
  )
{
  struct nard_device_node  Node;
  UINTN                    At;

  At = 0;
  for (*End = 0; nard_device_path_next_node (Path, Size, &At, &Node, NULL) == NARD_OK; *End = At) {
    if (Node.node_type == NARD_END_INSTANCE) {
      return TRUE;
    }
  }

  return FALSE;
}

BOOLEAN
EFIAPI
IsDevicePathMultiInstance (
  IN CONST EFI_DEVICE_PATH_PROTOCOL  *DevicePath
  )
{
  UINTN  Size;
  UINTN  End;

  Size = GetDevicePathSize (DevicePath);
  return Size != 0 && EndOfInstance (DevicePath, Size, &End);
}

EFI_DEVICE_PATH_PROTOCOL *
EFIAPI
GetNextDevicePathInstance (
  IN OUT EFI_DEVICE_PATH_PROTOCOL  **DevicePath,
  OUT UINTN                        *Size
  )
{
  EFI_DEVICE_PATH_PROTOCOL  *Instance;
  UINTN                     Whole;
  UINTN                     End;
  BOOLEAN                   IsMore;

  ASSERT (Size != NULL);
  *Size = 0;
  Whole = DevicePath == NULL ? 0 : GetDevicePathSize (*DevicePath);
  if (Whole == 0) {
    return NULL;
  }

  IsMore   = EndOfInstance (*DevicePath, Whole, &End);
  *Size    = End + HEADER;
  Instance = AllocateCopyPool (*Size, *DevicePath);
  if (Instance != NULL) {
    SetDevicePathEndNode ((UINT8 *)Instance + End);
  }

  *DevicePath = IsMore ? (EFI_DEVICE_PATH_PROTOCOL *)((UINT8 *)*DevicePath + *Size) : NULL;
  return Instance;
}

//
// Text. The first call of the library gives the length of the result.
//

typedef nard_status NARD_CALL FORMAT (
  IN  CONST uint8_t  *Bytes,
  IN  size_t         Size,
  IN  uint32_t       Style,
  OUT nard_char16    *Text,
  IN  size_t         Capacity,
  OUT size_t         *Length,
  OUT size_t         *Fault
  );

STATIC
CHAR16 *
TextOf (
  IN FORMAT      *Format,
  IN CONST VOID  *Bytes,
  IN UINTN       Size,
  IN BOOLEAN     DisplayOnly,
  IN BOOLEAN     AllowShortcuts
  )
{
  CHAR16  *Text;
  UINTN   Length;
  UINT32  Style;

  Style = NARD_STYLE_UEFI | (DisplayOnly ? NARD_DISPLAY_ONLY : 0) | (AllowShortcuts ? NARD_ALLOW_SHORTCUTS : 0);
  if (Format (Bytes, Size, Style, NULL, 0, &Length, NULL) != NARD_BUFFER_TOO_SMALL) {
    return NULL;
  }

  Text = AllocatePool ((Length + 1) * sizeof (CHAR16));
  if (Text == NULL) {
    return NULL;
  }

  return (CHAR16 *)Built (Format (Bytes, Size, Style, Text, Length + 1, NULL, NULL), (UINT8 *)Text);
}

CHAR16 *
EFIAPI
ConvertDevicePathToText (
  IN CONST EFI_DEVICE_PATH_PROTOCOL  *DevicePath,
  IN BOOLEAN                         DisplayOnly,
  IN BOOLEAN                         AllowShortcuts
  )
{
  UINTN  Size;

  if ((DevicePath == NULL) || (nard_device_path_size ((CONST UINT8 *)DevicePath, MAX_INTN, &Size, NULL) != NARD_OK)) {
    return NULL;
  }

  return TextOf (nard_device_path_format_utf16, DevicePath, Size, DisplayOnly, AllowShortcuts);
}

CHAR16 *
EFIAPI
ConvertDeviceNodeToText (
  IN CONST EFI_DEVICE_PATH_PROTOCOL  *DeviceNode,
  IN BOOLEAN                         DisplayOnly,
  IN BOOLEAN                         AllowShortcuts
  )
{
  if (DeviceNode == NULL) {
    return NULL;
  }

  return TextOf (
           nard_node_format_utf16,
           DeviceNode,
           MAX (DevicePathNodeLength (DeviceNode), HEADER),
           DisplayOnly,
           AllowShortcuts
           );
}

EFI_DEVICE_PATH_PROTOCOL *
EFIAPI
ConvertTextToDevicePath (
  IN CONST CHAR16  *TextDevicePath
  )
{
  EFI_DEVICE_PATH_PROTOCOL  *Path;
  CHAR8                     *Text;
  UINT8                     *Buffer;
  UINTN                     Length;
  UINTN                     Size;

  if ((TextDevicePath == NULL) || (*TextDevicePath == 0)) {
    return NULL;
  }

  //
  // The library's reader of UTF-8 is smaller than that of UTF-16.
  //
  Length = 3 * StrLen (TextDevicePath) + 1;
  Text   = AllocatePool (Length);
  if (Text == NULL) {
    return NULL;
  }

  Path = NULL;
  if ((nard_string_to_utf8 (TextDevicePath, NARD_NUL_TERMINATED, Text, Length, &Length, NULL) == NARD_OK) &&
      (nard_device_path_parse (Text, Length, NARD_STYLE_TYPED, NULL, 0, &Size, NULL) == NARD_BUFFER_TOO_SMALL))
  {
    Buffer = AllocatePool (Size);
    if (Buffer != NULL) {
      Path = Built (nard_device_path_parse (Text, Length, NARD_STYLE_TYPED, Buffer, Size, NULL, NULL), Buffer);
    }
  }

  FreePool (Text);
  return Path;
}

EFI_DEVICE_PATH_PROTOCOL *
EFIAPI
ConvertTextToDeviceNode (
  IN CONST CHAR16  *TextDeviceNode
  )
{
  EFI_DEVICE_PATH_PROTOCOL  *Path;

  //
  // The bytes of a path begin with its first node.
  //
  Path = ConvertTextToDevicePath (TextDeviceNode);
  return Built ((Path != NULL) && IsDevicePathEnd (Path) ? NARD_NO_NODE : NARD_OK, (UINT8 *)Path);
}
