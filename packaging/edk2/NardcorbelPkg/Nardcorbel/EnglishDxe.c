/** @file
  The Unicode collation protocols for English on top of nardcorbel.

  SPDX-License-Identifier: MIT OR Apache-2.0
**/
#include "Nardcorbel.h"
#include <Library/BaseLib.h>
#include <Library/UefiBootServicesTableLib.h>
#include <Protocol/UnicodeCollation.h>

STATIC
INTN
EFIAPI
StriColl (
  IN EFI_UNICODE_COLLATION_PROTOCOL  *This,
  IN CHAR16                          *Str1,
  IN CHAR16                          *Str2
  )
{
  return nard_string_compare_ignore_case (Str1, NARD_NUL_TERMINATED, Str2, NARD_NUL_TERMINATED);
}

STATIC
BOOLEAN
EFIAPI
MetaiMatch (
  IN EFI_UNICODE_COLLATION_PROTOCOL  *This,
  IN CHAR16                          *String,
  IN CHAR16                          *Pattern
  )
{
  return nard_string_matches (String, NARD_NUL_TERMINATED, Pattern, NARD_NUL_TERMINATED);
}

STATIC
VOID
EFIAPI
StrLwr (
  IN     EFI_UNICODE_COLLATION_PROTOCOL  *This,
  IN OUT CHAR16                          *Str
  )
{
  nard_string_make_lowercase (Str, StrLen (Str));
}

STATIC
VOID
EFIAPI
StrUpr (
  IN     EFI_UNICODE_COLLATION_PROTOCOL  *This,
  IN OUT CHAR16                          *Str
  )
{
  nard_string_make_uppercase (Str, StrLen (Str));
}

STATIC
VOID
EFIAPI
FatToStr (
  IN  EFI_UNICODE_COLLATION_PROTOCOL  *This,
  IN  UINTN                           FatSize,
  IN  CHAR8                           *Fat,
  OUT CHAR16                          *String
  )
{
  if (nard_string_from_fat ((CONST UINT8 *)Fat, FatSize, String, FatSize + 1, NULL) != NARD_OK) {
    *String = 0;
  }
}

STATIC
BOOLEAN
EFIAPI
StrToFat (
  IN  EFI_UNICODE_COLLATION_PROTOCOL  *This,
  IN  CHAR16                          *String,
  IN  UINTN                           FatSize,
  OUT CHAR8                           *Fat
  )
{
  return nard_fat_from_string (String, NARD_NUL_TERMINATED, (UINT8 *)Fat, FatSize, NULL) != NARD_OK;
}

STATIC EFI_UNICODE_COLLATION_PROTOCOL  mCollation = {
  StriColl, MetaiMatch, StrLwr, StrUpr, FatToStr, StrToFat, "eng"
};

STATIC EFI_UNICODE_COLLATION_PROTOCOL  mCollation2 = {
  StriColl, MetaiMatch, StrLwr, StrUpr, FatToStr, StrToFat, "en"
};

EFI_STATUS
EFIAPI
InstallCollation (
  IN EFI_HANDLE        ImageHandle,
  IN EFI_SYSTEM_TABLE  *SystemTable
  )
{
  EFI_HANDLE  Handle;

  Handle = NULL;
  return gBS->InstallMultipleProtocolInterfaces (
                &Handle,
                &gEfiUnicodeCollationProtocolGuid,
                &mCollation,
                &gEfiUnicodeCollation2ProtocolGuid,
                &mCollation2,
                NULL
                );
}
