/* The header of nardcorbel with gnu-efi's UTF-16. Include it after gnu-efi's headers. */
#ifndef NARDCORBEL_EFI_H
#define NARDCORBEL_EFI_H

#define NARD_CHAR16 CHAR16
#include <nardcorbel.h>

#endif
