/** @file
  The calls of nardcorbel with the types of EDK II.

  SPDX-License-Identifier: MIT OR Apache-2.0
**/
#ifndef NARDCORBEL_PKG_H_
#define NARDCORBEL_PKG_H_

#include <Uefi.h>

#define NARD_TYPES
typedef UINT8    uint8_t;
typedef UINT16   uint16_t;
typedef UINT32   uint32_t;
typedef UINT64   uint64_t;
typedef INT32    int32_t;
typedef UINTN    size_t;
#if !defined (__STDC_VERSION__) || __STDC_VERSION__ < 202311L
typedef BOOLEAN  bool;
#endif
#define NARD_CHAR16  CHAR16
/* The package contains the library that belongs to its header, and EDK II's GenFw takes only some relocations. */
#define NARD_INTERFACE
#include <nardcorbel_nodes.h>

#endif
