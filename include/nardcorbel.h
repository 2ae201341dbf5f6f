/*
 * nardcorbel: strings, paths, device paths and boot entries for UEFI firmware.
 *
 * The library parses, prints, compares and builds the data that firmware stores in its variables. It accepts exactly what the UEFI
 * Specification allows and rejects everything else with a status code and the offset of the first invalid byte. It allocates no
 * memory, keeps no state, calls no other code, and needs no C library.
 *
 *     #include <nardcorbel.h>
 *
 *     // Prints where a boot entry points, for example HD(1,GPT,...,0x800,0x100000)/\EFI\debian\shimx64.efi
 *     void print_entry(const uint8_t *entry, size_t size)
 *     {
 *         struct nard_load_option option;
 *         char text[512];
 *         nard_status status = nard_load_option_read(entry, size, &option, NULL);
 *         if (status == NARD_OK)
 *             status = nard_device_path_format(option.path, option.path_size, NARD_STYLE_UEFI, text, sizeof text, NULL, NULL);
 *         puts(status == NARD_OK ? text : nard_status_text(status));
 *     }
 *
 * Which call for which job
 *   boot entries      nard_load_option_read, _next_path, _description, _write; nard_boot_name_read, nard_boot_order_read
 *   device paths      nard_device_path_check, _size, _next_node, _file_path, _is_expansion, _strip_prefix
 *   nodes             nard_node_number, nard_node_format, and the types and fields of nardcorbel_nodes.h
 *   text of paths     nard_device_path_format, _parse, _push_text, _text_extent, _explain
 *   building paths    nard_device_path_init, _push, _append, _push_text
 *   file paths        nard_path_check, _normalize, _push, _join, _parent, _next_component, _equal, _compare, _matches
 *   strings           nard_string_check, _length, _equal, _compare, _matches, _from_utf8, _to_utf8; nard_packed_escape
 *   FAT file names    nard_fat_name_check, _equal, _is_short; nard_fat_from_string, nard_string_from_fat
 *
 * Text
 *   Text is UTF-8 in `char` and UTF-16 in nard_char16. Calls on strings, file paths and file names use UTF-16, as firmware stores
 *   them. Text of device paths and boot entries is UTF-8. Where both exist, the call for UTF-16 has the suffix _utf16.
 *
 *   A text is passed as a pointer and the number of its elements. For UTF-16 the text ends earlier if it contains a NUL. Pass
 *   NARD_NUL_TERMINATED as the number if a NUL ends the text. A "string" is a UTF-16 text without surrogates (0xd800 to 0xdfff);
 *   where a call asks for a NUL-terminated string, the NUL must be among the elements that you pass.
 *
 * Results
 *   - Most calls return a nard_status. NARD_OK is success, and so are the codes from NARD_END on, which carry news: test with
 *     nard_succeeded. nard_status_text gives the code in words.
 *   - *length (in elements, without the NUL) or *size (in bytes) receives the length of the complete result, if the call succeeds
 *     and if it returns NARD_BUFFER_TOO_SMALL. To find out the length, pass a capacity of 0. A text needs a capacity of one more
 *     element, for its NUL.
 *   - *fault receives the index of the first invalid element of the input, or the offset of the first invalid byte, if the input is
 *     invalid there.
 *   - Everything else is unchanged. In particular, a call that fails leaves the buffer, *length, *size and *fault as they were,
 *     except as said here. Elements after the result are never changed.
 *   - length, size, fault and character may be null if you don't want these results.
 *
 * Rules for the caller
 *   - An input pointer may be null if its number of elements is 0, and so may a buffer if its capacity is 0.
 *   - Pointers to UTF-16 text, numbers and structs are aligned for their type. Bytes, and so device paths and load options, may have
 *     any address. A file name in a node may begin at an odd address: nard_units_from_bytes copies it to an even one.
 *   - Inputs are initialized up to their number of elements, even after a NUL, because searches test many elements at once. The
 *     number is at most PTRDIFF_MAX bytes, unless it is NARD_NUL_TERMINATED.
 *   - A capacity is the number of elements that the buffer has, never NARD_NUL_TERMINATED.
 *   - Memory that a call writes overlaps no other argument. Memory that it only reads may overlap.
 *   - Calls keep no state, so any number of threads may call them at once. While a call runs, nothing else writes its arguments or
 *     reads what it writes: no other thread, interrupt, or device.
 *   - The stack has 12,000 bytes for a call and the functions that it calls.
 *
 * Versions
 *   While the major version is 0, a new minor version (0.8 to 0.9) may change names, types and behavior. The soname, and a symbol to
 *   which each object refers, change with it, so an object does not link or run with a library of another interface. A new patch
 *   version keeps sources and binaries working. New status codes may be added at any time.
 *
 * Platforms
 *   libnardcorbel.a and libnardcorbel.so are for Linux on x86-64 and aarch64. libnardcorbel_firmware.a (ELF) and
 *   nardcorbel_firmware.lib (COFF) are for firmware on both: they use general registers only and no red zone. For other processors
 *   with 64 bits, build the source form with clang.
 *
 * What is proved
 *   Each call is proved to do what its contract says (crates/nardcorbel/CALLING.md): it accesses no memory outside its arguments,
 *   always returns, and gives the documented result for every input. The `static inline` functions below, and the code that turns a
 *   null pointer or NARD_NUL_TERMINATED into plain arguments, are tested, not proved.
 */
#ifndef NARDCORBEL_H
#define NARDCORBEL_H

#if (defined(__SIZEOF_POINTER__) && __SIZEOF_POINTER__ != 8) || (defined(_WIN32) && !defined(_WIN64))
#error "nardcorbel is for 64-bit processors: not -m32, -mx32 or -mabi=ilp32"
#endif

/* Without these headers, define NARD_TYPES, and uint8_t to uint64_t, int32_t, size_t, bool and NULL, before you include this one. */
#ifndef NARD_TYPES
#include <stdbool.h>
#include <stddef.h>
#include <stdint.h>
#endif

/* An element of UTF-16 text. Define NARD_CHAR16 before to use another type of 16 bits, such as CHAR16, or char16_t in C++. */
#ifndef NARD_CHAR16
#define NARD_CHAR16 uint16_t
#endif
typedef NARD_CHAR16 nard_char16;

/* The number of elements of a text that ends with a NUL. */
#define NARD_NUL_TERMINATED ((size_t)-1)

#ifndef NARD_CALL
/* The calling convention: System V in ELF for x86-64, otherwise the platform's own, whatever the compiler's options say. */
#if defined(__x86_64__) && defined(__ELF__)
#define NARD_CALL __attribute__((sysv_abi))
#elif defined(__x86_64__) && defined(_WIN32) && defined(__GNUC__)
#define NARD_CALL __attribute__((ms_abi))
#else
#define NARD_CALL
#endif
#endif

#ifndef NARD_MUST_USE
/* The compiler warns if a program ignores a status. To disable the warning, define this as nothing first. */
#if defined(__GNUC__)
#define NARD_MUST_USE __attribute__((warn_unused_result))
#else
#define NARD_MUST_USE
#endif
#endif

#define NARD_VERSION_MAJOR 0
#define NARD_VERSION_MINOR 8
#define NARD_VERSION_PATCH 0
#define NARD_VERSION "0.8.0-dev"

/*
 * Refers to nard_interface_0_8 without a byte of code, so that an object does not link with a library of another interface. The
 * reference is in a section of debug information, because GNU ld accepts one to a shared library only there. To leave it out, define
 * this as nothing first.
 */
#ifndef NARD_INTERFACE
#define NARD_REFERENCE(relocation) \
    __asm__(".pushsection .debug_nardcorbel,\"\",@progbits\n.globl nard_interface_0_8\n" \
            ".reloc ., " relocation ", nard_interface_0_8\n.byte 0\n.popsection");
#if defined(__ELF__) && defined(__x86_64__)
#define NARD_INTERFACE NARD_REFERENCE("R_X86_64_NONE")
#elif defined(__ELF__) && defined(__aarch64__)
#define NARD_INTERFACE NARD_REFERENCE("R_AARCH64_NONE")
#else
#define NARD_INTERFACE
#if defined(_WIN32) && !defined(__MINGW32__)
#pragma comment(linker, "/include:nard_interface_0_8")
#endif
#endif
#endif
NARD_INTERFACE

#ifdef __cplusplus
extern "C" {
#endif

/* ---- Status codes ---- */

/* The name of each code, its number, and its text. */
#define NARD_STATUS_CODES(CODE) \
    CODE(OK, 0, "success") \
    CODE(NO_NUL, 1, "not null-terminated") \
    CODE(INVALID_CHAR, 2, "invalid character") \
    CODE(INTERIOR_NUL, 3, "interior null character") \
    CODE(BUFFER_TOO_SMALL, 4, "buffer too small") \
    CODE(NOT_UTF8, 5, "invalid UTF-8") \
    CODE(ODD_BYTES, 6, "odd number of bytes") \
    CODE(PATH_EMPTY, 7, "path is empty") \
    CODE(EMPTY_COMPONENT, 8, "path contains an empty component") \
    CODE(ILLEGAL_CHAR, 9, "path contains an illegal character") \
    CODE(CLIMBS_ABOVE_ROOT, 10, "path climbs above the root") \
    CODE(NO_PARENT, 11, "path has no parent") \
    CODE(NO_END_NODE, 12, "device path has no end node") \
    CODE(TRUNCATED_HEADER, 13, "device path ends within a node header") \
    CODE(UNKNOWN_END, 14, "end node has an unknown sub-type") \
    CODE(LENGTH_BELOW_HEADER, 15, "device path node is shorter than its header") \
    CODE(END_WITH_DATA, 16, "end node has data") \
    CODE(NODE_BEYOND_END, 17, "device path node extends past the end of the data") \
    CODE(OPTION_TOO_SHORT, 18, "load option ends before its description") \
    CODE(DESCRIPTION_WITHOUT_END, 19, "description is not null-terminated") \
    CODE(LIST_BEYOND_END, 20, "file path list extends past the end of the load option") \
    CODE(EMPTY_LIST, 21, "file path list is empty") \
    CODE(UNKNOWN_STYLE, 22, "unknown text style") \
    CODE(NAME_EMPTY, 23, "name contains only spaces and dots") \
    CODE(NAME_TOO_LONG, 24, "name is longer than 255 characters") \
    CODE(NODE_OF_END, 26, "end node is only allowed at the end of a device path") \
    CODE(NODE_TOO_LONG, 27, "device path node is longer than 65,535 bytes") \
    CODE(LIST_TOO_LONG, 28, "file path list is longer than 65,535 bytes") \
    CODE(NOT_A_NAME, 29, "not the name of a load option") \
    CODE(NO_NODE, 31, "not a device path") \
    CODE(NO_FIELD, 32, "device path node has no such field") \
    CODE(END, 256, "no more items") \
    CODE(CHAR_REPLACED, 257, "a character was replaced by '_'")

typedef enum nard_status {
#define NARD_AS_CONSTANT(name, number, text) NARD_##name = number,
    NARD_STATUS_CODES(NARD_AS_CONSTANT)
#undef NARD_AS_CONSTANT
} nard_status;

/* Returns whether a call succeeded: NARD_OK, or a code that carries news, such as NARD_END. */
static inline bool nard_succeeded(nard_status status)
{
    return status == NARD_OK || status >= NARD_END;
}

/* Returns a status in words. */
static inline const char *nard_status_text(nard_status status)
{
    switch (status) {
#define NARD_AS_CASE(name, number, text) \
    case NARD_##name: \
        return text;
        NARD_STATUS_CODES(NARD_AS_CASE)
#undef NARD_AS_CASE
    }
    return "unknown status";
}

/*
 * Returns the EFI_STATUS for a status: EFI_NOT_FOUND if a path has no parent or there are no more items, and EFI_SUCCESS for
 * NARD_CHAR_REPLACED, because the text was written.
 */
static inline uint64_t nard_to_efi_status(nard_status status)
{
    const uint64_t error = (uint64_t)1 << 63;

    switch (status) {
    case NARD_OK:
    case NARD_CHAR_REPLACED:
        return 0;
    case NARD_BUFFER_TOO_SMALL:
        return error | 5;
    case NARD_NO_PARENT:
    case NARD_END:
        return error | 14;
    default:
        return error | 2; /* EFI_INVALID_PARAMETER */
    }
}

/* ---- Strings ---- */

/*
 * Checks that `text` is exactly one NUL-terminated string.
 *
 *   *length   receives the number of characters before the NUL
 *
 * Returns
 *   NARD_OK
 *   NARD_NO_NUL        there is no NUL, and no surrogate; *fault is text_length
 *   NARD_INVALID_CHAR  a surrogate comes first, at *fault
 *   NARD_INTERIOR_NUL  a NUL comes first, at *fault, but is not the last element
 */
NARD_MUST_USE nard_status NARD_CALL nard_string_check(const nard_char16 *text, size_t text_length, size_t *length, size_t *fault);

/*
 * Returns the length of the NUL-terminated string at the start of `text`. What follows the first NUL is ignored.
 *
 * Returns
 *   NARD_OK            *length is the number of characters before the NUL
 *   NARD_NO_NUL        there is no NUL, and no surrogate; *fault is text_length
 *   NARD_INVALID_CHAR  a surrogate comes first, at *fault
 */
NARD_MUST_USE nard_status NARD_CALL nard_string_length(const nard_char16 *text, size_t text_length, size_t *length, size_t *fault);

/* Returns whether two texts are the same. They may contain surrogates, as in all calls from here to nard_string_make_lowercase. */
bool NARD_CALL nard_string_equal(const nard_char16 *first, size_t first_length, const nard_char16 *second, size_t second_length);

/* Compares two texts, element by element. Returns -1, 0 or 1 if the first is less than, equal to, or greater than the second. */
int32_t NARD_CALL nard_string_compare(const nard_char16 *first, size_t first_length,
                                      const nard_char16 *second, size_t second_length);

/* Returns whether a text is ASCII. */
bool NARD_CALL nard_string_is_ascii(const nard_char16 *text, size_t text_length);

/*
 * Compares two texts without case, as the firmware's Unicode collation does in StriColl (UEFI Specification 2.10, section 21.1): `a`
 * to `z`, and U+00E0 to U+00FE except U+00F7, count as their capitals.
 */
bool NARD_CALL nard_string_equal_ignore_case(const nard_char16 *first, size_t first_length,
                                             const nard_char16 *second, size_t second_length);
int32_t NARD_CALL nard_string_compare_ignore_case(const nard_char16 *first, size_t first_length,
                                                  const nard_char16 *second, size_t second_length);

/* Changes a text to upper or lower case, as StrUpr and StrLwr do, and returns its length. The rest of the buffer is unchanged. */
size_t NARD_CALL nard_string_make_uppercase(nard_char16 *buffer, size_t capacity);
size_t NARD_CALL nard_string_make_lowercase(nard_char16 *buffer, size_t capacity);

/*
 * Returns whether a pattern matches a whole text without case, as MetaiMatch does: `*` matches any text, `?` one element, and
 * `[a-z]` one element of a set. A pattern of p elements reads fewer than (p + 1) * (t + 1) elements of a text of t.
 */
bool NARD_CALL nard_string_matches(const nard_char16 *text, size_t text_length,
                                   const nard_char16 *pattern, size_t pattern_length);

/* ---- Conversions ---- */

/*
 * Copies the UTF-16 elements that bytes encode, the low byte first, to the start of a buffer. The bytes may begin at any address. No
 * NUL is added.
 *
 * Returns
 *   NARD_OK
 *   NARD_ODD_BYTES          bytes_size is odd
 *   NARD_BUFFER_TOO_SMALL   capacity < *length
 */
NARD_MUST_USE nard_status NARD_CALL nard_units_from_bytes(const uint8_t *bytes, size_t bytes_size,
                                                          nard_char16 *buffer, size_t capacity, size_t *length);

/*
 * Returns the length of the UTF-16 text in bytes, at any address, up to its NUL. An odd byte at the end is ignored.
 *
 * Returns
 *   NARD_OK      *length is the number of elements before the NUL
 *   NARD_NO_NUL  there is no NUL
 */
NARD_MUST_USE nard_status NARD_CALL nard_packed_length(const uint8_t *bytes, size_t bytes_size, size_t *length);

/*
 * Converts the UTF-16 text in bytes, at any address, up to its NUL, to UTF-8 that you can show on a terminal. Each surrogate without a
 * partner becomes U+FFFD. Control characters, and characters that change the direction of text, are escaped as \u{1B}. An odd byte at
 * the end is ignored.
 *
 * Returns
 *   NARD_OK
 *   NARD_BUFFER_TOO_SMALL   capacity <= *size
 */
NARD_MUST_USE nard_status NARD_CALL nard_packed_escape(const uint8_t *bytes, size_t bytes_size,
                                                       char *buffer, size_t capacity, size_t *size);

/*
 * Converts UTF-8 to a NUL-terminated string.
 *
 * Returns
 *   NARD_OK
 *   NARD_NOT_UTF8                           the text is UTF-8 only up to the byte at *fault
 *   NARD_INVALID_CHAR, NARD_INTERIOR_NUL    the character at index *fault is above U+FFFF, or a NUL
 *   NARD_BUFFER_TOO_SMALL                   capacity <= *length
 */
NARD_MUST_USE nard_status NARD_CALL nard_string_from_utf8(const char *text, size_t text_size,
                                                          nard_char16 *buffer, size_t capacity, size_t *length, size_t *fault);

/*
 * Converts the NUL-terminated string at the start of `text` to UTF-8, with a NUL.
 *
 * Returns
 *   NARD_OK
 *   NARD_NO_NUL, NARD_INVALID_CHAR   as nard_string_length, with its *fault
 *   NARD_BUFFER_TOO_SMALL            capacity <= *size
 */
NARD_MUST_USE nard_status NARD_CALL nard_string_to_utf8(const nard_char16 *text, size_t text_length,
                                                        char *buffer, size_t capacity, size_t *size, size_t *fault);

/*
 * Converts a text to UTF-8, with a NUL, whatever it contains: each surrogate without a partner becomes U+FFFD.
 *
 * The result may contain control characters, such as ESC, and characters that change the direction of text. To
 * show a text on a terminal, use nard_packed_escape.
 *
 * Returns
 *   NARD_OK
 *   NARD_BUFFER_TOO_SMALL   capacity <= *size
 */
NARD_MUST_USE nard_status NARD_CALL nard_string_to_utf8_lossy(const nard_char16 *text, size_t text_length,
                                                              char *buffer, size_t capacity, size_t *size);

/*
 * Returns whether `text` begins with a NUL-terminated string, `utf8` is UTF-8, and one of the two texts, each up to its first NUL,
 * is a prefix of the other.
 */
bool NARD_CALL nard_string_equal_until_nul(const nard_char16 *text, size_t text_length, const char *utf8, size_t utf8_size);

/* Returns whether `text` is UTF-8 and has no character above U+00FF. */
bool NARD_CALL nard_utf8_is_latin1(const char *text, size_t text_size);

/* ---- File paths ---- */

/*
 * Checks that the NUL-terminated string at the start of `path` is the path of a file: components without illegal characters, with
 * one `\` between each two, and at most one at the start. A `/` is illegal: nard_path_normalize_utf16 accepts it. To validate a path in
 * UTF-8, normalize it with nard_path_normalize.
 *
 *   *length      receives the length of the path
 *   *character   receives the character that is not allowed, or 0
 *
 * Returns
 *   NARD_OK
 *   NARD_NO_NUL, NARD_INVALID_CHAR   as nard_string_length, with its *fault
 *   NARD_PATH_EMPTY, NARD_EMPTY_COMPONENT, NARD_ILLEGAL_CHAR, NARD_CLIMBS_ABOVE_ROOT
 *                                    the component that begins at *fault is the first that is wrong
 */
NARD_MUST_USE nard_status NARD_CALL nard_path_check(const nard_char16 *path, size_t path_length,
                                                    size_t *length, size_t *fault, nard_char16 *character);

/* Returns whether two paths are equal: one `\` at their start makes no difference. */
bool NARD_CALL nard_path_equal(const nard_char16 *first, size_t first_length, const nard_char16 *second, size_t second_length);

/* Compares two paths as nard_string_compare does, without one `\` at their start. */
int32_t NARD_CALL nard_path_compare(const nard_char16 *first, size_t first_length,
                                    const nard_char16 *second, size_t second_length);

/* Returns whether two paths are equal without case: one `\` at their start makes no difference. */
bool NARD_CALL nard_path_equal_ignore_case(const nard_char16 *first, size_t first_length,
                                           const nard_char16 *second, size_t second_length);

/*
 * Returns whether both begin with a NUL-terminated string, both have the same number of components, and each component of the
 * pattern matches that of the path, as in nard_string_matches. So `*` does not match a `\`.
 */
bool NARD_CALL nard_path_matches(const nard_char16 *path, size_t path_length, const nard_char16 *pattern, size_t pattern_length);

/*
 * Finds the next component of a path. The path is all of its path_length elements; a NUL is not special here.
 *
 *   *offset             in: 0 at first, then that of the previous call; out: where to continue
 *   *start              receives the index at which the component begins
 *   *component_length   receives its length
 *
 * Returns false after the last component; all three are then unchanged.
 */
bool NARD_CALL nard_path_next_component(const nard_char16 *path, size_t path_length,
                                        size_t *offset, size_t *start, size_t *component_length);

/*
 * Finds the last component of a path of path_length elements, which begins at *start. Returns false if there is none; *start is then
 * unchanged.
 */
bool NARD_CALL nard_path_file_name(const nard_char16 *path, size_t path_length, size_t *start);

/*
 * Finds the parent of a path of path_length elements: its first *parent_length elements are a path of all components but the last.
 * Returns false if there is at most one component; *parent_length is then unchanged. nard_path_parent writes the parent without a
 * `\` at its start.
 */
bool NARD_CALL nard_path_parent_length(const nard_char16 *path, size_t path_length, size_t *parent_length);

/*
 * Adds a path to the path in the first path_length elements of a buffer, and a NUL. Each `/` of the added path becomes `\`. If the
 * first path is not empty and does not end with `\`, one is added between the two. An empty path adds nothing. The time depends on
 * the length of `other` only; the elements before are not checked.
 *
 * Returns
 *   NARD_OK                 *length is the length of both: the path_length of the next call
 *   NARD_INVALID_CHAR       `other` contains a surrogate, at *fault
 *   NARD_BUFFER_TOO_SMALL   capacity <= *length; or capacity < path_length, with *length unchanged
 */
NARD_MUST_USE nard_status NARD_CALL nard_path_push(nard_char16 *buffer, size_t capacity, size_t path_length,
                                                   const nard_char16 *other, size_t other_length, size_t *length, size_t *fault);

/*
 * Writes a path with another added to it, as nard_path_push does, to a buffer. Both are NUL-terminated strings. Each `/` becomes `\`.
 *
 * Returns
 *   NARD_OK
 *   NARD_NO_NUL, NARD_INVALID_CHAR   as nard_string_length of `path`, or else of `other`, with its *fault
 *   NARD_BUFFER_TOO_SMALL            capacity <= *length
 */
NARD_MUST_USE nard_status NARD_CALL nard_path_join(const nard_char16 *path, size_t path_length,
                                                   const nard_char16 *other, size_t other_length,
                                                   nard_char16 *buffer, size_t capacity, size_t *length, size_t *fault);

/*
 * Writes the parent of a path, a NUL-terminated string, to a buffer: all components but the last, with each `/` replaced, without a
 * `\` at the start. Empty components are omitted. If an empty component comes right before the last one, the parent ends with `\`:
 * the parent of `a\\b\\c` is `a\b\`.
 *
 * Returns
 *   NARD_OK
 *   NARD_NO_NUL, NARD_INVALID_CHAR   as nard_string_length, with its *fault
 *   NARD_NO_PARENT                   the path has at most one component
 *   NARD_BUFFER_TOO_SMALL            capacity <= *length
 */
NARD_MUST_USE nard_status NARD_CALL nard_path_parent(const nard_char16 *path, size_t path_length,
                                                     nard_char16 *buffer, size_t capacity, size_t *length, size_t *fault);

/*
 * Writes the normal form of a path, a NUL-terminated string, to a buffer: with each `/` replaced, without `.`, and without each name
 * that a `..` cancels. If nothing is left, the normal form is a lone `\`.
 *
 *   *character   receives the character that is not allowed, or 0
 *
 * Returns
 *   NARD_OK
 *   NARD_NO_NUL, NARD_INVALID_CHAR   as nard_string_length, with its *fault
 *   NARD_PATH_EMPTY, NARD_EMPTY_COMPONENT, NARD_ILLEGAL_CHAR, NARD_CLIMBS_ABOVE_ROOT
 *                                    as nard_path_check of the path with each `/` replaced, but *fault is unchanged
 *   NARD_BUFFER_TOO_SMALL            capacity <= *length
 */
NARD_MUST_USE nard_status NARD_CALL nard_path_normalize_utf16(const nard_char16 *path, size_t path_length, nard_char16 *buffer,
                                                        size_t capacity, size_t *length, size_t *fault, nard_char16 *character);

/*
 * Writes the normal form of a path in UTF-8 to a buffer, as UTF-16. A capacity of 2 * path_size + 2 is enough for every path: the call
 * first writes the path to the second half of the buffer, from buffer[capacity / 2] on, as nard_string_from_utf8 does, and then its
 * normal form to the first half, as nard_path_normalize_utf16 does. If the first step fails, the whole buffer is unchanged, and if the
 * second one fails, the first half is.
 *
 * Returns as nard_string_from_utf8 for the second half, and otherwise as nard_path_normalize_utf16 for the first half.
 */
NARD_MUST_USE nard_status NARD_CALL nard_path_normalize(const char *path, size_t path_size, nard_char16 *buffer,
                                                             size_t capacity, size_t *length, size_t *fault, nard_char16 *character);

/* ---- Names on FAT volumes (section 13.3) ---- */

/*
 * Checks that the NUL-terminated string at the start of `name` can be the name of a file on a FAT volume. The file system removes
 * spaces at the start of a name, and spaces and dots at its end, before it looks for a file: the result is the trimmed name.
 *
 *   *length      receives the length of the name
 *   *character   receives the character that is not allowed, or 0
 *
 * Returns
 *   NARD_OK
 *   NARD_NO_NUL, NARD_INVALID_CHAR   as nard_string_length, with its *fault
 *   NARD_NAME_EMPTY                  the trimmed name is empty, as for "." and "..", which name directories
 *   NARD_NAME_TOO_LONG               the trimmed name has more than 255 characters
 *   NARD_ILLEGAL_CHAR                a character of the trimmed name is below U+0020, or one of " * / : < > ? \ |
 */
NARD_MUST_USE nard_status NARD_CALL nard_fat_name_check(const nard_char16 *name, size_t name_length,
                                                        size_t *length, size_t *fault, nard_char16 *character);

/* Returns whether both begin with a NUL-terminated string, and both name the same file: the trimmed names are equal without case. */
bool NARD_CALL nard_fat_name_equal(const nard_char16 *first, size_t first_length,
                                   const nard_char16 *second, size_t second_length);

/*
 * Returns whether `name` begins with a NUL-terminated string that is an 8.3 name as a directory entry stores it: 1 to 8 characters,
 * and optionally a dot and 1 to 3 more, all of them capital letters, digits or marks that 8.3 names allow.
 */
bool NARD_CALL nard_fat_name_is_short(const nard_char16 *name, size_t name_length);

/*
 * Writes a text in the 8-bit characters of 8.3 names, as StrToFat does. Spaces and dots are skipped. Any other element is written in
 * upper case, or as '_' if 8.3 names do not allow it. No NUL is written.
 *
 * Returns NARD_OK, or NARD_CHAR_REPLACED if a '_' replaces another character. *size is the number of bytes written: as many as fit.
 */
NARD_MUST_USE nard_status NARD_CALL nard_fat_from_string(const nard_char16 *text, size_t text_length,
                                                         uint8_t *buffer, size_t capacity, size_t *size);

/*
 * Writes an element for each byte before the first NUL, or for all bytes if there is none, and a NUL, as FatToStr does.
 *
 * Returns
 *   NARD_OK
 *   NARD_BUFFER_TOO_SMALL   capacity <= *length
 */
NARD_MUST_USE nard_status NARD_CALL nard_string_from_fat(const uint8_t *bytes, size_t bytes_size,
                                                         nard_char16 *buffer, size_t capacity, size_t *length);

/* ---- Device paths (UEFI Specification 2.10, chapter 10) ---- */

/*
 * Checks that bytes begin with a device path. Bytes after its end node are not read.
 *
 *   *size   receives the size of the path, with its end node
 *
 * Returns
 *   NARD_OK
 *   an error   of the first invalid node, at *fault. Errors are tested in this order: NARD_NO_END_NODE, NARD_TRUNCATED_HEADER,
 *              NARD_UNKNOWN_END, NARD_LENGTH_BELOW_HEADER, NARD_END_WITH_DATA, NARD_NODE_BEYOND_END
 */
NARD_MUST_USE nard_status NARD_CALL nard_device_path_check(const uint8_t *path, size_t path_size, size_t *size, size_t *fault);

/*
 * Finds the size of a device path of unknown size, step by step, without reading beyond the path. nard_device_path_size takes all
 * steps.
 *
 *   path_size   the number of bytes that may be read: 4 at first, then *needed of the previous call
 *   *offset     in: 0 at first, then that of the previous call; out: where to continue
 *   *needed     receives the size of the path if *needed <= path_size. Otherwise no path that begins with these bytes is shorter,
 *               and the next call needs so many.
 *
 * Returns
 *   NARD_OK
 *   an error   as nard_device_path_check, at *fault: no path begins with these bytes. For an *offset beyond path_size the error is
 *              NARD_NO_END_NODE, at *offset.
 */
NARD_MUST_USE nard_status NARD_CALL nard_device_path_needs(const uint8_t *path, size_t path_size,
                                                           size_t *offset, size_t *needed, size_t *fault);

/*
 * Finds the size of a device path of unknown size, for example one from the firmware.
 *
 *   limit   the largest size that you accept. The call does not read beyond a valid path, nor beyond the limit. You must know that
 *           these bytes can be read, because invalid bytes may state any size.
 *   *size   receives the size of the path, with its end node
 *
 * Returns as nard_device_path_check of the first `limit` bytes, with its *fault. This function is C: it is tested, not proved.
 */
static inline NARD_MUST_USE nard_status nard_device_path_size(const uint8_t *path, size_t limit, size_t *size, size_t *fault)
{
    size_t offset = 0, count, needed = 4;

    do {
        count = needed;
        if (count > limit)
            return nard_device_path_check(path, limit, size, fault);
        nard_status status = nard_device_path_needs(path, count, &offset, &needed, fault);
        if (status != NARD_OK)
            return status;
    } while (needed > count);
    if (size != NULL)
        *size = needed;
    return NARD_OK;
}

/* A node of a device path. */
struct nard_device_node {
    uint32_t node_type; /* the type * 256 + the sub-type: an enum nard_node_type of nardcorbel_nodes.h */
    size_t data_offset; /* the offset of the data in the path */
    size_t data_size;
};

/*
 * Reads the next node of a device path. To go through a list of paths, continue after NARD_END.
 *
 *   *offset   in: the offset of the node, 0 at first; out: the offset after it
 *   *node     receives the node, unless the call returns NARD_END
 *
 * Returns
 *   NARD_OK    this may be a node that ends an instance (NARD_END_INSTANCE)
 *   NARD_END   the node ends the path
 *   an error   as nard_device_path_check, at *fault; *offset is unchanged. For an *offset of path_size or more the error is
 *              NARD_NO_END_NODE, at *offset.
 */
NARD_MUST_USE nard_status NARD_CALL nard_device_path_next_node(const uint8_t *path, size_t path_size,
                                                               size_t *offset, struct nard_device_node *node, size_t *fault);

/*
 * Reads a number from the data of a node.
 *
 *   field   an enum nard_node_field of nardcorbel_nodes.h: the offset in the data * 256 + the number of bytes, 1, 2, 4 or 8
 *
 * Returns NARD_OK, or NARD_NO_FIELD if the data ends before the number does, or if the field is no number.
 */
NARD_MUST_USE nard_status NARD_CALL nard_node_number(const uint8_t *data, size_t data_size, uint32_t field, uint64_t *number);

/*
 * Writes the file path of a device path: the names of all nodes that name files, with each `/` replaced and one `\` between two names.
 * The path is not checked, and may contain control characters. Before you open the file, validate it with nard_path_check, or with
 * nard_path_normalize if it is UTF-8.
 *
 * Returns
 *   NARD_OK
 *   an error                as nard_device_path_check, at *fault
 *   NARD_ODD_BYTES, NARD_NO_NUL, NARD_INVALID_CHAR, NARD_INTERIOR_NUL
 *                           the data of a file node, at *fault, is not a NUL-terminated string
 *   NARD_BUFFER_TOO_SMALL   capacity <= *size or *length
 */
NARD_MUST_USE nard_status NARD_CALL nard_device_path_file_path(const uint8_t *path, size_t path_size, char *buffer,
                                                               size_t capacity, size_t *size, size_t *fault);
NARD_MUST_USE nard_status NARD_CALL nard_device_path_file_path_utf16(const uint8_t *path, size_t path_size, nard_char16 *buffer,
                                                                     size_t capacity, size_t *length, size_t *fault);

/* ---- The text of device paths (section 10.6.1) ---- */

/*
 * How a text is printed and read.
 *
 *   style                | printed by _format                         | read by _parse, _push_text, _text_extent, _explain
 *   NARD_STYLE_UEFI      | as the UEFI Specification defines it       | exactly what _format prints without flags
 *   NARD_STYLE_TYPED     | -                                          | as people type it, see nard_device_path_parse
 *   NARD_STYLE_LIBEFIVAR | as libefivar and efibootmgr do             | as libefivar and efibootmgr print it
 *
 * To NARD_STYLE_UEFI you can add flags for _format, such as NARD_STYLE_UEFI | NARD_DISPLAY_ONLY. Other combinations are rejected as
 * NARD_UNKNOWN_STYLE, before anything else is checked.
 */
enum nard_text_style {
    NARD_STYLE_UEFI = 0,
    NARD_STYLE_TYPED = 1,
    NARD_STYLE_LIBEFIVAR = 2,
    NARD_DISPLAY_ONLY = 16,   /* shorter forms that cannot be read back */
    NARD_ALLOW_SHORTCUTS = 32 /* short names such as VenPcAnsi() */
};

/*
 * The capacity, in elements, that is always enough for the UTF-16 text of a device path or a node of this size. With this capacity or
 * more the calls for UTF-16 never return NARD_BUFFER_TOO_SMALL, and format a path twice as fast, because they make the text once.
 */
#define NARD_DEVICE_PATH_TEXT_CAPACITY(path_size) (4 * (path_size))

/*
 * Formats a device path as text, for example
 *     PciRoot(0x0)/Pci(0x1F,0x2)/Sata(0x0,0xFFFF,0x0)/HD(1,GPT,...)
 * or in the style of libefivar
 *     HD(1,GPT,03020100-0504-0706-0809-0a0b0c0d0e0f,0x800,0x100000)/File(\EFI\debian\shimx64.efi)
 * Control characters, and characters that change the direction of text, are escaped, so that you can show the text on a terminal.
 * Bytes after the end node are ignored.
 *
 *   style   an enum nard_text_style, with its flags
 *
 * Returns
 *   NARD_OK
 *   NARD_UNKNOWN_STYLE
 *   an error                as nard_device_path_check, at *fault
 *   NARD_BUFFER_TOO_SMALL   capacity <= *size or *length
 */
NARD_MUST_USE nard_status NARD_CALL nard_device_path_format(const uint8_t *path, size_t path_size, uint32_t style,
                                                            char *buffer, size_t capacity, size_t *size, size_t *fault);
NARD_MUST_USE nard_status NARD_CALL nard_device_path_format_utf16(const uint8_t *path, size_t path_size, uint32_t style,
                                                                  nard_char16 *buffer, size_t capacity, size_t *length, size_t *fault);

/*
 * Formats the node at the start of bytes as text, as nard_device_path_format formats it in a path, for example
 *     Pci(0x1F,0x2)
 * The call does not read beyond the node. For a node of a path, pass the bytes from its header on. A node that ends the path is
 * Path(127,255), and a node that ends an instance Path(127,1). NARD_STYLE_LIBEFIVAR is for whole paths only.
 *
 * Returns as nard_device_path_format. The error is that of the node; a style of libefivar is rejected after it.
 */
NARD_MUST_USE nard_status NARD_CALL nard_node_format(const uint8_t *node, size_t node_size, uint32_t style,
                                                     char *buffer, size_t capacity, size_t *size, size_t *fault);
NARD_MUST_USE nard_status NARD_CALL nard_node_format_utf16(const uint8_t *node, size_t node_size, uint32_t style,
                                                           nard_char16 *buffer, size_t capacity, size_t *length, size_t *fault);

/*
 * Writes the device path of a text to the start of a buffer. A comma in the text ends an instance.
 *
 *   style   NARD_STYLE_UEFI, NARD_STYLE_TYPED or NARD_STYLE_LIBEFIVAR
 *   *size   receives the size of the path, at most SIZE_MAX
 *
 * Returns
 *   NARD_OK
 *   NARD_UNKNOWN_STYLE
 *   NARD_NOT_UTF8           the text is UTF-8 only up to the byte at *fault
 *   NARD_INVALID_CHAR       of UTF-16: the surrogate at *fault has no partner
 *   NARD_NO_NODE            the text is not a device path: the byte, number, digits or name at *fault are wrong, or the text ends
 *                           too early, at *fault. nard_device_path_explain says what is expected there.
 *   NARD_BUFFER_TOO_SMALL   capacity < *size
 *
 * In NARD_STYLE_TYPED, the text is as people type it, for example
 *     pciroot(0)/pci(31, 2)/HD(1,GPT,12345678-9abc-def0-1234-56789abcdef0,0x800,0x100000)/File(\EFI\boot\bootx64.efi)
 *   - Case does not matter, except in texts such as file names.
 *   - A number is hexadecimal after 0x and otherwise decimal, and may begin with zeros. Numbers at the end of a node may be omitted,
 *     but not all of them.
 *   - Blanks and line ends are ignored in nodes and around them. A blank at the end of a name that begins with a backslash, and has no
 *     blank before it, belongs to the name.
 *   - A file name may be in File(..). It may lack its first backslash if it contains another one, contains no `)`, `:`, " or ', does
 *     not follow a comma, and has before its first backslash no blank, no mark and nothing else that a short name on a FAT volume
 *     excludes. So a line such as "loader \EFI\a.efi" is rejected.
 *   - A name must not begin with two backslashes, as in JSON.
 *   - Other programs' forms are accepted, such as MAC(52:54:00:ab:cd:ef), IPv6(fe80::1) and BBS(HD,Drive). A field that such a text
 *     omits has the value that the drivers of EDK II write: a prefix length of 64 for IPv6, and otherwise 0.
 *   - Quotation marks around the whole text, either " or ', are ignored, and so is one / before the first node, unless GRUB wrote it,
 *     as in /PCI(0,3): GRUB prints the function first. *fault still counts from the start of the text.
 *   - Numbers without 0x are rejected where other programs print hexadecimal numbers without 0x, as in Fibre(5006,0).
 * A text that is read in NARD_STYLE_UEFI is read as the same path in NARD_STYLE_TYPED, unless a name in it begins with two
 * backslashes.
 *
 * In NARD_STYLE_LIBEFIVAR, the text is as libefivar and efibootmgr print it, for example
 *     PciRoot(0x0)/Pci(0x1d,0x0)/NVMe(0x1,00-25-38-5B-71-B0-03-1C)/HD(1,GPT,12345678-9abc-def0-1234-56789abcdef0,0x800,0x64000)
 * libefivar prints the identifier of an NVMe node from its first byte on, and Ata with three numbers. These are rejected:
 *   - Fibre, SAS and UsbClass, which omit what distinguishes two nodes, and iSCSI, whose numbers have another form;
 *   - PciRoot and PcieRoot whose number does not begin with 0x, because libefivar may print a text in its place;
 *   - AcpiEx, IPv4 and IPv6 with addresses, and HD without a signature, which omit bytes.
 * All other nodes are read as in NARD_STYLE_TYPED. If a path's text in NARD_STYLE_UEFI is read as that path, its text in
 * NARD_STYLE_LIBEFIVAR is read as that path too, or rejected.
 */
NARD_MUST_USE nard_status NARD_CALL nard_device_path_parse(const char *text, size_t text_size, uint32_t style,
                                                           uint8_t *buffer, size_t capacity, size_t *size, size_t *fault);
NARD_MUST_USE nard_status NARD_CALL nard_device_path_parse_utf16(const nard_char16 *text, size_t text_length, uint32_t style,
                                                                 uint8_t *buffer, size_t capacity, size_t *size, size_t *fault);

/*
 * Finds the end of the device path at the start of a text in UTF-8. Other data may follow the path: efibootmgr -v prints optional data
 * directly after it, for example
 *     HD(1,GPT,12345678-9abc-def0-1234-56789abcdef0,0x800,0x100000)/File(\EFI\debian\shimx64.efi)RC
 * The path ends with the first File(..) that other data follow directly, if it can be read up to there: the call ends at the `)` that
 * closes it, so the name may contain pairs of parentheses. Otherwise the path is the whole text if nard_device_path_parse reads it,
 * and the text before a byte where a node should end if that call stops there. The data need not be UTF-8. Data that begin with / or ,
 * are read as part of the path, and usually rejected. There is no call for UTF-16: no program prints such lines in it.
 *
 * Returns
 *   NARD_OK              *size is the size of the path's text
 *   NARD_UNKNOWN_STYLE
 *   NARD_NO_NODE         the text does not begin with a path; *fault is as in nard_device_path_parse
 */
NARD_MUST_USE nard_status NARD_CALL nard_device_path_text_extent(const char *text, size_t text_size, uint32_t style,
                                                                 size_t *size, size_t *fault);

/*
 * Writes in words why nard_device_path_parse rejects a text as NARD_NO_NODE, for example
 *     invalid node at offset 11: expected a number up to 0xFF at offset 20
 * If the text is a device path, the words are empty. For UTF-16, the words are UTF-16, and offsets count elements.
 *
 * Returns
 *   NARD_OK
 *   NARD_UNKNOWN_STYLE
 *   NARD_NOT_UTF8, NARD_INVALID_CHAR   as nard_device_path_parse
 *   NARD_BUFFER_TOO_SMALL              capacity <= *size or *length
 */
NARD_MUST_USE nard_status NARD_CALL nard_device_path_explain(const char *text, size_t text_size, uint32_t style,
                                                             char *buffer, size_t capacity, size_t *size, size_t *fault);
NARD_MUST_USE nard_status NARD_CALL nard_device_path_explain_utf16(const nard_char16 *text, size_t text_length, uint32_t style,
                                                                   nard_char16 *buffer, size_t capacity, size_t *length, size_t *fault);

/* ---- Building device paths ---- */

/*
 * Writes the empty device path, which is its end node, to a buffer. Then add to it.
 *
 *     status = nard_device_path_init(path, sizeof path, &size);
 *     status = nard_device_path_push(path, sizeof path, size, NARD_PCI, (const uint8_t[]){2, 31}, 2, &size, &fault);
 *
 * Returns
 *   NARD_OK                 *size is 4
 *   NARD_BUFFER_TOO_SMALL   capacity < 4
 */
NARD_MUST_USE nard_status NARD_CALL nard_device_path_init(uint8_t *buffer, size_t capacity, size_t *size);

/*
 * Adds to the device path in the first path_size bytes of a buffer, before its end node: a node, the nodes of another path, or the
 * nodes of a text.
 *
 *   path_size   the *size of the previous call. The time depends on what is added only: the bytes before the end node are not checked.
 *   node_type   an enum nard_node_type: the type * 256 + the sub-type
 *   *size       receives the size that the path then has
 *
 * Returns
 *   NARD_OK
 *   NARD_NO_END_NODE        the first path_size bytes do not end with an end node; *fault is path_size
 *   NARD_BUFFER_TOO_SMALL   capacity < *size
 *   of nard_device_path_push
 *     NARD_NODE_OF_END      the node is an end node, and does not end an instance
 *     NARD_NODE_TOO_LONG    data_size is more than 65,531
 *   of nard_device_path_append
 *     an error              as nard_device_path_check of `other`, at *fault
 *   of nard_device_path_push_text
 *     an error              as nard_device_path_parse
 */
NARD_MUST_USE nard_status NARD_CALL nard_device_path_push(uint8_t *buffer, size_t capacity, size_t path_size, uint32_t node_type,
                                                          const uint8_t *data, size_t data_size, size_t *size, size_t *fault);
NARD_MUST_USE nard_status NARD_CALL nard_device_path_append(uint8_t *buffer, size_t capacity, size_t path_size,
                                                            const uint8_t *other, size_t other_size, size_t *size, size_t *fault);
NARD_MUST_USE nard_status NARD_CALL nard_device_path_push_text(uint8_t *buffer, size_t capacity, size_t path_size,
                                                               const char *text, size_t text_size, uint32_t style,
                                                               size_t *size, size_t *fault);
NARD_MUST_USE nard_status NARD_CALL nard_device_path_push_text_utf16(uint8_t *buffer, size_t capacity, size_t path_size,
                                                                     const nard_char16 *text, size_t text_length, uint32_t style,
                                                                     size_t *size, size_t *fault);

/* ---- Comparing device paths ---- */

/*
 * Returns whether both begin with a valid device path, and the first begins with the nodes of the second. The remaining nodes begin at
 * *offset, which is unchanged if the call returns false.
 */
bool NARD_CALL nard_device_path_strip_prefix(const uint8_t *path, size_t path_size,
                                             const uint8_t *prefix, size_t prefix_size, size_t *offset);

/*
 * Returns whether both begin with a valid device path, and the first expands the second, a short form (section 3.1.2): it ends with a
 * node that matches the short form's first node, followed by the rest of the short form. HD(..) matches a partition by number and
 * signature; file names and URIs match if they are equal.
 */
bool NARD_CALL nard_device_path_is_expansion(const uint8_t *path, size_t path_size, const uint8_t *form, size_t form_size);

/* ---- Boot entries (sections 3.1.3 and 3.3) ---- */

/* The parts of a load option, by their offsets. nard_load_option_read gives pointers. */
struct nard_load_option_parts {
    uint32_t attributes;       /* bit 0 is LOAD_OPTION_ACTIVE */
    size_t description_offset;
    size_t description_length; /* in UTF-16 elements, without the NUL */
    size_t path_list_offset;   /* the device paths, one after another */
    size_t path_list_size;
    size_t first_path_size;    /* of the first device path, with its end node */
    size_t optional_data_offset;
    size_t optional_data_size;
};

/*
 * Finds the parts of a load option, the value of a variable such as Boot0001. The description may contain surrogates.
 *
 * Returns
 *   NARD_OK
 *   NARD_OPTION_TOO_SHORT, NARD_DESCRIPTION_WITHOUT_END, NARD_LIST_BEYOND_END, NARD_EMPTY_LIST
 *              the load option is invalid at *fault
 *   an error   as nard_device_path_check of a device path of the list, at *fault, counted from the start of the load option
 */
NARD_MUST_USE nard_status NARD_CALL nard_load_option_check(const uint8_t *option, size_t option_size,
                                                           struct nard_load_option_parts *parts, size_t *fault);

/* A load option. The pointers are into the memory that you passed. */
struct nard_load_option {
    uint32_t attributes;        /* bit 0 is LOAD_OPTION_ACTIVE */
    const uint8_t *description; /* UTF-16, at any address, with a NUL */
    size_t description_length;  /* in UTF-16 elements, without the NUL */
    const uint8_t *path;        /* the first device path */
    size_t path_size;           /* with its end node */
    const uint8_t *path_list;   /* all device paths, one after another */
    size_t path_list_size;
    const uint8_t *optional_data;
    size_t optional_data_size;
};

/* Reads a load option. Returns as nard_load_option_check. This function is C: it is tested, not proved. */
static inline NARD_MUST_USE nard_status nard_load_option_read(const uint8_t *bytes, size_t size, struct nard_load_option *option,
                                                              size_t *fault)
{
    struct nard_load_option_parts parts;
    nard_status status = nard_load_option_check(bytes, size, &parts, fault);

    if (status != NARD_OK)
        return status;
    option->attributes = parts.attributes;
    option->description = bytes + parts.description_offset;
    option->description_length = parts.description_length;
    option->path = option->path_list = bytes + parts.path_list_offset;
    option->path_size = parts.first_path_size;
    option->path_list_size = parts.path_list_size;
    option->optional_data = bytes + parts.optional_data_offset;
    option->optional_data_size = parts.optional_data_size;
    return NARD_OK;
}

/*
 * Writes the description of a load option that nard_load_option_read gave, as nard_packed_escape does: you can show it on a terminal.
 * This function is C: it is tested, not proved.
 */
static inline NARD_MUST_USE nard_status nard_load_option_description(const struct nard_load_option *option,
                                                                     char *buffer, size_t capacity, size_t *size)
{
    return nard_packed_escape(option->description, 2 * option->description_length, buffer, capacity, size);
}

/*
 * Moves `path` and `path_size` of a load option that nard_load_option_read gave to the next device path of its list. Returns NARD_END
 * after the last one; the option is then unchanged. This function is C: it is tested, not proved.
 */
static inline NARD_MUST_USE nard_status nard_load_option_next_path(struct nard_load_option *option)
{
    const uint8_t *next = option->path + option->path_size;
    size_t left = option->path_list_size - (size_t)(next - option->path_list), size;

    if (left == 0)
        return NARD_END;
    nard_status status = nard_device_path_check(next, left, &size, NULL);
    if (status == NARD_OK) {
        option->path = next;
        option->path_size = size;
    }
    return status;
}

/*
 * Writes a load option with one device path, the value of a variable such as Boot0001.
 *
 *   description    a NUL-terminated string
 *   path           begins with the device path
 *   *size          receives the size of the load option
 *
 * Returns
 *   NARD_OK
 *   NARD_NO_NUL, NARD_INVALID_CHAR   as nard_string_length of the description, with its *fault
 *   an error                         as nard_device_path_check of the path, at *fault
 *   NARD_LIST_TOO_LONG               the device path has more than 65,535 bytes
 *   NARD_BUFFER_TOO_SMALL            capacity < *size
 */
NARD_MUST_USE nard_status NARD_CALL nard_load_option_write(uint32_t attributes, const nard_char16 *description,
                                                           size_t description_length, const uint8_t *path, size_t path_size,
                                                           const uint8_t *optional_data, size_t optional_data_size,
                                                           uint8_t *buffer, size_t capacity, size_t *size, size_t *fault);

/* The kind of a load option, from the word that the name of its variable begins with. */
enum nard_boot_kind {
    NARD_BOOT = 0,             /* Boot####: a system or an application to start */
    NARD_DRIVER = 1,           /* Driver####: a driver to load before anything is booted */
    NARD_SYS_PREP = 2,         /* SysPrep####: an application to run before anything is booted */
    NARD_PLATFORM_RECOVERY = 3 /* PlatformRecovery####: an application to start if nothing else boots */
};

/*
 * Reads the name of a variable that contains a load option, such as Boot001F: the word of a kind, and a number in four upper-case
 * hexadecimal digits. In UTF-16 the name is a NUL-terminated string.
 *
 *   *kind     receives an enum nard_boot_kind
 *
 * Returns
 *   NARD_OK
 *   NARD_NO_NUL, NARD_INVALID_CHAR   of UTF-16, as nard_string_length
 *   NARD_NOT_A_NAME                  the text is not such a name
 */
NARD_MUST_USE nard_status NARD_CALL nard_boot_name_read(const char *text, size_t text_size, uint32_t *kind, uint16_t *number);
NARD_MUST_USE nard_status NARD_CALL nard_boot_name_read_utf16(const nard_char16 *text, size_t text_length,
                                                              uint32_t *kind, uint16_t *number);

/*
 * Writes the name of the variable for a kind of load option and a number: at most 20 characters and a NUL.
 *
 * Returns
 *   NARD_OK
 *   NARD_NOT_A_NAME         the kind is above 3
 *   NARD_BUFFER_TOO_SMALL   capacity <= *size or *length
 */
NARD_MUST_USE nard_status NARD_CALL nard_boot_name_write(uint32_t kind, uint16_t number, char *buffer, size_t capacity, size_t *size);
NARD_MUST_USE nard_status NARD_CALL nard_boot_name_write_utf16(uint32_t kind, uint16_t number,
                                                               nard_char16 *buffer, size_t capacity, size_t *length);

/*
 * Reads the number at an index of an order, the value of BootOrder, DriverOrder or SysPrepOrder.
 *
 * Returns
 *   NARD_OK
 *   NARD_ODD_BYTES   order_size is odd, whatever the index
 *   NARD_END         the order has at most `index` numbers
 */
NARD_MUST_USE nard_status NARD_CALL nard_boot_order_read(const uint8_t *order, size_t order_size, size_t index, uint16_t *number);

/*
 * Edits an order, as nard_units_from_bytes reads it and SetVariable takes it. The order is the first *count numbers of `order`, or
 * `capacity` numbers if that is less. The remaining numbers keep their order. Numbers after the order are unchanged.
 *
 *   *count   in and out: how many numbers the order has
 *
 * nard_boot_order_insert inserts a number at an index, or moves it there if the order contains it. An index beyond the end means the
 * end. It returns NARD_OK, or NARD_BUFFER_TOO_SMALL if the order is full and does not contain the number.
 *
 * nard_boot_order_remove removes a number, and nard_boot_order_move_to_front moves it to the front. Both return whether the order
 * contained it.
 */
NARD_MUST_USE nard_status NARD_CALL nard_boot_order_insert(uint16_t *order, size_t capacity, size_t *count,
                                                           size_t index, uint16_t number);
bool NARD_CALL nard_boot_order_remove(uint16_t *order, size_t capacity, size_t *count, uint16_t number);
bool NARD_CALL nard_boot_order_move_to_front(uint16_t *order, size_t capacity, size_t *count, uint16_t number);

/* ---- Versions ---- */

/* Returns the version of the library: major * 65536 + minor * 256 + patch. */
uint32_t NARD_CALL nard_version(void);

/* Returns the same. The name changes with the interface, that is with the minor version; see NARD_INTERFACE. */
uint32_t NARD_CALL nard_interface_0_8(void);

#ifdef __cplusplus
}
#endif

#endif
