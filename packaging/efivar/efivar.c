/*
 * The calls of libefivar 37 and libefiboot 37 that read and write device paths and load options, on top of nardcorbel. A program that
 * loads this library before the two, such as efibootmgr under LD_PRELOAD, calls these instead.
 *
 * nardcorbel validates the bytes. Left to this file are memory and errno. Everything else is left to libefivar and libefiboot:
 * variables, GUIDs, the search for a disk, the builders of single nodes, and what the header efivar-dp.h has inline, which a
 * program compiles in.
 */
#include <errno.h>
#include <stdint.h>
#include <stdio.h>
#include <stdlib.h>
#include <string.h>
#include <sys/types.h>

#include "nardcorbel_nodes.h"

#define API __attribute__((visibility("default")))

enum { HEADER = 4, ATTRIBUTES = 4 /* the field of the first four bytes */ };

/* A path without nodes. */
static const uint8_t empty[HEADER] = {0x7f, 0xff, HEADER, 0};

/*
 * The load option that a call was given last with its size, and its error. Some calls get a pointer only, and programs ask for the
 * description first.
 */
static _Thread_local struct {
    const uint8_t *bytes;
    size_t count;
    nard_status status;
    size_t offset;
} last;

/* -1, and errno for a status. */
static int failed(nard_status status)
{
    errno = status == NARD_BUFFER_TOO_SMALL ? ENOSPC : EINVAL;
    return -1;
}

/* ---- Device paths ---- */

/* How many bytes a path has whose size the caller does not say: 0 if it is malformed, which every call then rejects. */
static size_t extent(const uint8_t *path)
{
    size_t size = 0;
    return nard_device_path_size(path, SIZE_MAX, &size, NULL) == NARD_OK ? size : 0;
}

/*
 * The text of a path, as snprintf writes it: what fits, and a NUL. A null path is what efi_loadopt_path returned of a malformed load
 * option, since efibootmgr does not check it and exits if it gets no text: the text then says what is wrong.
 */
API ssize_t efidp_format_device_path(char *buf, size_t size, const uint8_t *dp, ssize_t limit)
{
    size_t count = dp && limit < 0 ? extent(dp) : dp ? (size_t)limit : 0, length = 0;
    nard_status status;
    char *text;
    if (!dp && last.status != NARD_OK)
        return snprintf(buf, buf ? size : 0, "<malformed at offset %zu: %s>", last.offset, nard_status_text(last.status));
    status = nard_device_path_format(dp, count, NARD_STYLE_LIBEFIVAR, buf, buf ? size : 0, &length, NULL);
    if (status == NARD_BUFFER_TOO_SMALL && buf && size) {
        text = malloc(length + 1);
        if (!text)
            return -1;
        status = nard_device_path_format(dp, count, NARD_STYLE_LIBEFIVAR, text, length + 1, NULL, NULL);
        if (status == NARD_OK)
            snprintf(buf, size, "%s", text);
        free(text);
    } else if (status == NARD_BUFFER_TOO_SMALL) {
        status = NARD_OK;
    }
    return status == NARD_OK ? (ssize_t)length : failed(status);
}

/*
 * The path that a text means, in the style that efidp_format_device_path writes. A size of 0 asks how many bytes it has; a buffer
 * that is too small is left as it is.
 */
API ssize_t efidp_parse_device_path(const char *text, uint8_t *out, size_t size)
{
    size_t length = 0;
    nard_status status = nard_device_path_parse(text, NARD_NUL_TERMINATED, NARD_STYLE_LIBEFIVAR, out, size, &length, NULL);
    return status == NARD_OK || (status == NARD_BUFFER_TOO_SMALL && !size) ? (ssize_t)length : failed(status);
}

API ssize_t efidp_parse_device_node(const char *text, uint8_t *out, size_t size)
{
    struct nard_device_node node;
    size_t end = 0;
    ssize_t length = efidp_parse_device_path(text, NULL, 0);
    uint8_t *path = length < 0 ? NULL : malloc((size_t)length);
    if (!path)
        return -1;
    length = efidp_parse_device_path(text, path, (size_t)length);
    if (length < 0 || nard_device_path_next_node(path, (size_t)length, &end, &node, NULL) != NARD_OK || end + HEADER != (size_t)length)
        length = failed(NARD_NO_NODE);
    else if (size && size < end)
        length = failed(NARD_BUFFER_TOO_SMALL);
    else
        length = (ssize_t)end;
    if (0 < length && size)
        memcpy(out, path, end);
    free(path);
    return length;
}

/* ---- Paths that are built ---- */

/* The memory of a path that was built, or -1 and none if the library returned an error. */
static int built(nard_status status, uint8_t *buffer, uint8_t **out)
{
    if (status == NARD_OK) {
        *out = buffer;
        return 0;
    }
    free(buffer);
    return failed(status);
}

/* A copy of the path, or of the empty one if it is null, and its size, with room for more bytes. NULL and errno if it is malformed. */
static uint8_t *copied(const uint8_t *path, size_t more, size_t *size)
{
    uint8_t *buffer = NULL;
    *size = path ? extent(path) : HEADER;
    if (!*size)
        failed(NARD_NO_END_NODE);
    else if ((buffer = malloc(*size + more)))
        memcpy(buffer, path ? path : empty, *size);
    return buffer;
}

static int appended(const uint8_t *dp, bool is_instance, const uint8_t *other, uint8_t **out)
{
    size_t count = other ? extent(other) : HEADER, size, capacity;
    uint8_t *buffer = copied(dp, count + HEADER, &size);
    nard_status status = NARD_OK;
    if (!buffer)
        return -1;
    capacity = size + count + HEADER;
    if (is_instance)
        status = nard_device_path_push(buffer, capacity, size, NARD_END_INSTANCE, NULL, 0, &size, NULL);
    if (status == NARD_OK)
        status = nard_device_path_append(buffer, capacity, size, other ? other : empty, count, NULL, NULL);
    return built(status, buffer, out);
}

API int efidp_duplicate_path(const uint8_t *dp, uint8_t **out)
{
    return dp ? appended(dp, false, NULL, out) : failed(NARD_NO_END_NODE);
}

API int efidp_append_path(const uint8_t *dp0, const uint8_t *dp1, uint8_t **out)
{
    return appended(dp0, false, dp1, out);
}

API int efidp_append_instance(const uint8_t *dp, const uint8_t *dpi, uint8_t **out)
{
    return dpi ? appended(dp, dp != NULL, dpi, out) : failed(NARD_NO_END_NODE);
}

API int efidp_append_node(const uint8_t *dp, const uint8_t *dn, uint8_t **out)
{
    size_t count, size;
    uint8_t *buffer;
    nard_status status;
    if (!dn)
        return appended(dp, false, NULL, out);
    count = dn[2] | (size_t)dn[3] << 8;
    if (count < HEADER)
        return failed(NARD_LENGTH_BELOW_HEADER);
    buffer = copied(dp, count, &size);
    if (!buffer)
        return -1;
    status = nard_device_path_push(buffer, size + count, size, dn[0] * 256U + dn[1], dn + HEADER, count - HEADER, NULL, NULL);
    return built(status, buffer, out);
}

/* ---- Load options ---- */

static nard_status read_option(const uint8_t *opt, size_t size, struct nard_load_option *option)
{
    last.bytes = opt;
    last.count = size;
    last.status = nard_load_option_read(opt, size, option, &last.offset);
    return last.status;
}

API int efi_loadopt_is_valid(const uint8_t *opt, size_t size)
{
    struct nard_load_option option;
    return read_option(opt, size, &option) == NARD_OK;
}

/* The attributes are the first four bytes. The call gets no size: it takes the one that the option was given with last. */
API uint32_t efi_loadopt_attrs(const uint8_t *opt)
{
    uint64_t attributes = 0;
    size_t count = opt == last.bytes && last.count < 4 ? last.count : 4;
    return nard_node_number(opt, count, ATTRIBUTES, &attributes) == NARD_OK ? (uint32_t)attributes : 0;
}

static void set_attrs(uint8_t *opt, uint32_t attributes)
{
    for (int i = 0; i < 4; i++)
        opt[i] = (uint8_t)(attributes >> 8 * i);
}

API void efi_loadopt_attr_set(uint8_t *opt, uint16_t attr)
{
    set_attrs(opt, efi_loadopt_attrs(opt) | attr);
}

API void efi_loadopt_attr_clear(uint8_t *opt, uint16_t attr)
{
    set_attrs(opt, efi_loadopt_attrs(opt) & ~(uint32_t)attr);
}

/* The file path list, or NULL of a malformed load option; efi_loadopt_pathlen says how many bytes it has. */
API const uint8_t *efi_loadopt_path(const uint8_t *opt, ssize_t limit)
{
    struct nard_load_option option;
    if (limit < 0 || read_option(opt, (size_t)limit, &option) != NARD_OK) {
        errno = EINVAL;
        return NULL;
    }
    return option.path_list;
}

API uint16_t efi_loadopt_pathlen(const uint8_t *opt, ssize_t limit)
{
    struct nard_load_option option;
    if (limit < 0 || read_option(opt, (size_t)limit, &option) != NARD_OK) {
        errno = EINVAL;
        return 0;
    }
    return (uint16_t)option.path_list_size;
}

/*
 * The description, or of a malformed load option what there is of it, as a program can print it: anyone who writes variables chooses
 * its characters. It lasts until the next call.
 */
API const unsigned char *efi_loadopt_desc(const uint8_t *opt, ssize_t limit)
{
    static _Thread_local char *kept;
    struct nard_load_option option;
    const ssize_t start = 6;
    size_t size = start < limit ? (size_t)(limit - start) : 0, length = 0;
    free(kept);
    kept = NULL;
    if (limit < 0) {
        errno = EINVAL;
        return NULL;
    }
    read_option(opt, (size_t)limit, &option);
    if (nard_packed_escape(size ? opt + start : opt, size, NULL, 0, &length) == NARD_BUFFER_TOO_SMALL)
        kept = malloc(length + 1);
    if (kept && nard_packed_escape(size ? opt + start : opt, size, kept, length + 1, NULL) != NARD_OK)
        *kept = 0;
    return (unsigned char *)kept;
}

/* The optional data. A malformed load option has none: efibootmgr exits where the call fails. */
API int efi_loadopt_optional_data(uint8_t *opt, size_t size, unsigned char **data, size_t *length)
{
    struct nard_load_option option;
    size_t count = read_option(opt, size, &option) == NARD_OK ? option.optional_data_size : 0;
    *data = opt + size - count;
    if (length)
        *length = count;
    return 0;
}

API ssize_t efi_loadopt_optional_data_size(uint8_t *opt, size_t size)
{
    struct nard_load_option option;
    nard_status status = read_option(opt, size, &option);
    return status == NARD_OK ? (ssize_t)option.optional_data_size : failed(status);
}

/* The string that a text in UTF-8 is, in memory that the caller frees, or NULL; *length is in characters, without the NUL. */
static nard_char16 *string_of(const uint8_t *utf8, size_t *length)
{
    size_t capacity = strlen((const char *)utf8) + 1;
    nard_char16 *string = malloc(capacity * sizeof *string);
    nard_status status = string ? nard_string_from_utf8((const char *)utf8, capacity - 1, string, capacity, length, NULL) : NARD_OK;
    if (status != NARD_OK) {
        free(string);
        string = NULL;
        failed(status);
    }
    return string;
}

/* Optional data that is a text, without its NUL. A size of 0 asks how many bytes it has. */
API ssize_t efi_loadopt_args_as_ucs2(uint16_t *buf, ssize_t size, const uint8_t *utf8)
{
    size_t length = 0;
    nard_char16 *string = string_of(utf8, &length);
    ssize_t told = string ? (ssize_t)(length * sizeof *string) : -1;
    if (string && size && size < told)
        told = failed(NARD_BUFFER_TOO_SMALL);
    else if (string && size)
        memcpy(buf, string, length * sizeof *string);
    free(string);
    return told;
}

/*
 * Writes a load option of one path, which must be all of `dp_size` bytes. A size of 0 asks how many bytes it has. efibootmgr asks
 * before it has the path and the data, so the library cannot: it has 6 bytes before the description.
 */
API ssize_t efi_loadopt_create(uint8_t *buf, ssize_t size, uint32_t attributes, const uint8_t *dp, ssize_t dp_size,
                               const unsigned char *description, const uint8_t *optional, size_t optional_size)
{
    size_t length = 0, list = 0;
    nard_status status;
    nard_char16 *string;
    if (size < 0 || dp_size < 0 || 0xffff < dp_size || PTRDIFF_MAX / 2 < optional_size)
        return failed(NARD_LIST_TOO_LONG);
    string = string_of(description, &length);
    if (!string)
        return -1;
    length += 1;
    if (!size) {
        free(string);
        return (ssize_t)(6 + length * sizeof *string + (size_t)dp_size + optional_size);
    }
    status = nard_device_path_check(dp, dp ? (size_t)dp_size : 0, &list, NULL);
    if (status == NARD_OK && (list != (size_t)dp_size || !buf || (!optional && optional_size)))
        status = NARD_LIST_BEYOND_END;
    if (status == NARD_OK)
        status = nard_load_option_write(attributes, string, length, dp, list, optional, optional_size, buf, (size_t)size, &length, NULL);
    free(string);
    return status == NARD_OK ? (ssize_t)length : failed(status);
}
