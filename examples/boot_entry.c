/*
 * Prints a boot entry of UEFI firmware: its number, its attributes, its description, its device paths, the path of each file
 * that it names with a verdict, and its optional data, as text if it is text.
 *
 * usage: boot_entry FILE ..
 *
 * A file is the variable Boot#### as Linux shows it in /sys/firmware/efi/efivars, or as another tool saved it,
 * without the four bytes of the variable's attributes in front. The file's name has its number. The entry is an
 * EFI_LOAD_OPTION (UEFI Specification 2.10, section 3.1.3), and the library reads each length in it. If it is malformed,
 * nard_load_option_read returns a status and the offset, and the parts before the offset are printed first. Ends with 1 if
 * an entry is malformed.
 */
#include <stdio.h>
#include <string.h>

#include "nardcorbel.h"
#include "nardcorbel_nodes.h"

/* More than firmware keeps of one variable, without its attributes. */
enum { MOST_BYTES = 65536, MOST_UNITS = MOST_BYTES / 2, MOST_SHOWN = 4 * MOST_BYTES, MOST_UTF8 = 3 * MOST_SHOWN + 1 };

/* The attributes of a load option, and the attributes of a variable that is stored, and visible at boot and at run time. */
enum { ACTIVE = 1, FORCE_RECONNECT = 2, HIDDEN = 8, CATEGORY = 0x1f00, VARIABLE_ATTRIBUTES = 7 };

/* The number of bytes before a description. */
enum { HEAD = 6 };

struct entry {
    const uint8_t *bytes;
    size_t size;
};

/* A line of text, in units, in those that are shown of it, and in UTF-8, and what is shown of a device path. */
static uint16_t units[MOST_UNITS], open_units[MOST_SHOWN], shown[MOST_SHOWN];
static char utf8[MOST_UTF8];

static bool refuse(size_t offset, const char *why)
{
    printf("  malformed at offset %zu: %s\n", offset, why);
    return false;
}

/* Refuses the units of a file path node, for the unit at `index` where the status is about one. */
static bool refuse_units(size_t offset, nard_status status, size_t index)
{
    printf("  malformed at offset %zu: file path: %s", offset, nard_status_text(status));
    if (status == NARD_INVALID_CHAR || status == NARD_INTERIOR_NUL)
        printf(" at index %zu", index);
    printf("\n");
    return false;
}

/* Returns whether a unit is a control character, or a character that changes the direction of a text or ends its line. */
static bool is_hidden(uint16_t unit)
{
    return (0 < unit && unit < 0x20) || (0x7f <= unit && unit < 0xa0) || unit == 0x61c || (unit & ~1) == 0x200e
        || (0x2028 <= unit && unit < 0x202f) || (0x2066 <= unit && unit < 0x206a);
}

/* Prints units before a NUL as UTF-8: `?` for each character that is hidden, U+FFFD for a surrogate without a partner. */
static void print_units(const uint16_t *from, size_t count)
{
    size_t length = 0;
    for (size_t i = 0; i < count; i++)
        open_units[i] = is_hidden(from[i]) ? '?' : from[i];
    if (nard_string_to_utf8_lossy(open_units, count, utf8, sizeof utf8, &length) == NARD_OK)
        fwrite(utf8, 1, length, stdout);
}

/* Prints the path of a file path node, whose units the bytes from `at` on are, and the verdict on it. */
static bool print_path(struct entry entry, size_t at, size_t size)
{
    size_t count = 0, length = 0, fault = 0, start = 0;
    nard_char16 character = 0;
    nard_status status = nard_units_from_bytes(entry.bytes + at, size, units, MOST_UNITS, &count);
    if (status != NARD_OK)
        return refuse_units(at + size - 1, status, 0);
    status = nard_string_check(units, count, &length, &fault);
    if (status != NARD_OK)
        return refuse_units(at + 2 * fault, status, fault);

    printf("  path: ");
    print_units(units, count);
    status = nard_path_check(units, count, NULL, NULL, &character);
    if (status == NARD_ILLEGAL_CHAR)
        printf(": refused: %s (value %u)\n", nard_status_text(status), (unsigned)character);
    else if (status != NARD_OK)
        printf(": refused: %s\n", nard_status_text(status));
    else
        printf(": accepted\n");
    if (status == NARD_OK && nard_path_file_name(units, length, &start)) {
        printf("  file: ");
        print_units(units + start, count - start);
        printf("\n");
    }
    return true;
}

/* Prints what the nodes say that name files, from the offset `at` on: all whole ones that begin before `end`. */
static bool print_nodes(struct entry entry, size_t at, size_t end)
{
    struct nard_device_node node;
    for (;;) {
        nard_status status = nard_device_path_next_node(entry.bytes, end, &at, &node, NULL);
        if (!nard_succeeded(status))
            return true;
        bool names_file = status == NARD_OK && node.node_type == NARD_FILE_PATH;
        if (names_file && !print_path(entry, node.data_offset, node.data_size))
            return false;
    }
}

/* Prints the description of an entry, which has `length` units. */
static void print_description(struct entry entry, size_t length)
{
    size_t count = 0;
    bool fits = nard_units_from_bytes(entry.bytes + HEAD, 2 * length, units, MOST_UNITS, &count) == NARD_OK;
    printf("  description: ");
    print_units(units, fits ? count : 0);
    printf("\n");
}

/* Prints each device path of the list that begins at the offset `at` as people read it: all that end before `end`. */
static void print_device_paths(struct entry entry, size_t at, size_t end)
{
    size_t size = 0, length = 0;
    while (at <= end && nard_device_path_check(entry.bytes + at, end - at, &size, NULL) == NARD_OK) {
        /* No byte of a path prints more than four units. */
        if (nard_device_path_format_utf16(entry.bytes + at, size, NARD_STYLE_UEFI, shown, MOST_SHOWN, &length, NULL) == NARD_OK) {
            printf("  device path: ");
            print_units(shown, length);
            printf("\n");
        }
        at += size;
    }
}

/* Prints the attributes of an entry. */
static void print_attributes(const uint8_t *bytes)
{
    uint32_t attributes = bytes[0] | bytes[1] << 8 | bytes[2] << 16 | (uint32_t)bytes[3] << 24;
    uint32_t category = (attributes & CATEGORY) >> 8, reserved = attributes & ~(uint32_t)(ACTIVE | FORCE_RECONNECT | HIDDEN | CATEGORY);
    const char *between = "  attributes: ";
    printf("  active: %s\n", attributes & ACTIVE ? "yes" : "no");
    if ((attributes & ~(uint32_t)ACTIVE) == 0)
        return;
    if (attributes & FORCE_RECONNECT) {
        printf("%sforce reconnect", between);
        between = ", ";
    }
    if (attributes & HIDDEN) {
        printf("%shidden", between);
        between = ", ";
    }
    if (category == 1)
        printf("%sapplication", between);
    else if (category != 0)
        printf("%scategory %u", between, (unsigned)category);
    if (category != 0)
        between = ", ";
    if (reserved != 0)
        printf("%sreserved 0x%x", between, (unsigned)reserved);
    printf("\n");
}

/* Returns whether bytes are printable ASCII. */
static bool is_ascii_text(const uint8_t *bytes, size_t size)
{
    for (size_t i = 0; i < size; i++)
        if (bytes[i] < 0x20 || bytes[i] > 0x7e)
            return false;
    return size != 0;
}

/* Returns whether all units are characters that can be shown, and at least half of them printable ASCII. */
static bool is_utf16_text(const uint16_t *from, size_t count)
{
    size_t ascii = 0;
    for (size_t i = 0; i < count; i++) {
        if (from[i] == 0 || is_hidden(from[i]) || (from[i] & 0xf800) == 0xd800)
            return false;
        ascii += from[i] < 0x7f;
    }
    return ascii != 0 && ascii >= count - ascii;
}

/* Prints the optional data of an entry. In a text, one NUL at the end is ignored. */
static void print_optional_data(const uint8_t *bytes, size_t size)
{
    size_t count = 0, bare = size - (size != 0 && bytes[size - 1] == 0);
    bool is_units = nard_units_from_bytes(bytes, size, units, MOST_UNITS, &count) == NARD_OK;
    if (size == 0)
        return;
    if (is_ascii_text(bytes, bare)) {
        printf("  optional data (ASCII): %.*s\n", (int)bare, (const char *)bytes);
        return;
    }
    count -= is_units && count != 0 && units[count - 1] == 0;
    if (is_units && is_utf16_text(units, count)) {
        printf("  optional data (UTF-16): ");
        print_units(units, count);
    } else {
        printf("  optional data (hexadecimal): ");
        for (size_t i = 0; i < size; i++)
            printf("%02x", bytes[i]);
    }
    printf("\n");
}

/* Prints an entry whose bytes begin with its own attributes. */
static bool print_entry(struct entry entry)
{
    struct nard_load_option option;
    size_t fault = 0, length = 0;
    nard_status status = nard_load_option_read(entry.bytes, entry.size, &option, &fault);
    if (status == NARD_OPTION_TOO_SHORT)
        return refuse(fault, nard_status_text(status));
    print_attributes(entry.bytes);
    if (nard_packed_length(entry.bytes + HEAD, entry.size - HEAD, &length) != NARD_OK)
        return refuse(fault, nard_status_text(status));
    /* All other faults are after the description, or in the length of the list after it. */
    size_t list = HEAD + 2 * (length + 1), end = status == NARD_OK ? list + option.path_list_size : fault;
    print_description(entry, length);
    print_device_paths(entry, list, end);
    if (!print_nodes(entry, list, end))
        return false;
    if (status != NARD_OK)
        return refuse(fault, nard_status_text(status));
    print_optional_data(option.optional_data, option.optional_data_size);
    return true;
}

/* Returns whether the name of a file is Boot####, which a dash and more may follow. Sets its number. */
static bool read_name(const char *path, uint16_t *number)
{
    const char *slash = strrchr(path, '/');
    const char *name = slash == NULL ? path : slash + 1;
    uint32_t kind = NARD_DRIVER;
    return nard_boot_name_read(name, strcspn(name, "-"), &kind, number) == NARD_OK && kind == NARD_BOOT;
}

static bool print_file(const char *path)
{
    /* No load option begins with these: the third bit of its attributes is reserved. */
    static const uint8_t attributes[] = {VARIABLE_ATTRIBUTES, 0, 0, 0};
    static uint8_t bytes[sizeof attributes + MOST_BYTES + 1];
    uint16_t number = 0;
    if (!read_name(path, &number)) {
        printf("%s\n", path);
        return refuse(0, "the name is not Boot and four hexadecimal digits");
    }
    printf("Boot%04X\n", (unsigned)number);
    FILE *file = fopen(path, "rb");
    if (file == NULL)
        return refuse(0, "the file cannot be opened");
    size_t size = fread(bytes, 1, sizeof bytes, file);
    bool is_read = ferror(file) == 0;
    fclose(file);
    if (!is_read)
        return refuse(size, "the file cannot be read");
    struct entry entry = {bytes, size};
    if (sizeof attributes <= size && memcmp(bytes, attributes, sizeof attributes) == 0) {
        entry.bytes += sizeof attributes;
        entry.size -= sizeof attributes;
    }
    if (entry.size > MOST_BYTES)
        return refuse(MOST_BYTES, "the entry is longer than a variable");
    return print_entry(entry);
}

int main(int count, char **paths)
{
    bool all_well = 1 < count;
    if (!all_well)
        fprintf(stderr, "usage: boot_entry FILE ..\n");
    for (int i = 1; i < count; i++)
        all_well = print_file(paths[i]) && all_well;
    return all_well ? 0 : 1;
}
