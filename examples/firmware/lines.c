#include "lines.h"

void lines_put(const char *text)
{
    for (; *text != '\0'; text++)
        lines_put_unit((uint8_t)*text);
}

void lines_put_number(size_t number)
{
    char text[21];
    size_t at = sizeof text - 1;
    text[at] = '\0';
    do
        text[--at] = (char)('0' + number % 10);
    while ((number /= 10) != 0);
    lines_put(text + at);
}

static void put_digits(uint16_t unit)
{
    for (int shift = 12; 0 <= shift; shift -= 4)
        lines_put_unit((uint8_t)"0123456789ABCDEF"[unit >> shift & 15]);
}

void lines_put_units(const uint16_t *units, size_t length)
{
    for (size_t i = 0; i < length; i++) {
        if (0x20 <= units[i] && units[i] < 0x7f) {
            lines_put_unit(units[i]);
            continue;
        }
        lines_put("<");
        put_digits(units[i]);
        lines_put(">");
    }
}

void lines_put_name(uint16_t number)
{
    uint16_t name[9] = {0};
    size_t length = 0;
    if (nard_boot_name_write_utf16(NARD_BOOT, number, name, 9, &length) == NARD_OK)
        lines_put_units(name, length);
}

static void put_fault(struct reader_fault fault)
{
    lines_put("    malformed at offset ");
    lines_put_number(fault.offset);
    lines_put(": ");
    lines_put(fault.part);
    lines_put(fault.reason);
    lines_put("\n");
}

static bool has_long_name(const uint16_t *normal, size_t length)
{
    size_t offset = 0, start = 0, count = 0;
    while (nard_path_next_component(normal, length, &offset, &start, &count))
        if (LINES_MOST_NAME < count)
            return true;
    return false;
}

bool lines_normal(const struct reader *reader, uint16_t *normal, size_t *length, const char **reason, uint16_t *character)
{
    nard_status status =
        nard_path_normalize_utf16(reader->path, reader->path_length + 1, normal, READER_MOST_UNITS, length, NULL, character);
    *reason = status != NARD_OK ? nard_status_text(status) : "a name is longer than file systems hold";
    return status == NARD_OK && !has_long_name(normal, *length);
}

/* Returns whether firmware starts a path from a disk without an entry (section 3.5.1.1), ignoring case. */
static bool is_fallback(const uint16_t *normal, size_t length)
{
    static const uint16_t pattern[] = u"EFI\\BOOT\\BOOT*.EFI";
    return nard_path_matches(normal, length + 1, pattern, sizeof pattern / sizeof pattern[0]);
}

/* Prints the file that the reader found. Returns whether it exists. */
static bool put_file(const struct reader *reader)
{
    static uint16_t normal[READER_MOST_UNITS];
    size_t length = 0;
    uint16_t character = 0;
    const char *reason = "";
    lines_put("    path ");
    lines_put_units(reader->path, reader->path_length);
    if (!lines_normal(reader, normal, &length, &reason, &character)) {
        lines_put(": refused: ");
        lines_put(reason);
        if (character != 0) {
            lines_put(" (value ");
            lines_put_number(character);
            lines_put(")");
        }
        lines_put("\n");
        return false;
    }
    lines_put("\n    file ");
    lines_put_units(normal, length);
    if (is_fallback(normal, length))
        lines_put(", a fallback");
    enum lines_found found = lines_look(reader, normal);
    switch (found) {
    case LINES_THERE: lines_put(": found\n"); break;
    case LINES_FOLDER: lines_put(": is a directory\n"); break;
    case LINES_NOT_THERE: lines_put(": not found\n"); break;
    case LINES_NO_DISK: lines_put(": disk not found\n"); break;
    case LINES_UNKNOWN: lines_put("\n"); break;
    }
    return found == LINES_THERE;
}

bool lines_show(struct reader *reader, uint16_t number, const uint8_t *bytes, size_t size)
{
    bool has_begun = reader_begin(reader, bytes, size), is_there = false;
    size_t files = 0;
    lines_put_name(number);
    lines_put(has_begun && !reader->is_active ? " not active: " : ": ");
    lines_put_units(reader->description, reader->description_length);
    lines_put("\n");
    if (reader->description_fault.reason != NULL)
        put_fault(reader->description_fault);
    while (has_begun && reader_next(reader)) {
        files++;
        is_there = put_file(reader) || is_there;
    }
    if (reader->fault.reason != NULL)
        put_fault(reader->fault);
    else if (files == 0)
        lines_put("    names no file\n");
    return is_there && reader->fault.reason == NULL;
}
