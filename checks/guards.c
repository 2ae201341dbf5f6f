/*
 * Tests each call of the library for access out of bounds, and for its effect on a buffer of each size.
 *
 * Each input and each buffer ends right before a page that nobody may read or write; in a second round it begins right after
 * one. A call that writes is made with each room from 0 to two elements more than it needs, and its result and the buffer must
 * be as the header says. Each call is also made with each prefix of its inputs, where only the bounds count.
 * In a third round each pointer whose count is 0 is null.
 *
 * usage: guards                  the rounds above
 *        guards uninitialized    one round in memory from malloc, in which buffers that a call only writes are uninitialized:
 *                                valgrind then says whether a result depends on them
 *
 * Prints each row that differs, and ends with 1 if one does. A call that touches a guard page ends the program.
 */
#define _GNU_SOURCE
#include <stdio.h>
#include <stdlib.h>
#include <string.h>
#include <sys/mman.h>
#include <uchar.h>

#include "nardcorbel.h"

enum { PAGE = 65536, AREA = 2 * PAGE, FILL = 0xa5, UNCHANGED = 99 };
enum area { BUFFER = 3, LENGTH, FAULT_AT, CHARACTER, NODE, AREAS }; /* after the areas of three inputs */

/* The effect on a buffer, and the meaning of `reason` and `place` of a row. */
enum rule {
    READ,    /* there is none, or it has as many elements as `out` and becomes `out` */
    STEP,    /* the same, and *place is `number` at first */
    REFUSED, /* it is unchanged, whatever its room */
    TEXT,    /* it begins with `out`, whose last element is a NUL, or is unchanged if that does not fit */
    WHOLE,   /* the same without a NUL */
    FITTING  /* it contains the part of `out` that fits; `reason` is returned once that is more than `place` elements */
};

struct list {
    const void *at;
    size_t count, width;
};

struct row {
    const char *name;
    nard_status (*call)(void);
    int line;
    enum rule rule;
    struct list in[3], before, out; /* `before`: what the buffer begins with, if it is read too */
    nard_status reason;
    bool answers; /* `reason` is a yes or a no */
    size_t place, number;
    nard_char16 character;
};

static uint8_t *areas[AREAS];
static bool at_end, is_null, is_uninitialized, is_judged, failed;
static struct {
    void *at;
    size_t count;
} given[3], buffer;
static size_t *length, *fault, number;
static nard_char16 *character;

/* Memory of an area, at its end or at its start: a copy, or bytes that show whether they are written. */
static void *put(enum area area, const void *at, size_t size)
{
    if (is_null && size == 0)
        return NULL;
    if (is_uninitialized) {
        free(areas[area]);
        areas[area] = malloc(size);
        return at != NULL ? memcpy(areas[area], at, size) : areas[area];
    }
    uint8_t *memory = areas[area] + (at_end ? AREA - size : 0);
    return at != NULL ? memcpy(memory, at, size) : memset(memory, FILL, size);
}

#define IN(i) given[i].at, given[i].count
#define OUT buffer.at, buffer.count
#define JUDGED (is_judged = true, character)
#define CALL(name, ...) CALL_AS(name, name, __VA_ARGS__)
#define CALL_AS(row, name, ...)                       \
    static nard_status call_##row(void)               \
    {                                                 \
        return (nard_status)nard_##name(__VA_ARGS__); \
    }
#define ASKS(name) CALL(name, IN(0))
#define COMPARES(name) CALL(name, IN(0), IN(1))
#define FINDS(name) CALL(name, IN(0), length, fault)
#define WRITES(name) CALL(name, IN(0), OUT, length, fault)
#define CONVERTS(name) CALL(name, IN(0), OUT, length)
/* The style of a text. */
#define FORMATS(row, name, style) CALL_AS(row, name, IN(0), style, OUT, length, fault)
#define ADDS(row, name, style) CALL_AS(row, name, OUT, number, IN(0), style, length, fault)
ASKS(string_is_ascii) ASKS(utf8_is_latin1) ASKS(fat_name_is_short)
COMPARES(string_equal) COMPARES(string_compare) COMPARES(string_equal_ignore_case) COMPARES(string_compare_ignore_case)
COMPARES(string_matches) COMPARES(path_equal) COMPARES(path_compare) COMPARES(path_equal_ignore_case) COMPARES(path_matches)
COMPARES(fat_name_equal) COMPARES(string_equal_until_nul) COMPARES(device_path_is_expansion)
FINDS(string_check) FINDS(string_length) FINDS(device_path_check)
WRITES(string_from_utf8) WRITES(string_to_utf8) WRITES(path_parent)
WRITES(device_path_file_path) WRITES(device_path_file_path_utf16)
CONVERTS(units_from_bytes) CONVERTS(fat_from_string) CONVERTS(string_from_fat) CONVERTS(string_to_utf8_lossy)
CONVERTS(packed_escape)
FORMATS(device_path_format, device_path_format, number) FORMATS(device_path_format_utf16, device_path_format_utf16, number)
FORMATS(node_format, node_format, number) FORMATS(node_format_utf16, node_format_utf16, number)
FORMATS(device_path_parse, device_path_parse, number) FORMATS(device_path_parse_utf16, device_path_parse_utf16, number)
FORMATS(device_path_explain, device_path_explain, number) FORMATS(device_path_explain_utf16, device_path_explain_utf16, number)
ADDS(device_path_push_text, device_path_push_text, NARD_STYLE_UEFI)
ADDS(device_path_push_typed, device_path_push_text, NARD_STYLE_TYPED)
ADDS(device_path_push_libefivar, device_path_push_text, NARD_STYLE_LIBEFIVAR)
ADDS(device_path_push_unknown, device_path_push_text, 3)
ADDS(device_path_push_text_utf16, device_path_push_text_utf16, NARD_STYLE_UEFI)
ADDS(device_path_push_typed_utf16, device_path_push_text_utf16, NARD_STYLE_TYPED)
ADDS(device_path_push_libefivar_utf16, device_path_push_text_utf16, NARD_STYLE_LIBEFIVAR)
CALL(packed_length, IN(0), length)
CALL(path_file_name, IN(0), length)
CALL(path_parent_length, IN(0), length)
CALL(path_check, IN(0), length, fault, JUDGED)
CALL(path_next_component, IN(0), length, (size_t *)buffer.at, (size_t *)buffer.at + 1)
CALL(path_push, OUT, number, IN(0), length, fault)
CALL(device_path_needs, IN(0), length, (size_t *)buffer.at, fault)
CALL(path_join, IN(0), IN(1), OUT, length, fault)
CALL(path_normalize_utf16, IN(0), OUT, length, fault, JUDGED)
CALL(path_normalize, IN(0), OUT, length, fault, JUDGED)
CALL(fat_name_check, IN(0), length, fault, JUDGED)
CALL(device_path_text_extent, IN(0), number, length, fault)
CALL(node_number, IN(0), number, buffer.at)
CALL(device_path_init, OUT, length)
CALL(device_path_push, OUT, number >> 16, number & 0xffff, IN(0), length, fault)
CALL(device_path_append, OUT, number, IN(0), length, fault)
CALL(load_option_write, number, IN(0), IN(1), IN(2), OUT, length, fault)
CALL(device_path_strip_prefix, IN(0), IN(1), length)
CALL(boot_name_write, number >> 16, (nard_char16)number, OUT, length)
CALL(boot_name_write_utf16, number >> 16, (nard_char16)number, OUT, length)
CALL(version)

/* The node's fields are the buffer then, or its bytes if there is no node: a struct may have bytes that nobody writes. */
static nard_status call_device_path_next_node(void)
{
    struct nard_device_node *node = put(NODE, NULL, sizeof *node);
    nard_status reason = nard_device_path_next_node(IN(0), length, node, fault);
    size_t fields[] = {node->node_type, node->data_offset, node->data_size};
    memcpy(buffer.at, reason == NARD_OK ? (const void *)fields : node, reason == NARD_OK ? sizeof fields : sizeof *node);
    return reason;
}

/* The same of the parts of a load option. */
static nard_status call_load_option_check(void)
{
    struct nard_load_option_parts *parts = put(NODE, NULL, sizeof *parts);
    nard_status reason = nard_load_option_check(IN(0), parts, fault);
    size_t fields[] = {parts->attributes, parts->description_offset, parts->description_length, parts->path_list_offset,
                       parts->path_list_size, parts->first_path_size, parts->optional_data_offset, parts->optional_data_size};
    memcpy(buffer.at, reason == NARD_OK ? (const void *)fields : parts, reason == NARD_OK ? sizeof fields : sizeof *parts);
    return reason;
}

/* The number of a name or of an order is the character then. */
static nard_status call_boot_name_read_utf16(void)
{
    nard_status reason = nard_boot_name_read_utf16(IN(0), buffer.at, character);
    is_judged = reason == NARD_OK;
    return reason;
}

static nard_status call_boot_order_read(void)
{
    nard_status reason = nard_boot_order_read(IN(0), number, character);
    is_judged = reason == NARD_OK;
    return reason;
}

/* Units with the NUL that the compiler puts after them and without, and bytes without it. */
#define UNITS(text) {text, sizeof(text) / sizeof(nard_char16), sizeof(nard_char16)}
#define OPEN(text) {text, sizeof(text) / sizeof(nard_char16) - 1, sizeof(nard_char16)}
#define BYTES(text) {text, sizeof(text) - 1, 1}
#define NO_BYTES {NULL, 0, 1}
#define SIZES(...) {(const size_t[]){__VA_ARGS__}, sizeof((size_t[]){__VA_ARGS__}) / sizeof(size_t), sizeof(size_t)}
#define NO_SIZES(count) {NULL, count, sizeof(size_t)}
#define KIND(number) {(const uint32_t[]){number}, 1, sizeof(uint32_t)}
#define NO_KIND {NULL, 1, sizeof(uint32_t)}

/* A PCI function, a file \a, and the node that ends a path; a load option of these; and nodes with a fault. */
#define PCI "\1\1\6\0\0\x1f"
#define FILE_A "\4\4\12\0\\\0a\0\0\0"
#define END "\x7f\xff\4\0"
#define OPTION "\1\0\0\0\24\0b\0\0\0" PCI FILE_A END "x"
#define UNKNOWN "\x7f\2\3\0"
#define BEYOND PCI "\1\1\5\0"

/* A terminal of EFI_PC_ANSI_GUID, and a disc's boot entry 1, of 3 blocks from block 2 on. */
#define PC_ANSI "\3\12\24\0\x53\x47\xc1\xe0\xbe\xf9\xd2\x11\x9a\x0c\0\x90\x27\x3f\xc1\x4d"
#define DISC "\4\2\30\0\1\0\0\0\2\0\0\0\0\0\0\0\3\0\0\0\0\0\0\0"

/* Data and paths that are as long as a node and a list can state, or a byte longer. */
static const uint8_t long_data[65532], full_node[65539] = {1, 1, 0xff, 0xff, [65535] = 0x7f, 0xff, 4};
static const uint8_t full_list[65535] = {1, 1, 0xfb, 0xff, [65531] = 0x7f, 0xff, 4};
static const uint8_t full_option[65545] = {[4] = 0xff, 0xff, 'b', [10] = 1, 1, 0xfb, 0xff, [65541] = 0x7f, 0xff, 4};
static const uint8_t long_list[65536] = {1, 1, 0xfc, 0xff, [65532] = 0x7f, 0xff, 4};

#define ROW(name_, rule_, ...) {.name = #name_, .call = call_##name_, .line = __LINE__, .rule = rule_, __VA_ARGS__}
#define ANSWER(name, answer, ...) ROW(name, READ, .in = {__VA_ARGS__}, .reason = (nard_status)(answer), .place = UNCHANGED)
#define FOUND(name, place_, ...) ROW(name, READ, .in = {__VA_ARGS__}, .reason = true, .answers = true, .place = place_)
#define FAULT(name, rule, reason_, place_, ...) ROW(name, rule, .reason = NARD_##reason_, .place = place_, __VA_ARGS__)
#define BAD_UNITS(name, rule, ...)                                                  \
    FAULT(name, rule, NO_NUL, 2, .in = {OPEN(u"ab")}, __VA_ARGS__),                 \
        FAULT(name, rule, INVALID_CHAR, 1, .in = {UNITS(u"a\xd800")}, __VA_ARGS__), \
        FAULT(name, rule, NO_NUL, 0, .in = {OPEN(u"")}, __VA_ARGS__)
#define BAD_PATHS(name, rule, ...)                                                              \
    FAULT(name, rule, NO_END_NODE, 6, .in = {BYTES(PCI)}, __VA_ARGS__),                         \
        FAULT(name, rule, TRUNCATED_HEADER, 6, .in = {BYTES(PCI "\x7f\xff\4")}, __VA_ARGS__),   \
        FAULT(name, rule, UNKNOWN_END, 1, .in = {BYTES(UNKNOWN)}, __VA_ARGS__),                 \
        FAULT(name, rule, NODE_BEYOND_END, 8, .in = {BYTES(BEYOND)}, __VA_ARGS__)
#define PAIR(one, two, equal, order, same, caseless, matches, path, path_order_, same_path, path_matches_, fat)   \
    ANSWER(string_equal, equal, one, two), ANSWER(string_compare, order, one, two),                                \
        ANSWER(string_equal_ignore_case, same, one, two), ANSWER(string_compare_ignore_case, caseless, one, two),  \
        ANSWER(string_matches, matches, one, two), ANSWER(path_equal, path, one, two),                           \
        ANSWER(path_compare, path_order_, one, two), ANSWER(path_equal_ignore_case, same_path, one, two),          \
        ANSWER(path_matches, path_matches_, one, two), ANSWER(fat_name_equal, fat, one, two)

static const struct row rows[] = {
    PAIR(UNITS(u"a"), UNITS(u"a"), 1, 0, 1, 0, 1, 1, 0, 1, 1, 1),
    PAIR(UNITS(u"a"), UNITS(u"A"), 0, 1, 1, 0, 1, 0, 1, 1, 1, 1),
    PAIR(UNITS(u""), UNITS(u""), 1, 0, 1, 0, 1, 1, 0, 1, 1, 1),
    PAIR(UNITS(u"\\a"), UNITS(u"a"), 0, -1, 0, 1, 0, 1, 0, 1, 1, 0),
    PAIR(UNITS(u"ab\\c"), UNITS(u"a*"), 0, 1, 0, 1, 1, 0, 1, 0, 0, 0),
    PAIR(UNITS(u" a. "), UNITS(u"A"), 0, -1, 0, -1, 0, 0, -1, 0, 0, 1),
    /* A text need not have its NUL, except where components or names are compared. */
    PAIR(OPEN(u"a"), UNITS(u"a"), 1, 0, 1, 0, 1, 1, 0, 1, 0, 0),
    PAIR(UNITS(u"*"), UNITS(u"*\xdfff"), 0, -1, 0, -1, 0, 0, -1, 0, 0, 0),
    PAIR(OPEN(u"\\a\xdfff"), UNITS(u"a\xdfff\0b"), 0, -1, 0, 1, 0, 1, 0, 1, 0, 0),
    ROW(string_check, READ, .in = {UNITS(u"ab")}, .place = 2),
    FAULT(string_check, READ, INTERIOR_NUL, 1, .in = {UNITS(u"a\0\xd800")}), BAD_UNITS(string_check, READ),
    ROW(string_length, READ, .in = {UNITS(u"a\0\xd800")}, .place = 1), BAD_UNITS(string_length, READ),
    ANSWER(string_is_ascii, true, UNITS(u"a\x7f")), ANSWER(string_is_ascii, false, UNITS(u"a\x80")),
    ANSWER(string_is_ascii, true, OPEN(u"a")), ANSWER(string_is_ascii, false, UNITS(u"a\xd800")),
    ROW(units_from_bytes, WHOLE, .in = {BYTES("a\0\0\xd8")}, .out = OPEN(u"a\xd800")),
    ROW(units_from_bytes, WHOLE, .in = {BYTES("")}, .out = OPEN(u"")),
    FAULT(units_from_bytes, REFUSED, ODD_BYTES, UNCHANGED, .in = {BYTES("a\0b")}),
    ROW(packed_length, READ, .in = {BYTES("\0\xd8\0\0b")}, .place = 1),
    FAULT(packed_length, READ, NO_NUL, UNCHANGED, .in = {BYTES("a\0b\0\0")}),
    ROW(string_from_utf8, TEXT, .in = {BYTES("a\xc3\xa9\xe2\x82\xac")}, .out = UNITS(u"a\u00e9\u20ac")),
    ROW(string_from_utf8, TEXT, .in = {BYTES("\xef\xbf\xbf")}, .out = UNITS(u"\uffff")),
    ROW(string_from_utf8, TEXT, .in = {BYTES("")}, .out = UNITS(u"")),
    FAULT(string_from_utf8, REFUSED, INVALID_CHAR, 1, .in = {BYTES("a\xf0\x9f\x98\x80\0z")}),
    FAULT(string_from_utf8, REFUSED, INTERIOR_NUL, 2, .in = {BYTES("\xc3\xa9z\0\xf0\x9f\x98\x80")}),
    FAULT(string_from_utf8, REFUSED, INVALID_CHAR, 0, .in = {BYTES("\xf0\x90\x80\x80")}),
    FAULT(string_from_utf8, REFUSED, NOT_UTF8, 1, .in = {BYTES("\0\xe2\x82")}),
    FAULT(string_from_utf8, REFUSED, NOT_UTF8, 2, .in = {BYTES("\xc3\xa9\xe2\x82")}),
    ROW(string_to_utf8, TEXT, .in = {UNITS(u"a\u00e9\u20ac")}, .out = BYTES("a\xc3\xa9\xe2\x82\xac\0")),
    BAD_UNITS(string_to_utf8, REFUSED, .out = NO_BYTES),
    ANSWER(string_equal_until_nul, true, UNITS(u"ab"), BYTES("abc")),
    ANSWER(string_equal_until_nul, true, UNITS(u"ab"), BYTES("a\0c")),
    ANSWER(string_equal_until_nul, false, UNITS(u"ab"), BYTES("ac")),
    ANSWER(string_equal_until_nul, false, OPEN(u"ab"), BYTES("ab")),
    ANSWER(utf8_is_latin1, true, BYTES("a\xc3\xbf")), ANSWER(utf8_is_latin1, false, BYTES("a\xc4\x80")),
    ANSWER(utf8_is_latin1, false, BYTES("a\xc3")),
    ROW(path_check, READ, .in = {UNITS(u"\\a\\..\\b")}, .place = 7),
    FAULT(path_check, READ, PATH_EMPTY, 0, .in = {UNITS(u"")}),
    FAULT(path_check, READ, EMPTY_COMPONENT, 2, .in = {UNITS(u"a\\\\b")}),
    FAULT(path_check, READ, ILLEGAL_CHAR, 2, .in = {UNITS(u"a\\b:*")}, .character = ':'),
    FAULT(path_check, READ, CLIMBS_ABOVE_ROOT, 5, .in = {UNITS(u"a\\..\\..")}), BAD_UNITS(path_check, READ),
    ROW(path_next_component, STEP, .in = {OPEN(u"\\ab\\\\")}, .number = 0, .reason = true, .answers = true, .place = 4, .out = SIZES(1, 2)),
    ROW(path_next_component, STEP, .in = {OPEN(u"\\ab\\\\")}, .number = 4, .reason = true, .answers = true, .place = 5, .out = SIZES(4, 0)),
    ROW(path_next_component, STEP, .in = {OPEN(u"\\ab\\\\")}, .number = 6, .reason = false, .place = 6, .out = NO_SIZES(2)),
    ROW(path_next_component, STEP, .in = {OPEN(u"\\")}, .number = 0, .reason = false, .place = 0, .out = NO_SIZES(2)),
    FOUND(path_file_name, 4, OPEN(u"\\ab\\c")), ANSWER(path_file_name, false, OPEN(u"\\")),
    FOUND(path_parent_length, 3, OPEN(u"\\ab\\c")), ANSWER(path_parent_length, false, OPEN(u"\\ab")),
    ROW(path_push, TEXT, .before = OPEN(u"\\a"), .in = {UNITS(u"b/c")}, .number = 2, .out = UNITS(u"\\a\\b\\c")),
    ROW(path_push, TEXT, .before = UNITS(u"a\\"), .in = {OPEN(u"b")}, .number = 2, .out = UNITS(u"a\\b")),
    ROW(path_push, TEXT, .before = UNITS(u"a/"), .in = {UNITS(u"")}, .number = 2, .out = UNITS(u"a/")),
    ROW(path_push, TEXT, .before = UNITS(u"a\xd800"), .in = {UNITS(u"b\0\xd800")}, .number = 2, .out = UNITS(u"a\xd800\\b")),
    FAULT(path_push, REFUSED, INVALID_CHAR, 1, .before = OPEN(u"\\a"), .in = {UNITS(u"b\xd800")}, .number = 2),
    ROW(path_join, TEXT, .in = {UNITS(u"/a"), UNITS(u"b/")}, .out = UNITS(u"\\a\\b\\")),
    ROW(path_join, TEXT, .in = {UNITS(u"a/"), UNITS(u"")}, .out = UNITS(u"a\\")),
    FAULT(path_join, REFUSED, NO_NUL, 2, .in = {OPEN(u"ab"), UNITS(u"\xd800")}),
    FAULT(path_join, REFUSED, INVALID_CHAR, 0, .in = {UNITS(u"ab"), UNITS(u"\xd800")}),
    ROW(path_parent, TEXT, .in = {UNITS(u"\\a/b\\c\\d")}, .out = UNITS(u"a\\b\\c")),
    ROW(path_parent, TEXT, .in = {UNITS(u"a\\\\b\\\\c")}, .out = UNITS(u"a\\b\\")),
    FAULT(path_parent, REFUSED, NO_PARENT, UNCHANGED, .in = {UNITS(u"\\a")}), BAD_UNITS(path_parent, REFUSED),
    ROW(path_normalize_utf16, TEXT, .in = {UNITS(u"\\a\\.\\b\\..\\c")}, .out = UNITS(u"a\\c")),
    ROW(path_normalize_utf16, TEXT, .in = {UNITS(u"a\\..")}, .out = UNITS(u"\\")),
    ROW(path_normalize_utf16, TEXT, .in = {UNITS(u"/efi/boot\\../x/.")}, .out = UNITS(u"efi\\x")),
    FAULT(path_normalize_utf16, REFUSED, CLIMBS_ABOVE_ROOT, UNCHANGED, .in = {UNITS(u"/..")}),
    FAULT(path_normalize_utf16, REFUSED, EMPTY_COMPONENT, UNCHANGED, .in = {UNITS(u"a\\\\")}),
    FAULT(path_normalize_utf16, REFUSED, ILLEGAL_CHAR, UNCHANGED, .in = {UNITS(u"a\\?")}, .character = '?'),
    BAD_UNITS(path_normalize_utf16, REFUSED),
    FAULT(path_normalize, REFUSED, NOT_UTF8, 1, .in = {BYTES("?\xe2\x82")}),
    FAULT(path_normalize, REFUSED, INVALID_CHAR, 1, .in = {BYTES("?\xf0\x9f\x98\x80")}),
    FAULT(path_normalize, REFUSED, INTERIOR_NUL, 2, .in = {BYTES("..\0")}),
    ROW(fat_name_check, READ, .in = {UNITS(u" a. ")}, .place = 4),
    FAULT(fat_name_check, READ, NAME_EMPTY, UNCHANGED, .in = {UNITS(u"..")}),
    FAULT(fat_name_check, READ, ILLEGAL_CHAR, UNCHANGED, .in = {UNITS(u"a|*")}, .character = '|'), BAD_UNITS(fat_name_check, READ),
    ANSWER(fat_name_is_short, true, UNITS(u"BOOTX64.EFI")), ANSWER(fat_name_is_short, false, UNITS(u"BOOTX64.EFI_")),
    ANSWER(fat_name_is_short, false, OPEN(u"A")),
    ANSWER(string_equal_ignore_case, true, OPEN(u"a\xd83d\0x"), UNITS(u"A\xd83d")),
    ANSWER(string_equal_ignore_case, false, OPEN(u"a\xd83d"), OPEN(u"a\xd83e")),
    ANSWER(string_equal_ignore_case, true, OPEN(u""), UNITS(u"")),
    ANSWER(string_compare_ignore_case, -1, OPEN(u"a\xd83d"), OPEN(u"A\xde00")),
    ANSWER(string_compare_ignore_case, 1, OPEN(u"b\xd83d"), UNITS(u"B")),
    ANSWER(string_compare_ignore_case, 0, UNITS(u"\xe9"), OPEN(u"\xc9")),
    ANSWER(string_matches, true, OPEN(u"Photo \xd83d\xde00.jpg"), UNITS(u"photo *.j?g")),
    ANSWER(string_matches, true, UNITS(u"\xd83d"), OPEN(u"[\xd800-\xdbff]")),
    ANSWER(string_matches, false, UNITS(u"a\xd83d"), UNITS(u"a")),
    FAULT(fat_from_string, FITTING, CHAR_REPLACED, 1, .in = {OPEN(u"a\xd83d.b")}, .out = BYTES("A_B")),
    ROW(fat_from_string, FITTING, .in = {UNITS(u"boot")}, .out = BYTES("BOOT")),
    ROW(fat_from_string, FITTING, .in = {OPEN(u"boot")}, .out = BYTES("BOOT")),
    FAULT(fat_from_string, FITTING, CHAR_REPLACED, 2, .in = {UNITS(u"b c.+d")}, .out = BYTES("BC_D")),
    ROW(fat_from_string, FITTING, .in = {UNITS(u"boot")}, .out = BYTES("BOOT")),
    ROW(string_from_fat, TEXT, .in = {BYTES("BO\xff")}, .out = UNITS(u"BO\u00ff")),
    ROW(string_from_fat, TEXT, .in = {BYTES("A\0B")}, .out = UNITS(u"A")),
    ROW(string_from_fat, TEXT, .in = {BYTES("")}, .out = UNITS(u"")),
    ROW(device_path_check, READ, .in = {BYTES(PCI END "x")}, .place = 10),
    FAULT(device_path_check, READ, LENGTH_BELOW_HEADER, 2, .in = {BYTES("\1\1\3\0")}),
    FAULT(device_path_check, READ, END_WITH_DATA, 2, .in = {BYTES("\x7f\xff\5\0")}), BAD_PATHS(device_path_check, READ),
    ROW(device_path_needs, STEP, .in = {BYTES(PCI END "x")}, .place = 0, .out = SIZES(10)),
    ROW(device_path_needs, STEP, .in = {BYTES(PCI END)}, .number = 6, .place = 6, .out = SIZES(10)),
    ROW(device_path_needs, STEP, .in = {BYTES(PCI)}, .place = 6, .out = SIZES(10)),
    ROW(device_path_needs, STEP, .in = {BYTES(PCI "\1\1\5\1")}, .place = 6, .out = SIZES(6 + 0x105)),
    ROW(device_path_needs, STEP, .in = {BYTES(PCI)}, .number = 6, .place = 6, .out = SIZES(10)),
    ROW(device_path_needs, STEP, .in = {BYTES("\1\1\6")}, .place = 0, .out = SIZES(4)),
    FAULT(device_path_needs, STEP, NO_END_NODE, 7, .in = {BYTES(PCI)}, .number = 7, .out = NO_SIZES(1)),
    FAULT(device_path_needs, STEP, LENGTH_BELOW_HEADER, 8, .in = {BYTES(PCI "\1\1\3\0")}, .out = NO_SIZES(1)),
    FAULT(device_path_needs, STEP, UNKNOWN_END, 7, .in = {BYTES(PCI "\x7f\2\xff\0")}, .out = NO_SIZES(1)),
    FAULT(device_path_needs, STEP, END_WITH_DATA, 8, .in = {BYTES(PCI "\x7f\xff\xff\0")}, .out = NO_SIZES(1)),
    ROW(device_path_next_node, STEP, .in = {BYTES(END PCI)}, .number = 4, .place = 10, .out = SIZES(0x101, 8, 2)),
    ROW(device_path_next_node, STEP, .in = {BYTES(PCI END)}, .number = 6, .reason = NARD_END, .place = 10, .out = NO_SIZES(3)),
    FAULT(device_path_next_node, STEP, NODE_BEYOND_END, 8, .in = {BYTES(BEYOND)}, .number = 6, .out = NO_SIZES(3)),
    FAULT(device_path_next_node, STEP, NO_END_NODE, 6, .in = {BYTES(PCI)}, .number = 6, .out = NO_SIZES(3)),
    FAULT(device_path_next_node, STEP, NO_END_NODE, 77, .in = {BYTES(PCI)}, .number = 77, .out = NO_SIZES(3)),
    ROW(device_path_file_path, TEXT, .in = {BYTES(PCI FILE_A "\4\4\12\0/\0\xe9\0\0\0" END)}, .out = BYTES("\\a\\\xc3\xa9\0")),
    FAULT(device_path_file_path, REFUSED, ODD_BYTES, 10, .in = {BYTES(PCI "\4\4\5\0a" END)}),
    FAULT(device_path_file_path, REFUSED, INVALID_CHAR, 4, .in = {BYTES("\4\4\10\0\0\xd8\0\0" END)}),
    BAD_PATHS(device_path_file_path, REFUSED),
    ROW(device_path_file_path_utf16, TEXT, .in = {BYTES(PCI FILE_A "\4\4\12\0/\0b\0\0\0" END)}, .out = UNITS(u"\\a\\b")),
    FAULT(device_path_file_path_utf16, REFUSED, ODD_BYTES, 10, .in = {BYTES(PCI "\4\4\5\0a" END)}),
    FAULT(device_path_file_path_utf16, REFUSED, INVALID_CHAR, 4, .in = {BYTES("\4\4\10\0\0\xd8\0\0" END)}),
    BAD_PATHS(device_path_file_path_utf16, REFUSED),
    ROW(device_path_format_utf16, TEXT, .number = NARD_STYLE_LIBEFIVAR, .in = {BYTES(PCI FILE_A END "x")},
        .out = UNITS(u"Pci(0x1F,0x0)/File(\\a)")),
    ROW(device_path_format_utf16, TEXT, .number = NARD_STYLE_LIBEFIVAR,
        .in = {BYTES("\4\1\52\0\1\0\0\0\x3f\0\0\0\0\0\0\0\xc8\0\0\0\0\0\0\0\xab\xcd\0\0\0\0\0\0\0\0\0\0\0\0\0\0\1\1" END)},
        .out = UNITS(u"HD(1,MBR,0x0000cdab,0x3f,0xc8)")),
    BAD_PATHS(device_path_format_utf16, REFUSED, .number = NARD_STYLE_LIBEFIVAR),
    ROW(device_path_format_utf16, TEXT, .in = {BYTES(PCI FILE_A END)}, .out = UNITS(u"Pci(0x1F,0x0)/\\a")),
    ROW(device_path_format_utf16, TEXT, .in = {BYTES("\2\1\14\0\xd0\x41\3\12\1\0\0\0" END)},
        .number = NARD_DISPLAY_ONLY | NARD_ALLOW_SHORTCUTS, .out = UNITS(u"PciRoot(0x1)")),
    ROW(device_path_format_utf16, TEXT, .in = {BYTES(END)}, .out = UNITS(u"")), BAD_PATHS(device_path_format_utf16, REFUSED),
    FAULT(device_path_format_utf16, REFUSED, UNKNOWN_STYLE, UNCHANGED, .in = {BYTES(PCI)}, .number = NARD_STYLE_TYPED),
    /* The same in UTF-8. */
    ROW(device_path_format, TEXT, .in = {BYTES(PCI FILE_A END)}, .out = BYTES("Pci(0x1F,0x0)/\\a\0")),
    ROW(device_path_format, TEXT, .number = NARD_STYLE_LIBEFIVAR, .in = {BYTES(PCI FILE_A END "x")},
        .out = BYTES("Pci(0x1F,0x0)/File(\\a)\0")),
    ROW(device_path_format, TEXT, .in = {BYTES("\4\4\20\0\\\0\xe9\0\0\x4e\x3d\xd8\0\xde\0\0" END)},
        .out = BYTES("\\\xc3\xa9\xe4\xb8\x80\xf0\x9f\x98\x80\0")),
    ROW(device_path_format, TEXT, .in = {BYTES(END)}, .out = BYTES("\0")), BAD_PATHS(device_path_format, REFUSED),
    FAULT(device_path_format, REFUSED, UNKNOWN_STYLE, UNCHANGED, .in = {BYTES(PCI)}, .number = NARD_STYLE_LIBEFIVAR | NARD_DISPLAY_ONLY),
    /* The specification's forms, and EDK II's for a node's display alone; the file after the first node is not read. */
    ROW(node_format_utf16, TEXT, .in = {BYTES(PCI FILE_A)}, .out = UNITS(u"Pci(0x1F,0x0)")),
    ROW(node_format_utf16, TEXT, .in = {BYTES(PC_ANSI)}, .out = UNITS(u"VenMsg(E0C14753-F9BE-11D2-9A0C-0090273FC14D)")),
    ROW(node_format_utf16, TEXT, .in = {BYTES(PC_ANSI)}, .number = NARD_ALLOW_SHORTCUTS, .out = UNITS(u"VenPcAnsi()")),
    ROW(node_format_utf16, TEXT, .in = {BYTES(DISC)}, .number = NARD_ALLOW_SHORTCUTS, .out = UNITS(u"CDROM(0x1,0x2,0x3)")),
    ROW(node_format_utf16, TEXT, .in = {BYTES(DISC)}, .number = NARD_DISPLAY_ONLY, .out = UNITS(u"CDROM(0x1)")),
    ROW(node_format_utf16, TEXT, .in = {BYTES(END PCI)}, .out = UNITS(u"Path(127,255)")),
    ROW(node_format_utf16, TEXT, .in = {BYTES("\4\4\6\0\0\0")}, .out = UNITS(u"")),
    ROW(node_format, TEXT, .in = {BYTES(PCI FILE_A)}, .out = BYTES("Pci(0x1F,0x0)\0")),
    ROW(node_format, TEXT, .in = {BYTES(DISC)}, .number = NARD_DISPLAY_ONLY, .out = BYTES("CDROM(0x1)\0")),
    FAULT(node_format, REFUSED, UNKNOWN_STYLE, UNCHANGED, .in = {BYTES(PCI)}, .number = NARD_STYLE_LIBEFIVAR),
    FAULT(node_format, REFUSED, NODE_BEYOND_END, 2, .in = {BYTES("\1\1\5\0")}, .number = NARD_STYLE_LIBEFIVAR),
    FAULT(node_format_utf16, REFUSED, UNKNOWN_STYLE, UNCHANGED, .in = {BYTES("")}, .number = 3),
    FAULT(node_format_utf16, REFUSED, NO_END_NODE, 0, .in = {BYTES("")}),
    FAULT(node_format_utf16, REFUSED, TRUNCATED_HEADER, 0, .in = {BYTES("\1\1\6")}),
    FAULT(node_format_utf16, REFUSED, UNKNOWN_END, 1, .in = {BYTES(UNKNOWN)}),
    FAULT(node_format_utf16, REFUSED, LENGTH_BELOW_HEADER, 2, .in = {BYTES("\1\1\3\0")}),
    FAULT(node_format_utf16, REFUSED, END_WITH_DATA, 2, .in = {BYTES("\x7f\xff\5\0")}),
    FAULT(node_format_utf16, REFUSED, NODE_BEYOND_END, 2, .in = {BYTES("\1\1\5\0")}),
    ROW(node_number, READ, .in = {BYTES("\1\2\3")}, .place = UNCHANGED, .number = 0x102, .out = SIZES(0x302)),
    ROW(node_number, READ, .in = {BYTES("\1\2\3\4\5\6\7\x88")}, .place = UNCHANGED, .number = 8, .out = SIZES(0x8807060504030201)),
    FAULT(node_number, READ, NO_FIELD, UNCHANGED, .in = {BYTES("\1\2\3")}, .number = 0x202, .out = NO_SIZES(1)),
    FAULT(node_number, READ, NO_FIELD, UNCHANGED, .in = {BYTES("\1\2\3")}, .number = 3, .out = NO_SIZES(1)),
    FAULT(node_number, READ, NO_FIELD, UNCHANGED, .in = {NO_BYTES}, .number = 1, .out = NO_SIZES(1)),
    ROW(load_option_check, READ, .in = {BYTES(OPTION)}, .place = UNCHANGED, .out = SIZES(1, 6, 1, 10, 20, 20, 30, 1)),
    FAULT(load_option_check, READ, OPTION_TOO_SHORT, 5, .in = {BYTES("\1\0\0\0\24")}, .out = NO_SIZES(8)),
    FAULT(load_option_check, READ, DESCRIPTION_WITHOUT_END, 8, .in = {BYTES("\1\0\0\0\4\0b\0\0")}, .out = NO_SIZES(8)),
    FAULT(load_option_check, READ, LIST_BEYOND_END, 4, .in = {BYTES("\1\0\0\0\5\0\0\0" END)}, .out = NO_SIZES(8)),
    FAULT(load_option_check, READ, EMPTY_LIST, 8, .in = {BYTES("\1\0\0\0\0\0\0\0")}, .out = NO_SIZES(8)),
    FAULT(load_option_check, READ, UNKNOWN_END, 9, .in = {BYTES("\1\0\0\0\4\0\0\0" UNKNOWN)}, .out = NO_SIZES(8)),
    ROW(device_path_init, WHOLE, .out = BYTES(END)),
    ROW(device_path_push, WHOLE, .before = BYTES(PCI END "x"), .in = {BYTES("\0\x1f")}, .number = 0xa0101,
        .out = BYTES(PCI PCI END)),
    ROW(device_path_push, WHOLE, .before = BYTES(PCI END PCI END), .in = {BYTES("")}, .number = 0x147f01,
        .out = BYTES(PCI END PCI "\x7f\1\4\0" END)),
    ROW(device_path_push, WHOLE, .before = BYTES("\1" END), .in = {BYTES("\0\x1f")}, .number = 0x50101, .out = BYTES("\1" PCI END)),
    ROW(device_path_push, WHOLE, .before = BYTES(END), .in = {{long_data, 65531, 1}}, .number = 0x40101,
        .out = {full_node, 65539, 1}),
    FAULT(device_path_push, REFUSED, NO_END_NODE, 0, .before = BYTES(END), .in = {BYTES("\0\x1f")}, .number = 0x101),
    FAULT(device_path_push, REFUSED, NO_END_NODE, 3, .before = BYTES(END), .in = {BYTES("")}, .number = 0x37fff),
    FAULT(device_path_push, REFUSED, NO_END_NODE, 6, .before = BYTES(PCI END), .in = {BYTES("\0\x1f")}, .number = 0x60101),
    FAULT(device_path_push, REFUSED, NO_END_NODE, 11, .before = BYTES(PCI END "x"), .in = {BYTES("")}, .number = 0xb0101),
    FAULT(device_path_push, REFUSED, NO_END_NODE, 65535, .before = BYTES(END), .in = {BYTES("")}, .number = 0xffff0101),
    FAULT(device_path_push, REFUSED, NODE_OF_END, UNCHANGED, .before = BYTES(PCI END), .in = {BYTES("")}, .number = 0xa7fff),
    FAULT(device_path_push, REFUSED, NODE_OF_END, UNCHANGED, .before = BYTES(END), .in = {BYTES("a")}, .number = 0x47f01),
    FAULT(device_path_push, REFUSED, NODE_TOO_LONG, UNCHANGED, .before = BYTES(END), .in = {{long_data, 65532, 1}},
        .number = 0x40101),
    ROW(device_path_append, WHOLE, .before = BYTES(PCI END), .number = 10, .in = {BYTES(FILE_A END PCI)}, .out = BYTES(PCI FILE_A END)),
    ROW(device_path_append, WHOLE, .before = BYTES(PCI END), .number = 10, .in = {BYTES(END)}, .out = BYTES(PCI END)),
    ROW(device_path_append, WHOLE, .before = BYTES("\1" END), .number = 5, .in = {BYTES(PCI END)}, .out = BYTES("\1" PCI END)),
    FAULT(device_path_append, REFUSED, NO_END_NODE, 4, .before = BYTES(UNKNOWN), .number = 4, .in = {BYTES(PCI END)}),
    FAULT(device_path_append, REFUSED, NODE_BEYOND_END, 8, .before = BYTES(UNKNOWN), .number = 4, .in = {BYTES(BEYOND)}),
    BAD_PATHS(device_path_append, REFUSED, .before = BYTES(END), .number = 4),
    ROW(device_path_push_text, WHOLE, .before = BYTES(PCI END "x"), .number = 10, .in = {BYTES("Pci(0x1F,0x0)/\\a")},
        .out = BYTES(PCI PCI FILE_A END)),
    ROW(device_path_push_text, WHOLE, .before = BYTES(END), .number = 4, .in = {BYTES(",\\a")}, .out = BYTES("\x7f\1\4\0" FILE_A END)),
    ROW(device_path_push_text, WHOLE, .before = BYTES(PCI END), .number = 10, .in = {BYTES("")}, .out = BYTES(PCI END)),
    FAULT(device_path_push_text, REFUSED, NO_NODE, 3, .before = BYTES(PCI END), .number = 10, .in = {BYTES("\\a/Pci(0x1f,0x0)")}),
    FAULT(device_path_push_text, REFUSED, NOT_UTF8, 1, .before = BYTES(END), .number = 4, .in = {BYTES("x\xc3")}),
    FAULT(device_path_push_text, REFUSED, NOT_UTF8, 0, .before = BYTES(UNKNOWN), .number = 4, .in = {BYTES("\xc3")}),
    FAULT(device_path_push_text, REFUSED, NO_END_NODE, 4, .before = BYTES(UNKNOWN), .number = 4, .in = {BYTES("x")}),
    ROW(device_path_push_typed, WHOLE, .before = BYTES(PCI END "x"), .number = 10, .in = {BYTES("pci( 31, 0 )/File(a)")},
        .out = BYTES(PCI PCI FILE_A END)),
    ROW(device_path_push_typed, WHOLE, .before = BYTES(END), .number = 4, .in = {BYTES(",\\a")},
        .out = BYTES("\x7f\1\4\0" FILE_A END)),
    ROW(device_path_push_typed, WHOLE, .before = BYTES(PCI END), .number = 10, .in = {BYTES("")}, .out = BYTES(PCI END)),
    /* Bytes and texts of libefivar, which efibootmgr prints. */
    ROW(device_path_push_typed, WHOLE, .before = BYTES(END), .number = 4,
        .in = {BYTES("PciRoot(0x0)/Pci(0x1f,0x2)/Sata(0,65535,0)")},
        .out = BYTES("\2\1\14\0\xd0\x41\3\12\0\0\0\0" "\1\1\6\0\2\x1f" "\3\x12\12\0\0\0\xff\xff\0\0" END)),
    ROW(device_path_push_typed, WHOLE, .before = BYTES(END), .number = 4,
        .in = {BYTES("HD(1,GPT,76543210-ba98-fedc-0102-030405060708,0x800,0x64000)/File(\\EFI\\a)")},
        .out = BYTES("\4\1\x2a\0\1\0\0\0\0\10\0\0\0\0\0\0\0\x40\6\0\0\0\0\0\x10\x32\x54\x76\x98\xba\xdc\xfe\1\2\3\4\5\6\7\10\2\2"
                     "\4\4\x12\0\\\0E\0F\0I\0\\\0a\0\0\0" END)),
    FAULT(device_path_push_typed, REFUSED, NO_NODE, 7, .before = BYTES(PCI END), .number = 10, .in = {BYTES("\\a/Pci(0x100)")}),
    FAULT(device_path_push_typed, REFUSED, NOT_UTF8, 1, .before = BYTES(END), .number = 4, .in = {BYTES("x\xc3")}),
    FAULT(device_path_push_typed, REFUSED, NOT_UTF8, 0, .before = BYTES(UNKNOWN), .number = 4, .in = {BYTES("\xc3")}),
    FAULT(device_path_push_typed, REFUSED, NO_END_NODE, 4, .before = BYTES(UNKNOWN), .number = 4, .in = {BYTES("x")}),
    ROW(device_path_push_libefivar, WHOLE, .before = BYTES(END), .number = 4, .in = {BYTES("NVMe(0xc,00-25-38-B3-91-B0-4C-5D)")},
        .out = BYTES("\3\x17\x10\0\14\0\0\0\0\x25\x38\xb3\x91\xb0\x4c\x5d" END)),
    ROW(device_path_push_libefivar, WHOLE, .before = BYTES(END), .number = 4, .in = {BYTES("Ata(1,0,12)")},
        .out = BYTES("\3\1\10\0\1\0\14\0" END)),
    FAULT(device_path_push_libefivar, REFUSED, NO_NODE, 8, .before = BYTES(PCI END), .number = 10, .in = {BYTES("PciRoot(12)")}),
    FAULT(device_path_push_libefivar, REFUSED, NOT_UTF8, 1, .before = BYTES(END), .number = 4, .in = {BYTES("x\xc3")}),
    FAULT(device_path_push_libefivar, REFUSED, NOT_UTF8, 0, .before = BYTES(UNKNOWN), .number = 4, .in = {BYTES("\xc3")}),
    FAULT(device_path_push_libefivar, REFUSED, NO_END_NODE, 4, .before = BYTES(UNKNOWN), .number = 4, .in = {BYTES("x")}),
    /* The same in UTF-16: up to a NUL or the count, a character of each number of bytes, and offsets in units. */
    ROW(device_path_push_text_utf16, WHOLE, .before = BYTES(PCI END "x"), .number = 10, .in = {UNITS(u"Pci(0x1F,0x0)/\\a\0b")},
        .out = BYTES(PCI PCI FILE_A END)),
    ROW(device_path_push_text_utf16, WHOLE, .before = BYTES(END), .number = 4, .in = {OPEN(u"\\a")}, .out = BYTES(FILE_A END)),
    ROW(device_path_push_text_utf16, WHOLE, .before = BYTES(END), .number = 4, .in = {OPEN(u"\\\xe9\x4e00\xd83d\xde00")},
        .out = BYTES("\4\4\20\0\\\0\xe9\0\0\x4e\x3d\xd8\0\xde\0\0" END)),
    ROW(device_path_push_text_utf16, WHOLE, .before = BYTES(PCI END), .number = 10, .in = {UNITS(u"")}, .out = BYTES(PCI END)),
    FAULT(device_path_push_text_utf16, REFUSED, NO_NODE, 6, .before = BYTES(PCI END), .number = 10, .in = {UNITS(u"\\\xe9\x4e00\xd83d\xde00/Pci(0x1f,0x0)")}),
    FAULT(device_path_push_text_utf16, REFUSED, INVALID_CHAR, 1, .before = BYTES(END), .number = 4, .in = {OPEN(u"x\xd83d")}),
    FAULT(device_path_push_text_utf16, REFUSED, INVALID_CHAR, 4, .before = BYTES(END), .number = 4, .in = {UNITS(u"\\\xd83d\xde00\xfffd\xde00\xd83d")}),
    FAULT(device_path_push_text_utf16, REFUSED, INVALID_CHAR, 0, .before = BYTES(UNKNOWN), .number = 4, .in = {UNITS(u"\xd83d")}),
    FAULT(device_path_push_text_utf16, REFUSED, NO_END_NODE, 4, .before = BYTES(UNKNOWN), .number = 4, .in = {UNITS(u"x")}),
    ROW(device_path_push_typed_utf16, WHOLE, .before = BYTES(PCI END "x"), .number = 10, .in = {UNITS(u"'/pci( 31, 0 )/File(a)' ")},
        .out = BYTES(PCI PCI FILE_A END)),
    ROW(device_path_push_typed_utf16, WHOLE, .before = BYTES(END), .number = 4, .in = {OPEN(u",\\a")}, .out = BYTES("\x7f\1\4\0" FILE_A END)),
    ROW(device_path_push_typed_utf16, WHOLE, .before = BYTES(END), .number = 4, .in = {OPEN(u"File(\xd83d\xde00)")},
        .out = BYTES("\4\4\14\0\\\0\x3d\xd8\0\xde\0\0" END)),
    FAULT(device_path_push_typed_utf16, REFUSED, NO_NODE, 10, .before = BYTES(PCI END), .number = 10,
          .in = {UNITS(u"\\\xe9\x4e00\xd83d\xde00/Pci(0x100)")}),
    FAULT(device_path_push_typed_utf16, REFUSED, INVALID_CHAR, 1, .before = BYTES(END), .number = 4, .in = {UNITS(u"x\xde00\xd83d")}),
    FAULT(device_path_push_typed_utf16, REFUSED, INVALID_CHAR, 0, .before = BYTES(UNKNOWN), .number = 4, .in = {UNITS(u"\xd83d")}),
    FAULT(device_path_push_typed_utf16, REFUSED, NO_END_NODE, 4, .before = BYTES(UNKNOWN), .number = 4, .in = {UNITS(u"x")}),
    ROW(device_path_push_libefivar_utf16, WHOLE, .before = BYTES(END), .number = 4, .in = {OPEN(u"Ata(1,0,12)")},
        .out = BYTES("\3\1\10\0\1\0\14\0" END)),
    FAULT(device_path_push_unknown, REFUSED, UNKNOWN_STYLE, UNCHANGED, .before = BYTES(END), .number = 4, .in = {BYTES("\xc3")}),
    /* A whole path, in a buffer of any content. */
    ROW(device_path_parse, WHOLE, .in = {BYTES("Pci(0x1F,0x0)/\\a")}, .out = BYTES(PCI FILE_A END)),
    ROW(device_path_parse, WHOLE, .number = NARD_STYLE_TYPED, .in = {BYTES("pci(31,0)")}, .out = BYTES(PCI END)),
    ROW(device_path_parse, WHOLE, .number = NARD_STYLE_LIBEFIVAR, .in = {BYTES("Ata(1,0,12)")}, .out = BYTES("\3\1\10\0\1\0\14\0" END)),
    ROW(device_path_parse, WHOLE, .in = {BYTES("")}, .out = BYTES(END)),
    FAULT(device_path_parse, REFUSED, NO_NODE, 3, .in = {BYTES("\\a/Pci(0x1f,0x0)")}),
    FAULT(device_path_parse, REFUSED, NOT_UTF8, 1, .in = {BYTES("x\xc3")}),
    FAULT(device_path_parse, REFUSED, UNKNOWN_STYLE, UNCHANGED, .number = NARD_DISPLAY_ONLY, .in = {BYTES("x\xc3")}),
    ROW(device_path_parse_utf16, WHOLE, .in = {UNITS(u"Pci(0x1F,0x0)/\\a\0b")}, .out = BYTES(PCI FILE_A END)),
    ROW(device_path_parse_utf16, WHOLE, .number = NARD_STYLE_TYPED, .in = {OPEN(u"pci(31,0)")}, .out = BYTES(PCI END)),
    FAULT(device_path_parse_utf16, REFUSED, NO_NODE, 10, .number = NARD_STYLE_TYPED, .in = {UNITS(u"\\\xe9\x4e00\xd83d\xde00/Pci(0x100)")}),
    FAULT(device_path_parse_utf16, REFUSED, INVALID_CHAR, 1, .in = {OPEN(u"x\xd83d")}),
    ROW(device_path_explain_utf16, TEXT, .number = NARD_STYLE_TYPED, .in = {UNITS(u"\\\xd83d\xde00/Pci(256,0)")},
        .out = UNITS(u"invalid node at offset 4: expected a number up to 0xFF at offset 8")),
    ROW(device_path_explain_utf16, TEXT, .number = NARD_STYLE_TYPED, .in = {UNITS(u"file(a)")}, .out = UNITS(u"")),
    FAULT(device_path_explain_utf16, REFUSED, INVALID_CHAR, 1, .number = NARD_STYLE_TYPED, .in = {UNITS(u"x\xd83d")}),
    ROW(device_path_explain, TEXT, .number = NARD_STYLE_LIBEFIVAR, .in = {BYTES("PciRoot(0x0)/SAS(0x1)")},
        .out = BYTES("invalid node at offset 13: expected a form that describes the whole node, of at most 65,535 bytes at offset 17\0")),
    ROW(device_path_explain, TEXT, .number = NARD_STYLE_LIBEFIVAR, .in = {BYTES("file(a)")}, .out = BYTES("\0")),
    FAULT(device_path_explain, REFUSED, NOT_UTF8, 1, .number = NARD_STYLE_LIBEFIVAR, .in = {BYTES("x\xc3")}),
    ROW(device_path_explain, TEXT, .number = NARD_STYLE_TYPED, .in = {BYTES("PciRoot(0)/Pci(256,0)")},
        .out = BYTES("invalid node at offset 11: expected a number up to 0xFF at offset 15\0")),
    ROW(device_path_explain, TEXT, .number = NARD_STYLE_TYPED, .in = {BYTES("file(a)")}, .out = BYTES("\0")),
    FAULT(device_path_explain, REFUSED, NOT_UTF8, 1, .number = NARD_STYLE_TYPED, .in = {BYTES("x\xc3")}),
    FAULT(device_path_explain, REFUSED, UNKNOWN_STYLE, UNCHANGED, .number = 99, .in = {BYTES("x\xc3")}),
    ROW(device_path_text_extent, READ, .number = NARD_STYLE_TYPED, .in = {BYTES("Pci(0,1)/File(\\a)\xc3\1")}, .place = 17),
    ROW(device_path_text_extent, READ, .number = NARD_STYLE_TYPED, .in = {BYTES("Pci(0,1) , Pci(0,2)")}, .place = 19),
    ROW(device_path_text_extent, READ, .number = NARD_STYLE_TYPED, .in = {BYTES("")}, .place = 0),
    FAULT(device_path_text_extent, READ, NO_NODE, 9, .number = NARD_STYLE_TYPED, .in = {BYTES("Pci(0,1)/")}),
    FAULT(device_path_text_extent, READ, UNKNOWN_STYLE, UNCHANGED, .number = 3, .in = {BYTES("Pci(0,1)")}),
    ROW(device_path_text_extent, READ, .number = NARD_STYLE_LIBEFIVAR, .in = {BYTES("Ata(1,0,12)..")}, .place = 11),
    ROW(device_path_text_extent, READ, .number = NARD_STYLE_LIBEFIVAR, .in = {BYTES("File(\\x (86)\\a.efi)RC)")}, .place = 19),
    ROW(device_path_text_extent, READ, .number = NARD_STYLE_LIBEFIVAR, .in = {BYTES("File(\\a)b)")}, .place = 8),
    FAULT(device_path_text_extent, READ, NO_NODE, 9, .number = NARD_STYLE_LIBEFIVAR, .in = {BYTES("File(\\a)/RC")}),
    FAULT(device_path_text_extent, READ, NO_NODE, 6, .number = NARD_STYLE_LIBEFIVAR, .in = {BYTES("Fibre(1)..")}),
    ROW(load_option_write, WHOLE, .in = {UNITS(u"b\0c"), BYTES(PCI FILE_A END FILE_A), BYTES("x")}, .number = 1,
        .out = BYTES(OPTION)),
    ROW(load_option_write, WHOLE, .in = {UNITS(u"b"), {full_list, 65535, 1}, BYTES("")}, .out = {full_option, 65545, 1}),
    FAULT(load_option_write, REFUSED, NO_NUL, 1, .in = {OPEN(u"b"), BYTES(UNKNOWN), BYTES("x")}, .out = NO_BYTES),
    FAULT(load_option_write, REFUSED, UNKNOWN_END, 1, .in = {UNITS(u"b"), BYTES(UNKNOWN), BYTES("x")}, .out = NO_BYTES),
    FAULT(load_option_write, REFUSED, LIST_TOO_LONG, UNCHANGED, .in = {UNITS(u"b"), {long_list, 65536, 1}, BYTES("x")},
        .out = NO_BYTES),
    FOUND(device_path_strip_prefix, 6, BYTES(PCI FILE_A END), BYTES(PCI END)),
    ANSWER(device_path_strip_prefix, false, BYTES(FILE_A END), BYTES(PCI END)),
    ANSWER(device_path_strip_prefix, false, BYTES(PCI FILE_A END), BYTES(PCI)),
    ANSWER(device_path_is_expansion, true, BYTES(PCI FILE_A END), BYTES(FILE_A END)),
    ANSWER(device_path_is_expansion, false, BYTES(PCI FILE_A END), BYTES(FILE_A)),
    ANSWER(device_path_is_expansion, false, BYTES(PCI FILE_A), BYTES(FILE_A END)),
    ROW(string_to_utf8_lossy, TEXT, .in = {UNITS(u"a\xd83d\xde00\xd800\u00e9\0b")},
        .out = BYTES("a\xf0\x9f\x98\x80\xef\xbf\xbd\xc3\xa9\0")),
    ROW(string_to_utf8_lossy, TEXT, .in = {OPEN(u"\xdc00\xd800")}, .out = BYTES("\xef\xbf\xbd\xef\xbf\xbd\0")),
    ROW(string_to_utf8_lossy, TEXT, .in = {OPEN(u"")}, .out = BYTES("\0")),
    ROW(boot_name_read_utf16, READ, .in = {UNITS(u"Boot001F\0x")}, .place = UNCHANGED, .out = KIND(0), .character = 0x1f),
    ROW(boot_name_read_utf16, READ, .in = {UNITS(u"Driver000A")}, .place = UNCHANGED, .out = KIND(1), .character = 10),
    ROW(boot_name_read_utf16, READ, .in = {UNITS(u"SysPrep1234")}, .place = UNCHANGED, .out = KIND(2), .character = 0x1234),
    ROW(boot_name_read_utf16, READ, .in = {UNITS(u"PlatformRecoveryFFFF")}, .place = UNCHANGED, .out = KIND(3), .character = 0xffff),
    FAULT(boot_name_read_utf16, READ, NOT_A_NAME, UNCHANGED, .in = {UNITS(u"Boot001f")}, .out = NO_KIND),
    FAULT(boot_name_read_utf16, READ, NOT_A_NAME, UNCHANGED, .in = {UNITS(u"BootOrder")}, .out = NO_KIND),
    FAULT(boot_name_read_utf16, READ, NO_NUL, UNCHANGED, .in = {OPEN(u"Boot0001")}, .out = NO_KIND),
    FAULT(boot_name_read_utf16, READ, INVALID_CHAR, UNCHANGED, .in = {UNITS(u"Boot\xd800")}, .out = NO_KIND),
    ROW(boot_name_write, TEXT, .number = 0x1001f, .out = BYTES("Driver001F\0")),
    ROW(boot_name_write, TEXT, .number = 0x3abcd, .out = BYTES("PlatformRecoveryABCD\0")),
    FAULT(boot_name_write, REFUSED, NOT_A_NAME, UNCHANGED, .number = 0x40000),
    ROW(packed_escape, TEXT, .in = {BYTES("a\0\x1b\0\x2e\x20\0\xd8\xe9\0\0\0b\0")},
        .out = BYTES("a\\u{1B}\\u{202E}\xef\xbf\xbd\xc3\xa9\0")),
    ROW(packed_escape, TEXT, .in = {BYTES("=\xd8\0\xdex")}, .out = BYTES("\xf0\x9f\x98\x80\0")),
    ROW(packed_escape, TEXT, .in = {BYTES("")}, .out = BYTES("\0")),
    ROW(boot_name_write_utf16, TEXT, .number = 0x001f, .out = UNITS(u"Boot001F")),
    ROW(boot_name_write_utf16, TEXT, .number = 0x3abcd, .out = UNITS(u"PlatformRecoveryABCD")),
    FAULT(boot_name_write_utf16, REFUSED, NOT_A_NAME, UNCHANGED, .number = 0x40000),
    ROW(boot_order_read, READ, .in = {BYTES("\3\0\x1f\x20")}, .place = UNCHANGED, .number = 1, .character = 0x201f),
    FAULT(boot_order_read, READ, END, UNCHANGED, .in = {BYTES("\3\0\x1f\x20")}, .number = 2),
    FAULT(boot_order_read, READ, ODD_BYTES, UNCHANGED, .in = {BYTES("\3\0\x1f")}, .number = 0),
    ANSWER(version, NARD_VERSION_MAJOR << 16 | NARD_VERSION_MINOR << 8 | NARD_VERSION_PATCH, NO_BYTES),
};

static size_t least(size_t one, size_t two)
{
    return one < two ? one : two;
}

/* Returns the number of bytes of an element of a row's buffer. */
static size_t width_of(const struct row *row)
{
    size_t width = row->before.at != NULL ? row->before.width : row->out.width;
    return width != 0 ? width : sizeof(nard_char16);
}

/* Lays out what a row gives, `counts` elements of each input and a buffer of `room` elements, and makes its call. */
static nard_status make(const struct row *row, const size_t *counts, size_t room)
{
    size_t width = width_of(row), first = UNCHANGED;
    for (int i = 0; i < 3; i++) {
        given[i].count = counts[i];
        given[i].at = put(i, row->in[i].at, counts[i] * row->in[i].width);
    }
    buffer.count = room;
    buffer.at = put(BUFFER, NULL, room * width);
    if (row->before.at != NULL && room != 0)
        memcpy(buffer.at, row->before.at, least(room, row->before.count) * width);
    length = put(LENGTH, row->rule == STEP ? &row->number : is_uninitialized ? NULL : &first, sizeof first);
    fault = put(FAULT_AT, is_uninitialized ? NULL : &first, sizeof first);
    character = put(CHARACTER, NULL, sizeof *character);
    number = row->number;
    is_judged = false;
    return row->call();
}

/* Returns whether a result is as wanted. One that is not written has no value if it was not initialized. */
static bool is_as_wanted(size_t result, size_t wanted)
{
    return (is_uninitialized && wanted == UNCHANGED) || result == wanted;
}

static void try_room(const struct row *row, const size_t *counts, size_t room)
{
    static uint8_t wanted[AREA];
    const enum rule rule = row->rule;
    const size_t width = width_of(row), count = row->out.count;
    const bool fits = count <= room, succeeds = row->answers || nard_succeeded(row->reason);
    size_t written = rule == REFUSED || row->out.at == NULL ? 0 : fits ? count : rule == FITTING ? room : 0;
    size_t first = rule == STEP ? row->number : UNCHANGED;
    size_t wanted_length = rule == TEXT      ? count - 1
                           : rule == WHOLE   ? count
                           : rule == FITTING ? written
                           : succeeds        ? row->place
                                             : first;
    size_t wanted_fault = succeeds || rule == FITTING ? UNCHANGED : row->place;
    nard_status wanted_reason = rule == FITTING && room <= row->place        ? NARD_OK
                                : fits || rule == REFUSED || rule == FITTING ? row->reason
                                                                             : NARD_BUFFER_TOO_SMALL;
    /* What a buffer begins with must lie in it. */
    size_t begins = row->call == call_device_path_push ? row->number >> 16 : row->number;
    if (row->before.at != NULL && room < begins && row->reason != NARD_UNKNOWN_STYLE && row->reason != NARD_NOT_UTF8 &&
        row->reason != NARD_INVALID_CHAR && !(row->call == call_device_path_append && rule == REFUSED && row->place != begins)) {
        wanted_reason = width == 1 ? NARD_NO_END_NODE : NARD_BUFFER_TOO_SMALL;
        wanted_length = UNCHANGED;
        wanted_fault = width == 1 ? begins : UNCHANGED;
        written = 0;
    }
    memset(wanted, FILL, room * width);
    if (row->before.at != NULL)
        memcpy(wanted, row->before.at, least(room, row->before.count) * width);
    if (written != 0)
        memcpy(wanted, row->out.at, written * width);

    /* Of a buffer that was not initialized only so many elements have a value. */
    size_t known = is_uninitialized ? written : room;
    if (row->before.at != NULL && known < row->before.count)
        known = least(room, row->before.count);

    nard_status reason = make(row, counts, room);
    bool is_so = reason == wanted_reason && is_as_wanted(*length, wanted_length) && is_as_wanted(*fault, wanted_fault) &&
                 (known == 0 || memcmp(buffer.at, wanted, known * width) == 0) &&
                 (is_judged ? *character == row->character : is_uninitialized || *character == FILL * 0x101);
    for (int i = 0; i < 3; i++)
        is_so = is_so && (counts[i] == 0 || memcmp(given[i].at, row->in[i].at, counts[i] * row->in[i].width) == 0);
    if (!is_so) {
        printf("%s, line %d, capacity %zu: WRONG: %s, length %zu, fault %zu, for %s, length %zu, fault %zu\n", row->name, row->line,
               room, nard_status_text(reason), *length, *fault, nard_status_text(wanted_reason), wanted_length, wanted_fault);
        failed = true;
    }
}

/* Makes a call with an empty input that is null, and once more with one that is not null. */
static void try_null(const struct row *row, const size_t *counts, size_t room)
{
    static uint8_t made[AREA];
    const size_t size = room * width_of(row);
    nard_status reason = make(row, counts, room);
    size_t at = *length, wrong = *fault;
    if (size != 0)
        memcpy(made, buffer.at, size);
    is_null = false;
    if (make(row, counts, room) != reason || *length != at || *fault != wrong || (size != 0 && memcmp(buffer.at, made, size) != 0)) {
        printf("%s, line %d: WRONG: null is not as an empty input\n", row->name, row->line);
        failed = true;
    }
    is_null = true;
}

/* Edits of an order: what they return, and what becomes of the units and of their count. */
static const struct edit {
    int line;
    enum { INSERT, REMOVE, FRONT } edit;
    struct list before;
    size_t room, count;
    size_t place;
    nard_char16 number;
    nard_status result;
    struct list after;
    size_t new_count;
} edits[] = {
    {__LINE__, INSERT, OPEN(u"\3\0\7"), 5, 3, 1, 9, NARD_OK, OPEN(u"\3\11\0\7"), 4},
    {__LINE__, INSERT, OPEN(u"\3\0\7"), 3, 3, 0, 7, NARD_OK, OPEN(u"\7\3\0"), 3},
    {__LINE__, INSERT, OPEN(u"\3\0\7"), 3, 3, 0, 9, NARD_BUFFER_TOO_SMALL, OPEN(u"\3\0\7"), 3},
    {__LINE__, INSERT, OPEN(u"\3\0\7"), 4, 3, 99, 3, NARD_OK, OPEN(u"\0\7\3"), 3},
    {__LINE__, INSERT, OPEN(u"\3\0\7"), 3, 9, 0, 7, NARD_OK, OPEN(u"\7\3\0"), 3},
    {__LINE__, INSERT, OPEN(u"\3\0\3\7"), 4, 3, 1, 3, NARD_OK, OPEN(u"\0\3\3\7"), 2},
    {__LINE__, INSERT, OPEN(u""), 2, 0, 1, 9, NARD_OK, OPEN(u"\11"), 1},
    {__LINE__, INSERT, OPEN(u""), 0, 0, 0, 9, NARD_BUFFER_TOO_SMALL, OPEN(u""), 0},
    {__LINE__, REMOVE, OPEN(u"\3\0\3\7"), 4, 3, 0, 3, true, OPEN(u"\0\0\3\7"), 1},
    {__LINE__, REMOVE, OPEN(u"\3\0\7"), 3, 2, 0, 7, false, OPEN(u"\3\0\7"), 2},
    {__LINE__, REMOVE, OPEN(u""), 0, 0, 0, 7, false, OPEN(u""), 0},
    {__LINE__, FRONT, OPEN(u"\3\0\7"), 3, 3, 0, 7, true, OPEN(u"\7\3\0"), 3},
    {__LINE__, FRONT, OPEN(u"\3\0\7"), 3, 2, 0, 7, false, OPEN(u"\3\0\7"), 2},
    {__LINE__, FRONT, OPEN(u""), 0, 0, 0, 7, false, OPEN(u""), 0},
};

static void try_edit(const struct edit *it)
{
    nard_char16 *order = put(BUFFER, NULL, it->room * sizeof *order);
    size_t *count = put(LENGTH, &it->count, sizeof *count);
    if (it->before.count != 0)
        memcpy(order, it->before.at, it->before.count * sizeof *order);
    nard_status result = it->edit == INSERT   ? nard_boot_order_insert(order, it->room, count, it->place, it->number)
                         : it->edit == REMOVE ? nard_boot_order_remove(order, it->room, count, it->number)
                                              : nard_boot_order_move_to_front(order, it->room, count, it->number);
    if (result != it->result || *count != it->new_count ||
        (it->after.count != 0 && memcmp(order, it->after.at, it->after.count * sizeof *order) != 0)) {
        printf("edit of an order, line %d: WRONG: %u, %zu numbers\n", it->line, (unsigned)result, *count);
        failed = true;
    }
}

/* A path in UTF-8 and as a string, its normal path or why it has none, and what the call says then: each in its half. */
static const struct halves {
    int line;
    struct list bytes, string, normal;
    nard_status reason;
    size_t place;
    nard_char16 character;
} halves[] = {
    {__LINE__, BYTES("/efi/boot\\../\xc3\xa9/."), UNITS(u"/efi/boot\\../\u00e9/."), UNITS(u"efi\\\u00e9"), NARD_OK, 5, 0},
    {__LINE__, BYTES("/"), UNITS(u"/"), UNITS(u"\\"), NARD_OK, 1, 0},
    {__LINE__, BYTES("/.."), UNITS(u"/.."), UNITS(u""), NARD_CLIMBS_ABOVE_ROOT, 3, 0},
    {__LINE__, BYTES(""), UNITS(u""), UNITS(u""), NARD_PATH_EMPTY, 0, 0},
    {__LINE__, BYTES("a/?*"), UNITS(u"a/?*"), UNITS(u""), NARD_ILLEGAL_CHAR, 4, '?'},
};

static void try_halves(const struct halves *it, size_t room)
{
    static nard_char16 wanted[AREA / 2];
    const size_t middle = room / 2;
    bool has_string = it->string.count <= room - middle, is_valid = it->reason == NARD_OK;
    bool has_normal = has_string && is_valid && it->normal.count <= middle;
    size_t wanted_length = has_string ? is_valid ? it->place : UNCHANGED : it->string.count - 1;
    nard_status wanted_reason = has_normal || (has_string && !is_valid) ? it->reason : NARD_BUFFER_TOO_SMALL;
    const char *bytes = put(0, it->bytes.at, it->bytes.count);
    const size_t before = UNCHANGED;
    nard_char16 *units = put(BUFFER, NULL, room * sizeof *units), *refused = put(CHARACTER, NULL, sizeof *refused);
    size_t *length = put(LENGTH, &before, sizeof *length), *fault = put(FAULT_AT, &before, sizeof *fault);
    memset(wanted, FILL, room * sizeof *wanted);
    if (has_string)
        memcpy(wanted + middle, it->string.at, it->string.count * sizeof *wanted);
    if (has_normal)
        memcpy(wanted, it->normal.at, it->normal.count * sizeof *wanted);
    nard_status reason = nard_path_normalize(bytes, it->bytes.count, units, room, length, fault, refused);
    if (reason != wanted_reason || *length != wanted_length || *fault != UNCHANGED || *refused != (has_string ? it->character : 0) ||
        (!is_uninitialized && room != 0 && memcmp(units, wanted, room * sizeof *wanted) != 0)) {
        printf("path_normalize, line %d, room %zu: WRONG: %s at %zu\n", it->line, room, nard_status_text(reason), *length);
        failed = true;
    }
}

/* Units that may hold surrogates, and what becomes of them up to their NUL. */
static const struct cased {
    size_t (NARD_CALL *call)(nard_char16 *buffer, size_t room);
    struct list before, after;
    size_t length;
} cased[] = {
    {nard_string_make_uppercase, UNITS(u"a\xd83d\xe9\0b"), UNITS(u"A\xd83d\xc9\0b"), 3},
    {nard_string_make_lowercase, UNITS(u"Q\xde00\xd7\0B"), UNITS(u"q\xde00\xd7\0B"), 3},
};

static void try_cased(const struct cased *it, size_t room)
{
    static nard_char16 wanted[AREA / 2];
    nard_char16 *units = put(BUFFER, NULL, room * sizeof *units);
    size_t length = least(room, it->length);
    if (room != 0) {
        memcpy(units, it->before.at, room * sizeof *units);
        memcpy(wanted, it->after.at, room * sizeof *units);
    }
    size_t result = it->call(units, room);
    if (result != length || (room != 0 && memcmp(units, wanted, room * sizeof *units) != 0)) {
        printf("case of units, %zu of them: WRONG: length %zu\n", room, (size_t)result);
        failed = true;
    }
}

/* Paths whose length is not given: the page after them may not be read. */
static const struct list unmeasured[] = {BYTES(END), BYTES(PCI END), BYTES(PCI FILE_A "\x7f\1\4\0" PCI END)};

static void try_size(const struct list *path)
{
    for (size_t limit = 0; limit <= path->count; limit++) {
        size_t size = 0, wanted = 0, at = 0, wrong = 0;
        const uint8_t *bytes = put(0, path->at, limit);
        nard_status reason = nard_device_path_size(bytes, limit < path->count ? limit : AREA, &size, &at);
        if (reason != nard_device_path_check(path->at, limit, &wanted, &wrong) || size != wanted || at != wrong) {
            printf("size of a path of %zu bytes, limit %zu: WRONG: %s at %zu\n", path->count, limit, nard_status_text(reason), at);
            failed = true;
        }
    }
}

/*
 * Nodes whose texts are long: a name of characters that are escaped, and a node whose text and NUL need all of the promised room.
 * `left` is how much longer that room is than the text.
 */
static uint8_t turned[4 + 2 * 1000];
static const struct {
    struct list node;
    size_t left;
} widest[] = {{{turned, sizeof turned, 1}, 16}, {BYTES("\3\17\13\0\xff\xff\xff\xff\xfe\1\xff"), 1}};

/* The texts of a node, and of a path of it, in exactly the promised room. The end node of the path adds 16 units to it. */
static void try_widest(const struct list *node, size_t left)
{
    uint8_t path[sizeof turned + 4];
    memcpy(path, node->at, node->count);
    memcpy(path + node->count, END, 4);
    for (int i = 0; i < 3; i++) {
        size_t count = node->count + (i == 0 ? 0 : 4), room = NARD_DEVICE_PATH_TEXT_CAPACITY(count), length = 0;
        const uint8_t *bytes = put(0, path, count);
        nard_char16 *text = put(BUFFER, NULL, room * sizeof *text);
        nard_status reason =
            i == 0 ? nard_node_format_utf16(bytes, count, NARD_STYLE_UEFI, text, room, &length, NULL)
                   : nard_device_path_format_utf16(bytes, count, i == 1 ? NARD_STYLE_UEFI : NARD_STYLE_LIBEFIVAR, text, room, &length, NULL);
        if (reason != NARD_OK || text[length] != 0 || room - length > left + (i == 0 ? 0 : 16)) {
            printf("call %d in the promised room, for a node of %zu bytes: WRONG: %s, %zu units of %zu\n", i, node->count,
                   nard_status_text(reason), length, room);
            failed = true;
        }
    }
}

static void try_row(const struct row *row)
{
    size_t counts[] = {row->in[0].count, row->in[1].count, row->in[2].count};
    size_t needed = row->out.count < row->before.count ? row->before.count : row->out.count;
    bool is_read = row->rule == READ || row->rule == STEP;
    for (size_t room = is_read ? needed : 0; room <= (is_read ? needed : needed + 2); room++) {
        try_room(row, counts, room);
        if (room == 8 && needed > PAGE / 2)
            room = needed - 3;
    }
    for (int i = 0; i < 3; i++) {
        for (size_t count = 0; count < row->in[i].count && row->in[i].count < PAGE / 2; count++) {
            counts[i] = count;
            make(row, counts, needed);
            if (count == 0 && is_null)
                try_null(row, counts, needed);
        }
        counts[i] = row->in[i].count;
    }
}

int main(int argc, char **argv)
{
    is_uninitialized = argc > 1 && strcmp(argv[1], "uninitialized") == 0;
    for (int i = 0; i < AREAS && !is_uninitialized; i++) {
        uint8_t *pages = mmap(NULL, AREA + 2 * PAGE, PROT_READ | PROT_WRITE, MAP_PRIVATE | MAP_ANONYMOUS, -1, 0);
        if (pages == MAP_FAILED || mprotect(pages, PAGE, PROT_NONE) != 0 || mprotect(pages + PAGE + AREA, PAGE, PROT_NONE) != 0)
            return 2;
        areas[i] = pages + PAGE;
    }
    memcpy(turned, (const uint8_t[]){4, 4, sizeof turned & 0xff, sizeof turned >> 8}, 4);
    for (size_t i = 4; i < sizeof turned; i += 2)
        memcpy(turned + i, "\x2e\x20", 2); /* U+202E, which is printed as \u{202E} */
    for (int turn = 0; turn < (is_uninitialized ? 1 : 3); turn++) {
        at_end = turn != 1;
        is_null = turn == 2;
        for (size_t i = 0; i < sizeof rows / sizeof rows[0]; i++)
            try_row(&rows[i]);
        for (size_t i = 0; i < sizeof edits / sizeof edits[0]; i++)
            try_edit(&edits[i]);
        for (size_t i = 0; i < sizeof halves / sizeof halves[0]; i++)
            for (size_t room = 0; room <= 2 * halves[i].string.count + 2; room++)
                try_halves(&halves[i], room);
        for (size_t i = 0; i < sizeof cased / sizeof cased[0]; i++)
            for (size_t room = 0; room <= cased[i].before.count; room++)
                try_cased(&cased[i], room);
        for (size_t i = 0; i < sizeof unmeasured / sizeof unmeasured[0]; i++)
            try_size(&unmeasured[i]);
        for (size_t i = 0; i < sizeof widest / sizeof widest[0]; i++)
            try_widest(&widest[i].node, widest[i].left);
    }
    for (int i = 0; i < AREAS && is_uninitialized; i++)
        free(areas[i]);
    return failed;
}
