/*
 * Reads, writes and compares device paths and load options, good ones and bad ones, by each call of the library that does so,
 * and compares what comes back with what the UEFI Specification 2.10 gives: sections 3.1.2, 3.1.3, 10.2 and 10.3. Prints each
 * row that differs, and ends with 1 if one does.
 */
#include <stdio.h>
#include <string.h>
#include <uchar.h>

#include "nardcorbel.h"
#include "nardcorbel_nodes.h"

/* A PCI function, a file \a, and the node that ends the path; and a load option "b" of that path and one byte more. */
#define PATH 1, 1, 6, 0, 0, 0x1f, 4, 4, 10, 0, '\\', 0, 'a', 0, 0, 0, 0x7f, 0xff, 4, 0
static const uint8_t path[] = {PATH, 9};
static const uint8_t option[] = {1, 0, 0, 0, 20, 0, 'b', 0, 0, 0, PATH, 9};
enum { PATH_SIZE = 20, LIST = 10 };

static int failed;

static void expect(bool is_so, const char *call, size_t row)
{
    if (!is_so) {
        printf("%s, row %zu: WRONG\n", call, row);
        failed = 1;
    }
}

struct row {
    uint8_t bytes[12];
    size_t size;
    nard_status status;
    size_t place; /* the length or the size, or of invalid bytes where they are */
};

/* Whether a call that had 99 in both numbers left what a row says. */
static bool is_as(const struct row *row, nard_status status, size_t length, size_t fault)
{
    bool is_well = row->status == NARD_OK || row->status == NARD_BUFFER_TOO_SMALL;
    return status == row->status && length == (is_well ? row->place : 99) && fault == (is_well ? 99 : row->place);
}

static void check_paths(void)
{
    static const struct row rows[] = {
        {{0x7f, 0xff, 4, 0, 9}, 5, NARD_OK, 4},
        {{0x7f, 1, 4, 0, 0x7f, 0xff, 4, 0}, 8, NARD_OK, 8},
        {{0}, 0, NARD_NO_END_NODE, 0},
        {{1, 1, 4, 0}, 4, NARD_NO_END_NODE, 4},
        {{1, 1, 4, 0, 0x7f, 0xff, 4}, 7, NARD_TRUNCATED_HEADER, 4},
        {{0x7f, 2, 3, 0}, 4, NARD_UNKNOWN_END, 1},
        {{0x7f, 0xff, 3, 0}, 4, NARD_LENGTH_BELOW_HEADER, 2},
        {{0x7f, 0xff, 5, 0, 0}, 5, NARD_END_WITH_DATA, 2},
        {{1, 1, 4, 0, 1, 1, 5, 0}, 8, NARD_NODE_BEYOND_END, 6},
    };
    for (size_t i = 0; i < sizeof rows / sizeof rows[0]; i++) {
        size_t size = 99, fault = 99;
        nard_status status = nard_device_path_check(rows[i].bytes, rows[i].size, &size, &fault);
        expect(is_as(&rows[i], status, size, fault), "nard_device_path_check", i);
    }
    size_t size = 99;
    expect(nard_device_path_check(path, sizeof path, &size, NULL) == NARD_OK && size == PATH_SIZE, "nard_device_path_check", 9);
}

static void walk_nodes(void)
{
    static const struct {
        nard_status status;
        size_t offset, fault;
        struct nard_device_node node;
    } rows[] = {
        {NARD_OK, 6, 99, {0x101, 4, 2}},
        {NARD_OK, 16, 99, {0x404, 10, 6}},
        {NARD_END, 20, 99, {0x404, 10, 6}},
        {NARD_TRUNCATED_HEADER, 20, 20, {0x404, 10, 6}},
    };
    struct nard_device_node node = {0, 0, 0};
    size_t offset = 0, fault = 99, rows_count = sizeof rows / sizeof rows[0];
    for (size_t i = 0; i < rows_count; i++) {
        nard_status status = nard_device_path_next_node(path, sizeof path, &offset, &node, &fault);
        bool is_node = node.node_type == rows[i].node.node_type && node.data_offset == rows[i].node.data_offset &&
                       node.data_size == rows[i].node.data_size;
        expect(status == rows[i].status && offset == rows[i].offset && fault == rows[i].fault && is_node,
               "nard_device_path_next_node", i);
    }
    /* Any offset may be given. */
    size_t far = (size_t)-1;
    nard_status status = nard_device_path_next_node(path, sizeof path, &far, &node, &fault);
    expect(status == NARD_NO_END_NODE && far == (size_t)-1 && fault == far && node.data_offset == 10, "nard_device_path_next_node",
           rows_count);
}

/* Copies the instance at an offset, with an end node, and moves the offset to the next one. Returns NARD_END after the last. */
static nard_status cut_instance(const uint8_t *bytes, size_t count, size_t *offset, uint8_t *buffer, size_t capacity, size_t *size)
{
    struct nard_device_node node;
    nard_status status = nard_device_path_init(buffer, capacity, size);
    while (status == NARD_OK) {
        status = nard_device_path_next_node(bytes, count, offset, &node, NULL);
        if (status != NARD_OK || node.node_type == NARD_END_INSTANCE)
            return status;
        status = nard_device_path_push(buffer, capacity, *size, node.node_type, bytes + node.data_offset, node.data_size, size, NULL);
    }
    return status;
}

/* Adds a path as a further instance. */
static nard_status add_instance(uint8_t *buffer, size_t capacity, const uint8_t *bytes, size_t count, size_t *size)
{
    nard_status status = nard_device_path_push(buffer, capacity, *size, NARD_END_INSTANCE, NULL, 0, size, NULL);
    return status == NARD_OK ? nard_device_path_append(buffer, capacity, *size, bytes, count, size, NULL) : status;
}

static void cut_instances(void)
{
    static const uint8_t usb[] = {3, 5, 6, 0, 1, 2, 0x7f, 0xff, 4, 0};
    uint8_t both[40], one[40];
    size_t size = PATH_SIZE, offset = 0, length = 0;
    memcpy(both, path, PATH_SIZE);
    expect(add_instance(both, sizeof both, usb, sizeof usb, &size) == NARD_OK && size == 30, "add_instance", 0);
    expect(cut_instance(both, size, &offset, one, sizeof one, &length) == NARD_OK, "cut_instance", 0);
    expect(length == PATH_SIZE && memcmp(one, path, length) == 0 && offset == 20, "cut_instance", 1);
    expect(cut_instance(both, size, &offset, one, sizeof one, &length) == NARD_END, "cut_instance", 2);
    expect(length == sizeof usb && memcmp(one, usb, length) == 0 && offset == size, "cut_instance", 3);
    offset = 0;
    expect(cut_instance(both, size, &offset, one, 19, &length) == NARD_BUFFER_TOO_SMALL && length == 20, "cut_instance", 4);
}

/* An end node ends a path once, and a path without nodes has a text. */
static void end_paths(void)
{
    uint8_t end[8];
    uint16_t text[1] = {9};
    size_t size = 99, length = 99;
    expect(nard_device_path_init(end, sizeof end, &size) == NARD_OK && size == 4, "nard_device_path_init", 0);
    expect(nard_device_path_push(end, sizeof end, 4, 0x7fff, NULL, 0, &size, NULL) == NARD_NODE_OF_END, "nard_device_path_push", 0);
    expect(nard_device_path_format_utf16(end, 4, NARD_STYLE_UEFI, text, 1, &length, NULL) == NARD_OK && length == 0 && text[0] == 0,
           "nard_device_path_format_utf16", 0);
    expect(nard_device_path_push_text(end, sizeof end, 4, NULL, 0, NARD_STYLE_UEFI, &size, NULL) == NARD_OK && size == 4,
           "nard_device_path_push_text", 0);
}

/* The second and the third string of an expanded ACPI node have no offset that is known before the first is read. */
#if defined(NARD_EXPANDED_HID_STR) || defined(NARD_EXPANDED_UID_STR) || defined(NARD_EXPANDED_CID_STR)
#error "a string of an expanded ACPI node is no field"
#endif

static void read_fields(void)
{
    struct nard_device_node node;
    size_t offset = 0;
    uint64_t number = 99;
    expect(nard_device_path_next_node(path, sizeof path, &offset, &node, NULL) == NARD_OK, "nard_device_path_next_node", 0);
    const uint8_t *data = path + node.data_offset;
    enum nard_node_type type = (enum nard_node_type)node.node_type;
    enum nard_node_field field = NARD_PCI_DEVICE;
    expect(type == NARD_PCI, "node_type", 0);
    expect(nard_node_number(data, node.data_size, NARD_ACPI_UID, &number) == NARD_NO_FIELD && number == 99, "nard_node_number", 0);
    expect(nard_node_number(data, node.data_size, field, &number) == NARD_OK && number == 0x1f, "nard_node_number", 1);
    expect(nard_field_offset(field) == 1 && nard_field_size(field) == 1, "nard_field_offset", 0);
    expect(nard_node_number(data, node.data_size, NARD_PCI_FUNCTION, &number) == NARD_OK && number == 0, "nard_node_number", 2);
    expect(nard_field_offset(NARD_HARD_DRIVE_PARTITION_SIGNATURE) == 20 && nard_field_size(NARD_HARD_DRIVE_PARTITION_SIGNATURE) == 16,
           "nard_field_offset", 1);
    static const uint8_t outputs[] = {0, 1, 1, 0x80, 0, 3, 1, 0x80};
    expect(nard_node_number(outputs, sizeof outputs, NARD_ADR_ADR, &number) == NARD_OK && number == 0x80010100, "NARD_ADR_ADR", 0);
}

static void write_file_paths(void)
{
    static const struct row rows[] = {
        {{4, 4, 5, 0, 'a', 0x7f, 0xff, 4, 0}, 9, NARD_ODD_BYTES, 4},
        {{4, 4, 6, 0, 'a', 0, 0x7f, 0xff, 4, 0}, 10, NARD_NO_NUL, 4},
        {{4, 4, 6, 0, 0, 0xd8, 0x7f, 0xff, 4, 0}, 10, NARD_INVALID_CHAR, 4},
        {{4, 4, 8, 0, 0, 0, 0, 0, 0x7f, 0xff, 4, 0}, 12, NARD_INTERIOR_NUL, 4},
        {{4, 4, 4, 0}, 4, NARD_NO_END_NODE, 4},
        {{0x7f, 0xff, 4, 0}, 4, NARD_OK, 0},
    };
    for (size_t i = 0; i < sizeof rows / sizeof rows[0]; i++) {
        uint16_t buffer[2] = {7, 7};
        size_t length = 99, fault = 99;
        nard_status status = nard_device_path_file_path_utf16(rows[i].bytes, rows[i].size, buffer, 2, &length, &fault);
        bool is_kept = buffer[0] == (status == NARD_OK ? 0 : 7) && buffer[1] == 7;
        expect(is_as(&rows[i], status, length, fault) && is_kept, "nard_device_path_file_path_utf16", i);
    }
    uint16_t buffer[4] = {7, 7, 7, 7};
    size_t length = 99;
    nard_status status = nard_device_path_file_path_utf16(path, sizeof path, buffer, 2, &length, NULL);
    expect(status == NARD_BUFFER_TOO_SMALL && length == 2 && buffer[0] == 7, "nard_device_path_file_path_utf16", 6);
    status = nard_device_path_file_path_utf16(path, sizeof path, buffer, 4, &length, NULL);
    bool is_path = buffer[0] == '\\' && buffer[1] == 'a' && buffer[2] == 0 && buffer[3] == 7;
    expect(status == NARD_OK && length == 2 && is_path, "nard_device_path_file_path_utf16", 7);
}

static void write_texts(void)
{
    static const char16_t text[] = u"Pci(0x1F,0x0)/\\a";
    enum { LENGTH = sizeof text / sizeof text[0] - 1 };
    static const struct row rows[] = {
        {{0x7f, 0xff, 4, 0}, 4, NARD_OK, 0},
        {{0x7f, 1, 4, 0, 0x7f, 0xff, 4, 0}, 8, NARD_OK, 1},
        {{4, 4, 4, 0}, 4, NARD_NO_END_NODE, 4},
        {{0x7f, 2, 3, 0}, 4, NARD_UNKNOWN_END, 1},
    };
    for (size_t i = 0; i < sizeof rows / sizeof rows[0]; i++) {
        uint16_t buffer[3] = {7, 7, 7};
        size_t length = 99, fault = 99;
        nard_status status =
            nard_device_path_format_utf16(rows[i].bytes, rows[i].size, NARD_STYLE_UEFI, buffer, 3, &length, &fault);
        bool is_left = status == NARD_OK ? buffer[length] == 0 && buffer[2] == 7 : buffer[0] == 7 && buffer[1] == 7;
        expect(is_as(&rows[i], status, length, fault) && is_left, "nard_device_path_format_utf16", i);
    }
    /* Each room: refused up to the length of the text, and nothing is written after its end. */
    for (size_t room = 0; room <= LENGTH + 2; room++) {
        uint16_t buffer[LENGTH + 4];
        size_t length = 99;
        for (size_t i = 0; i < LENGTH + 4; i++)
            buffer[i] = 7;
        nard_status status = nard_device_path_format_utf16(path, sizeof path, NARD_STYLE_UEFI, buffer, room, &length, NULL);
        bool is_written = status == NARD_OK && memcmp(buffer, text, sizeof text) == 0;
        bool is_well = room <= LENGTH ? status == NARD_BUFFER_TOO_SMALL : is_written;
        expect(is_well && length == LENGTH && buffer[room <= LENGTH ? room : LENGTH + 1] == 7, "nard_device_path_format_utf16", 4 + room);
    }
    /* A terminal by its shorter name and without, and a disc for display alone and to be read back. */
    static const uint8_t terminal[] = {3,    10,   20,   0,    0x53, 0x47, 0xc1, 0xe0, 0xbe, 0xf9, 0xd2, 0x11,
                                       0x9a, 0x0c, 0x00, 0x90, 0x27, 0x3f, 0xc1, 0x4d, 0x7f, 0xff, 4,    0};
    static const uint8_t disc[] = {4, 2, 24, 0, 1, 0, 0, 0, 2, 0, 0, 0, 0, 0, 0, 0, 3, 0, 0, 0, 0, 0, 0, 0, 0x7f, 0xff, 4, 0};
    static const struct {
        const uint8_t *bytes;
        size_t size;
        uint32_t style;
        const char16_t *text;
        size_t length;
    } forms[] = {
        {terminal, sizeof terminal, NARD_ALLOW_SHORTCUTS, u"VenPcAnsi()", 11},
        {terminal, sizeof terminal, NARD_STYLE_UEFI, u"VenMsg(E0C14753-F9BE-11D2-9A0C-0090273FC14D)", 44},
        {disc, sizeof disc, NARD_DISPLAY_ONLY, u"CDROM(0x1)", 10},
        {disc, sizeof disc, NARD_STYLE_UEFI, u"CDROM(0x1,0x2,0x3)", 18},
    };
    for (size_t i = 0; i < sizeof forms / sizeof forms[0]; i++) {
        uint16_t buffer[64];
        size_t length = 99;
        nard_status status = nard_device_path_format_utf16(forms[i].bytes, forms[i].size, forms[i].style, buffer, 64, &length, NULL);
        bool is_text = memcmp(buffer, forms[i].text, 2 * forms[i].length + 2) == 0;
        expect(status == NARD_OK && length == forms[i].length && is_text, "nard_device_path_format_utf16", 100 + i);
    }
}

static void read_options(void)
{
    /* The first bytes of `option`, of which some are changed: how many, at which offset, to what. */
    static const struct {
        size_t size, at;
        uint8_t byte;
        nard_status status;
        size_t fault;
    } rows[] = {
        {5, 0, 1, NARD_OPTION_TOO_SHORT, 5},
        {9, 0, 1, NARD_DESCRIPTION_WITHOUT_END, 8},
        {29, 0, 1, NARD_LIST_BEYOND_END, 4},
        {31, 4, 0, NARD_EMPTY_LIST, LIST},
        {31, 4, 21, NARD_TRUNCATED_HEADER, LIST + PATH_SIZE},
        {31, 4, 16, NARD_NO_END_NODE, LIST + 16},
        {31, LIST + 17, 2, NARD_UNKNOWN_END, LIST + 17},
    };
    for (size_t i = 0; i < sizeof rows / sizeof rows[0]; i++) {
        struct nard_load_option_parts parts = {7, 7, 7, 7, 7, 7, 7, 7};
        uint8_t changed[sizeof option];
        size_t fault = 99;
        memcpy(changed, option, sizeof option);
        changed[rows[i].at] = rows[i].byte;
        nard_status status = nard_load_option_check(changed, rows[i].size, &parts, &fault);
        bool is_kept = parts.attributes == 7 && parts.optional_data_size == 7;
        expect(status == rows[i].status && fault == rows[i].fault && is_kept, "nard_load_option_check", i);
    }
    struct nard_load_option_parts parts = {0, 0, 0, 0, 0, 0, 0, 0};
    size_t fault = 99;
    nard_status status = nard_load_option_check(option, sizeof option, &parts, &fault);
    bool is_read = parts.attributes == 1 && parts.description_offset == 6 && parts.description_length == 1 &&
                   parts.path_list_offset == LIST && parts.path_list_size == PATH_SIZE && parts.first_path_size == PATH_SIZE &&
                   parts.optional_data_offset == LIST + PATH_SIZE && parts.optional_data_size == 1;
    expect(status == NARD_OK && fault == 99 && is_read, "nard_load_option_check", 7);

    /* The same by pointers, and each path of a list of two. */
    static const uint8_t two[] = {1, 0, 0, 0, 24, 0, 'b', 0, 0, 0, PATH, 0x7f, 0xff, 4, 0, 9};
    struct nard_load_option read;
    status = nard_load_option_read(two, sizeof two, &read, NULL);
    is_read = read.attributes == 1 && read.description == two + 6 && read.description_length == 1 && read.path_list == two + LIST &&
              read.path_list_size == PATH_SIZE + 4 && read.optional_data == two + LIST + PATH_SIZE + 4 && read.optional_data_size == 1;
    expect(status == NARD_OK && is_read && read.path == two + LIST && read.path_size == PATH_SIZE, "nard_load_option_read", 0);
    status = nard_load_option_next_path(&read);
    expect(status == NARD_OK && read.path == two + LIST + PATH_SIZE && read.path_size == 4, "nard_load_option_next_path", 0);
    expect(nard_load_option_next_path(&read) == NARD_END && read.path_size == 4, "nard_load_option_next_path", 1);
}

/* Writes `option` node by node, in each room that is too small first, and reads nothing of the buffer after it. */
static void write_options(void)
{
    static const uint8_t end[] = {0x7f, 0xff, 4, 0}, pci[] = {0, 0x1f}, file[] = {'\\', 0, 'a', 0, 0, 0};
    static const uint16_t description[] = {'b', 0};
    uint8_t buffer[64], written[64];
    size_t size = 99, fault = 99;
    memset(buffer, 7, sizeof buffer);
    for (size_t capacity = 0; capacity < sizeof end; capacity++) {
        nard_status status = nard_device_path_init(buffer, capacity, &size);
        expect(status == NARD_BUFFER_TOO_SMALL && size == sizeof end && buffer[0] == 7, "nard_device_path_init", capacity);
    }
    nard_status status = nard_device_path_init(buffer, sizeof buffer, &size);
    expect(status == NARD_OK && size == 4 && memcmp(buffer, end, 4) == 0 && buffer[4] == 7, "nard_device_path_init", 4);

    static const struct {
        uint32_t node_type;
        size_t capacity, count;
        nard_status status;
        size_t size, fault;
    } rows[] = {
        {0x7fff, 64, 0, NARD_NODE_OF_END, 99, 99},
        {0x7f02, 64, 0, NARD_NODE_OF_END, 99, 99},
        {NARD_PCI, 64, 65532, NARD_NODE_TOO_LONG, 99, 99},
        {NARD_PCI, 9, 2, NARD_BUFFER_TOO_SMALL, 10, 99},
        {NARD_PCI, 3, 2, NARD_NO_END_NODE, 99, 4},
        {NARD_PCI, 64, 2, NARD_OK, 10, 99},
    };
    static uint8_t content[65532];
    memcpy(content, pci, sizeof pci);
    for (size_t i = 0; i < sizeof rows / sizeof rows[0]; i++) {
        size = fault = 99;
        status = nard_device_path_push(buffer, rows[i].capacity, 4, rows[i].node_type, content, rows[i].count, &size, &fault);
        bool is_left = rows[i].status == NARD_OK || memcmp(buffer, end, 4) == 0;
        expect(status == rows[i].status && size == rows[i].size && fault == rows[i].fault && is_left && buffer[10] == 7,
               "nard_device_path_push", i);
    }

    /* The file's node as a path of its own, to be added to that of the PCI function. */
    uint8_t other[16];
    size_t other_size = 0;
    bool is_other = nard_device_path_init(other, sizeof other, &other_size) == NARD_OK &&
                    nard_device_path_push(other, sizeof other, 4, NARD_FILE_PATH, file, sizeof file, &other_size, NULL) == NARD_OK;
    expect(is_other && other_size == 14, "nard_device_path_push", 6);
    status = nard_device_path_append(buffer, PATH_SIZE - 1, 10, other, other_size, &size, &fault);
    expect(status == NARD_BUFFER_TOO_SMALL && size == PATH_SIZE && fault == 99 && buffer[10] == 7, "nard_device_path_append", 0);
    status = nard_device_path_append(buffer, sizeof buffer, 10, other, 13, &size, &fault);
    expect(status == NARD_TRUNCATED_HEADER && fault == 10 && buffer[10] == 7, "nard_device_path_append", 1);
    status = nard_device_path_append(buffer, sizeof buffer, 10, other, 14, &size, &fault);
    bool is_path = size == PATH_SIZE && memcmp(buffer, path, PATH_SIZE) == 0 && buffer[PATH_SIZE] == 7;
    expect(status == NARD_OK && is_path, "nard_device_path_append", 2);

    for (size_t capacity = 0; capacity <= sizeof option; capacity++) {
        memset(written, 7, sizeof written);
        status = nard_load_option_write(1, description, 2, buffer, sizeof buffer, path + PATH_SIZE, 1, written, capacity, &size, NULL);
        bool is_written = status == NARD_OK && memcmp(written, option, sizeof option) == 0;
        bool is_rejected = status == NARD_BUFFER_TOO_SMALL && written[0] == 7;
        expect((capacity < sizeof option ? is_rejected : is_written) && size == sizeof option && written[capacity] == 7,
               "nard_load_option_write", capacity);
    }
    status = nard_load_option_write(1, description, 1, buffer, sizeof buffer, content, 0, written, sizeof written, &size, &fault);
    expect(status == NARD_NO_NUL && fault == 1, "nard_load_option_write", 100);
    status = nard_load_option_write(1, description, 2, content, 0, content, 0, written, sizeof written, &size, &fault);
    expect(status == NARD_NO_END_NODE && fault == 0, "nard_load_option_write", 101);
}

static void compare_paths(void)
{
    /* The second partition of a disk of a controller with a file on it, and what a boot entry says of it in short. */
#define PARTITION 4, 1, 42, 0, 2, 0, 0, 0, 0, 8, 0, 0, 0, 0, 0, 0, 0, 0, 1, 0, 0, 0, 0, 0, \
                  1, 2, 3, 4, 5, 6, 7, 8, 9, 10, 11, 12, 13, 14, 15, 16, 2, 2
#define FILE_AND_END 4, 4, 8, 0, 'a', 0, 0, 0, 0x7f, 0xff, 4, 0
    static const uint8_t whole[] = {1, 1, 6, 0, 0, 0x1f, PARTITION, FILE_AND_END};
    static const uint8_t form[] = {PARTITION, FILE_AND_END};
    static const uint8_t controller[] = {1, 1, 6, 0, 0, 0x1f, 0x7f, 0xff, 4, 0};
    size_t offset = 99;
    expect(nard_device_path_strip_prefix(whole, sizeof whole, controller, sizeof controller, &offset) && offset == 6,
           "nard_device_path_strip_prefix", 0);
    offset = 99;
    expect(!nard_device_path_strip_prefix(whole, sizeof whole, form, sizeof form, &offset) && offset == 99,
           "nard_device_path_strip_prefix", 1);
    expect(!nard_device_path_strip_prefix(whole, sizeof whole - 1, controller, sizeof controller, &offset),
           "nard_device_path_strip_prefix", 2);
    expect(nard_device_path_is_expansion(whole, sizeof whole, form, sizeof form), "nard_device_path_is_expansion", 0);
    expect(!nard_device_path_is_expansion(controller, sizeof controller, form, sizeof form), "nard_device_path_is_expansion", 1);
    expect(!nard_device_path_is_expansion(form, sizeof form, whole, sizeof whole), "nard_device_path_is_expansion", 2);
    /* Another number, another signature, its type and the file matter; the start, the size and the format of the table do not. */
    static const struct {
        size_t at;
        bool is_expansion;
    } rows[] = {{4, false}, {8, true}, {16, true}, {24, false}, {39, false}, {40, true}, {41, false}, {46, false}};
    for (size_t i = 0; i < sizeof rows / sizeof rows[0]; i++) {
        uint8_t changed[sizeof form];
        memcpy(changed, form, sizeof form);
        changed[rows[i].at] ^= 3;
        expect(nard_device_path_is_expansion(whole, sizeof whole, changed, sizeof changed) == rows[i].is_expansion,
               "nard_device_path_is_expansion", 3 + i);
    }
}

static void count_units(void)
{
    static const struct row rows[] = {
        {{'a', 0, 0, 0, 'b'}, 5, NARD_OK, 1},
        {{0, 0xd8, 0, 0}, 4, NARD_OK, 1},
        {{'a', 0, 'b', 0, 0}, 5, NARD_NO_NUL, 99},
        {{0}, 0, NARD_NO_NUL, 99},
    };
    for (size_t i = 0; i < sizeof rows / sizeof rows[0]; i++) {
        size_t length = 99;
        nard_status status = nard_packed_length(rows[i].bytes, rows[i].size, &length);
        expect(status == rows[i].status && length == rows[i].place, "nard_packed_length", i);
    }
}

int main(void)
{
    check_paths();
    walk_nodes();
    read_fields();
    cut_instances();
    end_paths();
    write_file_paths();
    write_texts();
    read_options();
    write_options();
    compare_paths();
    count_units();
    return failed;
}
