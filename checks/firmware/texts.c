/*
 * Compares texts of device paths with those of the firmware's own EFI_DEVICE_PATH_TO_TEXT_PROTOCOL: for the handles of the
 * firmware, for the boot entries of BootOrder, and for the paths in the variable TestPaths, one after the other.
 * Prints both texts if they differ, and at the end of each kind the number of paths. For TestPaths it prints a number before
 * the texts: the offset of the path. Compares the text of each node by itself too, except for nodes that end an instance.
 *
 * Lets the firmware's EFI_DEVICE_PATH_FROM_TEXT_PROTOCOL read each text, and prints the text, and that of the path which the
 * firmware reads, if they differ.
 */
#include <efi.h>

#include "lines.h"

enum { MOST_BYTES = 16384, MOST_UNITS = 8192 };

static EFI_SYSTEM_TABLE *table;
static EFI_BOOT_SERVICES *services;
static EFI_DEVICE_PATH_TO_TEXT_PROTOCOL *firmware;
static EFI_DEVICE_PATH_FROM_TEXT_PROTOCOL *reader;
static EFI_DEVICE_PATH_UTILITIES_PROTOCOL *sizes;
static EFI_GUID global_variable = {0x8be4df61, 0x93ca, 0x11d2, {0xaa, 0x0d, 0x00, 0xe0, 0x98, 0x03, 0x2b, 0x8c}};
static uint8_t variable[MOST_BYTES];
static size_t compared, compared_nodes, differ, read_back, read_otherwise;

void lines_put_unit(uint16_t unit)
{
    CHAR16 text[2] = {unit, 0}, line_end[3] = {'\r', '\n', 0};
    table->ConOut->OutputString(table->ConOut, unit == '\n' ? line_end : text);
}

enum lines_found lines_look(const struct reader *reader, const uint16_t *normal)
{
    (void)reader;
    (void)normal;
    return LINES_UNKNOWN;
}

/* Reads a variable of UEFI's own: how many bytes it has. */
static size_t read_variable(const char *text)
{
    CHAR16 name[16] = {0};
    UINTN size = sizeof variable;
    for (size_t i = 0; i + 1 < sizeof name / sizeof name[0] && text[i] != '\0'; i++)
        name[i] = (uint8_t)text[i];
    return table->RuntimeServices->GetVariable(name, &global_variable, NULL, &size, variable) == EFI_SUCCESS ? size : 0;
}

static size_t length_of(const CHAR16 *text)
{
    size_t length = 0;
    while (text != NULL && text[length] != 0)
        length++;
    return length;
}

/* Compares our text of a path or of a node with that of the firmware, and frees the firmware's. */
static void compare_texts(nard_status status, const uint16_t *ours, size_t length, CHAR16 *theirs, const char *form, size_t number)
{
    size_t their_length = length_of(theirs), same = 0;
    while (status == NARD_OK && same < length && same < their_length && ours[same] == theirs[same])
        same++;
    if (status != NARD_OK || same < length || same < their_length) {
        differ++;
        lines_put_number(number);
        lines_put(form);
        lines_put(" ours ");
        lines_put_units(ours, status == NARD_OK ? length : 0);
        lines_put("\n");
        lines_put_number(number);
        lines_put(" firmware ");
        lines_put_units((uint16_t *)theirs, their_length);
        lines_put("\n");
    }
    if (theirs != NULL)
        services->FreePool(theirs);
}

/* Compares the texts of the device path that bytes begin with, of which `size` are its own, and those of its nodes. */
static void compare(const uint8_t *path, size_t size, bool display_only, bool allow_shortcuts, size_t number)
{
    static uint16_t ours[MOST_UNITS];
    const char *form = display_only ? " shown" : allow_shortcuts ? " short" : "";
    const uint32_t style = NARD_STYLE_UEFI | (display_only ? NARD_DISPLAY_ONLY : 0) | (allow_shortcuts ? NARD_ALLOW_SHORTCUTS : 0);
    struct nard_device_node node;
    size_t length = 0, next = 0;
    nard_status status = nard_device_path_format_utf16(path, size, style, ours, MOST_UNITS, &length, NULL);
    CHAR16 *theirs = firmware->ConvertDevicePathToText((EFI_DEVICE_PATH *)path, display_only, allow_shortcuts);
    compared++;
    compare_texts(status, ours, length, theirs, form, number);
    for (size_t at = 0; nard_device_path_next_node(path, size, &next, &node, NULL) == NARD_OK; at = next) {
        if (node.node_type >> 8 == 0x7f)
            continue;
        status = nard_node_format_utf16(path + at, size - at, style, ours, MOST_UNITS, &length, NULL);
        theirs = firmware->ConvertDeviceNodeToText((EFI_DEVICE_PATH *)(path + at), display_only, allow_shortcuts);
        compared_nodes++;
        compare_texts(status, ours, length, theirs, form, number);
    }
}

static void put_text(const char *what, const uint16_t *text, size_t length)
{
    lines_put(what);
    lines_put_units(text, length);
    lines_put("\n");
}

/* Compares our text with that of what the firmware reads from it. */
static void compare_read(const uint8_t *path, size_t size)
{
    static uint16_t text[MOST_UNITS], again[MOST_UNITS];
    size_t length = 0, length_again = 0, same = 0;
    if (nard_device_path_format_utf16(path, size, NARD_STYLE_UEFI, text, MOST_UNITS, &length, NULL) != NARD_OK)
        return;
    uint8_t *made = (uint8_t *)reader->ConvertTextToDevicePath((CHAR16 *)text);
    size_t made_size = made == NULL ? 0 : sizes->GetDevicePathSize((EFI_DEVICE_PATH *)made);
    if (nard_device_path_format_utf16(made, made_size, NARD_STYLE_UEFI, again, MOST_UNITS, &length_again, NULL) != NARD_OK)
        length_again = 0;
    read_back++;
    while (same < length && same < length_again && text[same] == again[same])
        same++;
    if (same < length || same < length_again) {
        read_otherwise++;
        put_text("text ", text, length);
        put_text("read ", again, length_again);
    }
    if (made != NULL)
        services->FreePool(made);
}

/* The same in each form. */
static void compare_forms(const uint8_t *path, size_t size, size_t number)
{
    compare_read(path, size);
    compare(path, size, false, false, number);
    compare(path, size, true, false, number);
    compare(path, size, false, true, number);
}

static void put_counts(const char *what)
{
    lines_put(what);
    lines_put(": ");
    lines_put_number(compared);
    lines_put(" texts, ");
    lines_put_number(differ);
    lines_put(" differ; ");
    lines_put_number(read_back);
    lines_put(" read, ");
    lines_put_number(read_otherwise);
    lines_put(" otherwise\n");
    compared = differ = read_back = read_otherwise = 0;
}

static void compare_handles(void)
{
    static EFI_GUID device_path = {0x09576e91, 0x6d3f, 0x11d2, {0x8e, 0x39, 0x00, 0xa0, 0xc9, 0x69, 0x72, 0x3b}};
    EFI_HANDLE *handles = NULL;
    UINTN count = 0;
    void *found = NULL;
    size_t size = 0;
    services->LocateHandleBuffer(ByProtocol, &device_path, NULL, &count, &handles);
    for (UINTN i = 0; i < count; i++)
        if (services->HandleProtocol(handles[i], &device_path, &found) == EFI_SUCCESS &&
            nard_device_path_check(found, sizes->GetDevicePathSize(found), &size, NULL) == NARD_OK)
            compare_forms(found, size, i);
    put_counts("handles");
}

/* Compares the first device path of each entry of BootOrder, and prints the text where both are the same. */
static void compare_entries(void)
{
    static uint16_t order[256], text[MOST_UNITS];
    size_t count = read_variable("BootOrder") / 2, length = 0;
    for (size_t i = 0; i < count && i < 256; i++)
        order[i] = (uint16_t)(variable[2 * i] | variable[2 * i + 1] << 8);
    for (size_t i = 0; i < count && i < 256; i++) {
        struct nard_load_option option;
        char name[9] = "Boot";
        for (int k = 0; k < 4; k++)
            name[4 + k] = "0123456789ABCDEF"[order[i] >> (12 - 4 * k) & 15];
        size_t size = read_variable(name);
        if (nard_load_option_read(variable, size, &option, NULL) != NARD_OK)
            continue;
        compare_forms(option.path, option.path_size, order[i]);
        if (nard_device_path_format_utf16(option.path, option.path_size, NARD_STYLE_UEFI, text, MOST_UNITS, &length, NULL) == NARD_OK) {
            lines_put_name(order[i]);
            lines_put(" ");
            lines_put_units(text, length);
            lines_put("\n");
        }
    }
    put_counts("entries");
}

static void compare_paths(void)
{
    size_t end = read_variable("TestPaths"), size = 0;
    for (size_t at = 0; at < end && nard_device_path_check(variable + at, end - at, &size, NULL) == NARD_OK; at += size)
        compare_forms(variable + at, size, at);
    put_counts("paths");
}

EFI_STATUS efi_main(EFI_HANDLE handle, EFI_SYSTEM_TABLE *system_table)
{
    static EFI_GUID to_text = EFI_DEVICE_PATH_TO_TEXT_PROTOCOL_GUID, from_text = EFI_DEVICE_PATH_FROM_TEXT_PROTOCOL_GUID,
                    utilities = EFI_DEVICE_PATH_UTILITIES_PROTOCOL_GUID;
    void *found = NULL, *found_reader = NULL, *found_sizes = NULL;
    (void)handle;
    table = system_table;
    services = table->BootServices;
    services->SetWatchdogTimer(0, 0, 0, NULL);
    lines_put("\ntexts\n");
    if (services->LocateProtocol(&to_text, NULL, &found) != EFI_SUCCESS ||
        services->LocateProtocol(&from_text, NULL, &found_reader) != EFI_SUCCESS ||
        services->LocateProtocol(&utilities, NULL, &found_sizes) != EFI_SUCCESS)
        return EFI_UNSUPPORTED;
    firmware = found;
    reader = found_reader;
    sizes = found_sizes;
    compare_handles();
    compare_entries();
    compare_paths();
    lines_put("nodes: ");
    lines_put_number(compared_nodes);
    lines_put(" texts\ntexts end\n");
    return EFI_SUCCESS;
}
