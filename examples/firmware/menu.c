/*
 * A boot menu: an EFI application that shows the entries of BootOrder, says for each file that they name whether it
 * exists, shows the device path of the chosen entry, and starts it. A variable may contain any bytes: see reader.h.
 *
 * Up and Down select, Enter boots, q quits.
 */
#include <efi.h>

#include "lines.h"
#include "nardcorbel_nodes.h"

_Static_assert(sizeof(CHAR16) == 2 && sizeof(UINTN) == sizeof(size_t), "the types of UEFI are not those of the reader");

enum { MOST_ENTRIES = 256, MOST_TARGET = 2048, MOST_TEXT = 4096, MOST_NAME = 24, NODE_HEADER = 4 };
enum { KEY_UP = 1, KEY_DOWN = 2, MEDIA = 4, FILE_PATH = 4 };
/* What a boot manager gives an entry to start, in seconds, and a number for it that is not the firmware's. */
enum { WATCHDOG_SECONDS = 300, WATCHDOG_CODE = 0x10000 };

struct entry {
    uint16_t number;
    bool can_start;
};

static EFI_SYSTEM_TABLE *table;
static EFI_BOOT_SERVICES *services;
static EFI_DEVICE_PATH_UTILITIES_PROTOCOL *utilities;
static EFI_HANDLE image, own_volume;

static EFI_GUID global_variable = {0x8be4df61, 0x93ca, 0x11d2, {0xaa, 0x0d, 0x00, 0xe0, 0x98, 0x03, 0x2b, 0x8c}};
static EFI_GUID loaded_image = {0x5b1b31a1, 0x9562, 0x11d2, {0x8e, 0x3f, 0x00, 0xa0, 0xc9, 0x69, 0x72, 0x3b}};
static EFI_GUID file_system = {0x964e5b22, 0x6459, 0x11d2, {0x8e, 0x39, 0x00, 0xa0, 0xc9, 0x69, 0x72, 0x3b}};
static EFI_GUID device_path = {0x09576e91, 0x6d3f, 0x11d2, {0x8e, 0x39, 0x00, 0xa0, 0xc9, 0x69, 0x72, 0x3b}};
static EFI_GUID path_utilities = {0x0379be4e, 0xd706, 0x437d, {0xb0, 0x37, 0xed, 0xb8, 0x2f, 0xb7, 0x72, 0xa4}};
static EFI_GUID file_info = {0x09576e92, 0x6d3f, 0x11d2, {0x8e, 0x39, 0x00, 0xa0, 0xc9, 0x69, 0x72, 0x3b}};

static struct entry entries[MOST_ENTRIES];
static size_t entry_count;
static uint8_t variable[READER_MOST_BYTES];
static struct reader reader;

void lines_put_unit(uint16_t unit)
{
    CHAR16 text[2] = {unit, 0}, line_end[3] = {'\r', '\n', 0};
    table->ConOut->OutputString(table->ConOut, unit == '\n' ? line_end : text);
}

static void put_status(EFI_STATUS status)
{
    lines_put(status == EFI_SUCCESS ? "success" : "error ");
    if (status != EFI_SUCCESS)
        lines_put_number(status & 0xffff);
    lines_put("\n");
}

/* Reads a variable of UEFI's own into a buffer of `room` bytes: how many it has. */
static EFI_STATUS read_variable(const uint16_t *name, void *buffer, size_t room, size_t *size)
{
    UINT32 attributes = 0;
    UINTN bytes = room;
    EFI_STATUS status = table->RuntimeServices->GetVariable((CHAR16 *)name, &global_variable, &attributes, &bytes, buffer);
    *size = status == EFI_SUCCESS ? bytes : 0;
    return status;
}

static EFI_STATUS read_entry(uint16_t number, size_t *size)
{
    uint16_t name[MOST_NAME];
    nard_status status = nard_boot_name_write_utf16(NARD_BOOT, number, name, MOST_NAME, NULL);
    return status == NARD_OK ? read_variable(name, variable, sizeof variable, size) : nard_to_efi_status(status);
}

/* The device path of a handle, and how many bytes it has, which the firmware says. */
static const uint8_t *path_of(EFI_HANDLE handle, size_t *size)
{
    void *found = NULL;
    *size = 0;
    if (utilities == NULL || services->HandleProtocol(handle, &device_path, &found) != EFI_SUCCESS)
        return NULL;
    *size = utilities->GetDevicePathSize(found);
    return found;
}

/* Whether a handle is that of the disk that the reader found: its device path is one that the disk's node stands for. */
static bool lies_on_disk(EFI_HANDLE handle, const struct reader *of)
{
    static uint8_t disk[MOST_TARGET];
    const uint8_t *node = of->bytes + of->disk;
    size_t size = 0, length = 0, data = of->disk_size - NODE_HEADER;
    const uint8_t *path = path_of(handle, &size);
    return path != NULL && nard_device_path_init(disk, MOST_TARGET, &length) == NARD_OK &&
           nard_device_path_push(disk, MOST_TARGET, length, NARD_HARD_DRIVE, node + NODE_HEADER, data, &length, NULL) == NARD_OK &&
           nard_device_path_is_expansion(path, size, disk, length);
}

/* The handle of the file system of the disk that the reader found, and the menu's own where it found none. */
static EFI_HANDLE volume_of(const struct reader *of)
{
    EFI_HANDLE *handles = NULL, found = NULL;
    UINTN count = 0;
    if (of->disk_size == 0)
        return own_volume;
    if (services->LocateHandleBuffer(ByProtocol, &file_system, NULL, &count, &handles) != EFI_SUCCESS)
        return NULL;
    for (UINTN i = 0; i < count && found == NULL; i++)
        if (lies_on_disk(handles[i], of))
            found = handles[i];
    services->FreePool(handles);
    return found;
}

static bool is_folder(EFI_FILE_HANDLE file)
{
    static union {
        EFI_FILE_INFO info;
        uint8_t bytes[1024];
    } about;
    UINTN size = sizeof about;
    return file->GetInfo(file, &file_info, &size, &about) == EFI_SUCCESS && (about.info.Attribute & EFI_FILE_DIRECTORY) != 0;
}

enum lines_found lines_look(const struct reader *of, const uint16_t *normal)
{
    EFI_HANDLE volume = volume_of(of);
    void *found = NULL;
    if (volume == NULL || services->HandleProtocol(volume, &file_system, &found) != EFI_SUCCESS)
        return LINES_NO_DISK;
    EFI_FILE_IO_INTERFACE *system = found;
    EFI_FILE_HANDLE root = NULL, file = NULL;
    if (system->OpenVolume(system, &root) != EFI_SUCCESS)
        return LINES_NO_DISK;
    enum lines_found said = LINES_NOT_THERE;
    if (root->Open(root, &file, (CHAR16 *)normal, EFI_FILE_MODE_READ, 0) == EFI_SUCCESS) {
        said = is_folder(file) ? LINES_FOLDER : LINES_THERE;
        file->Close(file);
    }
    root->Close(root);
    return said;
}

/* Writes the device path of a file into `target`: that of its volume, and a node with the path. */
static bool write_target(uint8_t *target, EFI_HANDLE volume, const uint16_t *normal, size_t length)
{
    static uint16_t whole[MOST_TARGET / 2];
    static const uint16_t root[2] = {'\\', 0};
    size_t size = 0, whole_length = 0, end = 0;
    const uint8_t *path = path_of(volume, &size);
    return path != NULL && nard_path_join(root, 2, normal, length + 1, whole, MOST_TARGET / 2, &whole_length, NULL) == NARD_OK &&
           nard_device_path_init(target, MOST_TARGET, &end) == NARD_OK &&
           nard_device_path_append(target, MOST_TARGET, end, path, size, &end, NULL) == NARD_OK &&
           nard_device_path_push(target, MOST_TARGET, end, NARD_FILE_PATH, (const uint8_t *)whole, 2 * (whole_length + 1), &end, NULL) ==
               NARD_OK;
}

/* Loads and starts a file, with what follows the entry's file paths as its options. */
static EFI_STATUS start_file(EFI_HANDLE volume, const uint16_t *normal, size_t length, size_t size)
{
    static uint8_t target[MOST_TARGET];
    EFI_HANDLE started = NULL;
    void *found = NULL;
    if (!write_target(target, volume, normal, length))
        return EFI_BUFFER_TOO_SMALL;
    EFI_STATUS status = services->LoadImage(FALSE, image, (EFI_DEVICE_PATH *)target, NULL, 0, &started);
    if (status != EFI_SUCCESS) {
        if (started != NULL)
            services->UnloadImage(started);
        return status;
    }
    if (services->HandleProtocol(started, &loaded_image, &found) == EFI_SUCCESS) {
        EFI_LOADED_IMAGE *loaded = found;
        loaded->LoadOptions = variable + reader.end;
        loaded->LoadOptionsSize = (UINT32)(size - reader.end);
    }
    services->SetWatchdogTimer(WATCHDOG_SECONDS, WATCHDOG_CODE, 0, NULL);
    status = services->StartImage(started, NULL, NULL);
    services->SetWatchdogTimer(0, 0, 0, NULL);
    return status;
}

/* Starts the first file of an entry that is there. The variable is read again, and judged again. */
static void start(uint16_t number)
{
    static uint16_t normal[READER_MOST_UNITS];
    size_t size = 0, length = 0;
    uint16_t character = 0;
    const char *reason = "";
    if (read_entry(number, &size) != EFI_SUCCESS || !reader_begin(&reader, variable, size) || reader.fault.reason != NULL)
        return;
    while (reader_next(&reader)) {
        if (!lines_normal(&reader, normal, &length, &reason, &character) || lines_look(&reader, normal) != LINES_THERE)
            continue;
        lines_put("starting ");
        lines_put_units(normal, length);
        lines_put("\n");
        EFI_STATUS status = start_file(volume_of(&reader), normal, length, size);
        lines_put("exited with ");
        put_status(status);
        return;
    }
}

/* Shows each entry of BootOrder, whatever it holds, but those after many. */
static void show_entries(void)
{
    static uint8_t order[READER_MOST_BYTES];
    uint16_t number = 0;
    size_t size = 0;
    EFI_STATUS status = read_variable(u"BootOrder", order, sizeof order, &size);
    if (status != EFI_SUCCESS) {
        lines_put("BootOrder cannot be read: ");
        put_status(status);
    }
    entry_count = 0;
    for (size_t i = 0; i < MOST_ENTRIES && nard_boot_order_read(order, size, i, &number) == NARD_OK; i++) {
        size_t bytes = 0;
        status = read_entry(number, &bytes);
        if (status != EFI_SUCCESS) {
            lines_put_name(number);
            lines_put(" cannot be read: ");
            put_status(status);
            continue;
        }
        bool can_start = lines_show(&reader, number, variable, bytes);
        entries[entry_count++] = (struct entry){number, can_start};
    }
    if (MOST_ENTRIES < size / 2) {
        lines_put_number(size / 2 - MOST_ENTRIES);
        lines_put(" more not shown\n");
    }
}

/* Prints the location of an entry: the text of its first device path. */
static void put_place(uint16_t number)
{
    static uint16_t text[MOST_TEXT];
    struct nard_load_option option;
    size_t size = 0, length = 0;
    if (read_entry(number, &size) != EFI_SUCCESS || nard_load_option_read(variable, size, &option, NULL) != NARD_OK ||
        nard_device_path_format_utf16(option.path, option.path_size, NARD_STYLE_UEFI, text, MOST_TEXT, &length, NULL) != NARD_OK)
        return;
    lines_put("    ");
    lines_put_units(text, length);
    lines_put("\n");
}

static void put_choice(size_t chosen)
{
    if (entry_count == 0)
        return;
    lines_put("> ");
    lines_put_name(entries[chosen].number);
    lines_put(entries[chosen].can_start ? "\n" : ", which cannot be started\n");
    put_place(entries[chosen].number);
}

static void let_choose(void)
{
    size_t chosen = 0;
    put_choice(chosen);
    for (;;) {
        EFI_INPUT_KEY key;
        UINTN index = 0;
        services->WaitForEvent(1, &table->ConIn->WaitForKey, &index);
        if (table->ConIn->ReadKeyStroke(table->ConIn, &key) != EFI_SUCCESS)
            continue;
        if (key.UnicodeChar == 'q')
            return;
        if (key.ScanCode == KEY_UP && chosen > 0)
            put_choice(--chosen);
        else if (key.ScanCode == KEY_DOWN && chosen + 1 < entry_count)
            put_choice(++chosen);
        else if (key.UnicodeChar == '\r' && entry_count > 0 && entries[chosen].can_start)
            start(entries[chosen].number);
        else if (key.UnicodeChar == '\r')
            put_choice(chosen);
    }
}

EFI_STATUS efi_main(EFI_HANDLE handle, EFI_SYSTEM_TABLE *system_table)
{
    void *found = NULL;
    image = handle;
    table = system_table;
    services = table->BootServices;
    services->SetWatchdogTimer(0, 0, 0, NULL);
    if (services->HandleProtocol(image, &loaded_image, &found) == EFI_SUCCESS)
        own_volume = ((EFI_LOADED_IMAGE *)found)->DeviceHandle;
    if (services->LocateProtocol(&path_utilities, NULL, &found) == EFI_SUCCESS)
        utilities = found;
    table->ConOut->ClearScreen(table->ConOut);
    lines_put("\nboot menu\n");
    show_entries();
    lines_put("Up and Down select, Enter boots, q quits\n");
    let_choose();
    lines_put("boot menu ends\n");
    return EFI_SUCCESS;
}
