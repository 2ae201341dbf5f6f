/*
 * Prints what gnu-efi's device path functions make of the paths in a file, a line for each call. Each path in the file follows its
 * size in four bytes. The program is linked either with gnu-efi's lib/dpath.c or with the file that replaces it.
 *
 * usage: answers FILE
 *
 * Each input and each allocation ends at a page that cannot be read. A call that reads or writes outside of them is printed as
 * "outside", and one that takes 20 milliseconds as "hangs". Built with the address sanitizer, the program ends at the first such call.
 */
#define _GNU_SOURCE
#include <setjmp.h>
#include <signal.h>
#include <stdarg.h>
#include <stdio.h>
#include <stdlib.h>
#include <string.h>
#include <sys/mman.h>
#include <sys/time.h>

#undef NULL
#include "lib.h"

enum { PAGE = 4096, BLOCKS = 24, BLOCK = 4 << 20 };

static EFI_DEVICE_PATH *first, *second;
static UINTN first_size, second_size;
static char answer[8 << 20];
static UINTN answered;
static sigjmp_buf back;

static void put(const char *format, ...)
{
    va_list rest;
    va_start(rest, format);
    answered += vsnprintf(answer + answered, sizeof answer - answered, format, rest);
    va_end(rest);
}

static void put_bytes(const VOID *bytes, UINTN count)
{
    for (UINTN i = 0; i < count; i++)
        put("%02x", ((const UINT8 *)bytes)[i]);
}

/* Prints a path up to its end node. */
static void put_path(EFI_DEVICE_PATH *path)
{
    EFI_DEVICE_PATH *node = path;
    while (node && !IsDevicePathEnd(node))
        node = NextDevicePathNode(node);
    if (node)
        put_bytes(path, (UINT8 *)NextDevicePathNode(node) - (UINT8 *)path);
    else
        put("none");
}

/* Memory that ends at a page that cannot be read. */

#ifdef __SANITIZE_ADDRESS__
static VOID *taken(UINTN size) { return malloc(size); }
static VOID given_back(VOID *place) { free(place); }
#else
static UINT8 *memory;
static BOOLEAN used[BLOCKS];

static VOID *taken(UINTN size)
{
    for (UINTN i = 0; i < BLOCKS; i++)
        if (!used[i] && size <= BLOCK) {
            used[i] = TRUE;
            return memory + (i + 1) * (BLOCK + PAGE) - PAGE - size;
        }
    return NULL;
}

static VOID given_back(VOID *place)
{
    used[((UINT8 *)place - memory) / (BLOCK + PAGE)] = FALSE;
}
#endif

static VOID *copied(const VOID *bytes, UINTN count)
{
    return memcpy(taken(count), bytes, count);
}

/* The firmware. */

static EFI_STATUS EFIAPI allocate(EFI_MEMORY_TYPE type EFI_UNUSED, UINTN size, VOID **made)
{
    *made = taken(size);
    return *made ? EFI_SUCCESS : EFI_OUT_OF_RESOURCES;
}

static EFI_STATUS EFIAPI release(VOID *place)
{
    given_back(place);
    return EFI_SUCCESS;
}

/* Handle 1 has the first path. The interface of a handle is otherwise the handle itself. */
static EFI_STATUS EFIAPI handled(EFI_HANDLE handle, EFI_GUID *protocol, VOID **found)
{
    *found = CompareGuid(protocol, &DevicePathProtocol) == 0 ? (VOID *)first : handle;
    return (UINTN)handle == 1 ? EFI_SUCCESS : EFI_UNSUPPORTED;
}

/* Handle 1 is the device of the first node. */
static EFI_STATUS EFIAPI located(EFI_GUID *protocol EFI_UNUSED, EFI_DEVICE_PATH **path, EFI_HANDLE *handle)
{
    *handle = (EFI_HANDLE)1;
    if (IsDevicePathEnd(*path))
        return EFI_SUCCESS;
    if (first_size - sizeof(EFI_DEVICE_PATH) < DevicePathNodeLength(*path))
        return EFI_NOT_FOUND;
    *path = NextDevicePathNode(*path);
    return EFI_SUCCESS;
}

static EFI_BOOT_SERVICES services = {.AllocatePool = allocate, .FreePool = release, .HandleProtocol = handled,
                                     .LocateDevicePath = located};

/* The calls. */

static void try_size(void) { put("%lu", DevicePathSize(first)); }
static void try_count(void) { put("%lu", DevicePathInstanceCount(first)); }
static void try_duplicate(void) { put_path(DuplicateDevicePath(first)); }
static void try_append(void) { put_path(AppendDevicePath(first, second)); }
static void try_append_nothing(void) { put_path(AppendDevicePath(first, NULL)); }
static void try_append_to_nothing(void) { put_path(AppendDevicePath(NULL, first)); }
static void try_append_node(void) { put_path(AppendDevicePathNode(first, second)); }
static void try_append_instance(void) { put_path(AppendDevicePathInstance(first, second)); }
static void try_append_instance_to_nothing(void) { put_path(AppendDevicePathInstance(NULL, first)); }
static void try_duplicate_instance(void) { put_path(LibDuplicateDevicePathInstance(first)); }
static void try_unpack(void) { put_path(UnpackDevicePath(first)); }
static void try_match(void) { put("%d", LibMatchDevicePaths(first, second)); }
static void try_match_itself(void) { put("%d", LibMatchDevicePaths(first, first)); }

static void try_instances(void)
{
    EFI_DEVICE_PATH *path = first, *instance;
    UINTN size = 0;
    while ((instance = DevicePathInstance(&path, &size)))
        put("%lu+%lu ", (UINTN)((UINT8 *)instance - (UINT8 *)first), size);
}

static void put_text(CHAR16 *text)
{
    for (; *text; text++)
        put(0x20 < *text && *text < 0x7f && *text != '^' ? "%c" : "^%04x", *text);
}

static void try_text(void) { put_text(DevicePathToStr(first)); }
static void try_text_of_unpacked(void) { put_text(DevicePathToStr(UnpackDevicePath(first))); }
static void try_unpacked_size(void) { put("%lu", DevicePathSize(UnpackDevicePath(first))); }
static void try_file(void) { put_path(FileDevicePath(NULL, L"\\EFI\\BOOT\\BOOTX64.EFI")); }
static void try_file_of_device(void) { put_path(FileDevicePath((EFI_HANDLE)1, L"\\a")); }
static void try_file_of_other(void) { put_path(FileDevicePath((EFI_HANDLE)2, L"\\a")); }

static void try_interface(void)
{
    VOID *found = &services;
    EFI_STATUS status = LibDevicePathToInterface(&FileSystemProtocol, first, &found);
    put("%lx %p", status, found);
}

static const struct {
    const char *name;
    void (*call)(void);
} CALLS[] = {
    {"DevicePathSize", try_size},
    {"DevicePathSize of an unpacked path", try_unpacked_size},
    {"DevicePathInstanceCount", try_count},
    {"DevicePathInstance", try_instances},
    {"DuplicateDevicePath", try_duplicate},
    {"AppendDevicePath", try_append},
    {"AppendDevicePath of nothing", try_append_nothing},
    {"AppendDevicePath to nothing", try_append_to_nothing},
    {"AppendDevicePathNode", try_append_node},
    {"AppendDevicePathInstance", try_append_instance},
    {"AppendDevicePathInstance to nothing", try_append_instance_to_nothing},
    {"LibDuplicateDevicePathInstance", try_duplicate_instance},
    {"UnpackDevicePath", try_unpack},
    {"LibMatchDevicePaths", try_match},
    {"LibMatchDevicePaths of itself", try_match_itself},
    {"DevicePathToStr", try_text},
    {"DevicePathToStr of an unpacked path", try_text_of_unpacked},
    {"FileDevicePath", try_file},
    {"FileDevicePath of a device", try_file_of_device},
    {"FileDevicePath of a device without a path", try_file_of_other},
    {"LibDevicePathToInterface", try_interface},
};

static void on_signal(int number) { siglongjmp(back, number); }

static void set_timer(int microseconds)
{
    struct itimerval timer = {{0, 0}, {0, microseconds}};
    setitimer(ITIMER_VIRTUAL, &timer, NULL);
}

static void try_call(UINTN call, const UINT8 *one, const UINT8 *other)
{
    int failed = sigsetjmp(back, 1);
#ifndef __SANITIZE_ADDRESS__
    memset(used, 0, sizeof used);
#endif
    answered = 0;
    if (!failed) {
        first = copied(one, first_size);
        second = copied(other, second_size);
        set_timer(20000);
        CALLS[call].call();
    }
    set_timer(0);
    if (failed)
        answered = sprintf(answer, failed == SIGVTALRM ? "hangs" : "outside");
    printf("%s\t%.*s\n", CALLS[call].name, (int)answered, answer);
}

int main(int words, char **word)
{
    struct sigaction action = {.sa_handler = on_signal, .sa_flags = SA_NODEFER | SA_ONSTACK};
    static UINT8 bytes[2][1 << 20];
    UINT8 head[4];
    FILE *file = words == 2 ? fopen(word[1], "rb") : NULL;
    if (!file)
        return 2;
    BS = &services;
    sigaction(SIGVTALRM, &action, NULL);
#ifndef __SANITIZE_ADDRESS__
    sigaction(SIGSEGV, &action, NULL);
    sigaction(SIGBUS, &action, NULL);
    memory = mmap(NULL, BLOCKS * (BLOCK + PAGE), PROT_READ | PROT_WRITE, MAP_PRIVATE | MAP_ANONYMOUS | MAP_NORESERVE, -1, 0);
    for (UINTN i = 1; i <= BLOCKS; i++)
        mprotect(memory + i * (BLOCK + PAGE) - PAGE, PAGE, PROT_NONE);
#endif
    /* The second path of the first call is empty. */
    memcpy(bytes[1], EndDevicePath, second_size = sizeof(EFI_DEVICE_PATH));
    for (UINTN path = 0; fread(head, 1, 4, file) == 4; path++) {
        first_size = head[0] | head[1] << 8 | head[2] << 16;
        if (first_size > sizeof bytes[0] || fread(bytes[path % 2], 1, first_size, file) != first_size)
            return 2;
        printf("path %lu\n", path);
        for (UINTN call = 0; call < sizeof CALLS / sizeof *CALLS; call++)
            try_call(call, bytes[path % 2], bytes[1 - path % 2]);
        second_size = first_size;
    }
    return 0;
}
