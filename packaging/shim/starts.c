/*
 * Starts shim once for each load option in the file \options, where each follows its size in four bytes. An option ends at a page that
 * cannot be read. If shim reads that page, the access is counted, and shim continues with the page made readable. Prints these accesses
 * and what shim returns. The pauses that shim makes after an error are skipped.
 *
 * As shim's second stage it prints where in the option its own options begin, and their size. Without that file it ends the machine.
 */
#include <efi.h>
#include <efilib.h>

enum { MOST = 1 << 17, PAGE = 4096, PAGE_FAULT = 14, CANNOT_BE_READ = 0x2000 };

typedef struct cpu CPU;
struct cpu {
    VOID *unused[5];
    EFI_STATUS (EFIAPI *register_interrupt_handler)(CPU *cpu, INTN type, VOID (EFIAPI *handler)(INTN type, VOID *context));
    VOID *get_timer_value;
    EFI_STATUS (EFIAPI *set_memory_attributes)(CPU *cpu, EFI_PHYSICAL_ADDRESS start, UINT64 size, UINT64 attributes);
};

static EFI_GUID cpu_protocol = {0x26baccb1, 0x6f42, 0x11d4, {0xbc, 0xe7, 0x00, 0x80, 0xc7, 0x3c, 0x88, 0x81}};
/* Its table is how the second stage finds the option. */
static EFI_GUID starts = {0x7a1c5be3, 0x52d0, 0x4f0b, {0x9c, 0x1e, 0x6e, 0x61, 0x72, 0x64, 0x63, 0x6f}};
static CPU *cpu;
static UINT8 *option, *guard;
static volatile UINTN accesses;

static VOID end_machine(VOID)
{
    RT->ResetSystem(EfiResetShutdown, EFI_SUCCESS, 0, NULL);
}

static VOID EFIAPI on_page_fault(INTN type, VOID *context)
{
    UINT8 *address;
    (VOID)type;
    (VOID)context;
    __asm__("mov %%cr2, %0" : "=r"(address));
    if (address < guard || address >= guard + PAGE) {
        Print(L"X64 Exception: page fault at %lx\n", (UINT64)(UINTN)address);
        end_machine();
    }
    accesses++;
    cpu->set_memory_attributes(cpu, (UINTN)guard, PAGE, 0);
}

static EFI_STATUS EFIAPI no_pause(UINTN microseconds)
{
    (VOID)microseconds;
    return EFI_SUCCESS;
}

/* Returns the bytes of a file, or NULL. */
static UINT8 *read_file(EFI_HANDLE device, CHAR16 *name, UINTN *size)
{
    EFI_FILE_HANDLE root = LibOpenRoot(device), file;
    UINT8 *bytes;
    if (!root || EFI_ERROR(root->Open(root, &file, name, EFI_FILE_MODE_READ, 0)))
        return NULL;
    *size = LibFileInfo(file)->FileSize;
    bytes = AllocatePool(*size);
    return EFI_ERROR(file->Read(file, size, bytes)) ? NULL : bytes;
}

static VOID start(EFI_HANDLE image, EFI_DEVICE_PATH *path, VOID *shim, UINTN shim_size, UINTN size)
{
    EFI_HANDLE started;
    EFI_LOADED_IMAGE *loaded;
    EFI_STATUS status;
    if (EFI_ERROR(BS->LoadImage(FALSE, image, path, shim, shim_size, &started))
        || EFI_ERROR(BS->HandleProtocol(started, &LoadedImageProtocol, (VOID **)&loaded))) {
        Print(L"shim cannot be loaded\n");
        end_machine();
    }
    loaded->LoadOptions = option;
    loaded->LoadOptionsSize = (UINT32)size;
    accesses = 0;
    cpu->set_memory_attributes(cpu, (UINTN)guard, PAGE, CANNOT_BE_READ);
    status = BS->StartImage(started, NULL, NULL);
    cpu->set_memory_attributes(cpu, (UINTN)guard, PAGE, 0);
    Print(L"\nshim returns %r, %d accesses\n", status, accesses);
}

EFI_STATUS efi_main(EFI_HANDLE image, EFI_SYSTEM_TABLE *system)
{
    EFI_LOADED_IMAGE *loaded;
    EFI_PHYSICAL_ADDRESS pages;
    UINTN options_size, shim_size, number, size;
    UINT8 **at, *options, *shim;

    InitializeLib(image, system);
    BS->HandleProtocol(image, &LoadedImageProtocol, (VOID **)&loaded);
    if (!EFI_ERROR(LibGetSystemConfigurationTable(&starts, (VOID **)&at))) {
        Print(L"\nSTAGE %ld %d\n", loaded->LoadOptions ? (INT64)((UINT8 *)loaded->LoadOptions - *at) : -1, loaded->LoadOptionsSize);
        return EFI_SUCCESS;
    }
    options = read_file(loaded->DeviceHandle, L"\\options", &options_size);
    shim = read_file(loaded->DeviceHandle, L"\\EFI\\debian\\shimx64.efi", &shim_size);
    if (!options) {
        Print(L"\nSTARTED\n");
        end_machine();
    }
    if (EFI_ERROR(LibLocateProtocol(&cpu_protocol, (VOID **)&cpu))
        || EFI_ERROR(cpu->register_interrupt_handler(cpu, PAGE_FAULT, on_page_fault))
        || EFI_ERROR(BS->AllocatePages(AllocateAnyPages, EfiBootServicesData, MOST / PAGE + 1, &pages))) {
        Print(L"no page can be protected\n");
        end_machine();
    }
    guard = (UINT8 *)(UINTN)pages + MOST;
    BS->InstallConfigurationTable(&starts, &option);
    BS->Stall = no_pause;
    for (number = 0; options_size; number++) {
        size = *(UINT32 *)options;
        option = guard - size;
        CopyMem(option, options + 4, size);
        options += 4 + size;
        options_size -= 4 + size;
        Print(L"\nOPTION %d\n", number);
        start(image, FileDevicePath(loaded->DeviceHandle, L"\\EFI\\debian\\shimx64.efi"), shim, shim_size, size);
    }
    Print(L"\nOPTIONS END\n");
    end_machine();
    return EFI_SUCCESS;
}
